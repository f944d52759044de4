/* Echoes the blocks of Redis Streams, beside which bench/cluster times a worker:  echo SOCKET SHARDS BLOCKS [PERCENT]
 * It reads in:0 to in:SHARDS-1 as a worker does, up to 200 entries at once, and writes the octets of each under its own id to
 * out:SHARD. With PERCENT it does so as a worker does: all that it read at once in one transaction, and each block of so many
 * hundredths of the length of the one that it read. It ends behind BLOCKS of them. */
#include <hiredis/hiredis.h>
#include <stdbool.h>
#include <stdio.h>
#include <stdlib.h>
#include <string.h>

enum { MAX_SHARDS = 256, ID_TEXT = 44, LONGEST = 1 << 20 };

static redisContext *redis;

static redisReply *next_reply(void) {
    void *reply;
    if (redisGetReply(redis, &reply) != REDIS_OK) {
        fprintf(stderr, "echo: %s\n", redis->errstr);
        exit(4);
    }
    return reply;
}

/* What is written for octets: so many hundredths of their length. */
static const char *grown(const redisReply *octets, size_t percent, size_t *length) {
    static char place[LONGEST];
    *length = octets->len * percent / 100;
    if (*length > LONGEST) exit(5);
    for (size_t at = 0; at < *length; at += octets->len)
        memcpy(place + at, octets->str, octets->len < *length - at ? octets->len : *length - at);
    return place;
}

/* Echoes the entries of a stream, and keeps the place behind the last. Returns how many there were. */
static size_t echo(const redisReply *stream, char place[ID_TEXT], size_t percent) {
    const redisReply *entries = stream->element[1];
    char key[16];
    snprintf(key, sizeof key, "out:%s", stream->element[0]->str + 3);
    for (size_t i = 0; i < entries->elements; i++) {
        const redisReply *id = entries->element[i]->element[0], *octets = entries->element[i]->element[1]->element[1];
        size_t length;
        const char *text = grown(octets, percent, &length);
        const char *words[] = {"XADD", key, id->str, "a", text};
        const size_t lengths[] = {4, strlen(key), id->len, 1, length};
        redisAppendCommandArgv(redis, 5, words, lengths);
        snprintf(place, ID_TEXT, "%s", id->str);
    }
    return entries->elements;
}

int main(int count, char **words) {
    static char keys[MAX_SHARDS][16], places[MAX_SHARDS][ID_TEXT];
    const char *asked[6 + 2 * MAX_SHARDS] = {"XREAD", "COUNT", "200", "BLOCK", "50", "STREAMS"};
    bool is_whole = count == 5;
    size_t percent = is_whole ? strtoul(words[4], NULL, 10) : 100;
    int shards = count == 4 || is_whole ? atoi(words[2]) : 0;
    long left = count == 4 || is_whole ? atol(words[3]) : 0;
    if (shards < 1 || shards > MAX_SHARDS) return 2;
    redis = redisConnectUnix(words[1]);
    if (!redis || redis->err) return 4;
    for (int i = 0; i < shards; i++) {
        snprintf(keys[i], sizeof keys[i], "in:%d", i);
        strcpy(places[i], "0-0");
        asked[6 + i] = keys[i];
        asked[6 + shards + i] = places[i];
    }
    while (left > 0) {
        size_t batch = 0;
        redisAppendCommandArgv(redis, 6 + 2 * shards, asked, NULL);
        redisReply *reply = next_reply();
        if (is_whole) redisAppendCommand(redis, "MULTI");
        for (size_t i = 0; reply->type == REDIS_REPLY_ARRAY && i < reply->elements; i++)
            batch += echo(reply->element[i], places[atoi(reply->element[i]->element[0]->str + 3)], percent);
        freeReplyObject(reply);
        if (is_whole) redisAppendCommand(redis, "EXEC");
        for (size_t i = 0; i < batch + (is_whole ? 2 : 0); i++) freeReplyObject(next_reply());
        left -= (long)batch;
    }
    redisFree(redis);
    return 0;
}
