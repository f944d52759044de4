#define _POSIX_C_SOURCE 200809L
#include "common.h"

#include <errno.h>
#include <stdarg.h>
#include <stdlib.h>
#include <string.h>
#include <time.h>

const char *program = "cluster";
volatile sig_atomic_t stopped;

static void say_all(const char *format, va_list words) {
    fprintf(stderr, "%s: ", program);
    vfprintf(stderr, format, words);
    fputc('\n', stderr);
}

void say(const char *format, ...) {
    va_list words;
    va_start(words, format);
    say_all(format, words);
    va_end(words);
}

void end_with(int status, const char *format, ...) {
    va_list words;
    va_start(words, format);
    say_all(format, words);
    va_end(words);
    exit(status);
}

static void stop(int number) {
    (void)number;
    stopped = 1;
}

void end_at_signals(void) {
    struct sigaction action = {.sa_handler = stop};
    sigaction(SIGTERM, &action, NULL);
    sigaction(SIGINT, &action, NULL);
    sigaction(SIGHUP, &action, NULL);
    /* What breaks a connection comes as an error of the call. */
    signal(SIGPIPE, SIG_IGN);
}

unsigned long number_in(const char *name, const char *word, unsigned long least, unsigned long greatest) {
    char *end;
    errno = 0;
    unsigned long number = strtoul(word, &end, 10);
    if (*word < '0' || *word > '9' || *end || errno || number < least || number > greatest)
        end_with(BAD_WORDS, "%s is \"%s\": it must be a number from %lu to %lu", name, word, least, greatest);
    return number;
}

static uint64_t milliseconds(clockid_t clock) {
    struct timespec now;
    clock_gettime(clock, &now);
    return (uint64_t)now.tv_sec * 1000 + (uint64_t)now.tv_nsec / 1000000;
}

uint64_t steady_ms(void) { return milliseconds(CLOCK_MONOTONIC); }

uint64_t clock_ms(void) { return milliseconds(CLOCK_REALTIME); }

bool is_later(struct id a, struct id b) { return a.number != b.number ? a.number > b.number : a.part > b.part; }

struct id id_in(const char *text) {
    struct id id = {0, 0};
    if (sscanf(text, "%" SCNu64 "-%" SCNu64, &id.number, &id.part) != 2) return (struct id){0, 0};
    return id;
}

const char *id_text(struct id id, char text[ID_TEXT]) {
    snprintf(text, ID_TEXT, "%" PRIu64 "-%" PRIu64, id.number, id.part);
    return text;
}

redisContext *connect_to(const char *where) {
    const struct timeval patience = {.tv_sec = 2};
    static bool is_told; /* one who tries again and again tells it once */
    bool is_port = strspn(where, "0123456789") == strlen(where) && *where;
    redisContext *redis = is_port
        ? redisConnectWithTimeout("127.0.0.1", (int)number_in("--redis", where, 1, 65535), patience)
        : redisConnectUnixWithTimeout(where, patience);
    if (redis && !redis->err) {
        is_told = false;
        return redis;
    }
    if (!is_told) say("no Redis at %s: %s", where, redis ? redis->errstr : "there is no memory");
    is_told = true;
    if (redis) redisFree(redis);
    return NULL;
}

static redisReply *good(redisContext *redis, redisReply *reply) {
    if (!reply) end_with(BAD_REDIS, "the connection to Redis broke: %s", redis->errstr);
    if (reply->type == REDIS_REPLY_ERROR) end_with(BAD_REDIS, "Redis says: %s", reply->str);
    return reply;
}

redisReply *ask(redisContext *redis, const char *format, ...) {
    va_list words;
    va_start(words, format);
    redisReply *reply = redisvCommand(redis, format, words);
    va_end(words);
    return good(redis, reply);
}

redisReply *next_reply(redisContext *redis) {
    void *reply;
    if (redisGetReply(redis, &reply) != REDIS_OK) end_with(BAD_REDIS, "the connection to Redis broke: %s", redis->errstr);
    return reply;
}

struct id last_id(redisContext *redis, const char *stream, unsigned shard) {
    struct id last = {0, 0};
    redisReply *reply = redisCommand(redis, "XINFO STREAM %s:%u", stream, shard);
    if (reply && reply->type == REDIS_REPLY_ERROR && strstr(reply->str, "no such key")) {
        freeReplyObject(reply);
        return last;
    }
    good(redis, reply);
    for (size_t i = 0; i + 1 < reply->elements; i += 2)
        if (strcmp(reply->element[i]->str, "last-generated-id") == 0) last = id_in(reply->element[i + 1]->str);
    freeReplyObject(reply);
    return last;
}
