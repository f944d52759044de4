/* rohc-worker: a decompressor over Redis Streams (docs/CLUSTER.md).
 *
 * It reads the blocks of arrivals of each shard from in:SHARD, and writes the answers of the block ID to out:SHARD under the
 * same id. Any number of workers do so at once: a block's answers depend on the settings and on the blocks before it alone,
 * so each worker has the same octets to write, and Redis refuses an id that isn't greater than the last. The first stands.
 * Every so many blocks, whoever is ahead writes the saved contexts of the shard and their id to base:SHARD, and cuts the log
 * before what is still read. A worker begins at the base. */
#define POLOROWAN_IN_PLACE
#define _POSIX_C_SOURCE 200809L
#include <getopt.h>
#include <openssl/evp.h>
#include <stdlib.h>
#include <string.h>
#include <unistd.h>

#include "../examples/link_lines.h"
#include "block.h"
#include "common.h"

enum { BEAT_MS = 200, NO_LINK = 29, MEMORY = 30, DIGEST = 32 };

/* What stands in the place of a promise, in the programs that a test wants to see fail. */
#ifndef CONTROL
#define CONTROL 0
#endif
enum { SKIPS_REBUILDING = 1, BASE_BEFORE_ANSWERS = 2 };

struct shard {
    polorowan_gateway *gateway; /* NULL, if none of the links is the shard's */
    struct id at;   /* the last block that was taken */
    struct id done; /* the last block that had its answers when this worker began here */
    struct id base; /* the block that the last base stands behind */
};

static struct shard shards[MAX_SHARDS];
static struct polorowan_link links[POLOROWAN_LINKS];
static size_t link_count;
static unsigned shard_count, base_blocks = 1000, alive_ms = 10000;
static const char *name, *setup;
static redisContext *redis;
static uint64_t arrivals, written, second, rebuilt;

/* ---- The answers of a block */

static void answer_one(struct shard *shard, const struct block_arrival *arrival, struct block_answer *answer) {
    static uint8_t packet[LONGEST + POLOROWAN_HEAD_ROOM], relayed[LONGEST], feedback[POLOROWAN_FEEDBACK_ROOM];
    struct polorowan_arrival told = {.kind = POLOROWAN_REFUSED, .outcome = NO_LINK};
    if (arrival->kind == LINK_RESETS) {
        if (shard->gateway && polorowan_reset(shard->gateway, arrival->link) == POLOROWAN_FORGOT)
            told = (struct polorowan_arrival){.kind = POLOROWAN_FEEDBACK};
    } else if (shard->gateway) {
        polorowan_arrive(shard->gateway, arrival->link, arrival->moment, arrival->octets, arrival->count, packet,
                         sizeof packet, feedback, sizeof feedback, relayed, sizeof relayed, &told);
    }
    if (told.kind != POLOROWAN_FEEDBACK && told.outcome == MEMORY)
        end_with(NO_MEMORY, "there is no memory for a call of link %u; nothing of this block is written", arrival->link);
    *answer = (struct block_answer){.link = arrival->link,
                                    .kind = told.kind,
                                    .outcome = told.outcome,
                                    .cid = told.cid,
                                    .has_packet = told.has_packet,
                                    .has_feedback = told.has_feedback,
                                    .packet_length = (uint16_t)told.packet_length,
                                    .feedback_length = (uint8_t)told.feedback_length,
                                    .relayed_length = (uint16_t)told.relayed_length,
                                    .packet = packet,
                                    .feedback = feedback,
                                    .relayed = relayed};
}

/* Answers a block, and returns the length of the answers. What isn't a whole arrival at its end is no arrival. */
static size_t answer_block(struct shard *shard, const uint8_t *block, size_t size, uint8_t **answers) {
    static uint8_t *place;
    static size_t room;
    size_t at = 0, length = 0;
    struct block_arrival arrival;
    while (next_arrival(block, size, &at, &arrival)) {
        struct block_answer answer;
        answer_one(shard, &arrival, &answer);
        size_t most = length + ANSWER_HEAD + (size_t)answer.packet_length + answer.relayed_length + answer.feedback_length;
        if (most > room) {
            room = 2 * most + BLOCK_ROOM;
            place = realloc(place, room);
            if (!place) end_with(NO_MEMORY, "there is no memory for the answers of a block");
        }
        length += put_answer(place + length, &answer);
        arrivals++;
    }
    *answers = place;
    return length;
}

/* ---- A shard's beginning */

/* The links of a shard. */
static size_t own_links(unsigned number, struct polorowan_link *own) {
    size_t count = 0;
    for (size_t i = 0; i < link_count; i++)
        if (links[i].link % shard_count == number) own[count++] = links[i];
    return count;
}

/* Makes the shard's gateway from the octets of its base, or without contexts. */
static void make(unsigned number, const redisReply *saved) {
    struct polorowan_link own[POLOROWAN_LINKS];
    struct polorowan_restored restored;
    struct shard *shard = &shards[number];
    size_t count = own_links(number, own), place;
    if (count == 0) return;
    uint8_t fault = saved->type == REDIS_REPLY_STRING
        ? polorowan_open_saved(own, count, (const uint8_t *)saved->str, saved->len, &restored, &place, &shard->gateway)
        : polorowan_open(own, count, &place, &shard->gateway);
    if (fault == POLOROWAN_NO_MEMORY) end_with(NO_MEMORY, "there is no memory for shard %u", number);
    if (fault != POLOROWAN_MADE && saved->type == REDIS_REPLY_STRING)
        end_with(BAD_REDIS, "base:%u isn't a good base: fault %u at octet %zu", number, fault, place);
    if (fault != POLOROWAN_MADE) end_with(BAD_LINKS, "the links of shard %u: fault %u, link %zu of them", number, fault, place);
}

/* Tells where this worker reads, so that nobody cuts the log behind it. */
static void tell_place(unsigned number) {
    char text[ID_TEXT];
    freeReplyObject(ask(redis, "HSET at:%u %s %s", number, name, id_text(shards[number].at, text)));
}

/* Up to which block the log was cut. */
static struct id cut_of(unsigned number) {
    redisReply *reply = ask(redis, "HGET cut %u", number);
    struct id cut = id_in(reply->type == REDIS_REPLY_STRING ? reply->str : "");
    freeReplyObject(reply);
    return cut;
}

/* Begins with a shard: at its base, or at the start of its log. */
static void enter(unsigned number) {
    struct shard *shard = &shards[number];
    do {
        redisReply *base = ask(redis, "HMGET base:%u id contexts", number);
        const redisReply *id = base->element[0];
        polorowan_close(shard->gateway);
        shard->gateway = NULL;
        make(number, base->element[1]);
        shard->at = shard->base = id_in(id->type == REDIS_REPLY_STRING ? id->str : "");
        freeReplyObject(base);
        tell_place(number);
        shard->done = last_id(redis, "out", number);
        if (is_later(shard->at, shard->done)) end_with(BAD_REDIS, "base:%u is ahead of the answers in out:%u", number, number);
        if (CONTROL == SKIPS_REBUILDING) shard->at = shard->done;
    } while (is_later(cut_of(number), shard->at));
}

/* ---- Bases, and the cut of the log */

static bool is_alive(const char *other) {
    redisReply *reply = ask(redis, "EXISTS alive:%s", other);
    bool alive = reply->integer == 1;
    freeReplyObject(reply);
    return alive;
}

/* The least place at which a living worker still reads, or the base. */
static struct id least_place(unsigned number) {
    struct id least = shards[number].base;
    redisReply *places = ask(redis, "HGETALL at:%u", number);
    for (size_t i = 0; i + 1 < places->elements; i += 2) {
        struct id place = id_in(places->element[i + 1]->str);
        if (!is_alive(places->element[i]->str)) freeReplyObject(ask(redis, "HDEL at:%u %s", number, places->element[i]->str));
        else if (is_later(least, place)) least = place;
    }
    freeReplyObject(places);
    return least;
}

/* Cuts the log before its base and before what any living worker still reads. Up to where it was cut is told with it, and
 * never less than before: a worker that slept would not see that blocks are missing. */
static void cut(unsigned number) {
    char text[ID_TEXT];
    freeReplyObject(ask(redis, "WATCH cut"));
    struct id least = least_place(number);
    if (!is_later(least, cut_of(number))) {
        freeReplyObject(ask(redis, "UNWATCH"));
        return;
    }
    id_text(least, text);
    freeReplyObject(ask(redis, "MULTI"));
    freeReplyObject(ask(redis, "HSET cut %u %s", number, text));
    freeReplyObject(ask(redis, "XTRIM in:%u MINID = %s", number, text));
    freeReplyObject(ask(redis, "EXEC"));
}

/* Writes the contexts that stand now, and the block that they stand behind, if no base is as new. */
static bool write_base(unsigned number, struct id newest) {
    struct shard *shard = &shards[number];
    char text[ID_TEXT];
    size_t room = 0;
    if (polorowan_save(shard->gateway, 0, NULL, 0, &room) != POLOROWAN_SAVED_NO_ROOM) return false;
    uint8_t *octets = malloc(room);
    bool is_written = false;
    if (octets && polorowan_save(shard->gateway, 0, octets, room, &room) == POLOROWAN_SAVED && is_later(shard->at, newest)) {
        freeReplyObject(ask(redis, "MULTI"));
        freeReplyObject(ask(redis, "HSET base:%u id %s contexts %b", number, id_text(shard->at, text), octets, room));
        redisReply *done = ask(redis, "EXEC");
        is_written = done->type == REDIS_REPLY_ARRAY;
        freeReplyObject(done);
    }
    free(octets);
    return is_written;
}

/* Writes a base if it is time for one. Its answers are written. */
static void keep_base(unsigned number) {
    struct shard *shard = &shards[number];
    if (!shard->gateway || shard->at.number < shard->base.number + base_blocks) return;
    freeReplyObject(ask(redis, "WATCH base:%u", number));
    redisReply *reply = ask(redis, "HGET base:%u id", number);
    struct id newest = id_in(reply->type == REDIS_REPLY_STRING ? reply->str : "");
    freeReplyObject(reply);
    bool is_due = shard->at.number >= newest.number + base_blocks;
    shard->base = newest;
    if (!is_due || !write_base(number, newest)) {
        freeReplyObject(ask(redis, "UNWATCH"));
        return;
    }
    shard->base = shard->at;
    cut(number);
}

/* ---- Blocks as they come */

/* Appends the command that writes the answers of a block. The first of a batch is led by MULTI: all are written, or none. */
static void append_answers(unsigned number, struct id id, const uint8_t *answers, size_t length, size_t *batch) {
    char key[16], text[ID_TEXT];
    snprintf(key, sizeof key, "out:%u", number);
    const char *words[] = {"XADD", key, id_text(id, text), "a", (const char *)answers};
    const size_t lengths[] = {4, strlen(key), strlen(text), 1, length};
    if (*batch == 0) redisAppendCommand(redis, "MULTI");
    redisAppendCommandArgv(redis, 5, words, lengths);
    ++*batch;
}

/* Waits for what Redis says to a batch. An answer that stands already, another worker's, is refused there. */
static void end_batch(size_t batch) {
    if (batch == 0) return;
    redisAppendCommand(redis, "EXEC");
    for (size_t i = 0; i <= batch; i++) freeReplyObject(next_reply(redis));
    redisReply *all = next_reply(redis);
    if (all->type != REDIS_REPLY_ARRAY) end_with(BAD_REDIS, "a batch isn't written: %s", all->str ? all->str : "EXEC was refused");
    for (size_t i = 0; i < all->elements; i++) {
        const redisReply *one = all->element[i];
        if (one->type != REDIS_REPLY_ERROR) written++;
        else if (strstr(one->str, "equal or smaller")) second++;
        else end_with(BAD_REDIS, "an answer isn't written: %s", one->str);
    }
    freeReplyObject(all);
}

/* Takes the blocks of one shard. Those that had their answers before rebuild contexts alone. */
static void take(unsigned number, const redisReply *entries, size_t *batch) {
    struct shard *shard = &shards[number];
    for (size_t i = 0; i < entries->elements; i++) {
        const redisReply *entry = entries->element[i], *fields = entry->element[1];
        struct id id = id_in(entry->element[0]->str);
        uint8_t *answers = NULL;
        size_t length = fields->elements < 2 ? 0
            : answer_block(shard, (const uint8_t *)fields->element[1]->str, fields->element[1]->len, &answers);
        shard->at = id;
        if (is_later(id, shard->done)) append_answers(number, id, answers, length, batch);
        else rebuilt++;
    }
}

/* For a test: bases are written before their answers, and the worker dies between. */
static void die_between(const bool *came, size_t batch) {
    bool is_due = false;
    for (unsigned i = 0; i < shard_count; i++) is_due |= came[i] && shards[i].at.number >= shards[i].base.number + base_blocks;
    if (!is_due) return;
    if (batch > 0) {
        redisAppendCommand(redis, "DISCARD");
        for (size_t i = 0; i <= batch + 1; i++) freeReplyObject(next_reply(redis));
    }
    for (unsigned i = 0; i < shard_count; i++)
        if (came[i]) keep_base(i);
    _exit(9);
}

/* Reads what has come for all shards. */
static redisReply *read_blocks(void) {
    static char keys[MAX_SHARDS][16], places[MAX_SHARDS][ID_TEXT];
    const char *words[6 + 2 * MAX_SHARDS] = {"XREAD", "COUNT", "200", "BLOCK", "50", "STREAMS"};
    for (unsigned i = 0; i < shard_count; i++) {
        snprintf(keys[i], sizeof keys[i], "in:%u", i);
        words[6 + i] = keys[i];
        words[6 + shard_count + i] = id_text(shards[i].at, places[i]);
    }
    redisReply *reply = redisCommandArgv(redis, (int)(6 + 2 * shard_count), words, NULL);
    if (!reply) end_with(BAD_REDIS, "the connection to Redis broke: %s", redis->errstr);
    if (reply->type == REDIS_REPLY_ERROR) end_with(BAD_REDIS, "Redis says: %s", reply->str);
    return reply;
}

/* Enters those shards anew whose log was cut while this worker slept: blocks may be missing among what it read. */
static void enter_cut_shards(bool *is_whole) {
    redisReply *cuts = ask(redis, "HGETALL cut");
    for (unsigned i = 0; i < shard_count; i++) is_whole[i] = true;
    for (size_t i = 0; i + 1 < cuts->elements; i += 2) {
        unsigned number = (unsigned)atoi(cuts->element[i]->str);
        if (number >= shard_count || !is_later(id_in(cuts->element[i + 1]->str), shards[number].at)) continue;
        say("shard %u was cut while this worker slept; it begins again at the base", number);
        enter(number);
        is_whole[number] = false;
    }
    freeReplyObject(cuts);
}

/* One turn: what has come is answered, and the answers are written. */
static void turn(void) {
    redisReply *reply = read_blocks();
    bool is_whole[MAX_SHARDS], came[MAX_SHARDS] = {false};
    size_t batch = 0;
    enter_cut_shards(is_whole);
    for (size_t i = 0; reply->type == REDIS_REPLY_ARRAY && i < reply->elements; i++) {
        unsigned number = (unsigned)atoi(reply->element[i]->element[0]->str + 3);
        if (!is_whole[number]) continue;
        take(number, reply->element[i]->element[1], &batch);
        came[number] = true;
    }
    freeReplyObject(reply);
    if (CONTROL == BASE_BEFORE_ANSWERS) die_between(came, batch);
    end_batch(batch);
    for (unsigned i = 0; i < shard_count; i++)
        if (came[i]) keep_base(i);
}

/* ---- The worker itself */

/* Tells that this worker lives, where it reads and what it did, and looks whether the setup is still its own. */
static void beat(void) {
    freeReplyObject(ask(redis, "SET alive:%s 1 PX %u", name, alive_ms));
    for (unsigned i = 0; i < shard_count; i++) tell_place(i);
    freeReplyObject(ask(redis, "HSET worker:%s arrivals %llu written %llu second %llu rebuilt %llu", name,
                        (unsigned long long)arrivals, (unsigned long long)written, (unsigned long long)second,
                        (unsigned long long)rebuilt));
    redisReply *reply = ask(redis, "GET setup");
    if (reply->type != REDIS_REPLY_STRING || strcmp(reply->str, setup) != 0)
        end_with(BAD_REDIS, "the setup of the streams is \"%s\", that of this worker \"%s\"; it writes nothing",
                 reply->type == REDIS_REPLY_STRING ? reply->str : "none", setup);
    freeReplyObject(reply);
}

/* The setup: the links, the number of shards, and the library. */
static char *setup_of(const char *path) {
    static char text[512];
    uint8_t digest[DIGEST], octets[4096];
    char hex[2 * DIGEST + 1];
    FILE *file = fopen(path, "rb");
    EVP_MD_CTX *context = EVP_MD_CTX_new();
    if (!file) end_with(BAD_LINKS, "%s can't be read", path);
    if (!context || EVP_DigestInit_ex(context, EVP_sha256(), NULL) != 1) end_with(NO_MEMORY, "there is no memory");
    for (size_t count; (count = fread(octets, 1, sizeof octets, file)) > 0;) EVP_DigestUpdate(context, octets, count);
    EVP_DigestFinal_ex(context, digest, NULL);
    EVP_MD_CTX_free(context);
    rewind(file);
    link_count = read_links(file, links);
    fclose(file);
    for (size_t i = 0; i < DIGEST; i++) snprintf(hex + 2 * i, 3, "%02x", digest[i]);
    snprintf(text, sizeof text, "links %s shards %u library %s", hex, shard_count, polorowan_version());
    return text;
}

static const char *usage =
    "usage: rohc-worker NAME --redis SOCKET|PORT --links FILE --shards N [--base BLOCKS] [--alive MILLISECONDS]\n"
    "\n"
    "Answers the blocks of arrivals in in:0 to in:N-1, in out:0 to out:N-1. FILE is the output of tools/link_lines.py for a\n"
    "links file. PORT is one of 127.0.0.1. A base is written every BLOCKS blocks of a shard (1000). The log\n"
    "isn't cut behind a worker that gave a sign of life in the last MILLISECONDS (10000). Ends at SIGTERM.\n"
    "Statuses: 0 ended, 2 words, 3 links, 4 Redis, 5 memory.\n";

int main(int count, char **words) {
    static const struct option options[] = {{"redis", required_argument, NULL, 'r'}, {"links", required_argument, NULL, 'l'},
                                            {"shards", required_argument, NULL, 's'}, {"base", required_argument, NULL, 'b'},
                                            {"alive", required_argument, NULL, 'a'},
                                            {"help", no_argument, NULL, 'h'}, {"version", no_argument, NULL, 'v'}, {0}};
    const char *where = NULL, *path = NULL;
    program = "rohc-worker";
    for (int word; (word = getopt_long(count, words, "", options, NULL)) != -1;) switch (word) {
        case 'r': where = optarg; break;
        case 'l': path = optarg; break;
        case 's': shard_count = (unsigned)number_in("--shards", optarg, 1, MAX_SHARDS); break;
        case 'b': base_blocks = (unsigned)number_in("--base", optarg, 1, 1000000000); break;
        case 'a': alive_ms = (unsigned)number_in("--alive", optarg, 2 * BEAT_MS, 3600000); break;
        case 'h': fputs(usage, stdout); return 0;
        case 'v': puts(polorowan_version()); return 0;
        default: fputs(usage, stderr); return BAD_WORDS;
    }
    if (optind + 1 != count || !where || !path || shard_count == 0) {
        fputs(usage, stderr);
        return BAD_WORDS;
    }
    name = words[optind];
    setup = setup_of(path);
    end_at_signals();
    redis = connect_to(where);
    if (!redis) return BAD_REDIS;
    freeReplyObject(ask(redis, "SET setup %s NX", setup));
    beat();
    for (unsigned i = 0; i < shard_count; i++) enter(i);
    say("%s reads %u shards", name, shard_count);
    for (uint64_t next = 0; !stopped;) {
        if (steady_ms() >= next) {
            beat();
            next = steady_ms() + BEAT_MS;
        }
        turn();
    }
    freeReplyObject(ask(redis, "DEL alive:%s", name));
    redisFree(redis);
    for (unsigned i = 0; i < shard_count; i++) polorowan_close(shards[i].gateway);
    return 0;
}
