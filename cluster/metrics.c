/* rohc-metrics: the numbers of the cluster, as text for Prometheus (docs/CLUSTER.md). */
#define _POSIX_C_SOURCE 200809L
#include <getopt.h>
#include <stdlib.h>
#include <string.h>

#include "common.h"

static redisContext *redis;
static unsigned shard_count;

static void head(const char *name, const char *kind, const char *help) {
    printf("# HELP polorowan_%s %s\n# TYPE polorowan_%s %s\n", name, help, name, kind);
}

static struct id field(const char *key, unsigned number) {
    redisReply *reply = ask(redis, "HGET %s %u", key, number);
    struct id id = id_in(reply->type == REDIS_REPLY_STRING ? reply->str : "");
    freeReplyObject(reply);
    return id;
}

static uint64_t behind(unsigned number) {
    struct id in = last_id(redis, "in", number), out = last_id(redis, "out", number);
    return in.number > out.number ? in.number - out.number : 0;
}

static uint64_t unsent(unsigned number) {
    struct id out = last_id(redis, "out", number), place = field("outlet", number);
    return out.number > place.number ? out.number - place.number : 0;
}

static uint64_t last_in(unsigned number) { return last_id(redis, "in", number).number; }

static uint64_t base(unsigned number) {
    redisReply *reply = ask(redis, "HGET base:%u id", number);
    struct id id = id_in(reply->type == REDIS_REPLY_STRING ? reply->str : "");
    freeReplyObject(reply);
    return id.number;
}

static uint64_t oldest(unsigned number) {
    redisReply *reply = ask(redis, "XRANGE in:%u - + COUNT 1", number);
    uint64_t first = reply->elements > 0 ? id_in(reply->element[0]->element[0]->str).number : 0;
    freeReplyObject(reply);
    return first;
}

static uint64_t memory(unsigned number) {
    uint64_t octets = 0;
    for (unsigned i = 0; i < 2; i++) {
        redisReply *reply = ask(redis, "MEMORY USAGE %s:%u", i == 0 ? "in" : "out", number);
        if (reply->type == REDIS_REPLY_INTEGER) octets += (uint64_t)reply->integer;
        freeReplyObject(reply);
    }
    return octets;
}

/* The numbers that are told for each shard. */
static const struct {
    const char *name, *kind, *help;
    uint64_t (*of)(unsigned number);
} by_shard[] = {
    {"cluster_blocks_total", "counter", "Blocks that the front appended.", last_in},
    {"cluster_blocks_unanswered", "gauge", "Blocks whose answers aren't written.", behind},
    {"cluster_answers_unsent", "gauge", "Answered blocks that the outlet has not sent.", unsent},
    {"cluster_base_block", "gauge", "The block that the base stands behind.", base},
    {"cluster_oldest_block", "gauge", "The oldest block in the log.", oldest},
    {"cluster_log_bytes", "gauge", "Memory of the log and the answers.", memory},
};

/* Prints the fields of the hashes with these names, each as a number of its own. */
static void print_hashes(const char *pattern, const char *label) {
    redisReply *keys = ask(redis, "KEYS %s", pattern);
    for (size_t i = 0; i < keys->elements; i++) {
        const char *key = keys->element[i]->str, *colon = strchr(key, ':');
        redisReply *all = ask(redis, "HGETALL %s", key);
        for (size_t j = 0; j + 1 < all->elements; j += 2)
            printf("polorowan_cluster_%s_%s_total{name=\"%s\"} %s\n", label, all->element[j]->str, colon ? colon + 1 : key,
                   all->element[j + 1]->str);
        freeReplyObject(all);
    }
    freeReplyObject(keys);
}

static const char *usage =
    "usage: rohc-metrics --redis SOCKET|PORT --shards N\n"
    "\n"
    "Prints the numbers of the cluster as text for Prometheus. Statuses: 0 printed, 2 words, 4 Redis.\n";

int main(int count, char **words) {
    static const struct option options[] = {{"redis", required_argument, NULL, 'r'}, {"shards", required_argument, NULL, 's'},
                                            {"help", no_argument, NULL, 'h'}, {0}};
    const char *where = NULL;
    program = "rohc-metrics";
    for (int word; (word = getopt_long(count, words, "", options, NULL)) != -1;) switch (word) {
        case 'r': where = optarg; break;
        case 's': shard_count = (unsigned)number_in("--shards", optarg, 1, MAX_SHARDS); break;
        case 'h': fputs(usage, stdout); return 0;
        default: fputs(usage, stderr); return BAD_WORDS;
    }
    if (optind != count || !where || shard_count == 0) {
        fputs(usage, stderr);
        return BAD_WORDS;
    }
    redis = connect_to(where);
    if (!redis) return BAD_REDIS;
    for (size_t i = 0; i < sizeof by_shard / sizeof *by_shard; i++) {
        head(by_shard[i].name, by_shard[i].kind, by_shard[i].help);
        for (unsigned shard = 0; shard < shard_count; shard++)
            printf("polorowan_%s{shard=\"%u\"} %" PRIu64 "\n", by_shard[i].name, shard, by_shard[i].of(shard));
    }
    print_hashes("worker:*", "worker");
    print_hashes("front", "front");
    print_hashes("outlet:counts", "outlet");
    return 0;
}
