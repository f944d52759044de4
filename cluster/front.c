/* rohc-front: datagrams of links become blocks of arrivals in Redis Streams (docs/CLUSTER.md).
 *
 * A datagram at the port is the number of its link in two octets, most significant first, and a packet. It is given its
 * moment, and put into a block of its link's shard. A block is appended to in:SHARD when it has so many arrivals, or so many
 * milliseconds after its first. Its id is the number that follows the last one of the stream, also after a restart, so that
 * an append that is repeated after an error makes no second block. One front writes to a stream. */
#define _GNU_SOURCE
#include <arpa/inet.h>
#include <errno.h>
#include <getopt.h>
#include <poll.h>
#include <stdlib.h>
#include <string.h>
#include <sys/socket.h>
#include <unistd.h>

#include "block.h"
#include "common.h"

enum { BATCH = 64, DATAGRAM = 65537, FAR_MS = 1000, AGAIN_MS = 10, GREATEST_FILL = 4096 };

/* For a test: a front that begins its ids anew at each start. */
#ifndef CONTROL
#define CONTROL 0
#endif
enum { REUSES_IDS = 1 };

struct shard {
    struct id last;    /* the last block that stands in the stream */
    bool is_unsure;    /* whether an append of the block was begun that Redis didn't answer */
    bool is_refused;   /* whether Redis refused the block, and that was told */
    size_t size;       /* the length of the block that is filled */
    unsigned arrivals; /* how many it has */
    uint64_t begun;    /* when its first came */
    uint8_t block[BLOCK_ROOM];
};

static struct shard *shards;
static unsigned shard_count, fill = 8;
static uint64_t wait_ms = 5, taken, dropped, appended;
/* Redis is asked again after a rest. If it refuses a block once more, that is twice as long, up to a second. */
static uint64_t rest_ms = AGAIN_MS, rest_end;
static const char *where;
static redisContext *redis;

/* The moment of an arrival: the day's clock, which never steps back here. */
static uint64_t moment_now(void) {
    static uint64_t last;
    uint64_t now = clock_ms();
    if (now > last) last = now;
    return last;
}

static bool is_due(const struct shard *shard) {
    return shard->arrivals > 0 && (shard->arrivals >= fill || steady_ms() - shard->begun >= wait_ms);
}

static void rest(uint64_t milliseconds) { rest_end = steady_ms() + milliseconds; }

/* Begins with the ids that the streams have. */
static void begin(void) {
    for (unsigned i = 0; i < shard_count; i++)
        if (CONTROL != REUSES_IDS) shards[i].last = last_id(redis, "in", i);
}

/* Puts an arrival into the block of its shard. One for which there is no room, since Redis is away, is dropped. */
static void put(const uint8_t *datagram, size_t size) {
    if (size < 2) {
        dropped++;
        return;
    }
    uint16_t link = (uint16_t)(datagram[0] << 8 | datagram[1]);
    struct shard *shard = &shards[link % shard_count];
    struct block_arrival arrival = {.kind = PACKET_ARRIVES,
                                    .link = link,
                                    .moment = moment_now(),
                                    .count = (uint16_t)(size - 2),
                                    .octets = datagram + 2};
    if (shard->is_unsure || shard->size + ARRIVAL_HEAD + size > BLOCK_ROOM) {
        dropped++;
        return;
    }
    if (shard->arrivals++ == 0) shard->begun = steady_ms();
    shard->size += put_arrival(shard->block + shard->size, &arrival);
    taken++;
}

/* What Redis said to the append of a shard's block. Whether the block stands. */
static bool end_append(unsigned number, const redisReply *reply) {
    struct shard *shard = &shards[number];
    bool stands = reply->type != REDIS_REPLY_ERROR;
    if (!stands && strstr(reply->str, "equal or smaller")) {
        if (!shard->is_unsure) end_with(BAD_REDIS, "another front writes to in:%u", number);
        stands = true; /* the append that Redis didn't answer was done */
    }
    if (!stands) {
        if (!shard->is_refused) say("in:%u: %s", number, reply->str);
        shard->is_refused = true;
        return false;
    }
    if (shard->is_refused) say("in:%u takes blocks again", number);
    shard->last.number++;
    shard->is_unsure = shard->is_refused = false;
    shard->size = 0;
    shard->arrivals = 0;
    appended++;
    return true;
}

/* Appends the blocks that are due. False if the connection broke: what was begun may stand or not. */
static bool append(void) {
    bool is_begun[MAX_SHARDS] = {false}, do_all_stand = true;
    char text[ID_TEXT];
    for (unsigned i = 0; i < shard_count; i++) {
        struct shard *shard = &shards[i];
        if (!is_due(shard)) continue;
        struct id next = {shard->last.number + 1, 0};
        redisAppendCommand(redis, "XADD in:%u %s b %b", i, id_text(next, text), shard->block, shard->size);
        is_begun[i] = true;
    }
    for (unsigned i = 0; i < shard_count; i++) {
        void *reply;
        if (!is_begun[i]) continue;
        if (redisGetReply(redis, &reply) != REDIS_OK) {
            for (; i < shard_count; i++) shards[i].is_unsure |= is_begun[i];
            return false;
        }
        do_all_stand &= end_append(i, reply);
        freeReplyObject(reply);
    }
    if (do_all_stand) {
        rest_ms = AGAIN_MS;
    } else {
        rest(rest_ms);
        rest_ms = 2 * rest_ms < FAR_MS ? 2 * rest_ms : FAR_MS;
    }
    return true;
}

/* Tells what was done. False if the connection broke. */
static bool tell(void) {
    redisReply *reply = redisCommand(redis, "HSET front taken %llu dropped %llu appended %llu", (unsigned long long)taken,
                                     (unsigned long long)dropped, (unsigned long long)appended);
    freeReplyObject(reply);
    return reply != NULL;
}

/* How long to wait for a datagram: until a block is due, and Redis may be asked. */
static int patience(void) {
    uint64_t now = steady_ms(), least = redis ? FAR_MS : 0;
    for (unsigned i = 0; i < shard_count; i++) {
        if (shards[i].arrivals == 0) continue;
        uint64_t passed = now - shards[i].begun, left = passed < wait_ms ? wait_ms - passed : 0;
        if (left < least) least = left;
    }
    return (int)(now + least < rest_end ? rest_end - now : least);
}

/* Takes the datagrams that wait. */
static void receive(int from) {
    static uint8_t octets[BATCH][DATAGRAM];
    static struct iovec parts[BATCH];
    static struct mmsghdr messages[BATCH];
    for (size_t i = 0; i < BATCH; i++) {
        parts[i] = (struct iovec){.iov_base = octets[i], .iov_len = DATAGRAM};
        messages[i].msg_hdr = (struct msghdr){.msg_iov = &parts[i], .msg_iovlen = 1};
    }
    int count = recvmmsg(from, messages, BATCH, MSG_DONTWAIT, NULL);
    if (count < 0 && errno != EAGAIN && errno != EINTR) say("receive: %s", strerror(errno));
    for (int i = 0; i < count; i++) put(octets[i], messages[i].msg_len);
}

/* Blocks go out as they are due. Without Redis they wait, and the connection is made anew. */
static void go_on(void) {
    static uint64_t told;
    if (steady_ms() < rest_end && !stopped) return;
    if (!redis) {
        redis = connect_to(where);
        if (redis) say("Redis is there again");
        else rest(AGAIN_MS);
    }
    bool holds = redis && append();
    if (holds && steady_ms() - told >= FAR_MS) {
        holds = tell();
        told = steady_ms();
    }
    if (redis && !holds) {
        say("the connection to Redis broke: %s", redis->errstr);
        redisFree(redis);
        redis = NULL;
    }
}

static int listen_at(unsigned long port) {
    struct sockaddr_in address = {.sin_family = AF_INET, .sin_port = htons((uint16_t)port)};
    const int room = 8 << 20;
    address.sin_addr.s_addr = htonl(INADDR_LOOPBACK);
    int made = socket(AF_INET, SOCK_DGRAM | SOCK_CLOEXEC, 0);
    if (made < 0 || bind(made, (struct sockaddr *)&address, sizeof address) != 0)
        end_with(BAD_REDIS, "port %lu: %s", port, strerror(errno));
    setsockopt(made, SOL_SOCKET, SO_RCVBUF, &room, sizeof room);
    return made;
}

static const char *usage =
    "usage: rohc-front --port PORT --redis SOCKET|PORT --shards N [--fill ARRIVALS] [--wait MILLISECONDS]\n"
    "\n"
    "Takes datagrams at PORT of 127.0.0.1, each the number of its link in two octets and a packet, and appends them in\n"
    "blocks to in:0 to in:N-1. A block goes out with ARRIVALS (8), or MILLISECONDS (5) after its first. Ends at SIGTERM.\n"
    "Statuses: 0 ended, 2 words, 4 Redis or the port, 5 memory.\n";

int main(int count, char **words) {
    static const struct option options[] = {{"redis", required_argument, NULL, 'r'}, {"port", required_argument, NULL, 'p'},
                                            {"shards", required_argument, NULL, 's'}, {"fill", required_argument, NULL, 'f'},
                                            {"wait", required_argument, NULL, 'w'}, {"help", no_argument, NULL, 'h'}, {0}};
    unsigned long port = 0;
    program = "rohc-front";
    for (int word; (word = getopt_long(count, words, "", options, NULL)) != -1;) switch (word) {
        case 'r': where = optarg; break;
        case 'p': port = number_in("--port", optarg, 1, 65535); break;
        case 's': shard_count = (unsigned)number_in("--shards", optarg, 1, MAX_SHARDS); break;
        case 'f': fill = (unsigned)number_in("--fill", optarg, 1, GREATEST_FILL); break;
        case 'w': wait_ms = number_in("--wait", optarg, 0, FAR_MS); break;
        case 'h': fputs(usage, stdout); return 0;
        default: fputs(usage, stderr); return BAD_WORDS;
    }
    if (optind != count || !where || port == 0 || shard_count == 0) {
        fputs(usage, stderr);
        return BAD_WORDS;
    }
    shards = calloc(shard_count, sizeof *shards);
    if (!shards) end_with(NO_MEMORY, "there is no memory for %u shards", shard_count);
    end_at_signals();
    redis = connect_to(where);
    if (!redis) return BAD_REDIS;
    begin();
    struct pollfd at = {.fd = listen_at(port), .events = POLLIN};
    say("takes datagrams at port %lu", port);
    while (!stopped) {
        if (poll(&at, 1, patience()) > 0) receive(at.fd);
        go_on();
    }
    wait_ms = 0; /* what was taken is appended */
    go_on();
    if (redis) tell();
    return 0;
}
