/* rohc-outlet: sends what the answers in Redis Streams hold to the ports of their links (docs/CLUSTER.md).
 *
 * It reads out:SHARD from its place, which it keeps in Redis. Of each answer it sends the relayed feedback, the packet and
 * the feedback for the compressor, in this order, to the ports of the links file on 127.0.0.1. An answer sends at most
 * AT_ONCE elements of relayed feedback at once; the others wait, so that an answer with thousands of them holds up no link.
 * The order of what goes to one port stays. The place is kept behind what was sent or waits: what was sent just before the
 * outlet is killed is sent once more, and what waits then is lost. */
#define _POSIX_C_SOURCE 200809L
#include <arpa/inet.h>
#include <errno.h>
#include <getopt.h>
#include <stdlib.h>
#include <string.h>
#include <sys/socket.h>

#include "block.h"
#include "common.h"

/* MOST_LATE of the datagrams that wait are sent between two looks at Redis; MOST_WAITING wait at most, of ROOM octets. */
enum { AT_ONCE = 4, MOST_LATE = 64, MOST_WAITING = 4096, ROOM = 65536 };

struct ports {
    uint16_t deliver, feedback, relay;
};

/* A datagram that waits. */
struct head {
    uint16_t port, length;
};

/* The datagrams that wait, in their order: two rings, of their heads and of their octets. */
static struct {
    struct head heads[MOST_WAITING];
    uint8_t octets[ROOM];
    size_t first_head, heads_used, first_octet, octets_used;
    uint16_t to[65536]; /* how many of them go to each port */
} late;

static struct ports ports[65536];
static struct id at[MAX_SHARDS];
static unsigned shard_count;
static bool cuts;
static uint64_t sent, failed;
static redisContext *redis;

/* Reads the lines `ports LINK DELIVER FEEDBACK RELAY`. */
static void read_ports(const char *path) {
    FILE *file = fopen(path, "r");
    unsigned link, deliver, feedback, relay;
    if (!file) end_with(BAD_LINKS, "%s: %s", path, strerror(errno));
    for (unsigned line = 1;; line++) {
        int found = fscanf(file, " ports %u %u %u %u", &link, &deliver, &feedback, &relay);
        if (found == EOF) break;
        if (found != 4 || link > 65535 || deliver > 65535 || feedback > 65535 || relay > 65535)
            end_with(BAD_LINKS, "%s: line %u isn't `ports LINK DELIVER FEEDBACK RELAY`", path, line);
        ports[link] = (struct ports){(uint16_t)deliver, (uint16_t)feedback, (uint16_t)relay};
    }
    fclose(file);
}

static void send_to(int from, uint16_t port, const uint8_t *octets, size_t count) {
    struct sockaddr_in to = {.sin_family = AF_INET, .sin_port = htons(port)};
    to.sin_addr.s_addr = htonl(INADDR_LOOPBACK);
    if (port != 0 && sendto(from, octets, count, 0, (struct sockaddr *)&to, sizeof to) == (ssize_t)count) sent++;
    else failed++;
}

/* Lets a datagram wait behind the others. One for which there is no room failed. */
static void add_late(uint16_t port, const uint8_t *octets, size_t count) {
    if (late.heads_used == MOST_WAITING || count > ROOM - late.octets_used) {
        failed++;
        return;
    }
    late.heads[(late.first_head + late.heads_used++) % MOST_WAITING] = (struct head){port, (uint16_t)count};
    for (size_t i = 0; i < count; i++) late.octets[(late.first_octet + late.octets_used++) % ROOM] = octets[i];
    late.to[port]++;
}

/* Sends the first datagrams that wait, at most so many. */
static void send_late(int from, size_t most) {
    static uint8_t octets[ROOM];
    for (size_t i = 0; i < most && late.heads_used > 0; i++) {
        struct head head = late.heads[late.first_head];
        for (size_t j = 0; j < head.length; j++) octets[j] = late.octets[(late.first_octet + j) % ROOM];
        late.first_head = (late.first_head + 1) % MOST_WAITING;
        late.first_octet = (late.first_octet + head.length) % ROOM;
        late.heads_used--;
        late.octets_used -= head.length;
        late.to[head.port]--;
        send_to(from, head.port, octets, head.length);
    }
}

/* Sends a datagram at once, unless others wait for its port. */
static void send_in_order(int from, uint16_t port, const uint8_t *octets, size_t count) {
    if (late.to[port] > 0) add_late(port, octets, count);
    else send_to(from, port, octets, count);
}

/* Sends the relayed feedback of an answer. */
static void send_relayed(int from, uint16_t port, const struct block_answer *answer) {
    size_t number = 0;
    for (size_t i = 0; i < answer->relayed_length && i + 1 + answer->relayed[i] <= answer->relayed_length;
         i += 1 + (size_t)answer->relayed[i])
        if (number++ < AT_ONCE) send_in_order(from, port, answer->relayed + i + 1, answer->relayed[i]);
        else add_late(port, answer->relayed + i + 1, answer->relayed[i]);
}

/* Sends what the answers of a block hold. */
static void send_answers(int from, const uint8_t *answers, size_t size) {
    struct block_answer answer;
    for (size_t place = 0; next_answer(answers, size, &place, &answer);) {
        const struct ports *to = &ports[answer.link];
        send_relayed(from, to->relay, &answer);
        if (answer.has_packet) send_in_order(from, to->deliver, answer.packet, answer.packet_length);
        if (answer.has_feedback) send_in_order(from, to->feedback, answer.feedback, answer.feedback_length);
    }
}

/* Keeps the place of a shard, and cuts the answers before it if that is wanted. */
static void keep(unsigned number) {
    char text[ID_TEXT];
    freeReplyObject(ask(redis, "HSET outlet %u %s", number, id_text(at[number], text)));
    if (cuts) freeReplyObject(ask(redis, "XTRIM out:%u MINID = %s", number, text));
}

static void begin(void) {
    for (unsigned i = 0; i < shard_count; i++) {
        redisReply *reply = ask(redis, "HGET outlet %u", i);
        at[i] = id_in(reply->type == REDIS_REPLY_STRING ? reply->str : "");
        freeReplyObject(reply);
    }
}

/* Reads what has come for all shards. While datagrams wait, it doesn't wait for answers. */
static redisReply *read_answers(void) {
    static char keys[MAX_SHARDS][16], places[MAX_SHARDS][ID_TEXT];
    const char *words[6 + 2 * MAX_SHARDS] = {"XREAD", "COUNT", "200", "BLOCK", "50", "STREAMS"};
    unsigned count = 6;
    if (late.heads_used > 0) {
        words[3] = "STREAMS";
        count = 4;
    }
    for (unsigned i = 0; i < shard_count; i++) {
        snprintf(keys[i], sizeof keys[i], "out:%u", i);
        words[count + i] = keys[i];
        words[count + shard_count + i] = id_text(at[i], places[i]);
    }
    redisReply *reply = redisCommandArgv(redis, (int)(count + 2 * shard_count), words, NULL);
    if (!reply) end_with(BAD_REDIS, "the connection to Redis broke: %s", redis->errstr);
    if (reply->type == REDIS_REPLY_ERROR) end_with(BAD_REDIS, "Redis says: %s", reply->str);
    return reply;
}

/* One turn: what has come is sent, and then some of what waits. */
static void turn(int from) {
    redisReply *reply = read_answers();
    for (size_t i = 0; reply->type == REDIS_REPLY_ARRAY && i < reply->elements; i++) {
        unsigned number = (unsigned)atoi(reply->element[i]->element[0]->str + 4);
        const redisReply *entries = reply->element[i]->element[1];
        for (size_t j = 0; j < entries->elements; j++) {
            const redisReply *entry = entries->element[j], *fields = entry->element[1];
            if (fields->elements >= 2)
                send_answers(from, (const uint8_t *)fields->element[1]->str, fields->element[1]->len);
            at[number] = id_in(entry->element[0]->str);
        }
        keep(number);
    }
    freeReplyObject(reply);
    send_late(from, MOST_LATE);
}

static const char *usage =
    "usage: rohc-outlet --redis SOCKET|PORT --ports FILE --shards N [--cut]\n"
    "\n"
    "Sends the packets, the feedback and the relayed feedback of the answers in out:0 to out:N-1 to the ports of their links\n"
    "on 127.0.0.1. FILE is the output of `tools/link_lines.py --ports` for a links file. With --cut, answers that were sent\n"
    "are removed from the streams. Ends at SIGTERM. Statuses: 0 ended, 2 words, 3 ports, 4 Redis or a socket.\n";

int main(int count, char **words) {
    static const struct option options[] = {{"redis", required_argument, NULL, 'r'}, {"ports", required_argument, NULL, 'p'},
                                            {"shards", required_argument, NULL, 's'}, {"cut", no_argument, NULL, 'c'},
                                            {"help", no_argument, NULL, 'h'}, {0}};
    const char *where = NULL, *path = NULL;
    program = "rohc-outlet";
    for (int word; (word = getopt_long(count, words, "", options, NULL)) != -1;) switch (word) {
        case 'r': where = optarg; break;
        case 'p': path = optarg; break;
        case 's': shard_count = (unsigned)number_in("--shards", optarg, 1, MAX_SHARDS); break;
        case 'c': cuts = true; break;
        case 'h': fputs(usage, stdout); return 0;
        default: fputs(usage, stderr); return BAD_WORDS;
    }
    if (optind != count || !where || !path || shard_count == 0) {
        fputs(usage, stderr);
        return BAD_WORDS;
    }
    read_ports(path);
    end_at_signals();
    redis = connect_to(where);
    if (!redis) return BAD_REDIS;
    int from = socket(AF_INET, SOCK_DGRAM | SOCK_CLOEXEC, 0);
    if (from < 0) end_with(BAD_REDIS, "no socket: %s", strerror(errno));
    begin();
    say("sends the answers of %u shards", shard_count);
    for (uint64_t told = 0; !stopped;) {
        turn(from);
        if (steady_ms() - told < 1000) continue;
        told = steady_ms();
        freeReplyObject(ask(redis, "HSET outlet:counts sent %llu failed %llu", (unsigned long long)sent,
                            (unsigned long long)failed));
    }
    send_late(from, MOST_WAITING);
    return 0;
}
