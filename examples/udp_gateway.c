/* A gateway on UDP sockets of 127.0.0.1:  udp_gateway LINKS PORT DELIVER RELAY [COUNT]
 * The packets of the first link arrive at PORT, those of the second at PORT + 1, and so on. Rebuilt packets are sent to the
 * port DELIVER, feedback to the sender of its packet, and feedback for this side's compressors to the port RELAY. LINKS is
 * the output of tools/link_lines.py for a links file.
 *
 * The program ends after COUNT packets, or at SIGINT, SIGTERM or SIGHUP, and prints the contexts that stand then and how
 * many packets were refused by each name. Its status is 0, 2 for wrong words, 3 for links, 4 for a socket, 5 for memory. */
#define _GNU_SOURCE
#include <arpa/inet.h>
#include <errno.h>
#include <inttypes.h>
#include <limits.h>
#include <poll.h>
#include <signal.h>
#include <stdio.h>
#include <stdlib.h>
#include <string.h>
#include <sys/socket.h>
#include <time.h>
#include <unistd.h>

#include "link_lines.h"
#include "polorowan.h"

enum { PACKET = 65535, BATCH = 32, GREATEST_COUNT = 1000000000 };
enum { BAD_WORDS = 2, BAD_LINKS = 3, BAD_SOCKET = 4, NO_MEMORY = 5 };

/* As many datagrams as one call receives. */
struct batch {
    struct mmsghdr messages[BATCH];
    struct iovec parts[BATCH];
    struct sockaddr_in peers[BATCH];
    uint8_t octets[BATCH][PACKET];
};

/* Where packets and relayed feedback are sent to. */
struct targets {
    struct sockaddr_in deliver, relay;
};

static volatile sig_atomic_t stopped;
static uint64_t refused[POLOROWAN_STORED];

static void stop(int number) {
    (void)number;
    stopped = 1;
}

static uint64_t milliseconds(void) {
    struct timespec now;
    clock_gettime(CLOCK_MONOTONIC, &now);
    return (uint64_t)now.tv_sec * 1000 + (uint64_t)now.tv_nsec / 1000000;
}

/* The number that a word spells in decimal digits. Another word, or a number outside these bounds, ends the program. */
static unsigned long number_in(const char *name, const char *word, unsigned long least, unsigned long greatest) {
    char *end;
    errno = 0;
    unsigned long number = strtoul(word, &end, 10);
    if (*word < '0' || *word > '9' || *end || errno || number < least || number > greatest) {
        fprintf(stderr, "udp_gateway: %s is \"%s\": it must be a number from %lu to %lu\n", name, word, least, greatest);
        exit(BAD_WORDS);
    }
    return number;
}

static struct sockaddr_in local(unsigned long port) {
    struct sockaddr_in address = {.sin_family = AF_INET, .sin_port = htons((uint16_t)port)};
    address.sin_addr.s_addr = htonl(INADDR_LOOPBACK);
    return address;
}

/* A socket that listens at a port. */
static int listen_at(unsigned long port) {
    struct sockaddr_in address = local(port);
    int made = socket(AF_INET, SOCK_DGRAM, 0);
    if (made < 0 || bind(made, (struct sockaddr *)&address, sizeof address) != 0) {
        fprintf(stderr, "udp_gateway: port %lu: %s\n", port, strerror(errno));
        exit(BAD_SOCKET);
    }
    return made;
}

static void send_octets(int from, const struct sockaddr_in *to, const uint8_t *octets, size_t count) {
    if (sendto(from, octets, count, 0, (const struct sockaddr *)to, sizeof *to) < 0) perror("udp_gateway: send");
}

/* Receives the datagrams that wait at a socket, at most so many, and returns how many came. */
static size_t receive(int socket, struct batch *batch, size_t most) {
    for (size_t i = 0; i < most; i++) {
        batch->parts[i] = (struct iovec){.iov_base = batch->octets[i], .iov_len = PACKET};
        batch->messages[i].msg_hdr = (struct msghdr){.msg_name = &batch->peers[i],
                                                     .msg_namelen = sizeof batch->peers[i],
                                                     .msg_iov = &batch->parts[i],
                                                     .msg_iovlen = 1};
    }
    int count = recvmmsg(socket, batch->messages, (unsigned)most, MSG_DONTWAIT, NULL);
    if (count < 0 && errno != EAGAIN && errno != EINTR) perror("udp_gateway: receive");
    return count < 0 ? 0 : (size_t)count;
}

/* Sends what a packet of a link gives. The octets of its answer stand in its part of the room. */
static void give(const struct polorowan_arrival *a, const uint8_t *part, size_t count, int socket,
                 const struct sockaddr_in *peer, const struct targets *to) {
    const uint8_t *feedback = part + count + POLOROWAN_HEAD_ROOM, *relayed = feedback + POLOROWAN_FEEDBACK_ROOM;
    for (size_t at = 0; at < a->relayed_length; at += 1 + relayed[at])
        send_octets(socket, &to->relay, relayed + at + 1, relayed[at]);
    if (a->has_packet) send_octets(socket, &to->deliver, part, a->packet_length);
    if (a->has_feedback) send_octets(socket, peer, feedback, a->feedback_length);
    if (a->outcome != POLOROWAN_DELIVERED && a->outcome < POLOROWAN_STORED) refused[a->outcome]++;
}

/* Takes the packets of a batch that came on a link, and sends what they give. */
static void take(polorowan_gateway *gateway, uint16_t link, int socket, struct batch *batch, size_t count,
                 const struct targets *to) {
    static uint8_t room[BATCH * POLOROWAN_ROOM(PACKET)];
    static struct polorowan_packet packets[BATCH];
    static struct polorowan_arrival arrivals[BATCH];
    uint64_t now = milliseconds();
    for (size_t i = 0; i < count; i++)
        packets[i] = (struct polorowan_packet){link, now, i * PACKET, batch->messages[i].msg_len};
    if (polorowan_arrive_many(gateway, packets, count, batch->octets[0], sizeof batch->octets, room, sizeof room, arrivals,
                              BATCH) != POLOROWAN_ARRIVED) abort(); /* there is room for all of them */
    const uint8_t *part = room;
    for (size_t i = 0; i < count; i++) {
        give(&arrivals[i], part, packets[i].count, socket, &batch->peers[i], to);
        part += POLOROWAN_ROOM(packets[i].count);
    }
}

/* Prints each context of each link, and how many packets were refused by each name. */
static void show(const polorowan_gateway *gateway) {
    static const char *const states[] = {"No Context", "Static Context", "Full Context"};
    struct polorowan_context_info context;
    uint16_t link;
    for (size_t i = 0; polorowan_link_at(gateway, i, &link); i++)
        for (size_t j = 0; polorowan_context_at(gateway, link, j, &context); j++)
            printf("link %u CID %u: profile 0x%04x, %s\n", link, context.cid, context.profile, states[context.state]);
    for (uint8_t number = 0; number < POLOROWAN_STORED; number++)
        if (refused[number] > 0) printf("refused %s: %" PRIu64 "\n", polorowan_name_of(number), refused[number]);
}

/* Makes the gateway, and returns how many links it has. */
static size_t make(polorowan_gateway **gateway, const char *path, struct polorowan_link *links) {
    FILE *file = fopen(path, "r");
    if (!file) {
        fprintf(stderr, "udp_gateway: %s: %s\n", path, strerror(errno));
        exit(BAD_LINKS);
    }
    size_t place, count = read_links(file, links);
    uint8_t fault = polorowan_open(links, count, &place, gateway);
    fclose(file);
    if (fault == POLOROWAN_MADE) return count;
    if (fault == POLOROWAN_NO_MEMORY) fprintf(stderr, "udp_gateway: there is no memory\n");
    else if (place == 0) fprintf(stderr, "udp_gateway: %s has no links, or more than %d\n", path, POLOROWAN_LINKS);
    else fprintf(stderr, "udp_gateway: %s: link %zu has a bad setting, or the number of one before it\n", path, place);
    exit(fault == POLOROWAN_NO_MEMORY ? NO_MEMORY : BAD_LINKS);
}

/* Takes what comes at the sockets, until so many packets came or a signal does. A signal comes while the program waits, and
 * at no other time. */
static void run(polorowan_gateway *gateway, const struct polorowan_link *links, struct pollfd *sockets, size_t count,
                const struct targets *to, unsigned long left) {
    static struct batch batch;
    sigset_t none;
    sigemptyset(&none);
    while (left > 0 && ppoll(sockets, (nfds_t)count, NULL, &none) >= 0 && !stopped)
        for (size_t i = 0; i < count; i++) {
            if (!(sockets[i].revents & POLLIN)) continue;
            size_t came = receive(sockets[i].fd, &batch, left < BATCH ? left : BATCH);
            take(gateway, links[i].link, sockets[i].fd, &batch, came, to);
            left -= came;
        }
}

/* Lets a signal end the program while it waits. */
static void end_at(int number, sigset_t *blocked) {
    struct sigaction action = {.sa_handler = stop};
    sigaction(number, &action, NULL);
    sigaddset(blocked, number);
}

int main(int count, char **words) {
    static struct polorowan_link links[POLOROWAN_LINKS];
    static struct pollfd sockets[POLOROWAN_LINKS];
    polorowan_gateway *gateway;
    sigset_t blocked;
    if (count != 5 && count != 6) {
        fprintf(stderr, "usage: udp_gateway LINKS PORT DELIVER RELAY [COUNT]\n");
        return BAD_WORDS;
    }
    size_t link_count = make(&gateway, words[1], links);
    unsigned long port = number_in("PORT", words[2], 1, 65536 - link_count);
    struct targets to = {local(number_in("DELIVER", words[3], 1, 65535)), local(number_in("RELAY", words[4], 1, 65535))};
    unsigned long left = count == 6 ? number_in("COUNT", words[5], 1, GREATEST_COUNT) : ULONG_MAX;
    for (size_t i = 0; i < link_count; i++)
        sockets[i] = (struct pollfd){.fd = listen_at(port + i), .events = POLLIN};
    sigemptyset(&blocked);
    end_at(SIGINT, &blocked);
    end_at(SIGTERM, &blocked);
    end_at(SIGHUP, &blocked);
    sigprocmask(SIG_BLOCK, &blocked, NULL);
    puts("ready");
    fflush(stdout);
    run(gateway, links, sockets, link_count, &to, left);
    for (size_t i = 0; i < link_count; i++) close(sockets[i].fd);
    show(gateway);
    polorowan_close(gateway);
    return 0;
}
