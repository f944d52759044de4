/* Sends datagrams to ports of 127.0.0.1 at a steady pace:  sender FILE RATE
 * FILE has for each datagram its port and its length, in two octets each, most significant first, and its octets. RATE is how
 * many go out in a second, in bursts of 32. It prints the nanoseconds of a processor that it took itself, and the kernel for it:
 * on the loopback a datagram's whole way into a socket is walked in the call that sends it. */
#define _GNU_SOURCE
#include <arpa/inet.h>
#include <stdint.h>
#include <stdio.h>
#include <stdlib.h>
#include <sys/socket.h>
#include <time.h>

enum { BURST = 32, SECOND = 1000000000 };

static uint64_t now(clockid_t clock) {
    struct timespec t;
    clock_gettime(clock, &t);
    return (uint64_t)t.tv_sec * SECOND + (uint64_t)t.tv_nsec;
}

/* The octets of a file, and how many they are. */
static uint8_t *read_all(const char *path, size_t *size) {
    FILE *file = fopen(path, "rb");
    if (!file || fseek(file, 0, SEEK_END) != 0) exit(3);
    *size = (size_t)ftell(file);
    uint8_t *octets = malloc(*size + 1);
    rewind(file);
    if (!octets || fread(octets, 1, *size, file) != *size) exit(3);
    fclose(file);
    return octets;
}

static void wait_until(uint64_t moment) {
    struct timespec t = {(time_t)(moment / SECOND), (long)(moment % SECOND)};
    while (clock_nanosleep(CLOCK_MONOTONIC, TIMER_ABSTIME, &t, NULL) != 0) continue;
}

int main(int count, char **words) {
    static struct sockaddr_in to[BURST];
    static struct iovec parts[BURST];
    static struct mmsghdr messages[BURST];
    size_t size = 0;
    uint64_t rate = count == 3 ? strtoull(words[2], NULL, 10) : 0;
    if (rate == 0) return 2;
    uint8_t *octets = read_all(words[1], &size);
    int from = socket(AF_INET, SOCK_DGRAM, 0);
    uint64_t due = now(CLOCK_MONOTONIC), before = now(CLOCK_PROCESS_CPUTIME_ID), sent = 0;
    for (size_t at = 0; at + 4 <= size;) {
        unsigned burst = 0;
        for (; burst < BURST && at + 4 <= size; burst++) {
            size_t length = (size_t)octets[at + 2] << 8 | octets[at + 3];
            to[burst] = (struct sockaddr_in){.sin_family = AF_INET, .sin_addr.s_addr = htonl(INADDR_LOOPBACK)};
            to[burst].sin_port = htons((uint16_t)(octets[at] << 8 | octets[at + 1]));
            parts[burst] = (struct iovec){octets + at + 4, length};
            messages[burst].msg_hdr = (struct msghdr){.msg_name = &to[burst], .msg_namelen = sizeof to[burst],
                                                      .msg_iov = &parts[burst], .msg_iovlen = 1};
            at += 4 + length;
        }
        if (sendmmsg(from, messages, burst, 0) != (int)burst) return 4;
        sent += burst;
        due += SECOND * (uint64_t)burst / rate;
        wait_until(due);
    }
    printf("%llu\n", (unsigned long long)((now(CLOCK_PROCESS_CPUTIME_ID) - before) / (sent ? sent : 1)));
    free(octets);
    return 0;
}
