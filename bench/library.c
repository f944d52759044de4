/* Times the arrivals of a script through the library for C:  library LINKS SCRIPT TURNS [MANY]
 * LINKS is the output of tools/link_lines.py for a links file. The script is read before the clock starts. Each turn starts
 * without contexts. With MANY so many packets go in one call of polorowan_arrive_many(). The program prints the number of packets,
 * the number delivered, and the nanoseconds of the best turn. */
#define POLOROWAN_IN_PLACE
#include <inttypes.h>
#include <stdio.h>
#include <stdlib.h>
#include <string.h>
#include <time.h>

#include "../examples/link_lines.h"
#include "polorowan.h"

enum { LINE = 131202, PACKET = 65535 };

static struct polorowan_link links[POLOROWAN_LINKS];
static size_t link_count;
/* The packets, and where each begins among all octets. */
static struct polorowan_packet *packets;
static size_t count, length;
static uint8_t *octets;

static void *grown(void *place, size_t size) {
    place = realloc(place, size);
    if (!place) exit(5);
    return place;
}

/* The value of a lower case digit, or a greater one of any other character. */
static unsigned value_of(char digit) {
    return digit >= '0' && digit <= '9' ? (unsigned)(digit - '0') : digit >= 'a' && digit <= 'f' ? (unsigned)(digit - 'a') + 10 : 16;
}

/* Reads pairs of digits up to the first other character. Returns how many octets they are. */
static size_t read_octets(const char *text, uint8_t *to) {
    size_t found = 0;
    for (; value_of(text[2 * found]) < 16 && value_of(text[2 * found + 1]) < 16; found++)
        to[found] = (uint8_t)(16 * value_of(text[2 * found]) + value_of(text[2 * found + 1]));
    return found;
}

static void read_script(FILE *file) {
    static char line[LINE];
    size_t packet_room = 0, octet_room = 0;
    while (fgets(line, sizeof line, file)) {
        int digits;
        if (count == packet_room) packets = grown(packets, (packet_room = 2 * packet_room + 1024) * sizeof *packets);
        if (length + LINE / 2 > octet_room) octets = grown(octets, octet_room = 2 * octet_room + LINE);
        struct polorowan_packet *p = &packets[count];
        if (sscanf(line, "arrive %" SCNu16 " %" SCNu64 " %n", &p->link, &p->moment, &digits) != 2) exit(3);
        p->at = length;
        p->count = read_octets(line + digits, octets + length);
        length += p->count;
        count++;
    }
}

static uint64_t now(void) {
    struct timespec t;
    clock_gettime(CLOCK_MONOTONIC, &t);
    return (uint64_t)t.tv_sec * 1000000000u + (uint64_t)t.tv_nsec;
}

/* All packets, each in a call of its own. How many are delivered. */
static size_t take_singly(struct polorowan_gateway *gateway) {
    static uint8_t packet[PACKET + POLOROWAN_HEAD_ROOM], relayed[PACKET];
    uint8_t feedback[POLOROWAN_FEEDBACK_ROOM];
    struct polorowan_arrival a;
    size_t delivered = 0;
    for (size_t i = 0; i < count; i++) {
        const struct polorowan_packet *p = &packets[i];
        if (polorowan_arrive(gateway, p->link, p->moment, octets + p->at, p->count, packet, sizeof packet, feedback,
                             sizeof feedback, relayed, sizeof relayed, &a) != POLOROWAN_ARRIVED) exit(4);
        delivered += a.has_packet;
    }
    return delivered;
}

/* All packets, so many in a call. Where each begins is counted from the first of its call. How many are delivered. */
static size_t take_many(struct polorowan_gateway *gateway, size_t many, uint8_t *room, size_t room_count) {
    static struct polorowan_arrival told[POLOROWAN_MANY];
    size_t delivered = 0, start = 0;
    for (size_t i = 0; i < count; i += many) {
        size_t part = many < count - i ? many : count - i;
        const struct polorowan_packet *last = &packets[i + part - 1];
        size_t part_length = last->at + last->count;
        if (polorowan_arrive_many(gateway, &packets[i], part, octets + start, part_length, room, room_count, told, part) !=
            POLOROWAN_ARRIVED) exit(4);
        for (size_t k = 0; k < part; k++) delivered += told[k].has_packet;
        start += part_length;
    }
    return delivered;
}

/* Counts where packets begin from the first of their call, and returns the greatest room that a call needs. */
static size_t group(size_t many) {
    size_t most = 0, start = 0;
    for (size_t i = 0; i < count; i += many) {
        size_t room = 0;
        start = packets[i].at;
        for (size_t k = i; k < i + many && k < count; k++) {
            packets[k].at -= start;
            room += POLOROWAN_ROOM(packets[k].count);
        }
        if (room > most) most = room;
    }
    return most;
}

int main(int words, char **word) {
    uint64_t best = UINT64_MAX;
    size_t delivered = 0, place, many = words == 5 ? strtoul(word[4], NULL, 10) : 0;
    FILE *file = words == 4 || words == 5 ? fopen(word[1], "r") : NULL;
    if (!file || many > POLOROWAN_MANY) return 2;
    link_count = read_links(file, links);
    fclose(file);
    if (!(file = fopen(word[2], "r"))) return 2;
    read_script(file);
    fclose(file);
    size_t room_count = many ? group(many) : 0;
    uint8_t *room = many ? grown(NULL, room_count) : NULL;
    for (int turn = 0; turn < atoi(word[3]); turn++) {
        struct polorowan_gateway gateway = {0};
        if (polorowan_new(&gateway, links, link_count, &place) != POLOROWAN_MADE) return 3;
        uint64_t start = now();
        delivered = many ? take_many(&gateway, many, room, room_count) : take_singly(&gateway);
        uint64_t took = now() - start;
        if (took < best) best = took;
        polorowan_free(&gateway);
    }
    printf("packets %zu delivered %zu nanoseconds %" PRIu64 "\n", count, delivered, best);
    return 0;
}
