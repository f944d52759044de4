/* Runs a script and prints its answer lines, as `rohcd replay` does:  gateway LINKS [STATE] < SCRIPT
 * LINKS is the output of tools/link_lines.py for a links file. docs/FORMATS.md describes scripts and answer lines. If there is
 * a file STATE, the calls go on from what it has; in the end they are saved there. The statuses are those of `rohcd replay`;
 * 6 is a state that is refused. */
#include <inttypes.h>
#include <stdio.h>
#include <stdlib.h>
#include <string.h>

#include "link_lines.h"
#include "polorowan.h"

enum { PACKET = 65535, LINE = 131200 };

static polorowan_gateway *gateway;
static struct polorowan_link links[POLOROWAN_LINKS];
/* The time of the last arrival. */
static uint64_t latest;

static void print_octets(const uint8_t *octets, size_t count) {
    if (count == 0) putchar('-');
    for (size_t i = 0; i < count; i++) printf("%02x", octets[i]);
    putchar('\n');
}

static void print_refusal(unsigned link, const char *cid, uint8_t number) {
    uint8_t name[POLOROWAN_NAME_ROOM];
    if (polorowan_refusal_name(number, name, sizeof name) > 0) printf("%u %s refused %s\n", link, cid, (const char *)name);
}

static void arrive(unsigned link, uint64_t moment, const uint8_t *octets, size_t count) {
    static uint8_t packet[PACKET + POLOROWAN_HEAD_ROOM], relayed[PACKET];
    uint8_t feedback[POLOROWAN_FEEDBACK_ROOM];
    struct polorowan_arrival a;
    char cid[8] = "-";
    latest = moment;
    if (polorowan_arrive(gateway, (uint16_t)link, moment, octets, count, packet, sizeof packet, feedback, sizeof feedback,
                    relayed, sizeof relayed, &a) != POLOROWAN_ARRIVED) exit(4);
    for (size_t at = 0; at < a.relayed_length; at += 1 + relayed[at]) {
        printf("%u - relay ", link);
        print_octets(relayed + at + 1, relayed[at]);
    }
    if (a.kind == POLOROWAN_CONTEXT) sprintf(cid, "%u", a.cid);
    if (a.has_packet) printf("%u %s ip ", link, cid), print_octets(packet, a.packet_length);
    if (a.outcome == POLOROWAN_STORED) printf("%u %s stored\n", link, cid);
    if (a.has_feedback) printf("%u %s feedback ", link, cid), print_octets(feedback, a.feedback_length);
    if (a.outcome != POLOROWAN_DELIVERED && a.outcome != POLOROWAN_STORED) print_refusal(link, cid, a.outcome);
}

/* Reads pairs of lower case digits up to the first other character, and returns how many octets they are. */
static size_t read_octets(const char *text, size_t length, uint8_t *octets) {
    static const char digits[] = "0123456789abcdef";
    size_t count = 0;
    for (; count < PACKET && 2 * count + 1 < length; count++) {
        const char *high = strchr(digits, text[2 * count]), *low = strchr(digits, text[2 * count + 1]);
        if (!high || !low) break;
        octets[count] = (uint8_t)(16 * (high - digits) + (low - digits));
    }
    return count;
}

/* Runs a line, and returns whether it is good, which means that it is exactly the line of an event. */
static bool run(const char *line, size_t length) {
    static uint8_t octets[PACKET];
    static char text[LINE + 1];
    unsigned link;
    uint64_t moment;
    size_t count, at;
    if (sscanf(line, "arrive %u %" SCNu64, &link, &moment) == 2 && link <= UINT16_MAX) {
        at = (size_t)sprintf(text, "arrive %u %" PRIu64 " ", link, moment);
        count = at < length ? read_octets(line + at, length - at, octets) : 0;
        for (size_t i = 0; i < count; i++) at += (size_t)sprintf(text + at, "%02x", octets[i]);
        if (count == 0) text[at++] = '-';
        if (at != length || memcmp(line, text, length) != 0) return false;
        arrive(link, moment, octets, count);
        return true;
    }
    if (sscanf(line, "reset %u", &link) != 1 || link > UINT16_MAX) return false;
    at = (size_t)sprintf(text, "reset %u", link);
    if (at != length || memcmp(line, text, length) != 0) return false;
    if (polorowan_reset(gateway, (uint16_t)link) == POLOROWAN_FORGOT_LINK) print_refusal(link, "-", 29);
    return true;
}

/* Goes on from the calls in a file, if it is there. */
static void restore(const char *path, size_t count) {
    FILE *file = fopen(path, "rb");
    struct polorowan_restored restored;
    size_t length, place, room = 53 + 8 * (size_t)POLOROWAN_LINKS + 77 * 65536;
    uint8_t *octets, status;
    if (!file) return;
    octets = malloc(room);
    if (!octets) exit(5);
    length = fread(octets, 1, room, file);
    fclose(file);
    status = polorowan_open_saved(links, count, octets, length, &restored, &place, &gateway);
    free(octets);
    if (status == POLOROWAN_MADE) return;
    fprintf(stderr, "gateway: %s: refused with %u at octet %zu\n", path, status, place);
    exit(6);
}

/* Saves the calls in a new file beside that of before, which it then replaces. */
static void save(const char *path) {
    char *name = malloc(strlen(path) + 5);
    size_t length = 0;
    uint8_t *octets, none = 0;
    FILE *file;
    if (!name || polorowan_save(gateway, latest, &none, 0, &length) != POLOROWAN_SAVED_NO_ROOM) exit(5);
    octets = malloc(length);
    if (!octets || polorowan_save(gateway, latest, octets, length, &length) != POLOROWAN_SAVED) exit(5);
    file = fopen(strcat(strcpy(name, path), ".new"), "wb");
    if (!file || fwrite(octets, 1, length, file) != length || fclose(file) != 0 || rename(name, path) != 0) exit(4);
    free(octets);
    free(name);
}

int main(int count, char **words) {
    static char line[LINE + 2];
    FILE *file = count == 2 || count == 3 ? fopen(words[1], "r") : NULL;
    size_t length = 0, place, links_count;
    int octet;
    if (!file) return 3;
    links_count = read_links(file, links);
    fclose(file);
    if (polorowan_open(links, links_count, &place, &gateway) != POLOROWAN_MADE) return 3;
    if (count == 3) restore(words[2], links_count);
    do {
        octet = getchar();
        if (octet != '\n' && octet != EOF) {
            if (length <= LINE) line[length++] = (char)octet;
        } else if (octet == '\n' || length > 0) {
            line[length] = 0;
            if (length > LINE) puts("- - refused LongLine");
            else if (!run(line, length)) puts("- - refused BadLine");
            length = 0;
        }
    } while (octet != EOF);
    if (count == 3) save(words[2]);
    polorowan_close(gateway);
    return 0;
}
