/* Makes calls of the library, one for each line of standard input, and prints their answers, as crates/calls
 * does, whose main.rt says which lines there are. A context is put by the calls that the library has: the
 * link that gets it is saved, and restored with one context more. docs/FORMATS.md describes the octets. */
#include <inttypes.h>
#include <openssl/sha.h>
#include <stdio.h>
#include <stdlib.h>
#include <string.h>

#include "polorowan.h"

enum { PACKET = 65535, LINE = 131200, WORDS = 24, SAVED = 53 + 8 + 77 * 16384 };
/* Where a saved link has its CID kind, its greatest CID, its number of contexts and the first of them. */
enum { KIND = 23, GREATEST = 25, COUNT = 27, CONTEXTS = 29 };

static polorowan_gateway *gateway;

/* The words of a line. */
struct words {
    size_t count;
    const char *text[WORDS];
};

/* Ends the program if a call doesn't return what it always returns here. */
static void must(bool holds, const char *call) {
    if (holds) return;
    fprintf(stderr, "calls: unexpected result of %s\n", call);
    exit(1);
}

/* Begins anew, with link 1 alone. */
static void begin(void) {
    const struct polorowan_link first = {.link = 1, .max_cid = 15, .optimistic = true, .k1 = 2, .n1 = 3,
                                         .k2 = 2, .n2 = 3, .packet_ms = 20, .static_nack_ms = 1000};
    size_t place;
    polorowan_close(gateway);
    must(polorowan_open(&first, 1, &place, &gateway) == POLOROWAN_MADE, "polorowan_open");
}

static void print_octets(const uint8_t *octets, size_t count) {
    if (count == 0) putchar('-');
    for (size_t i = 0; i < count; i++) printf("%02x", octets[i]);
    putchar('\n');
}

static void arrive(uint16_t link, uint64_t moment, const uint8_t *octets, size_t count) {
    static uint8_t packet[PACKET + POLOROWAN_HEAD_ROOM], relayed[PACKET];
    uint8_t feedback[POLOROWAN_FEEDBACK_ROOM];
    struct polorowan_arrival a;
    char cid[8] = "-";
    uint8_t status = polorowan_arrive(gateway, link, moment, octets, count, packet, sizeof packet, feedback,
                                      sizeof feedback, relayed, sizeof relayed, &a);
    must(status == POLOROWAN_ARRIVED, "polorowan_arrive");
    for (size_t at = 0; at < a.relayed_length; at += 1 + relayed[at]) {
        printf("%u - relay ", link);
        print_octets(relayed + at + 1, relayed[at]);
    }
    if (a.kind == POLOROWAN_CONTEXT) sprintf(cid, "%u", a.cid);
    if (a.has_packet) printf("%u %s ip ", link, cid), print_octets(packet, a.packet_length);
    if (a.outcome == POLOROWAN_STORED) printf("%u %s stored\n", link, cid);
    if (a.has_feedback) printf("%u %s feedback ", link, cid), print_octets(feedback, a.feedback_length);
    if (polorowan_name_of(a.outcome)) printf("%u %s refused %s\n", link, cid, polorowan_name_of(a.outcome));
}

/* Reads a number up to the greatest, in decimal without leading zeros. */
static bool number(const char *word, uint64_t greatest, uint64_t *value) {
    if (!*word || (word[0] == '0' && word[1])) return false;
    for (*value = 0; *word; word++) {
        uint64_t digit = (uint64_t)(*word - '0');
        if (*word < '0' || *word > '9' || *value > (greatest - digit) / 10) return false;
        *value = 10 * *value + digit;
    }
    return true;
}

/* Reads pairs of lower case digits, or `-` for none, and returns whether the word is that. */
static bool read_octets(const char *word, uint8_t *octets, size_t *count) {
    static const char digits[] = "0123456789abcdef";
    size_t length = strlen(word);
    *count = 0;
    if (strcmp(word, "-") == 0) return true;
    if (length == 0 || length % 2 == 1 || length / 2 > PACKET) return false;
    for (; *count < length / 2; ++*count) {
        const char *high = strchr(digits, word[2 * *count]), *low = strchr(digits, word[2 * *count + 1]);
        if (!high || !low) return false;
        octets[*count] = (uint8_t)(16 * (high - digits) + (low - digits));
    }
    return true;
}

/* Reads a word FIRST-LAST-MODE. */
static bool read_range(const char *word, struct polorowan_range *range) {
    char first[8], last[8], mode[2], text[24];
    uint64_t least, greatest;
    if (sscanf(word, "%7[0-9]-%7[0-9]-%1[UO]", first, last, mode) != 3) return false;
    sprintf(text, "%s-%s-%s", first, last, mode);
    if (strcmp(text, word) != 0) return false;
    if (!number(first, UINT16_MAX, &least) || !number(last, UINT16_MAX, &greatest)) return false;
    *range = (struct polorowan_range){(uint16_t)least, (uint16_t)greatest, mode[0] == 'O'};
    return true;
}

/* Reads the setting of a link: its number, its settings and its ranges. */
static bool read_setting(const struct words *words, struct polorowan_link *link) {
    static const uint64_t greatest[] = {UINT8_MAX,  UINT8_MAX,  UINT8_MAX, UINT8_MAX,
                                        UINT32_MAX, UINT32_MAX, UINT32_MAX};
    const char *const *text = words->text + 1;
    uint64_t number_of_link, max_cid, n[7];
    if (words->count < 12 || words->count > 12 + POLOROWAN_RANGES) return false;
    if (!number(text[0], UINT16_MAX, &number_of_link)) return false;
    if (!number(text[2], UINT16_MAX, &max_cid)) return false;
    if (strcmp(text[1], "small") != 0 && strcmp(text[1], "large") != 0) return false;
    if (strcmp(text[3], "U") != 0 && strcmp(text[3], "O") != 0) return false;
    for (size_t i = 0; i < 7; i++) {
        if (!number(text[4 + i], greatest[i], &n[i])) return false;
    }
    *link = (struct polorowan_link){
        .link = (uint16_t)number_of_link, .max_cid = (uint16_t)max_cid, .large = text[1][0] == 'l',
        .optimistic = text[3][0] == 'O', .range_count = (uint8_t)(words->count - 12),
        .k1 = (uint8_t)n[0], .n1 = (uint8_t)n[1], .k2 = (uint8_t)n[2], .n2 = (uint8_t)n[3],
        .packet_ms = (uint32_t)n[4], .static_nack_ms = (uint32_t)n[5], .idle_ms = (uint32_t)n[6]};
    for (size_t i = 0; i < link->range_count; i++) {
        if (!read_range(text[11 + i], &link->ranges[i])) return false;
    }
    return true;
}

/* Prints what a function returned that forgets contexts. */
static void print_forgot(unsigned link, const char *call, uint8_t forgot, const size_t *count) {
    must(forgot == POLOROWAN_FORGOT || forgot == POLOROWAN_FORGOT_LINK, call);
    if (forgot == POLOROWAN_FORGOT_LINK) printf("%u %s NoLink\n", link, call);
    else if (count) printf("%u %s done %zu\n", link, call, *count);
    else printf("%u %s done\n", link, call);
}

/* Adds a link, or changes its setting, and prints what was returned. */
static void set(const char *call, const struct polorowan_link *link) {
    static const char *const names[] = {"done",       "",              "TooManyLinks", "",
                                        "BadSetting", "DuplicateLink", "NoMemory",     "NoLink"};
    const bool adds = strcmp(call, "add") == 0;
    size_t count = 0;
    uint8_t linked = adds ? polorowan_add_link(gateway, link) : polorowan_change_link(gateway, link, &count);
    must(linked <= POLOROWAN_LINKED_NO_LINK && names[linked][0], call);
    printf("%u %s %s", link->link, call, names[linked]);
    if (linked == POLOROWAN_LINKED && !adds) printf(" %zu", count);
    putchar('\n');
}

static unsigned short_at(const uint8_t *octets) { return (unsigned)(octets[0] << 8 | octets[1]); }

static void put_short(uint8_t *octets, unsigned value) {
    octets[0] = (uint8_t)(value >> 8);
    octets[1] = (uint8_t)value;
}

/* Saves a link, and returns how many octets stand before the digest: 0 if there is no such link. */
static size_t saved(const polorowan_gateway *from, uint16_t link, uint8_t *octets) {
    size_t count;
    uint8_t status = polorowan_save_link(from, link, 0, octets, SAVED, &count);
    if (status == POLOROWAN_SAVED_NO_LINK) return 0;
    must(status == POLOROWAN_SAVED, "polorowan_save_link");
    return count - SHA256_DIGEST_LENGTH;
}

/* The octets of a CID's context, which is there: what is left of a copy of its link once all other CIDs are
 * forgotten. */
static size_t octets_of(uint16_t link, uint16_t cid, uint8_t *octets) {
    struct polorowan_link setting = {.link = link, .k1 = 1, .n1 = 1, .k2 = 1, .n2 = 1, .packet_ms = 1};
    struct polorowan_context_info context;
    struct polorowan_restored restored;
    polorowan_gateway *copy = NULL;
    size_t count = saved(gateway, link, octets) + SHA256_DIGEST_LENGTH, place = 0;
    setting.large = octets[KIND] == 1;
    setting.max_cid = (uint16_t)short_at(octets + GREATEST);
    uint8_t status = polorowan_open_saved(&setting, 1, octets, count, &restored, &place, &copy);
    must(status == POLOROWAN_MADE, "polorowan_open_saved");
    for (place = 0; polorowan_context_at(copy, link, place, &context);) {
        if (context.cid == cid) place++;
        else must(polorowan_forget(copy, link, context.cid, &count) == POLOROWAN_FORGOT, "polorowan_forget");
    }
    count = saved(copy, link, octets) - CONTEXTS - 2;
    memmove(octets, octets + CONTEXTS + 2, count);
    polorowan_close(copy);
    return count;
}

/* Puts what another CID holds, and returns what is told of it. */
static const char *put(uint16_t link, uint16_t cid, uint16_t from_link, uint16_t from_cid) {
    static uint8_t octets[SAVED + 2 + 77], context[SAVED];
    struct polorowan_restored restored;
    size_t place;
    if (!polorowan_has_context(gateway, from_link, from_cid)) return "no such context";
    size_t length = octets_of(from_link, from_cid, context), count = saved(gateway, link, octets);
    if (count == 0) return "NoLink";
    if (cid > short_at(octets + GREATEST)) return "CidRange";
    if (polorowan_has_context(gateway, link, cid)) return "HasRecord";
    put_short(octets + COUNT, short_at(octets + COUNT) + 1);
    put_short(octets + count, cid);
    memcpy(octets + count + 2, context, length);
    count += 2 + length;
    SHA256(octets, count, octets + count);
    must(polorowan_reset(gateway, link) == POLOROWAN_FORGOT, "polorowan_reset");
    count += SHA256_DIGEST_LENGTH;
    uint8_t status = polorowan_restore_link(gateway, link, octets, count, &restored, &place);
    must(status == POLOROWAN_RESTORED, "polorowan_restore_link");
    must(restored.contexts == short_at(octets + COUNT), "polorowan_restore_link");
    return "done";
}

/* Makes a call that has numbers alone, up to four, and returns whether it is one. */
static bool run_numbers(const struct words *words) {
    const char *call = words->text[0];
    const bool expires = strcmp(call, "expire") == 0;
    uint64_t n[4] = {0};
    size_t count = 0;
    if (words->count > 5) return false;
    for (size_t i = 1; i < words->count; i++) {
        if (!number(words->text[i], expires && i == 2 ? UINT64_MAX : UINT16_MAX, &n[i - 1])) return false;
    }
    const uint16_t link = (uint16_t)n[0], cid = (uint16_t)n[1];
    if (strcmp(call, "reset") == 0 && words->count == 2) {
        print_forgot(link, call, polorowan_reset(gateway, link), NULL);
    } else if (strcmp(call, "remove") == 0 && words->count == 2) {
        uint8_t forgot = polorowan_remove_link(gateway, link, &count);
        print_forgot(link, call, forgot, &count);
    } else if (strcmp(call, "forget") == 0 && words->count == 3) {
        uint8_t forgot = polorowan_forget(gateway, link, cid, &count);
        print_forgot(link, call, forgot, &count);
    } else if (expires && words->count == 3) {
        uint8_t forgot = polorowan_forget_expired(gateway, link, n[1], &count);
        print_forgot(link, call, forgot, &count);
    } else if (strcmp(call, "put") == 0 && words->count == 5) {
        printf("%u put %s\n", link, put(link, cid, (uint16_t)n[2], (uint16_t)n[3]));
    } else {
        return false;
    }
    return true;
}

/* Makes the call that words are, and returns whether they are one. */
static bool run(const struct words *words) {
    static uint8_t octets[PACKET];
    struct polorowan_link setting;
    uint64_t link, moment;
    size_t count;
    if (strcmp(words->text[0], "arrive") == 0) {
        if (words->count != 4 || !number(words->text[1], UINT16_MAX, &link)) return false;
        if (!number(words->text[2], UINT64_MAX, &moment)) return false;
        if (!read_octets(words->text[3], octets, &count)) return false;
        arrive((uint16_t)link, moment, octets, count);
        return true;
    }
    if (strcmp(words->text[0], "add") == 0 || strcmp(words->text[0], "change") == 0) {
        if (!read_setting(words, &setting)) return false;
        set(words->text[0], &setting);
        return true;
    }
    return run_numbers(words);
}

/* Splits a line at each space, and returns whether it isn't too many words, and no octet 0 stands in it. */
static bool split(char *line, size_t length, struct words *words) {
    if (memchr(line, 0, length)) return false;
    words->text[0] = line;
    words->count = 1;
    for (; *line; line++) {
        if (*line != ' ') continue;
        if (words->count == WORDS) return false;
        *line = 0;
        words->text[words->count++] = line + 1;
    }
    return true;
}

/* Answers a line without its newline, of which at most one octet more is kept than the longest has. */
static void answer(char *line, size_t length) {
    struct words words;
    line[length] = 0;
    if (length >= 2 && memcmp(line, "= ", 2) == 0) {
        begin();
        puts(line);
    } else if (length > LINE) {
        puts("- - refused LongLine");
    } else if (!split(line, length, &words) || !run(&words)) {
        puts("- - refused BadLine");
    }
}

int main(void) {
    static char line[LINE + 2];
    size_t length = 0;
    int octet;
    begin();
    do {
        octet = getchar();
        if (octet != '\n' && octet != EOF) {
            if (length <= LINE) line[length++] = (char)octet;
        } else if (octet == '\n' || length > 0) {
            answer(line, length);
            length = 0;
        }
    } while (octet != EOF);
    polorowan_close(gateway);
    return 0;
}
