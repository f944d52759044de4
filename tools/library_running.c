/*
 * Calls the library for C while it runs: gateways on the heap, links that come, go and change, contexts that are forgotten,
 * answers that are counted, many packets in one call beside so many single calls, and four threads that read at once. The octets are those of
 * docs/EXAMPLES.md. With the word `readers` only the threads run.
 */
#include <pthread.h>
#include <stdio.h>
#include <stdlib.h>
#include <string.h>

#include "polorowan.h"

#define CHECK(fact) check((fact), #fact, __LINE__)

enum { READERS = 4, TURNS = 2000, PACKETS = 600, LONGEST = 48 };

static unsigned failed;

static void check(bool holds, const char *fact, int line) {
    if (!holds) {
        fprintf(stderr, "line %d: not so: %s\n", line, fact);
        failed++;
    }
}

/* A link of the worked examples, with small CIDs in O mode. */
static struct polorowan_link link_of(uint16_t number) {
    struct polorowan_link link;
    memset(&link, 0, sizeof link);
    link.link = number;
    link.max_cid = 15;
    link.optimistic = true;
    link.k1 = link.k2 = 2;
    link.n1 = link.n2 = 3;
    link.packet_ms = 20;
    link.static_nack_ms = 1000;
    link.idle_ms = 100;
    return link;
}

static polorowan_gateway *opened(const struct polorowan_link *links, size_t count) {
    polorowan_gateway *gateway = NULL;
    size_t place = 7;
    CHECK(polorowan_open(links, count, &place, &gateway) == POLOROWAN_MADE && place == 0 && gateway != NULL);
    if (gateway == NULL) exit(1);
    return gateway;
}

/* IRs of profile 0x0000 for the CIDs 0 and 1, with the IP packet 45 aa. */
#define IR_0 "\xfc\x00\xb7\x45\xaa"
#define IR_1 "\xe1\xfc\x00\x30\x45\xaa"

/* Whether a packet arrives at this moment, and is delivered. */
static bool arrives(polorowan_gateway *g, uint16_t link, uint64_t moment, const char *octets, size_t count) {
    uint8_t packet[128], feedback[POLOROWAN_FEEDBACK_ROOM], relayed[128];
    struct polorowan_arrival arrival;
    return polorowan_arrive(g, link, moment, (const uint8_t *)octets, count, packet, sizeof packet, feedback,
                            sizeof feedback, relayed, sizeof relayed, &arrival) == POLOROWAN_ARRIVED &&
           arrival.outcome == POLOROWAN_DELIVERED && arrival.kind == POLOROWAN_CONTEXT;
}

/* Link 1 with contexts of the CIDs 0 and 1, accepted at 0 and at 50. */
static polorowan_gateway *with_two_contexts(void) {
    struct polorowan_link link = link_of(1);
    polorowan_gateway *g = opened(&link, 1);
    CHECK(arrives(g, 1, 0, IR_0, 5) && arrives(g, 1, 50, IR_1, 6));
    return g;
}

static bool are(const polorowan_gateway *g, bool first, bool second) {
    return polorowan_has_context(g, 1, 0) == first && polorowan_has_context(g, 1, 1) == second;
}

/* Gateways on the heap. NULL stands where a length is 0. */
static void opened_and_closed(void) {
    struct polorowan_link links[2] = {link_of(1), link_of(1)};
    polorowan_gateway *g = with_two_contexts(), *other = NULL;
    struct polorowan_restored told;
    uint8_t octets[256];
    size_t count = 0, place = 7;
    CHECK(polorowan_open(NULL, 0, &place, &other) == POLOROWAN_NO_LINKS && other == NULL && place == 0);
    CHECK(polorowan_open(links, 2, &place, &other) == POLOROWAN_DUPLICATE_LINK && other == NULL && place == 2);
    CHECK(polorowan_save(g, 60, octets, sizeof octets, &count) == POLOROWAN_SAVED);
    CHECK(polorowan_open_saved(links, 1, octets, count, &told, &place, &other) == POLOROWAN_MADE && told.contexts == 2);
    CHECK(are(other, true, true));
    polorowan_close(other);
    CHECK(polorowan_open_saved(links, 1, NULL, 0, &told, &place, &other) == POLOROWAN_NOT_SAVED && other == NULL);
    polorowan_close(NULL);
    polorowan_close(g);
}

static void links_come_and_go(void) {
    struct polorowan_link link = link_of(2), bad = link_of(3), wide = link_of(3);
    polorowan_gateway *g = with_two_contexts();
    uint16_t number = 7;
    size_t count = 7;
    bad.max_cid = 16;
    wide.range_count = 9;
    CHECK(polorowan_add_link(g, &link) == POLOROWAN_LINKED && polorowan_add_link(g, &link) == POLOROWAN_LINKED_DUPLICATE);
    CHECK(polorowan_add_link(g, &bad) == POLOROWAN_LINKED_BAD_SETTING);
    CHECK(polorowan_add_link(g, &wide) == POLOROWAN_LINKED_TOO_MANY_RANGES);
    CHECK(arrives(g, 2, 60, IR_0, 5) && are(g, true, true));
    CHECK(polorowan_remove_link(g, 1, &count) == POLOROWAN_FORGOT && count == 2 && are(g, false, false));
    count = 7;
    CHECK(polorowan_remove_link(g, 1, &count) == POLOROWAN_FORGOT_LINK && count == 7);
    CHECK(polorowan_link_at(g, 0, &number) && number == 2 && !polorowan_link_at(g, 1, &number));
    CHECK(arrives(g, 2, 70, IR_0, 5) && polorowan_has_context(g, 2, 0));
    for (unsigned i = 3; i < 3 + POLOROWAN_LINKS - 1; i++) {
        struct polorowan_link more = link_of((uint16_t)i);
        CHECK(polorowan_add_link(g, &more) == POLOROWAN_LINKED);
    }
    link = link_of(1000);
    CHECK(polorowan_add_link(g, &link) == POLOROWAN_LINKED_TOO_MANY && polorowan_has_context(g, 2, 0));
    polorowan_close(g);
}

static void links_change(void) {
    struct polorowan_link link = link_of(1);
    polorowan_gateway *g = with_two_contexts();
    size_t count = 7;
    link.idle_ms = 0;
    CHECK(polorowan_change_link(g, &link, &count) == POLOROWAN_LINKED && count == 0 && are(g, true, true));
    CHECK(!polorowan_has_expired(g, 1, 0, 1000000));
    link.max_cid = 0;
    CHECK(polorowan_change_link(g, &link, &count) == POLOROWAN_LINKED && count == 1 && are(g, true, false));
    count = 7;
    link.max_cid = 16;
    CHECK(polorowan_change_link(g, &link, &count) == POLOROWAN_LINKED_BAD_SETTING && count == 7);
    link.link = 2;
    CHECK(polorowan_change_link(g, &link, &count) == POLOROWAN_LINKED_NO_LINK && count == 7);
    link.range_count = 9;
    CHECK(polorowan_change_link(g, &link, &count) == POLOROWAN_LINKED_TOO_MANY_RANGES && are(g, true, false));
    link = link_of(1);
    link.large = true;
    CHECK(polorowan_change_link(g, &link, &count) == POLOROWAN_LINKED && count == 1 && are(g, false, false));
    polorowan_close(g);
}

/* Takes a packet of link 1 or 2, and counts its answer. */
static void counted(polorowan_gateway *g, struct polorowan_counts *counts, uint16_t link, const char *octets, size_t count) {
    uint8_t packet[128], feedback[POLOROWAN_FEEDBACK_ROOM], relayed[128];
    struct polorowan_arrival arrival;
    CHECK(polorowan_arrive(g, link, 60, (const uint8_t *)octets, count, packet, sizeof packet, feedback, sizeof feedback,
                           relayed, sizeof relayed, &arrival) == POLOROWAN_ARRIVED);
    polorowan_count(counts, &arrival, feedback, sizeof feedback);
}

/* An IR of profile 0x0000 is answered by FEEDBACK-1; F2 20 05 and F1 20 are feedback elements for this side. */
static void answers_are_counted(void) {
    struct polorowan_counts counts, wanted;
    polorowan_gateway *g = with_two_contexts();
    memset(&counts, 0, sizeof counts);
    memset(&wanted, 0, sizeof wanted);
    counted(g, &counts, 1, IR_0, 5);
    counted(g, &counts, 1, IR_1, 6);
    counted(g, &counts, 1, "", 0);
    counted(g, &counts, 2, IR_0, 5);
    counted(g, &counts, 1, "\xf2\x20\x05\xf1\x20", 5);
    counted(g, &counts, 1, "\xf1\x20" IR_0, 7);
    wanted.outcomes[POLOROWAN_DELIVERED] = 3;
    wanted.outcomes[POLOROWAN_REFUSED_EMPTY] = wanted.outcomes[POLOROWAN_REFUSED_NO_LINK] = 1;
    wanted.feedback_alone = 1;
    wanted.words[POLOROWAN_PLAIN_ACK] = 3;
    wanted.relayed = 3;
    CHECK(memcmp(&counts, &wanted, sizeof counts) == 0);
    counts.outcomes[POLOROWAN_DELIVERED] = wanted.outcomes[POLOROWAN_DELIVERED] = UINT64_MAX;
    wanted.words[POLOROWAN_PLAIN_ACK] = 4;
    counted(g, &counts, 1, IR_0, 5);
    CHECK(memcmp(&counts, &wanted, sizeof counts) == 0);
    polorowan_close(g);
}

/* What no answer has isn't counted: an outcome above the greatest, feedback that is longer than its buffer. */
static void bad_answers_are_not_counted(void) {
    struct polorowan_counts counts, none;
    struct polorowan_arrival arrival;
    memset(&counts, 0, sizeof counts);
    memset(&none, 0, sizeof none);
    memset(&arrival, 0, sizeof arrival);
    arrival.outcome = POLOROWAN_OUTCOMES;
    arrival.has_feedback = true;
    arrival.feedback_length = 2;
    polorowan_count(&counts, &arrival, (const uint8_t *)"\xf1", 1);
    polorowan_count(&counts, &arrival, NULL, 0);
    CHECK(memcmp(&counts, &none, sizeof counts) == 0);
}

static void contexts_are_forgotten(void) {
    polorowan_gateway *g = with_two_contexts();
    size_t count = 7;
    CHECK(!polorowan_has_expired(g, 1, 0, 99) && polorowan_has_expired(g, 1, 0, 100) && !polorowan_has_expired(g, 1, 1, 100));
    CHECK(!polorowan_has_expired(g, 1, 2, 100) && !polorowan_has_expired(g, 2, 0, 100));
    CHECK(polorowan_forget_expired(g, 1, 99, &count) == POLOROWAN_FORGOT && count == 0 && are(g, true, true));
    CHECK(polorowan_forget_expired(g, 1, 149, &count) == POLOROWAN_FORGOT && count == 1 && are(g, false, true));
    CHECK(polorowan_forget(g, 1, 0, &count) == POLOROWAN_FORGOT && count == 0 && are(g, false, true));
    CHECK(polorowan_forget(g, 1, 1, &count) == POLOROWAN_FORGOT && count == 1 && are(g, false, false));
    count = 7;
    CHECK(polorowan_forget(g, 2, 1, &count) == POLOROWAN_FORGOT_LINK && count == 7);
    CHECK(polorowan_forget_expired(g, 2, 1, &count) == POLOROWAN_FORGOT_LINK && count == 7);
    CHECK(arrives(g, 1, 200, IR_0, 5) && are(g, true, false));
    polorowan_close(g);
}

/* One link that is saved alone is what is saved of a gateway with this link alone. */
static void one_link_is_saved(void) {
    struct polorowan_link link = link_of(2);
    polorowan_gateway *g = with_two_contexts();
    uint8_t whole[256], alone[256], one = 0x55;
    size_t count = 0, length = 0;
    CHECK(polorowan_save(g, 60, whole, sizeof whole, &count) == POLOROWAN_SAVED);
    CHECK(polorowan_add_link(g, &link) == POLOROWAN_LINKED);
    CHECK(polorowan_save_link(g, 1, 60, alone, sizeof alone, &length) == POLOROWAN_SAVED);
    CHECK(length == count && memcmp(alone, whole, count) == 0);
    length = 7;
    CHECK(polorowan_save_link(g, 1, 60, &one, 1, &length) == POLOROWAN_SAVED_NO_ROOM && length == count && one == 0x55);
    length = 7;
    CHECK(polorowan_save_link(g, 3, 60, &one, 1, &length) == POLOROWAN_SAVED_NO_LINK && length == 7 && one == 0x55);
    polorowan_close(g);
}

/* One link goes to another gateway that runs, beside a link that stays; and each fault changes nothing. */
static void one_link_is_restored(void) {
    struct polorowan_link links[2] = {link_of(2), link_of(1)}, large = link_of(1);
    polorowan_gateway *g = with_two_contexts(), *other = opened(links, 2);
    struct polorowan_restored told;
    uint8_t octets[256], again[256];
    size_t count = 0, length = 0, place = 7;
    CHECK(polorowan_save_link(g, 1, 60, octets, sizeof octets, &count) == POLOROWAN_SAVED);
    CHECK(arrives(other, 2, 0, IR_0, 5));
    memset(&told, 0x77, sizeof told);
    CHECK(polorowan_restore_link(other, 3, octets, count, &told, &place) == POLOROWAN_RESTORED_NO_LINK && place == 0);
    CHECK(polorowan_restore_link(other, 2, octets, count, &told, &place) == POLOROWAN_RESTORED_HAS_CONTEXTS && place == 0);
    CHECK(polorowan_restore_link(other, 1, octets, count - 1, &told, &place) == POLOROWAN_SHORT && place == count - 1);
    CHECK(polorowan_restore_link(other, 1, NULL, 0, &told, &place) == POLOROWAN_NOT_SAVED && place == 0);
    octets[10] = 2;
    CHECK(polorowan_restore_link(other, 1, octets, count, &told, &place) == POLOROWAN_VERSION && place == 9);
    octets[10] = 1;
    large.large = true;
    CHECK(polorowan_change_link(other, &large, &length) == POLOROWAN_LINKED);
    CHECK(polorowan_restore_link(other, 1, octets, count, &told, &place) == POLOROWAN_RESTORED_OTHER_KIND && place == 0);
    CHECK(polorowan_change_link(other, &links[1], &length) == POLOROWAN_LINKED);
    CHECK(told.contexts == 0x7777777777777777 && are(other, false, false));
    CHECK(polorowan_restore_link(other, 1, octets, count, &told, &place) == POLOROWAN_RESTORED && place == 0);
    CHECK(told.moment == 60 && told.links == 1 && told.contexts == 2 && told.high_contexts == 0 && are(other, true, true));
    CHECK(polorowan_save_link(other, 1, 60, again, sizeof again, &length) == POLOROWAN_SAVED && length == count);
    CHECK(memcmp(again, octets, count) == 0 && polorowan_has_context(other, 2, 0) && arrives(other, 1, 70, "\x45\xab", 2));
    CHECK(polorowan_reset(other, 2) == POLOROWAN_FORGOT);
    CHECK(polorowan_restore_link(other, 2, octets, count, &told, &place) == POLOROWAN_RESTORED_OTHER_LINK);
    links[1].max_cid = 0;
    CHECK(polorowan_reset(other, 1) == POLOROWAN_FORGOT && polorowan_change_link(other, &links[1], &length) == POLOROWAN_LINKED);
    CHECK(polorowan_restore_link(other, 1, octets, count, &told, &place) == POLOROWAN_RESTORED);
    CHECK(told.contexts == 1 && told.high_contexts == 1 && are(other, true, false));
    polorowan_close(other);
    polorowan_close(g);
}

static void refusals_are_told(void) {
    uint8_t name[POLOROWAN_NAME_ROOM];
    for (unsigned i = 0; i < 256; i++) {
        size_t length = polorowan_refusal_name((uint8_t)i, name, sizeof name);
        const char *told = polorowan_name_of((uint8_t)i), *text = polorowan_text_of((uint8_t)i);
        CHECK((length == 0) == (told == NULL) && (told == NULL) == (text == NULL));
        if (told != NULL) CHECK(strcmp(told, (const char *)name) == 0 && text[strlen(text) - 1] == '.');
    }
    CHECK(strcmp(polorowan_name_of(POLOROWAN_REFUSED_NO_CONTEXT), "NoContext") == 0);
    CHECK(strcmp(polorowan_text_of(POLOROWAN_REFUSED_SEGMENT), "The packet is a segment.") == 0);
}

/* Packets of all kinds: IRs and Normal packets of two CIDs, packets for no link, feedback alone, noise, and none at all. */
static size_t packets_of(struct polorowan_packet *packets, uint8_t *octets) {
    static const struct {
        const char *octets;
        size_t count;
    } kinds[] = {{IR_0, 5}, {IR_1, 6}, {"\x45\xab\x01", 3}, {"\xe1\x45\xac", 3}, {"\xf1\x20\x45\xad", 4},
                 {"\xf2\x20\x21", 3}, {"\xe0\xe0", 2}, {"\xfd\x01\x00", 3}, {"", 0}};
    size_t at = 0;
    unsigned random = 12345;
    for (size_t i = 0; i < PACKETS; i++) {
        random = random * 1103515245 + 12345;
        size_t kind = random / 65536 % (sizeof kinds / sizeof *kinds);
        packets[i] = (struct polorowan_packet){(uint16_t)(random / 4096 % 8 == 0 ? 9 : 1), i, at, kinds[kind].count};
        memcpy(octets + at, kinds[kind].octets, kinds[kind].count);
        at += kinds[kind].count;
    }
    return at;
}

/* Many packets in one call give what so many single calls give, octet for octet, and leave the same contexts. */
static void many_are_as_single_ones(void) {
    static struct polorowan_packet packets[PACKETS];
    static struct polorowan_arrival arrivals[PACKETS];
    static uint8_t octets[PACKETS * LONGEST], room[PACKETS * POLOROWAN_ROOM(LONGEST)], saved[2][512];
    struct polorowan_link link = link_of(1);
    polorowan_gateway *many = opened(&link, 1), *single = opened(&link, 1);
    size_t count = packets_of(packets, octets), lengths[2] = {0, 0};
    CHECK(polorowan_arrive_many(many, packets, PACKETS, octets, count, room, sizeof room, arrivals, PACKETS) ==
          POLOROWAN_ARRIVED);
    const uint8_t *part = room;
    for (size_t i = 0; i < PACKETS; i++) {
        uint8_t packet[LONGEST + POLOROWAN_HEAD_ROOM], feedback[POLOROWAN_FEEDBACK_ROOM], relayed[LONGEST];
        struct polorowan_arrival a;
        size_t own = packets[i].count;
        CHECK(polorowan_arrive(single, packets[i].link, packets[i].moment, octets + packets[i].at, own, packet, sizeof packet,
                               feedback, sizeof feedback, relayed, sizeof relayed, &a) == POLOROWAN_ARRIVED);
        const struct polorowan_arrival *b = &arrivals[i];
        CHECK(a.kind == b->kind && a.outcome == b->outcome && a.cid == b->cid && a.has_packet == b->has_packet);
        CHECK(a.has_feedback == b->has_feedback && a.packet_length == b->packet_length);
        CHECK(a.feedback_length == b->feedback_length && a.relayed_length == b->relayed_length);
        CHECK(a.relayed_count == b->relayed_count && memcmp(packet, part, a.packet_length) == 0);
        CHECK(memcmp(feedback, part + own + POLOROWAN_HEAD_ROOM, a.feedback_length) == 0);
        CHECK(memcmp(relayed, part + own + POLOROWAN_HEAD_ROOM + POLOROWAN_FEEDBACK_ROOM, a.relayed_length) == 0);
        part += POLOROWAN_ROOM(own);
    }
    CHECK(polorowan_save(many, 1000, saved[0], sizeof saved[0], &lengths[0]) == POLOROWAN_SAVED);
    CHECK(polorowan_save(single, 1000, saved[1], sizeof saved[1], &lengths[1]) == POLOROWAN_SAVED);
    CHECK(lengths[0] == lengths[1] && memcmp(saved[0], saved[1], lengths[0]) == 0);
    polorowan_close(many);
    polorowan_close(single);
}

/* Where the room is short by one octet, nothing is changed. */
static void many_need_room(void) {
    struct polorowan_link link = link_of(1);
    polorowan_gateway *g = opened(&link, 1);
    struct polorowan_packet packets[POLOROWAN_MANY + 1] = {{1, 0, 0, 5}, {1, 0, 5, 6}};
    struct polorowan_arrival arrivals[2];
    const uint8_t octets[] = IR_0 IR_1;
    uint8_t room[POLOROWAN_ROOM(5) + POLOROWAN_ROOM(6)];
    memset(room, 0x55, sizeof room);
    CHECK(polorowan_arrive_many(g, packets, 2, octets, 11, room, sizeof room - 1, arrivals, 2) == POLOROWAN_NO_ROOM);
    CHECK(polorowan_arrive_many(g, packets, 2, octets, 10, room, sizeof room, arrivals, 2) == POLOROWAN_NO_ROOM);
    CHECK(polorowan_arrive_many(g, packets, 2, octets, 11, room, sizeof room, arrivals, 1) == POLOROWAN_NO_ROOM);
    packets[1].at = SIZE_MAX;
    CHECK(polorowan_arrive_many(g, packets, 2, octets, 11, room, sizeof room, arrivals, 2) == POLOROWAN_NO_ROOM);
    packets[1] = (struct polorowan_packet){1, 0, 0, SIZE_MAX};
    CHECK(polorowan_arrive_many(g, packets, 2, octets, 11, room, sizeof room, arrivals, 2) == POLOROWAN_NO_ROOM);
    CHECK(!polorowan_has_context(g, 1, 0) && room[0] == 0x55 && memcmp(room, room + 1, sizeof room - 1) == 0);
    CHECK(polorowan_arrive_many(g, packets, 1, octets, 11, room, POLOROWAN_ROOM(5), arrivals, 2) == POLOROWAN_ARRIVED);
    CHECK(polorowan_has_context(g, 1, 0) && arrivals[0].packet_length == 2 && room[0] == 0x45 && room[1] == 0xaa);
    CHECK(polorowan_arrive_many(g, packets, 0, octets, 11, room, 0, arrivals, 0) == POLOROWAN_ARRIVED);
    polorowan_close(g);
}

/* Reads all that a gateway shows, again and again. */
static void *reads(void *it) {
    const polorowan_gateway *g = it;
    struct polorowan_context_info context;
    uint8_t octets[256];
    uint16_t link;
    size_t count, faults = 0;
    for (unsigned turn = 0; turn < TURNS; turn++) {
        faults += !are(g, true, true) + polorowan_has_expired(g, 1, 0, 99) + !polorowan_link_at(g, 0, &link);
        faults += !polorowan_context_at(g, 1, 1, &context) || context.cid != 1;
        faults += polorowan_save(g, 60, octets, sizeof octets, &count) != POLOROWAN_SAVED;
        faults += polorowan_save_link(g, 1, 60, octets, sizeof octets, &count) != POLOROWAN_SAVED;
    }
    return faults == 0 ? it : NULL;
}

static void readers_run_at_once(void) {
    polorowan_gateway *g = with_two_contexts();
    pthread_t threads[READERS];
    void *ended;
    for (size_t i = 0; i < READERS; i++) CHECK(pthread_create(&threads[i], NULL, reads, g) == 0);
    for (size_t i = 0; i < READERS; i++) CHECK(pthread_join(threads[i], &ended) == 0 && ended == g);
    polorowan_close(g);
}

int main(int count, char **words) {
    if (count == 1) {
        opened_and_closed();
        links_come_and_go();
        links_change();
        contexts_are_forgotten();
        answers_are_counted();
        bad_answers_are_not_counted();
        one_link_is_saved();
        one_link_is_restored();
        refusals_are_told();
        many_are_as_single_ones();
        many_need_room();
    }
    readers_run_at_once();
    printf("calls while it runs%s%s: %s\n", count == 1 ? "" : ", ", count == 1 ? "" : words[1], failed ? "NOT as wanted" : "as wanted");
    return failed != 0;
}
