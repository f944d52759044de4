/*
 * Calls the library for C at its limits: no gateway, each fault, buffers of exactly the bound and one less, lack of memory.
 * bin/check library links it with --wrap=malloc and --wrap=realloc. The octets are those of docs/EXAMPLES.md.
 */
#define POLOROWAN_IN_PLACE
#include <stdio.h>
#include <stdlib.h>
#include <string.h>

#include "polorowan.h"

#define CHECK(fact) check((fact), #fact, __LINE__)

void *__real_malloc(size_t size);
void *__real_realloc(void *old, size_t size);

/* The request for memory that is refused, as the number of requests up to it; 0 for none. It counts down. */
static unsigned long refused;
static unsigned failed;

void *__wrap_malloc(size_t size) { return refused && --refused == 0 ? NULL : __real_malloc(size); }

void *__wrap_realloc(void *old, size_t size) { return refused && --refused == 0 ? NULL : __real_realloc(old, size); }

static void check(bool holds, const char *fact, int line) {
    if (!holds) {
        fprintf(stderr, "line %d: not so: %s\n", line, fact);
        failed++;
    }
}

/* Link NUMBER of the worked examples, with small CIDs in O mode. */
static struct polorowan_link link_of(uint16_t number) {
    struct polorowan_link link;
    memset(&link, 0, sizeof link);
    link.link = number;
    link.max_cid = 15;
    link.optimistic = true;
    link.k1 = link.k2 = 2;
    link.n1 = link.n2 = 3;
    link.packet_ms = 20;
    link.static_nack_ms = 1000;
    return link;
}

/* The answer to an arrival, with copies of the buffers. */
struct answer {
    uint8_t status, packet[64], feedback[8], relayed[64];
    struct polorowan_arrival arrival;
};

/* A packet arrives with buffers that are smaller than their bounds by these numbers. The octet
 * after the buffers for the packet and for relayed feedback must stay as it is. */
static struct answer arrive_tight(struct polorowan_gateway *g, uint16_t link, const char *octets, size_t count, size_t packet_less,
                                  size_t feedback_less, size_t relayed_less) {
    size_t packet_room = count + POLOROWAN_HEAD_ROOM - packet_less, feedback_room = POLOROWAN_FEEDBACK_ROOM - feedback_less;
    size_t relayed_room = count - relayed_less;
    uint8_t *packet = __real_malloc(packet_room + 1), *feedback = __real_malloc(feedback_room);
    uint8_t *relayed = __real_malloc(relayed_room + 1), *copy = __real_malloc(count + 1);
    struct answer a;
    memset(&a, 0x77, sizeof a);
    memset(packet, 0x55, packet_room + 1);
    memset(feedback, 0x55, feedback_room);
    memset(relayed, 0x55, relayed_room + 1);
    memcpy(copy, octets, count);
    a.status = polorowan_arrive(g, link, 0, copy, count, packet, packet_room, feedback, feedback_room, relayed, relayed_room,
                           &a.arrival);
    CHECK(packet[packet_room] == 0x55 && relayed[relayed_room] == 0x55 && memcmp(copy, octets, count) == 0);
    memcpy(a.packet, packet, packet_room < 64 ? packet_room : 64);
    memcpy(a.feedback, feedback, feedback_room);
    memcpy(a.relayed, relayed, relayed_room < 64 ? relayed_room : 64);
    free(packet);
    free(feedback);
    free(relayed);
    free(copy);
    return a;
}

static struct answer arrive(struct polorowan_gateway *g, uint16_t link, const char *octets, size_t count) {
    return arrive_tight(g, link, octets, count, 0, 0, 0);
}

static struct polorowan_gateway gateway_of(struct polorowan_link *links, size_t count) {
    struct polorowan_gateway g = {0};
    size_t place = 7;
    CHECK(polorowan_new(&g, links, count, &place) == POLOROWAN_MADE && place == 0);
    return g;
}

/* The plain call of the worked examples: an IR of profile 0x0000 with the IP packet 45 aa. */
#define PLAIN_IR "\xfc\x00\xb7\x45\xaa"

static void without_a_concentrator(void) {
    struct polorowan_gateway g = {0};
    struct answer a;
    polorowan_free(&g);
    polorowan_free(&g);
    a = arrive(&g, 1, PLAIN_IR, 5);
    CHECK(a.status == POLOROWAN_ARRIVED_NONE && a.packet[0] == 0x55 && a.arrival.kind == 0x77);
    CHECK(polorowan_reset(&g, 1) == POLOROWAN_FORGOT_NONE);
    CHECK(!polorowan_has_context(&g, 1, 0));
}

static void freed_twice(void) {
    struct polorowan_link link = link_of(1);
    struct polorowan_gateway g = gateway_of(&link, 1);
    CHECK(arrive(&g, 1, PLAIN_IR, 5).status == POLOROWAN_ARRIVED);
    polorowan_free(&g);
    polorowan_free(&g);
    CHECK(arrive(&g, 1, PLAIN_IR, 5).status == POLOROWAN_ARRIVED_NONE);
    CHECK(!polorowan_has_context(&g, 1, 0));
}

/* Each fault, at its place. The gateway stays as it was. */
static void faults(void) {
    static struct polorowan_link links[POLOROWAN_LINKS + 1];
    struct polorowan_gateway g;
    size_t place = 7;
    for (unsigned i = 0; i <= POLOROWAN_LINKS; i++) links[i] = link_of((uint16_t)i);
    g = gateway_of(links, POLOROWAN_LINKS);
    CHECK(arrive(&g, 1, PLAIN_IR, 5).status == POLOROWAN_ARRIVED);
    CHECK(polorowan_new(&g, links, 0, &place) == POLOROWAN_NO_LINKS && place == 0);
    CHECK(polorowan_new(&g, links, POLOROWAN_LINKS + 1, &place) == POLOROWAN_TOO_MANY_LINKS && place == 0);
    links[1].k1 = 4;
    links[2].range_count = POLOROWAN_RANGES + 1;
    CHECK(polorowan_new(&g, links, 3, &place) == POLOROWAN_TOO_MANY_RANGES && place == 3);
    CHECK(polorowan_new(&g, links, 2, &place) == POLOROWAN_BAD_SETTING && place == 2);
    links[2] = links[0];
    CHECK(polorowan_new(&g, links, 3, &place) == POLOROWAN_BAD_SETTING && place == 2);
    links[1].k1 = 2;
    CHECK(polorowan_new(&g, links, 3, &place) == POLOROWAN_DUPLICATE_LINK && place == 3);
    links[2] = link_of(2);
    links[2].range_count = 1;
    links[2].ranges[0].first = 8;
    links[2].ranges[0].last = 16;
    CHECK(polorowan_new(&g, links, 3, &place) == POLOROWAN_BAD_SETTING && place == 3);
    CHECK(polorowan_has_context(&g, 1, 0) && !polorowan_has_context(&g, 2, 0));
    CHECK(polorowan_new(&g, links, 2, &place) == POLOROWAN_MADE && place == 0 && !polorowan_has_context(&g, 1, 0));
    polorowan_free(&g);
}

/* With one octet less in any buffer nothing is changed. */
static void bounds(void) {
    struct polorowan_link link = link_of(1);
    struct polorowan_gateway g = gateway_of(&link, 1);
    for (int which = 0; which < 3; which++) {
        struct answer a = arrive_tight(&g, 1, PLAIN_IR, 5, which == 0, which == 1, which == 2);
        CHECK(a.status == POLOROWAN_NO_ROOM && a.arrival.kind == 0x77 && !polorowan_has_context(&g, 1, 0));
        CHECK(a.packet[0] == 0x55 && a.feedback[0] == 0x55 && a.relayed[0] == 0x55);
    }
    struct answer a = arrive(&g, 1, PLAIN_IR, 5);
    CHECK(a.status == POLOROWAN_ARRIVED && a.arrival.kind == POLOROWAN_CONTEXT && a.arrival.outcome == POLOROWAN_DELIVERED);
    CHECK(a.arrival.cid == 0 && a.arrival.has_packet && a.arrival.packet_length == 2 && !memcmp(a.packet, "\x45\xaa", 2));
    CHECK(a.arrival.has_feedback && a.arrival.feedback_length == 2 && !memcmp(a.feedback, "\xf1\x00", 2));
    CHECK(a.arrival.relayed_count == 0 && a.arrival.relayed_length == 0);
    a = arrive(&g, 1, "", 0);
    CHECK(a.status == POLOROWAN_ARRIVED && a.arrival.kind == POLOROWAN_REFUSED && a.arrival.outcome == 1);
    polorowan_free(&g);
}

/* A relayed element, and nothing left of an earlier answer. */
static void relayed(void) {
    struct polorowan_link link = link_of(1);
    struct polorowan_gateway g = gateway_of(&link, 1);
    struct answer a = arrive(&g, 1, "\xe0\xe0\xf2\x20\x07" PLAIN_IR, 10);
    CHECK(a.arrival.relayed_count == 1 && a.arrival.relayed_length == 3 && !memcmp(a.relayed, "\x02\x20\x07", 3));
    a = arrive(&g, 1, "\xf0\x00", 2);
    CHECK(a.arrival.kind == POLOROWAN_FEEDBACK && a.arrival.relayed_count == 1 && a.arrival.relayed_length == 1);
    CHECK(a.relayed[0] == 0 && !a.arrival.has_packet && a.arrival.packet_length == 0);
    CHECK(!a.arrival.has_feedback && a.arrival.feedback_length == 0 && a.arrival.cid == 0 && a.arrival.outcome == 0);
    a = arrive(&g, 1, "\xf0", 1);
    CHECK(a.arrival.kind == POLOROWAN_REFUSED && a.arrival.outcome == 2 && a.arrival.relayed_count == 0);
    CHECK(!a.arrival.has_packet && !a.arrival.has_feedback && a.arrival.relayed_length == 0);
    polorowan_free(&g);
}

/* A range in U mode sends no feedback. A reset forgets only its own link. Gateways are independent. */
static void links_apart(void) {
    struct polorowan_link links[2] = {link_of(1), link_of(2)};
    links[0].range_count = 1;
    links[0].ranges[0].first = 4;
    links[0].ranges[0].last = 7;
    struct polorowan_gateway g = gateway_of(links, 2), other = gateway_of(links, 2);
    CHECK(!arrive(&g, 1, "\xe5\xfc\x00\xf2\x45\xaa", 6).arrival.has_feedback);
    CHECK(arrive(&g, 1, "\xe1\xfc\x00\x30\x45\xaa", 6).arrival.has_feedback);
    CHECK(arrive(&g, 2, PLAIN_IR, 5).status == POLOROWAN_ARRIVED);
    CHECK(polorowan_has_context(&g, 1, 5) && polorowan_has_context(&g, 1, 1) && polorowan_has_context(&g, 2, 0));
    CHECK(!polorowan_has_context(&g, 1, 0) && !polorowan_has_context(&other, 1, 5));
    CHECK(polorowan_reset(&g, 3) == POLOROWAN_FORGOT_LINK && polorowan_has_context(&g, 1, 5));
    CHECK(polorowan_reset(&g, 1) == POLOROWAN_FORGOT && !polorowan_has_context(&g, 1, 5) && !polorowan_has_context(&g, 1, 1));
    CHECK(polorowan_has_context(&g, 2, 0));
    CHECK(arrive(&g, 3, PLAIN_IR, 5).arrival.outcome == 29);
    polorowan_free(&g);
    polorowan_free(&other);
}

/* The static chain and the dynamic chain of the worked examples. */
#define STATIC_CHAIN "\x40\x11\x0a\x00\x00\x01\x0a\x00\x00\x02\x13\x88\x13\x8a\x00\x00\x00\x01"
#define DYNAMIC_CHAIN "\x00\x40\x00\x01\x20\x00\x00\x00\x90\x00\x00\x01\x00\x00\x00\xa0\x00\x09\x80\xa0"
#define STATIC_IR "\xfc\x01\xde" STATIC_CHAIN
#define WHOLE_IR "\xfd\x01\x2b" STATIC_CHAIN DYNAMIC_CHAIN "\xab"
#define PLAIN_IR_5 "\xe5\xfc\x00\xf2\x45\xaa"

/* Whether a packet arrives at this moment, with this outcome. */
static bool arrives(struct polorowan_gateway *g, uint64_t moment, const char *octets, size_t count, uint8_t outcome) {
    uint8_t packet[128], feedback[POLOROWAN_FEEDBACK_ROOM], relayed[128];
    struct polorowan_arrival arrival;
    return polorowan_arrive(g, 1, moment, (const uint8_t *)octets, count, packet, sizeof packet, feedback, sizeof feedback, relayed,
                       sizeof relayed, &arrival) == POLOROWAN_ARRIVED && arrival.outcome == outcome;
}

/* Whether this context stands at the place on link 1. */
static bool is_context(struct polorowan_gateway *g, size_t place, uint16_t cid, uint16_t profile, uint8_t state,
                       uint64_t accepted) {
    struct polorowan_context_info context;
    memset(&context, 0x77, sizeof context);
    return polorowan_context_at(g, 1, place, &context) && context.cid == cid && context.profile == profile &&
           context.state == state && context.accepted == accepted;
}

/* The links in their order by place, and contexts in the order of their first IR. */
static void places(void) {
    struct polorowan_link links[2] = {link_of(7), link_of(1)};
    struct polorowan_gateway g = gateway_of(links, 2), none = {0};
    struct polorowan_context_info context = {.cid = 0x77};
    uint16_t link = 0x77;
    CHECK(!polorowan_link_at(&none, 0, &link) && !polorowan_context_at(&none, 1, 0, &context) && link == 0x77 && context.cid == 0x77);
    CHECK(polorowan_link_at(&g, 0, &link) && link == 7 && polorowan_link_at(&g, 1, &link) && link == 1);
    CHECK(!polorowan_link_at(&g, 2, &link) && !polorowan_link_at(&g, SIZE_MAX, &link) && link == 1);
    CHECK(!polorowan_context_at(&g, 1, 0, &context) && context.cid == 0x77);
    CHECK(arrives(&g, 5, STATIC_IR, sizeof STATIC_IR - 1, POLOROWAN_STORED));
    CHECK(arrives(&g, 6, PLAIN_IR_5, sizeof PLAIN_IR_5 - 1, POLOROWAN_DELIVERED));
    CHECK(is_context(&g, 0, 0, 0x0001, POLOROWAN_STATIC_CONTEXT, 5) && is_context(&g, 1, 5, 0x0000, POLOROWAN_FULL_CONTEXT, 6));
    CHECK(!polorowan_context_at(&g, 1, 2, &context) && !polorowan_context_at(&g, 7, 0, &context) && !polorowan_context_at(&g, 2, 0, &context));
    CHECK(!polorowan_context_at(&g, 1, SIZE_MAX, &context) && context.cid == 0x77);
    CHECK(arrives(&g, 7, WHOLE_IR, sizeof WHOLE_IR - 1, POLOROWAN_DELIVERED));
    CHECK(is_context(&g, 0, 0, 0x0001, POLOROWAN_FULL_CONTEXT, 7) && is_context(&g, 1, 5, 0x0000, POLOROWAN_FULL_CONTEXT, 6));
    CHECK(polorowan_reset(&g, 1) == POLOROWAN_FORGOT && !polorowan_context_at(&g, 1, 0, &context));
    polorowan_free(&g);
    CHECK(!polorowan_link_at(&g, 0, &link));
}

static void names(void) {
    uint8_t name[POLOROWAN_NAME_ROOM];
    CHECK(polorowan_refusal_name(1, name, sizeof name) == 5 && !strcmp((char *)name, "Empty"));
    CHECK(polorowan_refusal_name(16, name, sizeof name) == 13 && !strcmp((char *)name, "ExtensionList"));
    CHECK(polorowan_refusal_name(30, name, sizeof name) == 8 && !strcmp((char *)name, "NoMemory"));
    CHECK(polorowan_refusal_name(29, name, 7) == 6 && !strcmp((char *)name, "NoLink"));
    memset(name, 0x55, sizeof name);
    CHECK(polorowan_refusal_name(29, name, 6) == 0 && polorowan_refusal_name(29, name, 0) == 0);
    CHECK(polorowan_refusal_name(0, name, sizeof name) == 0 && polorowan_refusal_name(31, name, sizeof name) == 0);
    for (size_t i = 0; i < sizeof name; i++) CHECK(name[i] == 0x55);
}

/* Each request for memory of polorowan_new is refused in turn, and then that of a first IR. Everything stays as it was. If only a
 * hint finds no memory, the gateway is made without it. */
static void want_of_memory(void) {
    struct polorowan_link links[2] = {link_of(1), link_of(2)};
    struct polorowan_gateway g = gateway_of(links, 2);
    size_t place = 7;
    unsigned long request = 1, poor = 0;
    CHECK(arrive(&g, 1, PLAIN_IR, 5).status == POLOROWAN_ARRIVED);
    for (;; request++) {
        refused = request;
        uint8_t made = polorowan_new(&g, links, 2, &place);
        if (refused != 0) break;
        if (made == POLOROWAN_MADE) {
            CHECK(!polorowan_has_context(&g, 1, 0) && arrive(&g, 1, PLAIN_IR, 5).status == POLOROWAN_ARRIVED);
        } else {
            CHECK(made == POLOROWAN_NO_MEMORY && place == 0);
            poor++;
        }
        CHECK(polorowan_has_context(&g, 1, 0));
    }
    CHECK(poor > 1 && request > poor + 1 && !polorowan_has_context(&g, 1, 0));
    refused = 1;
    struct answer a = arrive(&g, 1, PLAIN_IR, 5);
    CHECK(refused == 0 && a.status == POLOROWAN_ARRIVED && a.arrival.kind == POLOROWAN_CONTEXT && a.arrival.outcome == 30);
    CHECK(!a.arrival.has_packet && !a.arrival.has_feedback && !polorowan_has_context(&g, 1, 0));
    refused = 0;
    CHECK(arrive(&g, 1, PLAIN_IR, 5).arrival.outcome == POLOROWAN_DELIVERED);
    polorowan_free(&g);
}

/* The octets of a gateway, saved at this moment, in a block of exactly their number. */
static uint8_t *saved(struct polorowan_gateway *g, uint64_t moment, size_t *count) {
    uint8_t one = 0x55, *octets;
    CHECK(polorowan_save(g, moment, &one, 0, count) == POLOROWAN_SAVED_NO_ROOM && one == 0x55);
    octets = __real_malloc(*count);
    memset(octets, 0x55, *count);
    CHECK(polorowan_save(g, moment, octets, *count - 1, count) == POLOROWAN_SAVED_NO_ROOM && octets[0] == 0x55);
    CHECK(polorowan_save(g, moment, octets, *count, count) == POLOROWAN_SAVED);
    return octets;
}

/* What is saved of a plain call on the first of two links: 21 octets, 8 for each link, 11 for the context, a digest of 32. */
static void saved_and_restored(void) {
    struct polorowan_link links[3] = {link_of(1), link_of(2), link_of(3)};
    struct polorowan_gateway g = gateway_of(links, 2), other = {0};
    struct polorowan_restored told = {.links = 0x77};
    size_t count = 7, place = 7;
    uint8_t *octets, one = 0x55;
    CHECK(polorowan_save(&other, 5, &one, 1, &count) == POLOROWAN_SAVED_NONE && count == 7 && one == 0x55);
    CHECK(arrives(&g, 3, PLAIN_IR, 5, POLOROWAN_DELIVERED));
    octets = saved(&g, 5, &count);
    CHECK(count == 21 + 2 * 8 + 11 + 32 && !memcmp(octets, "Polorowan\0\1\0\0\0\0\0\0\0\5\0\2\0\1", 23));
    CHECK(polorowan_restore(&other, links, 3, octets, count, &told, &place) == POLOROWAN_MADE && place == 0);
    CHECK(told.moment == 5 && told.links == 2 && told.contexts == 1 && told.unknown_links == 0 && told.other_links == 0);
    CHECK(told.left_contexts == 0 && told.high_contexts == 0 && is_context(&other, 0, 0, 0x0000, POLOROWAN_FULL_CONTEXT, 3));
    CHECK(polorowan_restore(&other, links + 1, 1, octets, count, &told, &place) == POLOROWAN_MADE);
    CHECK(told.links == 1 && told.unknown_links == 1 && told.contexts == 0 && told.left_contexts == 1);
    links[0].large = true;
    CHECK(polorowan_restore(&other, links, 2, octets, count, &told, &place) == POLOROWAN_MADE);
    CHECK(told.links == 1 && told.other_links == 1 && told.left_contexts == 1 && !polorowan_has_context(&other, 1, 0));
    links[0].large = false;
    told.links = 0x77;
    CHECK(polorowan_restore(&g, links, 0, octets, count, &told, &place) == POLOROWAN_NO_LINKS && place == 0);
    CHECK(polorowan_restore(&g, links, 2, octets, count - 1, &told, &place) == POLOROWAN_SHORT && place == count - 1);
    octets[0] ^= 1;
    CHECK(polorowan_restore(&g, links, 2, octets, count, &told, &place) == POLOROWAN_NOT_SAVED && place == 0);
    octets[0] ^= 1;
    octets[10] = 2;
    CHECK(polorowan_restore(&g, links, 2, octets, count, &told, &place) == POLOROWAN_VERSION && place == 9);
    octets[10] = 1;
    octets[18] ^= 1;
    CHECK(polorowan_restore(&g, links, 2, octets, count, &told, &place) == POLOROWAN_DIGEST && place == count - 32);
    CHECK(told.links == 0x77 && is_context(&g, 0, 0, 0x0000, POLOROWAN_FULL_CONTEXT, 3));
    octets[18] ^= 1;
    for (unsigned long request = 1;; request++) {
        refused = request;
        uint8_t made = polorowan_restore(&other, links, 2, octets, count, &told, &place);
        if (refused != 0) break;
        if (made == POLOROWAN_MADE) {
            CHECK(polorowan_has_context(&other, 1, 0) && told.links == 2);
            polorowan_free(&other);
            told.links = 0x77;
            continue;
        }
        CHECK(made == POLOROWAN_NO_MEMORY && place == 0 && !polorowan_has_context(&other, 1, 0) && told.links == 0x77);
    }
    refused = 1;
    CHECK(polorowan_has_context(&other, 1, 0) && polorowan_save(&g, 5, &one, 1, &place) == POLOROWAN_SAVED_NO_MEMORY && one == 0x55);
    refused = 0;
    free(octets);
    polorowan_free(&g);
    polorowan_free(&other);
}

/* While requests for memory are refused, a link that isn't restored stays empty, and another link stays as it was. */
static void one_link_restored(void) {
    struct polorowan_link links[2] = {link_of(1), link_of(2)};
    struct polorowan_gateway g = gateway_of(links, 2), none = {0};
    struct polorowan_restored told = {.links = 0x77};
    size_t count = 0, place = 7;
    uint8_t octets[256];
    CHECK(polorowan_restore_link(&none, 1, octets, 1, &told, &place) == POLOROWAN_RESTORED_NONE && place == 7);
    CHECK(arrives(&g, 3, PLAIN_IR, 5, POLOROWAN_DELIVERED));
    CHECK(polorowan_save_link(&g, 1, 5, octets, sizeof octets, &count) == POLOROWAN_SAVED);
    CHECK(polorowan_remove_link(&g, 1, &place) == POLOROWAN_FORGOT && polorowan_add_link(&g, &links[0]) == POLOROWAN_LINKED);
    CHECK(arrive(&g, 2, PLAIN_IR, 5).status == POLOROWAN_ARRIVED);
    unsigned long request = 1;
    for (;; request++) {
        refused = request;
        uint8_t made = polorowan_restore_link(&g, 1, octets, count, &told, &place);
        if (refused != 0) break;
        CHECK(made == POLOROWAN_RESTORED_NO_MEMORY && place == 0 && !polorowan_has_context(&g, 1, 0) && told.links == 0x77);
    }
    refused = 0;
    CHECK(request > 3 && told.links == 1 && told.contexts == 1 && polorowan_has_context(&g, 2, 0));
    CHECK(is_context(&g, 0, 0, 0x0000, POLOROWAN_FULL_CONTEXT, 3));
    polorowan_free(&g);
}

int main(void) {
    without_a_concentrator();
    freed_twice();
    faults();
    bounds();
    relayed();
    links_apart();
    places();
    names();
    want_of_memory();
    saved_and_restored();
    one_link_restored();
    puts(failed ? "calls at the edges: NOT as wanted" : "calls at the edges as wanted");
    return failed != 0;
}
