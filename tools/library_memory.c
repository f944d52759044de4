/*
 * Counts the memory of the library for C: what its calls ask for and don't need any more must be given back. No contract can say
 * so. bin/check library links it with --wrap for malloc, calloc, realloc and free. The octets are those of
 * docs/EXAMPLES.md.
 */
#define POLOROWAN_IN_PLACE
#include <stdio.h>
#include <stdlib.h>
#include <string.h>

#include "polorowan.h"

#define CHECK(fact) check((fact), #fact, __LINE__)

void *__real_malloc(size_t size);
void *__real_calloc(size_t count, size_t size);
void *__real_realloc(void *old, size_t size);
void __real_free(void *old);

/* Each block follows its size, in as many octets as keep it aligned. */
#define HEAD 16

/* The blocks that are live and their octets, and the number of requests that were made. */
struct memory {
    size_t blocks, octets;
};
static struct memory live;
static const struct memory none;
static unsigned long requests;

/* The request for memory that is refused, as the number of requests up to it; 0 for none. It counts down. */
static unsigned long refused;
static unsigned failed;

static void check(bool holds, const char *fact, int line) {
    if (!holds) {
        fprintf(stderr, "line %d: not so: %s\n", line, fact);
        failed++;
    }
}

static bool is_refused(void) {
    requests++;
    return refused && --refused == 0;
}

static void *counted(uint8_t *block, size_t size) {
    if (!block) return NULL;
    memcpy(block, &size, sizeof size);
    live.blocks++;
    live.octets += size;
    return block + HEAD;
}

static void *uncounted(void *at) {
    uint8_t *block = (uint8_t *)at - HEAD;
    size_t size;
    memcpy(&size, block, sizeof size);
    live.blocks--;
    live.octets -= size;
    return block;
}

void *__wrap_malloc(size_t size) { return is_refused() ? NULL : counted(__real_malloc(HEAD + size), size); }

void *__wrap_calloc(size_t count, size_t size) {
    return is_refused() ? NULL : counted(__real_calloc(1, HEAD + count * size), count * size);
}

void *__wrap_realloc(void *old, size_t size) {
    return is_refused() ? NULL : counted(__real_realloc(old ? uncounted(old) : NULL, HEAD + size), size);
}

void __wrap_free(void *old) {
    if (old) __real_free(uncounted(old));
}

/* Whether as many blocks and octets are live as then. */
static bool is_as(struct memory then) { return live.blocks == then.blocks && live.octets == then.octets; }

/* Links 0 to 256, with small CIDs in O mode: one more than a gateway takes. */
static struct polorowan_link links[POLOROWAN_LINKS + 1];

static void set_links(void) {
    memset(links, 0, sizeof links);
    for (unsigned i = 0; i <= POLOROWAN_LINKS; i++) {
        links[i].link = (uint16_t)i;
        links[i].max_cid = 15;
        links[i].optimistic = true;
        links[i].k1 = links[i].k2 = 2;
        links[i].n1 = links[i].n2 = 3;
        links[i].packet_ms = 20;
        links[i].static_nack_ms = 1000;
    }
}

/* The status of making a gateway with the first links. */
static uint8_t made(struct polorowan_gateway *g, size_t count) {
    size_t place;
    return polorowan_new(g, links, count, &place);
}

/* A whole IR of profile 0x0001, and IRs of profile 0x0000 for CID 0 and CID 5, each with a packet. */
#define WHOLE_IR                                                                                                                 \
    "\xfd\x01\x2b\x40\x11\x0a\x00\x00\x01\x0a\x00\x00\x02\x13\x88\x13\x8a\x00\x00\x00\x01\x00\x40\x00\x01\x20\x00\x00\x00\x90"     \
    "\x00\x00\x01\x00\x00\x00\xa0\x00\x09\x80\xa0\xab"
#define PLAIN_IR "\xfc\x00\xb7\x45\xaa"
#define PLAIN_IR_5 "\xe5\xfc\x00\xf2\x45\xaa"

/* The outcome of a packet. */
static uint8_t arrives(struct polorowan_gateway *g, uint16_t link, const char *octets, size_t count) {
    uint8_t packet[128], feedback[POLOROWAN_FEEDBACK_ROOM], relayed[128];
    struct polorowan_arrival arrival = {.outcome = 0x77};
    CHECK(polorowan_arrive(g, link, 0, (const uint8_t *)octets, count, packet, sizeof packet, feedback, sizeof feedback, relayed,
                      sizeof relayed, &arrival) == POLOROWAN_ARRIVED);
    return arrival.outcome;
}

/* Makes two contexts of link 0 and one of link 1. */
static void fill(struct polorowan_gateway *g) {
    CHECK(arrives(g, 0, WHOLE_IR, sizeof WHOLE_IR - 1) == POLOROWAN_DELIVERED);
    CHECK(arrives(g, 0, PLAIN_IR_5, sizeof PLAIN_IR_5 - 1) == POLOROWAN_DELIVERED);
    CHECK(arrives(g, 1, PLAIN_IR, sizeof PLAIN_IR - 1) == POLOROWAN_DELIVERED);
}

/* A gateway that is made, filled and freed leaves nothing. */
static void made_and_freed(void) {
    static const size_t counts[] = {2, 3, POLOROWAN_LINKS, 2};
    for (size_t i = 0; i < sizeof counts / sizeof counts[0]; i++) {
        struct polorowan_gateway g = {0};
        CHECK(made(&g, counts[i]) == POLOROWAN_MADE && live.blocks > 0);
        if (i > 0) fill(&g);
        polorowan_free(&g);
        CHECK(is_as(none));
        polorowan_free(&g);
        CHECK(is_as(none));
    }
}

/* A gateway that is made in place of another leaves nothing of it. */
static void made_over(void) {
    struct polorowan_gateway g = {0};
    CHECK(made(&g, 2) == POLOROWAN_MADE);
    struct memory fresh = live;
    for (size_t count = 3; count > 1; count--) {
        fill(&g);
        CHECK(made(&g, count) == POLOROWAN_MADE);
    }
    CHECK(is_as(fresh));
    polorowan_free(&g);
    CHECK(is_as(none));
}

/* Each fault, and each refused request for memory, leaves what there was. If only a hint finds no memory, the gateway is made
 * without it. */
static void not_made(struct polorowan_gateway *g) {
    struct memory then = live;
    unsigned long request = 1, poor = 0;
    CHECK(made(g, 0) == POLOROWAN_NO_LINKS && is_as(then));
    CHECK(made(g, POLOROWAN_LINKS + 1) == POLOROWAN_TOO_MANY_LINKS && is_as(then));
    links[2].range_count = POLOROWAN_RANGES + 1;
    CHECK(made(g, 3) == POLOROWAN_TOO_MANY_RANGES && is_as(then));
    links[2].range_count = 0;
    links[2].k1 = 4;
    CHECK(made(g, 3) == POLOROWAN_BAD_SETTING && is_as(then));
    links[2] = links[1];
    CHECK(made(g, 3) == POLOROWAN_DUPLICATE_LINK && is_as(then));
    set_links();
    for (;; request++) {
        refused = request;
        uint8_t status = made(g, 3);
        if (refused != 0) break;
        if (status == POLOROWAN_MADE) {
            then = live;
            continue;
        }
        CHECK(status == POLOROWAN_NO_MEMORY && is_as(then));
        poor++;
    }
    refused = 0;
    CHECK(poor > 1 && request > poor + 1);
    polorowan_free(g);
    CHECK(is_as(none));
}

/* Contexts that are forgotten and made anew take no more than before. */
static void reset(void) {
    struct polorowan_gateway g = {0};
    CHECK(made(&g, 2) == POLOROWAN_MADE);
    fill(&g);
    struct memory filled = live;
    for (int i = 0; i < 3; i++) {
        CHECK(polorowan_reset(&g, 0) == POLOROWAN_FORGOT && polorowan_reset(&g, 1) == POLOROWAN_FORGOT);
        fill(&g);
        CHECK(is_as(filled));
    }
    polorowan_free(&g);
    CHECK(is_as(none));
}

/* A first IR of which a request for memory is refused, each in turn, leaves nothing in a gateway that is freed. If only its hint
 * finds no memory, the packet is delivered. */
static void first_ir_without_memory(void) {
    unsigned long request = 1, poor = 0;
    for (bool served = false; !served; request++) {
        struct polorowan_gateway g = {0};
        CHECK(made(&g, 2) == POLOROWAN_MADE);
        refused = request;
        uint8_t outcome = arrives(&g, 0, WHOLE_IR, sizeof WHOLE_IR - 1);
        served = refused != 0;
        refused = 0;
        CHECK(outcome == POLOROWAN_DELIVERED || (outcome == 30 && !served));
        if (outcome == 30) poor++;
        polorowan_free(&g);
        CHECK(is_as(none));
    }
    CHECK(poor > 0 && request > poor + 2);
}

/* Calls that make no context ask for nothing. */
static void asks_for_nothing(void) {
    struct polorowan_gateway g = {0};
    struct polorowan_context_info context;
    uint16_t link;
    uint8_t name[POLOROWAN_NAME_ROOM];
    CHECK(made(&g, 2) == POLOROWAN_MADE);
    fill(&g);
    struct memory then = live;
    unsigned long before = requests;
    CHECK(arrives(&g, 0, "\x10\xac", 2) == POLOROWAN_DELIVERED && arrives(&g, 0, "\x11\xad", 2) == 28);
    CHECK(arrives(&g, 1, "\x45\xab", 2) == POLOROWAN_DELIVERED && arrives(&g, 1, "\xe1\x10\xac", 3) == 10);
    fill(&g);
    CHECK(polorowan_has_context(&g, 0, 5) && !polorowan_has_context(&g, 0, 6));
    CHECK(polorowan_link_at(&g, 1, &link) && !polorowan_link_at(&g, 2, &link));
    CHECK(polorowan_context_at(&g, 0, 1, &context) && !polorowan_context_at(&g, 0, 2, &context));
    CHECK(polorowan_refusal_name(30, name, sizeof name) > 0 && polorowan_refusal_name(30, name, 1) == 0);
    CHECK(polorowan_reset(&g, 2) == POLOROWAN_FORGOT_LINK);
    CHECK(requests == before && is_as(then));
    polorowan_free(&g);
    CHECK(is_as(none));
}

int main(void) {
    struct polorowan_gateway g = {0};
    set_links();
    made_and_freed();
    made_over();
    not_made(&g);
    CHECK(made(&g, 2) == POLOROWAN_MADE);
    fill(&g);
    not_made(&g);
    reset();
    first_ir_without_memory();
    asks_for_nothing();
    puts(failed ? "memory of calls: NOT as wanted" : "memory of calls as wanted");
    return failed != 0;
}
