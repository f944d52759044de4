/*
 * What libFuzzer calls with each input: a run of the library for C on two links, one of small and one of large CIDs.
 *
 * An input is an octet of settings, and then events. An event is an octet of flags, an octet that is the length of a
 * packet, and the packet:
 *
 *   01     the link of large CIDs, else of small ones
 *   02     the link is reset before
 *   04     an IR or IR-DYN at the start of the packet gets its right check, if its chains end within the packet
 *   08     the call is made first with a buffer that is an octet too short
 *   30     milliseconds since the event before: 0, 20, 400 or 70,000
 *   40     the concentrator is saved and restored before, and goes on from there
 *   80     what was saved is also restored with one octet changed, which the packet says, and must be refused
 *
 * The answers are judged by what must hold of all of them (judge_*). Then each pair of a link and a CID is run apart,
 * in a gateway of its own, and must be answered as before. What the answers are is also what libFuzzer is told to vary,
 * beside the counters that the library has if it was built with them.
 */
#define POLOROWAN_IN_PLACE
#include <stdbool.h>
#include <stdint.h>
#include <stdio.h>
#include <stdlib.h>
#include <string.h>

#include "polorowan.h"

#define HOLDS(fact) ((fact) ? (void)0 : broken(#fact, __LINE__))

enum { EVENTS = 96, LONGEST = 255, GUARD = 8, COUNTERS = 4096, SAVED = 16384 };
enum { LARGE = 0x01, RESET = 0x02, FIX = 0x04, NO_ROOM = 0x08, SAVE = 0x40, BEND = 0x80 };
enum { SMALL_CIDS = 16, ADD_CID = 0xe0, IR_DYN = 0xf8, IR = 0xfc, IR_WITH_DYNAMIC = 0xfd };

/* libFuzzer reads these as it reads counters of code. */
__attribute__((section("__libfuzzer_extra_counters"))) static uint8_t counters[COUNTERS];

/* An answer with all that it has. */
struct answer {
    struct polorowan_arrival arrival;
    uint8_t packet[LONGEST + POLOROWAN_HEAD_ROOM], feedback[POLOROWAN_FEEDBACK_ROOM], relayed[LONGEST];
};

/* An event, and what became of it. */
struct event {
    uint8_t flags, count, octets[LONGEST];
    uint64_t moment;
    struct answer answer;
};

static struct event events[EVENTS];
static size_t event_count;

static void broken(const char *fact, int line) {
    fprintf(stderr, "target.c:%d: not so: %s\n", line, fact);
    abort();
}

static void vary(unsigned what, unsigned value) { counters[(what * 1021 + value * 31) % COUNTERS] = 1; }

static uint8_t crc8(uint8_t register_, const uint8_t *octets, size_t count) {
    for (size_t i = 0; i < count; i++) {
        register_ ^= octets[i];
        for (int bit = 0; bit < 8; bit++) register_ = register_ & 1 ? (register_ >> 1) ^ 0xe0 : register_ >> 1;
    }
    return register_;
}

static struct polorowan_link link_of(uint8_t settings, bool large) {
    static const uint32_t idle[] = {0, 500, 60000, 1000000};
    struct polorowan_link link;
    memset(&link, 0, sizeof link);
    link.link = large;
    link.large = large;
    link.max_cid = large ? 16383 : 15;
    link.optimistic = settings & 1;
    link.n1 = link.n2 = settings & 2 ? 3 : 8;
    link.k1 = settings & 4 ? 1 : 2;
    link.k2 = settings & 8 ? 1 : 2;
    link.packet_ms = 20;
    link.static_nack_ms = settings & 16 ? 0 : 1000;
    link.idle_ms = idle[settings >> 5 & 3];
    if (settings & 128) {
        /* From this CID on the mode is the other one. */
        link.range_count = 1;
        link.ranges[0].first = 2;
        link.ranges[0].last = link.max_cid;
        link.ranges[0].optimistic = !link.optimistic;
    }
    return link;
}

static void open_gateway(struct polorowan_gateway *gateway, uint8_t settings) {
    struct polorowan_link links[2] = {link_of(settings, false), link_of(settings, true)};
    size_t place;
    memset(gateway, 0, sizeof *gateway);
    HOLDS(polorowan_new(gateway, links, 2, &place) == POLOROWAN_MADE && place == 0);
}

/* The octets of a large CID. */
static size_t cid_length(const uint8_t *octets) { return octets[0] & 0x80 ? 2 : 1; }

/* Where the chains of an IR or IR-DYN end: 0 if they aren't all there. */
static size_t end_of_chains(uint8_t type, const uint8_t *chains, size_t count) {
    size_t at = type == IR_DYN ? 0 : 18;
    if (type == IR) return at <= count ? at : 0;
    if (count < at + 17) return 0;
    bool more = chains[at + 8] & 0x10;
    at += 17;
    if (!more) return at;
    if (count < at + 1) return 0;
    uint8_t given = chains[at++];
    for (int which = 1; which >= 0; which--) {
        if (!(given >> which & 1) && which == 1) continue;
        if (!(given & 1) && which == 0) continue;
        if (at >= count) return 0;
        at += chains[at] < 0x80 ? 1 : chains[at] < 0xc0 ? 2 : chains[at] < 0xe0 ? 3 : 4;
    }
    return at <= count ? at : 0;
}

/* Writes the right check into an IR or IR-DYN that starts the packet. */
static void fix_check(struct event *event) {
    uint8_t *octets = event->octets;
    size_t at = 0, count = event->count;
    bool large = event->flags & LARGE;
    if (!large && count > 0 && octets[0] > ADD_CID && octets[0] < ADD_CID + SMALL_CIDS) at = 1;
    if (count < at + 5) return;
    uint8_t type = octets[at];
    if (type != IR && type != IR_WITH_DYNAMIC && type != IR_DYN) return;
    size_t profile = at + 1 + (large ? cid_length(octets + at + 1) : 0), check = profile + 1;
    if (check >= count) return;
    size_t chains = octets[profile] == 1 ? end_of_chains(type, octets + check + 1, count - check - 1) : 0;
    if (octets[profile] == 1 && chains == 0) return;
    octets[check] = 0;
    octets[check] = crc8(0xff, octets, check + 1 + chains);
}

/* Reads the events of an input. */
static void read_events(const uint8_t *data, size_t size) {
    static const uint64_t steps[] = {0, 20, 400, 70000};
    uint64_t moment = 0;
    event_count = 0;
    while (size >= 2 && event_count < EVENTS) {
        struct event *event = &events[event_count++];
        memset(event, 0, sizeof *event);
        event->flags = data[0];
        event->count = data[1] < size - 2 ? data[1] : (uint8_t)(size - 2);
        memcpy(event->octets, data + 2, event->count);
        data += 2 + event->count;
        size -= 2 + event->count;
        moment += steps[event->flags >> 4 & 3];
        event->moment = moment;
        if (event->flags & FIX) fix_check(event);
    }
}

/* The state of the context of a CID: 0 for none, else one more than its number in enum polorowan_state, and 4 for profile 0. */
static unsigned state_of(struct polorowan_gateway *gateway, uint16_t link, uint16_t cid) {
    struct polorowan_context_info context;
    for (size_t place = 0; polorowan_context_at(gateway, link, place, &context); place++) {
        if (context.cid == cid) return context.profile == 0 ? 4 : 1u + context.state;
    }
    return 0;
}

/* Makes the call of an event with buffers of these lengths. Octets behind their ends must stay. */
static uint8_t arrive(struct polorowan_gateway *gateway, const struct event *event, struct answer *answer, size_t less) {
    static uint8_t packet[LONGEST + POLOROWAN_HEAD_ROOM + GUARD], feedback[POLOROWAN_FEEDBACK_ROOM + GUARD], relayed[LONGEST + GUARD];
    uint8_t octets[LONGEST + 1];
    size_t rooms[3] = {event->count + (size_t)POLOROWAN_HEAD_ROOM, POLOROWAN_FEEDBACK_ROOM, event->count};
    memset(answer, 0, sizeof *answer);
    memset(packet, 0x55, sizeof packet);
    memset(feedback, 0x55, sizeof feedback);
    memset(relayed, 0x55, sizeof relayed);
    memcpy(octets, event->octets, event->count);
    rooms[0] -= less;
    uint8_t status = polorowan_arrive(gateway, event->flags & LARGE, event->moment, octets, event->count, packet, rooms[0],
                                 feedback, rooms[1], relayed, rooms[2], &answer->arrival);
    HOLDS(memcmp(octets, event->octets, event->count) == 0);
    for (size_t i = 0; i < GUARD; i++) {
        HOLDS(packet[rooms[0] + i] == 0x55 && feedback[rooms[1] + i] == 0x55 && relayed[rooms[2] + i] == 0x55);
    }
    if (status != POLOROWAN_ARRIVED) return status;
    const struct polorowan_arrival *a = &answer->arrival;
    HOLDS(a->packet_length <= rooms[0] && a->feedback_length <= rooms[1] && a->relayed_length <= rooms[2]);
    memcpy(answer->packet, packet, a->packet_length);
    memcpy(answer->feedback, feedback, a->feedback_length);
    memcpy(answer->relayed, relayed, a->relayed_length);
    return status;
}

static unsigned sum16(const uint8_t *octets, size_t count) {
    unsigned long sum = 0;
    for (size_t i = 0; i + 1 < count; i += 2) sum += (unsigned)octets[i] << 8 | octets[i + 1];
    while (sum >> 16) sum = (sum & 0xffff) + (sum >> 16);
    return (unsigned)sum;
}

/* The header of a packet of profile 0x0001: its lengths, its checksum, and what never changes in it. */
static void judge_header(const uint8_t *packet, size_t length) {
    HOLDS(length >= 40 && packet[0] == 0x45 && packet[9] == 17 && packet[28] >> 6 == 2);
    HOLDS(((unsigned)packet[2] << 8 | packet[3]) == length);
    HOLDS(((unsigned)packet[24] << 8 | packet[25]) == length - 20);
    HOLDS(sum16(packet, 20) == 0xffff);
}

/* An element of feedback: its length, its CID, and its check. */
static void judge_feedback(const struct event *event) {
    const struct answer *answer = &event->answer;
    const uint8_t *data = answer->feedback + 1;
    size_t length = answer->arrival.feedback_length, at = 0;
    uint16_t cid = answer->arrival.cid;
    HOLDS(length >= 2 && answer->feedback[0] == 0xf0 + length - 1);
    if (event->flags & LARGE) {
        at = cid_length(data);
        HOLDS((at == 1 ? data[0] : ((unsigned)data[0] & 0x3f) << 8 | data[1]) == cid);
    } else if (cid > 0) {
        HOLDS(data[at++] == ADD_CID + cid);
    }
    if (length - 1 == at + 1) {
        HOLDS(data[at] == 0);
        return;
    }
    uint8_t check = data[length - 2], covered[POLOROWAN_FEEDBACK_ROOM];
    memcpy(covered, data, length - 1);
    covered[length - 2] = 0;
    HOLDS(data[at] >> 6 < 3 && (data[at] >> 4 & 3) == 2 && data[length - 3] == 0x11);
    HOLDS(crc8(0xff, covered, length - 1) == check);
}

/* The elements that are handed on. */
static void judge_relayed(const struct answer *answer) {
    size_t at = 0, count = 0;
    for (; at < answer->arrival.relayed_length; count++) at += 1u + answer->relayed[at];
    HOLDS(at == answer->arrival.relayed_length && count == answer->arrival.relayed_count);
}

/* The answer to an event, by the state of its context before and after. */
static void judge(const struct event *event, unsigned before, unsigned after) {
    const struct polorowan_arrival *a = &event->answer.arrival;
    HOLDS(a->kind <= POLOROWAN_REFUSED && a->outcome <= POLOROWAN_STORED);
    judge_relayed(&event->answer);
    if (a->kind != POLOROWAN_CONTEXT) {
        HOLDS(a->cid == 0 && !a->has_packet && !a->has_feedback);
        HOLDS((a->kind == POLOROWAN_FEEDBACK) == (a->outcome == POLOROWAN_DELIVERED) && a->outcome != POLOROWAN_STORED);
        return;
    }
    HOLDS(a->has_packet == (a->outcome == POLOROWAN_DELIVERED));
    HOLDS(a->has_packet || a->packet_length == 0);
    HOLDS(a->has_feedback == (a->feedback_length > 0));
    if (a->has_packet && after != 4) judge_header(event->answer.packet, a->packet_length);
    if (a->has_packet) HOLDS(after >= 3);
    if (a->outcome == POLOROWAN_STORED) HOLDS(after == 2 || after == 4);
    if (a->outcome != POLOROWAN_DELIVERED && a->outcome != POLOROWAN_STORED) HOLDS(after <= before && (before == 4) == (after == 4));
    if (a->has_feedback) judge_feedback(event);
}

static size_t contexts_of(struct polorowan_gateway *gateway, uint16_t link) {
    struct polorowan_context_info context;
    size_t place = 0;
    while (polorowan_context_at(gateway, link, place, &context)) place++;
    return place;
}

/* Saves a gateway into a buffer of exactly the length that it needs. With an octet less nothing is written. */
static size_t save(struct polorowan_gateway *gateway, uint64_t moment, uint8_t *octets) {
    size_t needed = 0, count = 0;
    memset(octets, 0x55, SAVED);
    HOLDS(polorowan_save(gateway, moment, octets, 1, &needed) == POLOROWAN_SAVED_NO_ROOM && needed > 1 && needed < SAVED);
    HOLDS(polorowan_save(gateway, moment, octets, needed - 1, &count) == POLOROWAN_SAVED_NO_ROOM && count == needed);
    for (size_t i = 0; i < needed; i++) HOLDS(octets[i] == 0x55);
    HOLDS(polorowan_save(gateway, moment, octets, needed, &count) == POLOROWAN_SAVED && count == needed);
    for (size_t i = 0; i < GUARD; i++) HOLDS(octets[needed + i] == 0x55);
    return count;
}

/* What was saved is refused with one octet changed, and the gateway stays without a concentrator. */
static void restore_bent(const struct event *event, const struct polorowan_link *links, const uint8_t *saved, size_t count) {
    static uint8_t bent[SAVED];
    struct polorowan_gateway gateway = {0};
    struct polorowan_restored restored;
    size_t place, at = ((size_t)event->octets[0] << 8 | event->octets[1]) % count;
    memcpy(bent, saved, count);
    bent[at] ^= event->octets[2] ? event->octets[2] : 1;
    uint8_t status = polorowan_restore(&gateway, links, 2, bent, count, &restored, &place);
    HOLDS(status >= POLOROWAN_NOT_SAVED && status <= POLOROWAN_LONG && place <= count);
    HOLDS(polorowan_reset(&gateway, 0) == POLOROWAN_FORGOT_NONE);
    HOLDS(polorowan_restore(&gateway, links, 2, saved, count - 1, &restored, &place) == POLOROWAN_SHORT);
    vary(4, status);
}

/* Saves and restores a gateway. All contexts are taken, and saved again they are the same octets. */
static void save_and_restore(const struct event *event, uint8_t settings, struct polorowan_gateway *gateway) {
    static uint8_t saved[SAVED], again[SAVED];
    struct polorowan_link links[2] = {link_of(settings, false), link_of(settings, true)};
    struct polorowan_restored restored;
    size_t place, contexts = contexts_of(gateway, 0) + contexts_of(gateway, 1);
    size_t count = save(gateway, event->moment, saved);
    if (event->flags & BEND) restore_bent(event, links, saved, count);
    polorowan_free(gateway);
    HOLDS(polorowan_restore(gateway, links, 2, saved, count, &restored, &place) == POLOROWAN_MADE && place == 0);
    HOLDS(restored.moment == event->moment && restored.links == 2 && restored.contexts == contexts);
    HOLDS(restored.unknown_links + restored.other_links + restored.left_contexts + restored.high_contexts == 0);
    HOLDS(save(gateway, event->moment, again) == count && memcmp(saved, again, count) == 0);
    vary(5, (unsigned)contexts);
}

/* Runs the events of an input in one gateway. */
static void run(uint8_t settings) {
    struct polorowan_gateway gateway;
    struct answer none;
    open_gateway(&gateway, settings);
    for (struct event *event = events; event < events + event_count; event++) {
        uint16_t link = event->flags & LARGE;
        unsigned before[SMALL_CIDS];
        if (event->flags & RESET) {
            struct polorowan_context_info context;
            HOLDS(polorowan_reset(&gateway, link) == POLOROWAN_FORGOT && !polorowan_context_at(&gateway, link, 0, &context));
        }
        if (event->flags & SAVE) save_and_restore(event, settings, &gateway);
        if (event->flags & NO_ROOM) HOLDS(arrive(&gateway, event, &none, 1) == POLOROWAN_NO_ROOM);
        for (uint16_t cid = 0; cid < SMALL_CIDS; cid++) before[cid] = state_of(&gateway, link, cid);
        HOLDS(arrive(&gateway, event, &event->answer, 0) == POLOROWAN_ARRIVED);
        const struct polorowan_arrival *a = &event->answer.arrival;
        if (a->kind != POLOROWAN_CONTEXT || a->cid < SMALL_CIDS) {
            unsigned after = a->kind == POLOROWAN_CONTEXT ? state_of(&gateway, link, a->cid) : 0;
            unsigned held = a->kind == POLOROWAN_CONTEXT ? before[a->cid] : 0;
            judge(event, held, after);
            vary(1, held * 8 + after + 64 * a->outcome + 2048 * a->has_feedback);
            vary(2, after + 8 * (a->has_feedback ? event->answer.feedback[a->feedback_length > 4] : 0) + 4096u * link);
            vary(3, a->kind + 4u * (a->relayed_count < 4 ? (unsigned)a->relayed_count : 4) + 32u * a->outcome);
        }
        for (uint16_t cid = 0; cid < SMALL_CIDS; cid++) {
            bool is_own = a->kind == POLOROWAN_CONTEXT && a->cid == cid;
            if (!is_own) HOLDS(state_of(&gateway, link, cid) == before[cid]);
        }
    }
    polorowan_free(&gateway);
}

static bool is_same(const struct answer *one, const struct answer *other) {
    const struct polorowan_arrival *a = &one->arrival, *b = &other->arrival;
    return a->kind == b->kind && a->outcome == b->outcome && a->cid == b->cid && a->has_packet == b->has_packet &&
           a->has_feedback == b->has_feedback && a->packet_length == b->packet_length &&
           a->feedback_length == b->feedback_length && a->relayed_length == b->relayed_length &&
           a->relayed_count == b->relayed_count && memcmp(one->packet, other->packet, sizeof one->packet) == 0 &&
           memcmp(one->feedback, other->feedback, sizeof one->feedback) == 0 &&
           memcmp(one->relayed, other->relayed, sizeof one->relayed) == 0;
}

/* Runs the events of one pair apart, with the resets of its link. They must be answered as they were among all others. */
static void run_apart(uint8_t settings, uint16_t link, uint16_t cid) {
    struct polorowan_gateway gateway;
    struct answer answer;
    open_gateway(&gateway, settings);
    for (const struct event *event = events; event < events + event_count; event++) {
        if ((event->flags & LARGE) != link) continue;
        if (event->flags & RESET) HOLDS(polorowan_reset(&gateway, link) == POLOROWAN_FORGOT);
        if (event->answer.arrival.kind != POLOROWAN_CONTEXT || event->answer.arrival.cid != cid) continue;
        HOLDS(arrive(&gateway, event, &answer, 0) == POLOROWAN_ARRIVED && is_same(&answer, &event->answer));
    }
    polorowan_free(&gateway);
}

int LLVMFuzzerTestOneInput(const uint8_t *data, size_t size) {
    if (size == 0) return 0;
    read_events(data + 1, size - 1);
    run(data[0]);
    for (size_t i = 0; i < event_count; i++) {
        const struct polorowan_arrival *a = &events[i].answer.arrival;
        uint16_t link = events[i].flags & LARGE;
        bool is_first = a->kind == POLOROWAN_CONTEXT;
        for (size_t earlier = 0; earlier < i && is_first; earlier++) {
            const struct event *other = &events[earlier];
            is_first = (other->flags & LARGE) != link || other->answer.arrival.kind != POLOROWAN_CONTEXT ||
                       other->answer.arrival.cid != a->cid;
        }
        if (is_first) run_apart(data[0], link, a->cid);
    }
    return 0;
}
