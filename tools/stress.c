/* Stresses the library for C with a script:  stress LINKS SEED < SCRIPT
 *
 * LINKS is the output of tools/link_lines.py for a links file. One gateway takes each packet by itself. A second takes the same
 * packets, by themselves or many in a call, while requests for memory are refused, and is saved and restored between. Both must
 * answer alike, but for NoMemory at a first IR, which must change nothing; and both must be saved as the same octets. Each packet
 * and each buffer of a call stands between guard pages, at the end or at the start of its room, and so does each block that the
 * library asks for. In the end it must have given all back. tools/stress builds and runs it. */
#define _GNU_SOURCE
#define POLOROWAN_IN_PLACE
#include <sys/mman.h>
#include <unistd.h>

#include "../examples/link_lines.h"

#define HOLDS(fact) holds((fact), #fact, __LINE__)

enum { LONGEST = 65535, LINE = 131202, MANY = 32, SAVED = 1 << 21, PATTERN = 0xa5, ALIGNED = 16, NO_MEMORY = 30 };

static unsigned long line_number, taken, refusals, saves, batches;

static void holds(bool fact, const char *text, int line) {
    if (fact) return;
    fprintf(stderr, "stress: line %lu of the script, tools/stress.c:%d: not so: %s\n", line_number, line, text);
    _exit(1);
}

/* A number below another, by xorshift. */
static uint64_t dice(uint64_t below) {
    static uint64_t state = 0x9e3779b97f4a7c15;
    if (below == 0) return state = 0x9e3779b97f4a7c15; /* begins anew */
    state ^= state << 13;
    state ^= state >> 7;
    state ^= state << 17;
    return state % below;
}

/* ---- Memory between guard pages */

static size_t page_size(void) { return (size_t)sysconf(_SC_PAGESIZE); }

static size_t whole_pages(size_t size) { return (size + page_size() - 1) / page_size() * page_size(); }

/* Room of whole pages, with a page before and one behind that can't be touched. */
static uint8_t *guarded(size_t size) {
    uint8_t *at = mmap(NULL, whole_pages(size) + 2 * page_size(), PROT_NONE, MAP_PRIVATE | MAP_ANONYMOUS, -1, 0);
    HOLDS(at != MAP_FAILED && mprotect(at + page_size(), whole_pages(size), PROT_READ | PROT_WRITE) == 0);
    return at + page_size();
}

/* A place for so many octets in a room of this size: at its end, or at its start. */
static uint8_t *placed(uint8_t *room, size_t size, size_t count) {
    return dice(4) == 0 ? room : room + whole_pages(size) - count;
}

/* A block of the library's: it ends at a guard page, but for what aligns it, and its size stands in a table. */
struct block {
    uint8_t *at;
    size_t size;
};
static struct block blocks[4096];
static size_t block_count;
/* How many requests are still answered before one is refused; negative for all. */
static long until_refused = -1;

static bool is_refused(void) {
    if (until_refused < 0 || until_refused-- > 0) return false;
    refusals++;
    return true;
}

static size_t aligned(size_t size) { return (size + ALIGNED - 1) / ALIGNED * ALIGNED; }

void *__wrap_malloc(size_t size);
void *__wrap_calloc(size_t count, size_t size);
void *__wrap_realloc(void *old, size_t size);
void __wrap_free(void *old);

void *__wrap_malloc(size_t size) {
    if (is_refused()) return NULL;
    HOLDS(block_count < sizeof blocks / sizeof *blocks);
    uint8_t *at = guarded(size) + whole_pages(size) - aligned(size);
    memset(at, PATTERN, aligned(size));
    blocks[block_count++] = (struct block){at, size};
    return at;
}

void __wrap_free(void *old) {
    if (!old) return;
    size_t i = 0;
    while (i < block_count && blocks[i].at != old) i++;
    HOLDS(i < block_count);
    struct block block = blocks[i];
    blocks[i] = blocks[--block_count];
    for (size_t k = block.size; k < aligned(block.size); k++) HOLDS(block.at[k] == PATTERN);
    uint8_t *start = block.at + aligned(block.size) - whole_pages(block.size) - page_size();
    HOLDS(munmap(start, whole_pages(block.size) + 2 * page_size()) == 0);
}

void *__wrap_calloc(size_t count, size_t size) {
    void *at = __wrap_malloc(count * size);
    return at ? memset(at, 0, count * size) : NULL;
}

void *__wrap_realloc(void *old, size_t size) {
    size_t i = 0;
    void *at = __wrap_malloc(size);
    if (!at || !old) return at;
    while (i < block_count && blocks[i].at != old) i++;
    HOLDS(i < block_count);
    memcpy(at, old, blocks[i].size < size ? blocks[i].size : size);
    __wrap_free(old);
    return at;
}

/* ---- Packets and answers */

struct event {
    uint16_t link;
    uint64_t moment;
    size_t count;
    uint8_t octets[LONGEST];
};

struct answer {
    struct polorowan_arrival told;
    uint8_t packet[LONGEST + POLOROWAN_HEAD_ROOM], feedback[POLOROWAN_FEEDBACK_ROOM], relayed[LONGEST];
};

static struct polorowan_link links[POLOROWAN_LINKS];
static size_t link_count;
static struct polorowan_gateway plain, poor;
static struct event events[MANY];
static struct answer wanted[MANY];
static uint8_t *octets_room, *packet_room, *feedback_room, *relayed_room, *many_octets, *many_room, *saved_room;
enum { OCTETS_ROOM = LONGEST, PACKET_ROOM = LONGEST + POLOROWAN_HEAD_ROOM, MANY_OCTETS = MANY * LONGEST };
enum { MANY_ROOM = MANY * (2 * LONGEST + POLOROWAN_HEAD_ROOM + POLOROWAN_FEEDBACK_ROOM) };

/* A packet arrives by itself. Its buffers are exactly as long as they must be. */
static void arrive(struct polorowan_gateway *gateway, const struct event *event, struct answer *answer) {
    size_t count = event->count;
    uint8_t *octets = placed(octets_room, OCTETS_ROOM, count), *relayed = placed(relayed_room, OCTETS_ROOM, count);
    uint8_t *packet = placed(packet_room, PACKET_ROOM, count + POLOROWAN_HEAD_ROOM);
    uint8_t *feedback = placed(feedback_room, POLOROWAN_FEEDBACK_ROOM, POLOROWAN_FEEDBACK_ROOM);
    memcpy(octets, event->octets, count);
    memset(&answer->told, 0, sizeof answer->told);
    HOLDS(polorowan_arrive(gateway, event->link, event->moment, octets, count, packet, count + POLOROWAN_HEAD_ROOM, feedback,
                           POLOROWAN_FEEDBACK_ROOM, relayed, count, &answer->told) == POLOROWAN_ARRIVED);
    HOLDS(memcmp(octets, event->octets, count) == 0);
    HOLDS(answer->told.packet_length <= count + POLOROWAN_HEAD_ROOM && answer->told.relayed_length <= count);
    HOLDS(answer->told.feedback_length <= POLOROWAN_FEEDBACK_ROOM);
    memcpy(answer->packet, packet, answer->told.packet_length);
    memcpy(answer->feedback, feedback, answer->told.feedback_length);
    memcpy(answer->relayed, relayed, answer->told.relayed_length);
}

static bool is_told(const struct polorowan_arrival *a, const struct polorowan_arrival *b) {
    return a->kind == b->kind && a->outcome == b->outcome && a->cid == b->cid && a->has_packet == b->has_packet &&
           a->has_feedback == b->has_feedback && a->packet_length == b->packet_length &&
           a->feedback_length == b->feedback_length && a->relayed_length == b->relayed_length &&
           a->relayed_count == b->relayed_count;
}

static bool is_same(const struct answer *one, const struct polorowan_arrival *told, const uint8_t *packet,
                    const uint8_t *feedback, const uint8_t *relayed) {
    return is_told(&one->told, told) && memcmp(one->packet, packet, told->packet_length) == 0 &&
           memcmp(one->feedback, feedback, told->feedback_length) == 0 &&
           memcmp(one->relayed, relayed, told->relayed_length) == 0;
}

/* Saves a gateway into a buffer of exactly the length that it needs. With an octet less nothing is written. */
static const uint8_t *saved(struct polorowan_gateway *gateway, uint64_t moment, uint8_t *copy, size_t *count) {
    size_t needed = 0;
    HOLDS(polorowan_save(gateway, moment, NULL, 0, &needed) == POLOROWAN_SAVED_NO_ROOM && needed > 0 && needed < SAVED);
    uint8_t *octets = saved_room + whole_pages(SAVED) - needed;
    HOLDS(polorowan_save(gateway, moment, octets, needed - 1, count) == POLOROWAN_SAVED_NO_ROOM && *count == needed);
    HOLDS(polorowan_save(gateway, moment, octets, needed, count) == POLOROWAN_SAVED && *count == needed);
    return copy ? memcpy(copy, octets, needed) : octets;
}

static void must_be_alike(uint64_t moment) {
    static uint8_t copy[SAVED];
    size_t one = 0, other = 0;
    saved(&plain, moment, copy, &one);
    const uint8_t *octets = saved(&poor, moment, NULL, &other);
    HOLDS(one == other && memcmp(copy, octets, one) == 0);
    saves++;
}

/* ---- The two gateways */

/* The second takes a packet while a request for memory is refused. If it has no memory, nothing has changed. */
static void arrive_poorly(const struct event *event, struct answer *found) {
    static uint8_t before[SAVED];
    size_t count = 0, again = 0;
    saved(&poor, event->moment, before, &count);
    until_refused = (long)dice(3);
    arrive(&poor, event, found);
    until_refused = -1;
    if (found->told.outcome != NO_MEMORY) return;
    const uint8_t *octets = saved(&poor, event->moment, NULL, &again);
    HOLDS(again == count && memcmp(before, octets, count) == 0);
    arrive(&poor, event, found);
}

static void take_singly(size_t count) {
    static struct answer found;
    for (size_t i = 0; i < count; i++) {
        if (dice(4) == 0) arrive_poorly(&events[i], &found);
        else arrive(&poor, &events[i], &found);
        HOLDS(is_same(&wanted[i], &found.told, found.packet, found.feedback, found.relayed));
    }
}

/* The second takes all in one call, over one buffer of all octets and one of all answers. */
static void take_many(size_t count) {
    struct polorowan_packet packets[MANY];
    struct polorowan_arrival told[MANY];
    size_t octets_count = 0, room_count = 0;
    for (size_t i = 0; i < count; i++) {
        packets[i] = (struct polorowan_packet){events[i].link, events[i].moment, octets_count, events[i].count};
        octets_count += events[i].count;
        room_count += POLOROWAN_ROOM(events[i].count);
    }
    uint8_t *octets = placed(many_octets, MANY_OCTETS, octets_count), *room = placed(many_room, MANY_ROOM, room_count);
    for (size_t i = 0; i < count; i++) memcpy(octets + packets[i].at, events[i].octets, events[i].count);
    HOLDS(polorowan_arrive_many(&poor, packets, count, octets, octets_count, room, room_count - 1, told, count) == POLOROWAN_NO_ROOM);
    HOLDS(polorowan_arrive_many(&poor, packets, count, octets, octets_count, room, room_count, told, count) == POLOROWAN_ARRIVED);
    for (size_t i = 0; i < count; i++) {
        uint8_t *feedback = room + events[i].count + POLOROWAN_HEAD_ROOM;
        HOLDS(is_same(&wanted[i], &told[i], room, feedback, feedback + POLOROWAN_FEEDBACK_ROOM));
        room += POLOROWAN_ROOM(events[i].count);
    }
    batches++;
}

/* The second goes on from what it saves. While requests are refused it stays as it was. */
static void restore(uint64_t moment) {
    static uint8_t copy[SAVED];
    struct polorowan_restored restored;
    size_t count = 0, place = 0;
    saved(&poor, moment, copy, &count);
    for (long after = 0;; after++) {
        until_refused = dice(2) ? after : -1;
        uint8_t *octets = placed(saved_room, SAVED, count);
        memcpy(octets, copy, count);
        uint8_t status = polorowan_restore(&poor, links, link_count, octets, count, &restored, &place);
        until_refused = -1;
        must_be_alike(moment);
        if (status == POLOROWAN_MADE) return;
        HOLDS(status == POLOROWAN_NO_MEMORY);
    }
}

/* Both forget a link, whose calls then begin anew with requests for memory. */
static void forget(uint16_t link) { HOLDS(polorowan_reset(&plain, link) == polorowan_reset(&poor, link)); }

static void take(size_t count) {
    if (count == 0) return;
    for (size_t i = 0; i < count; i++) arrive(&plain, &events[i], &wanted[i]);
    if (dice(2)) take_many(count);
    else take_singly(count);
    if (dice(32) == 0) restore(events[count - 1].moment);
    if (dice(32) == 0) forget(links[dice(link_count)].link);
    taken += count;
}

/* Reads the event of a line. False if it is no packet's. */
static bool read_event(const char *line, struct event *event) {
    int digits = 0;
    unsigned octet;
    event->count = 0;
    if (sscanf(line, "arrive %" SCNu16 " %" SCNu64 " %n", &event->link, &event->moment, &digits) != 2) return false;
    for (line += digits; event->count < LONGEST && sscanf(line, "%2x", &octet) == 1; line += 2)
        event->octets[event->count++] = (uint8_t)octet;
    return true;
}

static void make_rooms(void) {
    octets_room = guarded(OCTETS_ROOM);
    relayed_room = guarded(OCTETS_ROOM);
    packet_room = guarded(PACKET_ROOM);
    feedback_room = guarded(POLOROWAN_FEEDBACK_ROOM);
    many_octets = guarded(MANY_OCTETS);
    many_room = guarded(MANY_ROOM);
    saved_room = guarded(SAVED);
}

int main(int count, char **words) {
    static char line[LINE];
    size_t place, filled = 0, most = 1;
    unsigned link;
    FILE *file = count == 3 ? fopen(words[1], "r") : NULL;
    if (!file) return 2;
    link_count = read_links(file, links);
    fclose(file);
    for (unsigned long i = dice(0) ? strtoul(words[2], NULL, 10) % 100000 : 0; i > 0; i--) dice(2);
    make_rooms();
    HOLDS(polorowan_new(&plain, links, link_count, &place) == POLOROWAN_MADE);
    while (until_refused = (long)dice(2) - 1, polorowan_new(&poor, links, link_count, &place) != POLOROWAN_MADE) continue;
    until_refused = -1;
    while (fgets(line, sizeof line, stdin)) {
        line_number++;
        if (sscanf(line, "reset %u", &link) == 1 && link <= UINT16_MAX) {
            take(filled);
            filled = 0;
            forget((uint16_t)link);
        }
        filled += read_event(line, &events[filled]);
        if (filled < most) continue;
        take(filled);
        filled = 0;
        most = 1 + dice(MANY);
    }
    take(filled);
    must_be_alike(0);
    polorowan_free(&plain);
    polorowan_free(&poor);
    HOLDS(block_count == 0);
    printf("%lu %lu %lu %lu\n", taken, batches, refusals, saves);
    return 0;
}
