/* A block of arrivals, and its answers (docs/FORMATS.md, Blocks). Numbers stand with the least significant octet first. */
#ifndef CLUSTER_BLOCK_H
#define CLUSTER_BLOCK_H

#include <stdbool.h>
#include <stddef.h>
#include <stdint.h>

enum { LONGEST = 65535, ARRIVAL_HEAD = 13, ANSWER_HEAD = 12, BLOCK_ROOM = 1 << 20 };
enum { PACKET_ARRIVES = 0, LINK_RESETS = 1 };

/* One arrival of a block: a packet, or a reset of its link. */
struct block_arrival {
    uint8_t kind;
    uint16_t link;
    uint64_t moment;
    uint16_t count;
    const uint8_t *octets;
};

/* One answer of an answered block. What it doesn't have is of length 0. */
struct block_answer {
    uint16_t link;
    uint8_t kind, outcome;
    uint16_t cid;
    bool has_packet, has_feedback;
    uint16_t packet_length, relayed_length;
    uint8_t feedback_length;
    const uint8_t *packet, *feedback, *relayed;
};

/* Writes an arrival, and returns its length: ARRIVAL_HEAD and its octets. There is room. */
size_t put_arrival(uint8_t *place, const struct block_arrival *arrival);
/* Reads the arrival at a place of a block. False, if no whole one stands there. */
bool next_arrival(const uint8_t *block, size_t size, size_t *at, struct block_arrival *arrival);
/* Writes an answer, and returns its length. There is room. */
size_t put_answer(uint8_t *place, const struct block_answer *answer);
/* Reads the answer at a place of an answered block. False, if no whole one stands there. */
bool next_answer(const uint8_t *block, size_t size, size_t *at, struct block_answer *answer);

#endif
