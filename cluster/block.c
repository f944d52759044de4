#include "block.h"

#include <string.h>

static size_t put(uint8_t *place, uint64_t number, size_t count) {
    for (size_t i = 0; i < count; i++) place[i] = (uint8_t)(number >> 8 * i);
    return count;
}

static uint64_t get(const uint8_t *place, size_t count) {
    uint64_t number = 0;
    for (size_t i = 0; i < count; i++) number |= (uint64_t)place[i] << 8 * i;
    return number;
}

static size_t put_octets(uint8_t *place, const uint8_t *octets, size_t count) {
    if (count > 0) memcpy(place, octets, count);
    return count;
}

size_t put_arrival(uint8_t *place, const struct block_arrival *arrival) {
    size_t at = put(place, arrival->kind, 1);
    at += put(place + at, arrival->link, 2);
    at += put(place + at, arrival->moment, 8);
    at += put(place + at, arrival->count, 2);
    return at + put_octets(place + at, arrival->octets, arrival->count);
}

bool next_arrival(const uint8_t *block, size_t size, size_t *at, struct block_arrival *arrival) {
    const uint8_t *head = block + *at;
    if (size - *at < ARRIVAL_HEAD) return false;
    uint16_t count = (uint16_t)get(head + 11, 2);
    if (size - *at - ARRIVAL_HEAD < count) return false;
    *arrival = (struct block_arrival){.kind = head[0],
                                      .link = (uint16_t)get(head + 1, 2),
                                      .moment = get(head + 3, 8),
                                      .count = count,
                                      .octets = head + ARRIVAL_HEAD};
    *at += ARRIVAL_HEAD + (size_t)count;
    return true;
}

size_t put_answer(uint8_t *place, const struct block_answer *answer) {
    size_t at = put(place, answer->link, 2);
    at += put(place + at, answer->kind, 1);
    at += put(place + at, answer->outcome, 1);
    at += put(place + at, answer->cid, 2);
    at += put(place + at, (uint64_t)answer->has_packet | (uint64_t)answer->has_feedback << 1, 1);
    at += put(place + at, answer->packet_length, 2);
    at += put(place + at, answer->feedback_length, 1);
    at += put(place + at, answer->relayed_length, 2);
    at += put_octets(place + at, answer->relayed, answer->relayed_length);
    at += put_octets(place + at, answer->packet, answer->packet_length);
    return at + put_octets(place + at, answer->feedback, answer->feedback_length);
}

bool next_answer(const uint8_t *block, size_t size, size_t *at, struct block_answer *answer) {
    const uint8_t *head = block + *at;
    if (size - *at < ANSWER_HEAD) return false;
    uint16_t packet = (uint16_t)get(head + 7, 2), relayed = (uint16_t)get(head + 10, 2);
    size_t whole = ANSWER_HEAD + (size_t)relayed + packet + head[9];
    if (size - *at < whole) return false;
    *answer = (struct block_answer){.link = (uint16_t)get(head, 2),
                                    .kind = head[2],
                                    .outcome = head[3],
                                    .cid = (uint16_t)get(head + 4, 2),
                                    .has_packet = head[6] & 1,
                                    .has_feedback = head[6] >> 1 & 1,
                                    .packet_length = packet,
                                    .feedback_length = head[9],
                                    .relayed_length = relayed,
                                    .relayed = head + ANSWER_HEAD,
                                    .packet = head + ANSWER_HEAD + relayed,
                                    .feedback = head + ANSWER_HEAD + relayed + packet};
    *at += whole;
    return true;
}
