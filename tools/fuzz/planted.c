/*
 * Bugs that the fuzzer must find, and most of which tools/stress must, one for each value of PLANTED. It is linked with --wrap
 * for polorowan_arrive, polorowan_new and polorowan_restore, and alters the library's answers in one rare case each.
 */
#define POLOROWAN_IN_PLACE
#include <stdbool.h>
#include <stdint.h>
#include <string.h>

#include "polorowan.h"

uint8_t __real_polorowan_new(struct polorowan_gateway *gateway, const struct polorowan_link *links, size_t count, size_t *place);
uint8_t __real_polorowan_arrive(struct polorowan_gateway *gateway, uint16_t link, uint64_t moment, const uint8_t *octets, size_t count,
                           uint8_t *packet, size_t packet_room, uint8_t *feedback, size_t feedback_room, uint8_t *relayed,
                           size_t relayed_room, struct polorowan_arrival *arrival);

uint8_t __real_polorowan_restore(struct polorowan_gateway *gateway, const struct polorowan_link *links, size_t count, const uint8_t *octets,
                            size_t octets_count, struct polorowan_restored *restored, size_t *place);

/* Whether a context of this gateway has fallen to No Context, and which; and whether the gateway was restored. */
static bool fell, is_restored;
static uint16_t fallen;

uint8_t __wrap_polorowan_new(struct polorowan_gateway *gateway, const struct polorowan_link *links, size_t count, size_t *place) {
    fell = is_restored = false;
    return __real_polorowan_new(gateway, links, count, place);
}

uint8_t __wrap_polorowan_restore(struct polorowan_gateway *gateway, const struct polorowan_link *links, size_t count, const uint8_t *octets,
                            size_t octets_count, struct polorowan_restored *restored, size_t *place) {
    is_restored = true;
    return __real_polorowan_restore(gateway, links, count, octets, octets_count, restored, place);
}

/* The Acktype of feedback, or 3 if it has none. */
static unsigned acktype(const uint8_t *feedback, const struct polorowan_arrival *arrival) {
    size_t at = arrival->cid > 0 ? 2 : 1;
    return arrival->has_feedback && arrival->feedback_length > at + 1 ? feedback[at] >> 6 : 3;
}

static void plant(const uint8_t *octets, uint8_t *packet, uint8_t *feedback, struct polorowan_arrival *arrival) {
    unsigned said = acktype(feedback, arrival);
    (void)said, (void)octets, (void)packet, (void)fell, (void)fallen, (void)is_restored;
#if PLANTED == 1
    /* The check of a NACK for a CID other than 0. */
    if (said == 1 && arrival->cid > 0) feedback[arrival->feedback_length - 1] ^= 1;
#elif PLANTED == 2
    /* A context that fell to No Context changes the payload of the next packet of another. */
    if (fell && arrival->has_packet && arrival->cid != fallen && arrival->packet_length > 0) {
        packet[arrival->packet_length - 1] ^= 1;
        fell = false;
    }
    if (said == 2) fell = true, fallen = arrival->cid;
#elif PLANTED == 3
    /* After a restoration a packet that isn't an IR isn't delivered whole. */
    if (is_restored && arrival->has_packet && octets[0] < 0xe0) packet[arrival->packet_length - 1] ^= 1;
#elif PLANTED == 4
    /* An IR-DYN that is refused for its check hands on one octet too many. */
    if (arrival->outcome == 28 && octets[0] == 0xf8) arrival->packet_length = 1;
#endif
}

uint8_t __wrap_polorowan_arrive(struct polorowan_gateway *gateway, uint16_t link, uint64_t moment, const uint8_t *octets, size_t count,
                           uint8_t *packet, size_t packet_room, uint8_t *feedback, size_t feedback_room, uint8_t *relayed,
                           size_t relayed_room, struct polorowan_arrival *arrival) {
    uint8_t status = __real_polorowan_arrive(gateway, link, moment, octets, count, packet, packet_room, feedback, feedback_room,
                                        relayed, relayed_room, arrival);
    if (status == POLOROWAN_ARRIVED) plant(octets, packet, feedback, arrival);
#if PLANTED == 5
    /* The octet behind the room for the rebuilt packet, of a packet that is stored: of tools/stress alone. */
    if (arrival->outcome == POLOROWAN_STORED) packet[packet_room] = 0;
#endif
    return status;
}
