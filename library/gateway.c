/* Gateways on the heap, and what is told of a refusal: the part of the library in C. Each function here calls proved ones. */
#define POLOROWAN_IN_PLACE
#include "polorowan.h"

#include <stdlib.h>

/* A gateway on the heap without a concentrator, or NULL if there is no memory. */
static polorowan_gateway *allocated(void) {
    polorowan_gateway *gateway = malloc(sizeof *gateway);
    if (gateway != NULL) *gateway = (polorowan_gateway){false, NULL};
    return gateway;
}

/* Hands a gateway out if it was made, or else frees it. */
static uint8_t handed_out(polorowan_gateway *made, uint8_t fault, polorowan_gateway **gateway) {
    if (fault == POLOROWAN_MADE)
        *gateway = made;
    else
        free(made);
    return fault;
}

uint8_t polorowan_open(const struct polorowan_link *links, size_t count, size_t *place, polorowan_gateway **gateway) {
    const struct polorowan_link none[1] = {{0}};
    polorowan_gateway *made = allocated();
    *gateway = NULL;
    *place = 0;
    if (made == NULL) return POLOROWAN_NO_MEMORY;
    return handed_out(made, polorowan_new(made, count == 0 ? none : links, count, place), gateway);
}

uint8_t polorowan_open_saved(const struct polorowan_link *links, size_t count, const uint8_t *octets, size_t octets_count,
                             struct polorowan_restored *restored, size_t *place, polorowan_gateway **gateway) {
    const struct polorowan_link no_link[1] = {{0}};
    const uint8_t no_octet[1] = {0};
    polorowan_gateway *made = allocated();
    *gateway = NULL;
    *place = 0;
    if (made == NULL) return POLOROWAN_NO_MEMORY;
    uint8_t fault = polorowan_restore(made, count == 0 ? no_link : links, count, octets_count == 0 ? no_octet : octets,
                                      octets_count, restored, place);
    return handed_out(made, fault, gateway);
}

void polorowan_close(polorowan_gateway *gateway) {
    if (gateway == NULL) return;
    polorowan_free(gateway);
    free(gateway);
}

/* The name and the meaning of each refusal, by its number. man/rohc-script.5 has the same. */
static const struct {
    const char *name;
    const char *text;
} refusals[] = {
    {NULL, NULL},
    {"Empty", "The packet has no octets."},
    {"FeedbackShort", "A feedback element is cut off."},
    {"AfterAddCid", "Feedback follows an Add-CID octet."},
    {"Segment", "The packet is a segment."},
    {"ReservedType", "The type octet is reserved."},
    {"AddCidOnLarge", "The packet has an Add-CID octet, and the link has large CIDs."},
    {"LargeCid", "The large CID has more than two octets."},
    {"CidRange", "The CID is above `max_cid`."},
    {"NoHeader", "The packet ends before its CID is complete."},
    {"NoContext", "The CID has no context, or an expired one, and the packet is not an IR."},
    {"Profile", "The profile is neither 0x0000 nor 0x0001, or it is 0x0000 in an IR-DYN or in an IR with a dynamic "
                "chain."},
    {"ProfileChange", "An IR-DYN would change the profile."},
    {"Truncated", "The packet ends inside its header."},
    {"IpVersion", "The IP version isn't 4."},
    {"Protocol", "The protocol isn't UDP."},
    {"ExtensionList", "There is a list of extension headers."},
    {"RtpVersion", "The RTP version isn't 2."},
    {"Csrc", "There are contributing sources."},
    {"ZeroStride", "TS_STRIDE is 0."},
    {"ReliableMode", "The compressor asks for R mode."},
    {"OuterHeader", "There is a second IP header."},
    {"NoStride", "The timestamp is scaled, and no stride is known."},
    {"RndInUo1", "A UO-1-ID says that the IP-ID is random."},
    {"IpIdTwice", "The packet has the IP-ID twice."},
    {"Trailing", "An IR without a dynamic chain has octets after its static chain."},
    {"TooLong", "The rebuilt packet would have more than 65,535 octets."},
    {"StateTooLow", "The context's state doesn't accept this kind of packet."},
    {"Check", "The rebuilt header doesn't have the packet's CRC."},
    {"NoLink", "There is no link with this number."},
    {"NoMemory", "There was no memory for the first context of a CID."},
};

const char *polorowan_name_of(uint8_t refusal) {
    return refusal < sizeof refusals / sizeof *refusals ? refusals[refusal].name : NULL;
}

const char *polorowan_text_of(uint8_t refusal) {
    return refusal < sizeof refusals / sizeof *refusals ? refusals[refusal].text : NULL;
}
