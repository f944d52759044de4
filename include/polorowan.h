/**
 * @file polorowan.h
 * @brief A ROHC decompressor for many links: packets in, IP packets and feedback out.
 *
 * Profiles 0x0000 and 0x0001 of RFC 3095 in U and O mode, with the framing and feedback of RFC 5795. docs/LIBRARY.md says
 * what is proved of the library. The proof holds only if the caller guarantees the following:
 *
 * - A gateway comes from polorowan_open() or polorowan_open_saved(), and is closed once.
 * - No pointer dangles, and each is aligned for its type. NULL stands only where the length behind it is 0.
 * - No buffer of a call overlaps another or a struct of the call; it is as long as its length says; each `bool` is 0 or 1.
 * - A gateway serves one call at a time. Calls that take it as const may run beside one another, in any number of threads.
 * - No call is made from a signal handler, or in the forked child of a process with threads.
 * - malloc, realloc and free are of one allocator, and align blocks as C asks.
 */
#ifndef POLOROWAN_H
#define POLOROWAN_H

#include <stdbool.h>
#include <stddef.h>
#include <stdint.h>

#ifdef __cplusplus
extern "C" {
#endif

/** The version of this header, as in polorowan_version(). A library of the same major version goes with it. */
#define POLOROWAN_VERSION_MAJOR 1
#define POLOROWAN_VERSION_MINOR 0
#define POLOROWAN_VERSION_PATCH 0

/** How many octets longer a rebuilt packet may be than the packet that arrived. */
#define POLOROWAN_HEAD_ROOM 40
/** The length of the longest feedback for a compressor. */
#define POLOROWAN_FEEDBACK_ROOM 8
/** A length of a buffer that is enough for the name of each refusal. */
#define POLOROWAN_NAME_ROOM 16
/** The greatest number of links. */
#define POLOROWAN_LINKS 256
/** The greatest number of ranges of a link. */
#define POLOROWAN_RANGES 8

/** The greatest number of packets of a call of polorowan_arrive_many(). */
#define POLOROWAN_MANY 1024
/** The room for the answer to a packet of so many octets, in polorowan_arrive_many(). */
#define POLOROWAN_ROOM(count) (2 * (count) + POLOROWAN_HEAD_ROOM + POLOROWAN_FEEDBACK_ROOM)

/** What polorowan_open() returns. */
enum polorowan_made {
    POLOROWAN_MADE = 0,            /**< There is a concentrator. */
    POLOROWAN_NO_LINKS = 1,        /**< There are no links. */
    POLOROWAN_TOO_MANY_LINKS = 2,  /**< There are more than #POLOROWAN_LINKS. */
    POLOROWAN_TOO_MANY_RANGES = 3, /**< A link counts more than #POLOROWAN_RANGES ranges. */
    POLOROWAN_BAD_SETTING = 4,     /**< A link's settings or ranges are outside their limits. */
    POLOROWAN_DUPLICATE_LINK = 5,  /**< A link has the number of an earlier link. */
    POLOROWAN_NO_MEMORY = 6        /**< There is no memory. */
};

/** What polorowan_save() and polorowan_save_link() return. */
enum polorowan_saved {
    POLOROWAN_SAVED = 0,           /**< The octets stand in the buffer. */
    POLOROWAN_SAVED_NONE = 1,      /**< There is no concentrator. */
    POLOROWAN_SAVED_NO_ROOM = 2,   /**< The buffer is too short. */
    POLOROWAN_SAVED_NO_MEMORY = 3, /**< There is no memory. */
    POLOROWAN_SAVED_NO_LINK = 4    /**< There is no such link: of polorowan_save_link() alone. */
};

/** What polorowan_open_saved() returns, beside POLOROWAN_MADE to POLOROWAN_NO_MEMORY of enum polorowan_made. */
enum polorowan_not_restored {
    POLOROWAN_NOT_SAVED = 7,    /**< The octets don't begin as those of a saved concentrator do. */
    POLOROWAN_VERSION = 8,      /**< They are of another version. This is a fault, and not the header's version. */
    POLOROWAN_SHORT = 9,        /**< They end too soon. */
    POLOROWAN_BAD_LINK = 10,    /**< A bad value of a link. */
    POLOROWAN_BAD_CONTEXT = 11, /**< A bad value of a context. */
    POLOROWAN_BAD_ORDER = 12,   /**< A link or a CID for the second time, or a CID above the greatest of its link. */
    POLOROWAN_DIGEST = 13,      /**< The digest isn't that of the octets before it. */
    POLOROWAN_LONG = 14         /**< Octets follow the digest. */
};

/** What polorowan_restore_link() returns, beside POLOROWAN_NOT_SAVED to POLOROWAN_LONG of enum polorowan_not_restored. */
enum polorowan_restored_link {
    POLOROWAN_RESTORED = 0,              /**< The link holds its contexts again. */
    POLOROWAN_RESTORED_NONE = 1,         /**< There is no concentrator. */
    POLOROWAN_RESTORED_NO_LINK = 2,      /**< There is no such link. */
    POLOROWAN_RESTORED_HAS_CONTEXTS = 3, /**< The link holds a context. */
    POLOROWAN_RESTORED_OTHER_LINK = 4,   /**< The octets aren't those of this link alone. */
    POLOROWAN_RESTORED_OTHER_KIND = 5,   /**< The link was saved with the other CID kind. */
    POLOROWAN_RESTORED_NO_MEMORY = 6     /**< There is no memory. */
};

/** What polorowan_arrive() returns. */
enum polorowan_arrived {
    POLOROWAN_ARRIVED = 0,      /**< The packet was taken, and the answer stands in the buffers. */
    POLOROWAN_ARRIVED_NONE = 1, /**< There is no concentrator. */
    POLOROWAN_NO_ROOM = 2       /**< A buffer is below its bound. Nothing was changed. */
};

/** What polorowan_add_link() and polorowan_change_link() return. */
enum polorowan_linked {
    POLOROWAN_LINKED = 0,                 /**< That is done. */
    POLOROWAN_LINKED_NONE = 1,            /**< There is no concentrator. */
    POLOROWAN_LINKED_TOO_MANY = 2,        /**< There are #POLOROWAN_LINKS. */
    POLOROWAN_LINKED_TOO_MANY_RANGES = 3, /**< The link counts more than #POLOROWAN_RANGES ranges. */
    POLOROWAN_LINKED_BAD_SETTING = 4,     /**< The settings or ranges are outside their limits. */
    POLOROWAN_LINKED_DUPLICATE = 5,       /**< The link is there. */
    POLOROWAN_LINKED_NO_MEMORY = 6,       /**< There is no memory. */
    POLOROWAN_LINKED_NO_LINK = 7          /**< There is no such link. */
};

/** What the functions return that forget contexts. */
enum polorowan_forgot {
    POLOROWAN_FORGOT = 0,      /**< That is done. */
    POLOROWAN_FORGOT_NONE = 1, /**< There is no concentrator. */
    POLOROWAN_FORGOT_LINK = 2  /**< There is no such link. */
};

/** The kind of an answer. */
enum polorowan_kind {
    POLOROWAN_CONTEXT = 0,  /**< The packet has a CID, and its context answers. */
    POLOROWAN_FEEDBACK = 1, /**< The packet has only padding and feedback. */
    POLOROWAN_REFUSED = 2   /**< The packet was refused, and has no CID. */
};

/** What became of a packet. The numbers between these are those of refusals; see polorowan_refusal_name(). */
enum polorowan_outcome {
    POLOROWAN_DELIVERED = 0, /**< A packet was rebuilt. */
    POLOROWAN_STORED = 31    /**< The context was made or renewed without a packet. */
};

/** Why a packet was refused: what polorowan_arrival.outcome is then. polorowan_text_of() says what each means. */
enum polorowan_refusal {
    POLOROWAN_REFUSED_EMPTY = 1,
    POLOROWAN_REFUSED_FEEDBACK_SHORT = 2,
    POLOROWAN_REFUSED_AFTER_ADD_CID = 3,
    POLOROWAN_REFUSED_SEGMENT = 4,
    POLOROWAN_REFUSED_RESERVED_TYPE = 5,
    POLOROWAN_REFUSED_ADD_CID_ON_LARGE = 6,
    POLOROWAN_REFUSED_LARGE_CID = 7,
    POLOROWAN_REFUSED_CID_RANGE = 8,
    POLOROWAN_REFUSED_NO_HEADER = 9,
    POLOROWAN_REFUSED_NO_CONTEXT = 10,
    POLOROWAN_REFUSED_PROFILE = 11,
    POLOROWAN_REFUSED_PROFILE_CHANGE = 12,
    POLOROWAN_REFUSED_TRUNCATED = 13,
    POLOROWAN_REFUSED_IP_VERSION = 14,
    POLOROWAN_REFUSED_PROTOCOL = 15,
    POLOROWAN_REFUSED_EXTENSION_LIST = 16,
    POLOROWAN_REFUSED_RTP_VERSION = 17,
    POLOROWAN_REFUSED_CSRC = 18,
    POLOROWAN_REFUSED_ZERO_STRIDE = 19,
    POLOROWAN_REFUSED_RELIABLE_MODE = 20,
    POLOROWAN_REFUSED_OUTER_HEADER = 21,
    POLOROWAN_REFUSED_NO_STRIDE = 22,
    POLOROWAN_REFUSED_RND_IN_UO1 = 23,
    POLOROWAN_REFUSED_IP_ID_TWICE = 24,
    POLOROWAN_REFUSED_TRAILING = 25,
    POLOROWAN_REFUSED_TOO_LONG = 26,
    POLOROWAN_REFUSED_STATE_TOO_LOW = 27,
    POLOROWAN_REFUSED_CHECK = 28,
    POLOROWAN_REFUSED_NO_LINK = 29,
    POLOROWAN_REFUSED_NO_MEMORY = 30
};

/** The state of a decompressor for one context (RFC 3095 4.3.2). */
enum polorowan_state {
    POLOROWAN_NO_CONTEXT = 0,     /**< Only an IR is taken. */
    POLOROWAN_STATIC_CONTEXT = 1, /**< The static part is known. */
    POLOROWAN_FULL_CONTEXT = 2    /**< Every packet may be taken. Profile 0x0000 is always in this state. */
};

/** A gateway: all links with their contexts. The library makes it and frees it. */
typedef struct polorowan_gateway polorowan_gateway;

#ifdef POLOROWAN_IN_PLACE
/** A gateway in memory of the caller's own. All zeros has no concentrator. It is never copied. */
struct polorowan_gateway {
    bool live; /**< The library's own. */
    void *at;  /**< The library's own. */
};
#endif

/** A range of CIDs with a mode of its own. */
struct polorowan_range {
    uint16_t first;  /**< The least CID of the range. */
    uint16_t last;   /**< The greatest CID of the range, inclusive. */
    bool optimistic; /**< O mode, else U mode. */
};

/** The settings of a link. */
struct polorowan_link {
    uint16_t link;            /**< Its number. */
    uint16_t max_cid;         /**< The greatest CID: at most 15, or 16,383 for large CIDs. */
    bool large;               /**< Large CIDs, else small ones. */
    bool optimistic;          /**< O mode, else U mode, in which no feedback is sent. */
    uint8_t k1;               /**< Failures among the last n1 outcomes that lead to Static Context: 1 to n1. */
    uint8_t n1;               /**< At most 64. */
    uint8_t k2;               /**< Failures among the last n2 outcomes that lead to No Context: 1 to n2. */
    uint8_t n2;               /**< At most 64. */
    uint8_t range_count;      /**< How many of the ranges are used. */
    uint32_t packet_ms;       /**< Milliseconds between two packets of a sender: 1 to 60,000. */
    uint32_t static_nack_ms;  /**< Least milliseconds between STATIC-NACKs in No Context: at most 3,600,000. */
    uint32_t idle_ms;         /**< Idle milliseconds after which a context counts as none: at most 86,400,000; 0 is never. */
    struct polorowan_range ranges[POLOROWAN_RANGES]; /**< In ascending order, without overlap, within max_cid. */
};

/** The answer to a packet. Its octets stand in the caller's buffers. Parts that it doesn't have are false or 0. */
struct polorowan_arrival {
    uint8_t kind;           /**< One of enum polorowan_kind. */
    uint8_t outcome;        /**< One of enum polorowan_outcome, or a refusal's number, 1 to 30; 0 for POLOROWAN_FEEDBACK. */
    uint16_t cid;           /**< The CID, or 0 if the packet has none. */
    bool has_packet;        /**< A packet was rebuilt. */
    bool has_feedback;      /**< There is feedback for the compressor. */
    size_t packet_length;   /**< The length of the rebuilt packet. */
    size_t feedback_length; /**< The length of the feedback. */
    size_t relayed_length;  /**< The length of the relayed feedback. */
    size_t relayed_count;   /**< How many elements are relayed. Each is one octet, which counts its data, and the data. */
};

/** One packet of polorowan_arrive_many(). */
struct polorowan_packet {
    uint16_t link;   /**< Its link's number. */
    uint64_t moment; /**< Its arrival time, in milliseconds. */
    size_t at;       /**< Where it begins among the octets of all packets. */
    size_t count;    /**< How many octets it has. */
};

/** How many outcomes are counted: a packet, the thirty refusals, and a context without a packet. */
#define POLOROWAN_OUTCOMES 32

/** A kind of feedback for the compressor. */
enum polorowan_word {
    POLOROWAN_ACK = 0,         /**< ACK. */
    POLOROWAN_NACK = 1,        /**< NACK. */
    POLOROWAN_STATIC_NACK = 2, /**< STATIC-NACK. */
    POLOROWAN_PLAIN_ACK = 3    /**< FEEDBACK-1 of profile 0x0000. */
};

/** How many answers of each kind there were. All zeros is none. A number that would pass UINT64_MAX stays there. */
struct polorowan_counts {
    uint64_t outcomes[POLOROWAN_OUTCOMES]; /**< By enum polorowan_outcome and enum polorowan_refusal. */
    uint64_t feedback_alone;               /**< Packets of padding and feedback alone. */
    uint64_t words[4];                     /**< Feedback for the compressor, by enum polorowan_word. */
    uint64_t relayed;                      /**< Feedback elements for this side's compressor. */
};

/** What is shown of a context. */
struct polorowan_context_info {
    uint16_t cid;      /**< Its CID. */
    uint16_t profile;  /**< Its profile: 0x0000 or 0x0001. */
    uint8_t state;     /**< One of enum polorowan_state. */
    uint64_t accepted; /**< The time of its last accepted arrival, in milliseconds. */
};

/** What was restored, and what was left out. */
struct polorowan_restored {
    uint64_t moment;        /**< The moment of saving, in milliseconds. */
    uint64_t links;         /**< Links that were taken. */
    uint64_t unknown_links; /**< Links that aren't in the settings, and were left out. */
    uint64_t other_links;   /**< Links of another CID kind in the settings, which were left out. */
    uint64_t contexts;      /**< Contexts that were taken. */
    uint64_t left_contexts; /**< Contexts that were left out with their link. */
    uint64_t high_contexts; /**< Contexts of taken links that were left out, above the greatest CID of the settings. */
};

/**
 * Makes a gateway with these links, in this order and without contexts.
 *
 * The first fault is returned: the order is that of their numbers, but POLOROWAN_BAD_SETTING and POLOROWAN_DUPLICATE_LINK
 * are judged link by link. POLOROWAN_NO_MEMORY may come before any other.
 *
 * @param links the links
 * @param count how many links there are
 * @param place is set to the place of the link at fault, counted from 1, or to 0 if the fault is of no single link
 * @param gateway is set to the gateway, or to NULL after a fault
 * @return one of enum polorowan_made
 */
uint8_t polorowan_open(const struct polorowan_link *links, size_t count, size_t *place, polorowan_gateway **gateway);

/**
 * Makes a gateway with these links that goes on from what was saved.
 *
 * Saved links that aren't among these, or are of another CID kind, are left out, and so are contexts above the greatest
 * CID of their link; other settings may differ. After a fault @p restored stays as it was.
 *
 * @param links the links
 * @param count how many links there are
 * @param octets what polorowan_save() wrote
 * @param octets_count how many octets these are
 * @param restored gets what was taken and left out
 * @param place is set to the place of the link at fault, counted from 1, or of the octet, counted from 0; else to 0
 * @param gateway is set to the gateway, or to NULL after a fault
 * @return 0, or one of enum polorowan_made or enum polorowan_not_restored: the first fault, of the links and then of the
 * octets
 */
uint8_t polorowan_open_saved(const struct polorowan_link *links, size_t count, const uint8_t *octets, size_t octets_count,
                             struct polorowan_restored *restored, size_t *place, polorowan_gateway **gateway);

/** Frees a gateway with all that it holds. NULL is none. */
void polorowan_close(polorowan_gateway *gateway);

/**
 * Takes one packet of a link, and writes the whole answer into the struct and the buffers.
 *
 * The lengths of the buffers are checked before the packet is taken, so no answer is lost. Octets after an answer in its
 * buffer mean nothing. At POLOROWAN_ARRIVED_NONE and POLOROWAN_NO_ROOM nothing is changed, not even the buffers and the struct.
 *
 * @param gateway the gateway
 * @param link the link's number
 * @param moment the arrival time, in milliseconds
 * @param octets the packet
 * @param count its length
 * @param packet gets the rebuilt packet
 * @param packet_room at least @p count + #POLOROWAN_HEAD_ROOM
 * @param feedback gets the feedback for the compressor
 * @param feedback_room at least #POLOROWAN_FEEDBACK_ROOM
 * @param relayed gets the feedback that the packet carried for this side's compressor
 * @param relayed_room at least @p count
 * @param arrival gets the rest of the answer
 * @return one of enum polorowan_arrived
 */
uint8_t polorowan_arrive(polorowan_gateway *gateway, uint16_t link, uint64_t moment, const uint8_t *octets, size_t count,
                         uint8_t *packet, size_t packet_room, uint8_t *feedback, size_t feedback_room, uint8_t *relayed,
                         size_t relayed_room, struct polorowan_arrival *arrival);

/**
 * Takes packets one after the other, as so many calls of polorowan_arrive() do.
 *
 * The answers stand in the structs, in their order, and their octets in the room, one part of #POLOROWAN_ROOM octets for
 * each packet in turn: the rebuilt packet, then from @p count + #POLOROWAN_HEAD_ROOM on the feedback, and behind its
 * #POLOROWAN_FEEDBACK_ROOM octets the relayed feedback. At all but POLOROWAN_ARRIVED nothing is changed.
 *
 * @param gateway the gateway
 * @param packets the packets
 * @param count how many there are, at most #POLOROWAN_MANY
 * @param octets the octets of all packets
 * @param octets_count how many octets these are
 * @param room gets the octets of the answers
 * @param room_count at least the sum of #POLOROWAN_ROOM of the packets
 * @param arrivals gets the rest of the answers
 * @param arrivals_count at least @p count
 * @return one of enum polorowan_arrived; POLOROWAN_NO_ROOM also if there are too many packets, or one lies elsewhere
 */
uint8_t polorowan_arrive_many(polorowan_gateway *gateway, const struct polorowan_packet *packets, size_t count,
                              const uint8_t *octets, size_t octets_count, uint8_t *room, size_t room_count,
                              struct polorowan_arrival *arrivals, size_t arrivals_count);

/**
 * Counts an answer of polorowan_arrive() or polorowan_arrive_many(): once for each, and only after POLOROWAN_ARRIVED. The
 * caller chooses what one struct counts (a link, a CID, or all) and when to set it to zero. Feedback that is longer than its
 * buffer and an outcome above 31 aren't counted.
 *
 * @param counts the counts
 * @param arrival the answer
 * @param feedback the feedback buffer of that call; of many packets, where the feedback stands in the packet's part of the room
 * @param room its length; #POLOROWAN_FEEDBACK_ROOM is enough
 */
void polorowan_count(struct polorowan_counts *counts, const struct polorowan_arrival *arrival, const uint8_t *feedback,
                     size_t room);

/** Adds a link behind the others, without a context. @return one of enum polorowan_linked; at all but 0 nothing changes */
uint8_t polorowan_add_link(polorowan_gateway *gateway, const struct polorowan_link *link);

/**
 * Removes a link with its contexts, and nothing else. @p count is set to how many contexts went.
 * @return one of enum polorowan_forgot; at all but 0 nothing changes
 */
uint8_t polorowan_remove_link(polorowan_gateway *gateway, uint16_t link, size_t *count);

/**
 * Changes the setting of the link of this number. Its contexts stay, unless the CID kind changes or their CID is above the
 * new greatest; @p count is set to how many went.
 * @return one of enum polorowan_linked; at all but 0 nothing changes
 */
uint8_t polorowan_change_link(polorowan_gateway *gateway, const struct polorowan_link *link, size_t *count);

/**
 * Forgets the context of one CID of a link, and no other. @p count is set to how many went, 0 or 1.
 * @return one of enum polorowan_forgot; at all but 0 nothing changes
 */
uint8_t polorowan_forget(polorowan_gateway *gateway, uint16_t link, uint16_t cid, size_t *count);

/**
 * Forgets the contexts of a link that have expired at a moment, and gives their memory back. @p count is set to how many
 * went.
 * @return one of enum polorowan_forgot; at all but 0 nothing changes
 */
uint8_t polorowan_forget_expired(polorowan_gateway *gateway, uint16_t link, uint64_t moment, size_t *count);

/** Forgets every context of a link, and no other context. @return one of enum polorowan_forgot */
uint8_t polorowan_reset(polorowan_gateway *gateway, uint16_t link);

/**
 * Whether there is a context for a CID of a link, even one that counts as none because it was idle too long.
 */
bool polorowan_has_context(const polorowan_gateway *gateway, uint16_t link, uint16_t cid);

/** Whether the context of a CID of a link has expired at a moment, and so is answered as none is; false if there is none. */
bool polorowan_has_expired(const polorowan_gateway *gateway, uint16_t link, uint16_t cid, uint64_t moment);

/**
 * Gives the number of the link at a place.
 *
 * @param gateway the gateway
 * @param place the place, counted from 0 in the order in which the links came
 * @param link gets the number
 * @return whether there is a link at the place; if not, @p link stays as it was
 */
bool polorowan_link_at(const polorowan_gateway *gateway, size_t place, uint16_t *link);

/**
 * Gives the context at a place among those of a link.
 *
 * Contexts are in the order of their first IR. A context has its place even if it counts as none because it was idle too
 * long. A renewed context keeps its place. polorowan_reset() forgets all contexts of a link.
 *
 * @param gateway the gateway
 * @param link the link's number
 * @param place the place, counted from 0
 * @param context gets the context
 * @return whether there is a context at the place; if not, @p context stays as it was
 */
bool polorowan_context_at(const polorowan_gateway *gateway, uint16_t link, size_t place,
                          struct polorowan_context_info *context);

/**
 * Writes all that the gateway keeps into a buffer, so that polorowan_open_saved() goes on from there. docs/FORMATS.md
 * describes the octets: at most 77 for a context, 8 for a link, and 53.
 *
 * @param gateway the gateway
 * @param moment the moment of saving, in milliseconds, of the clock of the arrivals
 * @param octets gets the octets
 * @param room the buffer's length
 * @param count is set to how many octets are needed, at POLOROWAN_SAVED and POLOROWAN_SAVED_NO_ROOM
 * @return one of enum polorowan_saved; at all but POLOROWAN_SAVED the buffer stays as it was
 */
uint8_t polorowan_save(const polorowan_gateway *gateway, uint64_t moment, uint8_t *octets, size_t room, size_t *count);

/** Writes one link in the same form, as polorowan_save() writes all. */
uint8_t polorowan_save_link(const polorowan_gateway *gateway, uint16_t link, uint64_t moment, uint8_t *octets, size_t room,
                            size_t *count);

/**
 * Puts the contexts of one link back while the gateway runs, and changes nothing else. The link is there, and holds no
 * context: polorowan_add_link() or polorowan_reset() comes before. Contexts above its greatest CID are left out.
 *
 * The first fault is returned: POLOROWAN_RESTORED_NO_LINK, POLOROWAN_RESTORED_HAS_CONTEXTS, those of the octets,
 * POLOROWAN_RESTORED_OTHER_LINK, POLOROWAN_RESTORED_OTHER_KIND. POLOROWAN_RESTORED_NO_MEMORY may come before the last three.
 *
 * @param gateway the gateway
 * @param link the link's number
 * @param octets what polorowan_save_link() wrote
 * @param octets_count how many octets these are
 * @param restored gets what was taken and left out
 * @param place is set to the place of the octet at fault, counted from 0; else to 0
 * @return 0, or one of enum polorowan_restored_link or enum polorowan_not_restored; at all but 0 the gateway and @p restored
 * stay as they were
 */
uint8_t polorowan_restore_link(polorowan_gateway *gateway, uint16_t link, const uint8_t *octets, size_t octets_count,
                               struct polorowan_restored *restored, size_t *place);

/** The name of a refusal, one of enum polorowan_refusal, or NULL if there is none of this number. It stays. */
const char *polorowan_name_of(uint8_t refusal);

/** What a refusal means, in a sentence, or NULL if there is none of this number. It stays. */
const char *polorowan_text_of(uint8_t refusal);

/**
 * Writes the name of a refusal, followed by an octet 0, into a buffer.
 *
 * @param number the refusal's number, 1 to 30
 * @param name gets the name
 * @param room the buffer's length; #POLOROWAN_NAME_ROOM is enough for each name
 * @return the name's length without the octet 0; 0 if there is no such refusal, or no room: then @p name stays as it was
 */
size_t polorowan_refusal_name(uint8_t number, uint8_t *name, size_t room);

/**
 * The library's version, `sources` and the SHA-256 of the sources that were proved, `logic` and the digest of the logic that
 * they were proved in, as one text that stays.
 */
const char *polorowan_version(void);

#ifdef POLOROWAN_IN_PLACE
/** As polorowan_open(), in place of what the gateway had. After a fault it stays as it was. */
uint8_t polorowan_new(polorowan_gateway *gateway, const struct polorowan_link *links, size_t count, size_t *place);

/** Frees the concentrator, if there is one. The gateway then has none. */
void polorowan_free(polorowan_gateway *gateway);

/** As polorowan_open_saved(), in place of what the gateway had. After a fault it stays as it was. */
uint8_t polorowan_restore(polorowan_gateway *gateway, const struct polorowan_link *links, size_t count,
                          const uint8_t *octets, size_t octets_count, struct polorowan_restored *restored, size_t *place);
#endif

#ifdef __cplusplus
}
#endif

/* The layout that the library was proved with, on machines of 64 bits. */
#if defined(__cplusplus) && __cplusplus >= 201103L
#define POLOROWAN_LAYOUT(fact) static_assert(fact, "the layout of polorowan.h")
#elif defined(__STDC_VERSION__) && __STDC_VERSION__ >= 201112L
#define POLOROWAN_LAYOUT(fact) _Static_assert(fact, "the layout of polorowan.h")
#else
#define POLOROWAN_LAYOUT(fact) struct polorowan_layout
#endif

POLOROWAN_LAYOUT(sizeof(size_t) == 8 && sizeof(bool) == 1);
#ifdef POLOROWAN_IN_PLACE
POLOROWAN_LAYOUT(sizeof(struct polorowan_gateway) == 16 && offsetof(struct polorowan_gateway, at) == 8);
#endif
POLOROWAN_LAYOUT(sizeof(struct polorowan_packet) == 32 && offsetof(struct polorowan_packet, moment) == 8);
POLOROWAN_LAYOUT(offsetof(struct polorowan_packet, at) == 16 && offsetof(struct polorowan_packet, count) == 24);
POLOROWAN_LAYOUT(sizeof(struct polorowan_range) == 6 && offsetof(struct polorowan_range, last) == 2);
POLOROWAN_LAYOUT(offsetof(struct polorowan_range, optimistic) == 4);
POLOROWAN_LAYOUT(sizeof(struct polorowan_link) == 72 && offsetof(struct polorowan_link, max_cid) == 2);
POLOROWAN_LAYOUT(offsetof(struct polorowan_link, large) == 4 && offsetof(struct polorowan_link, optimistic) == 5);
POLOROWAN_LAYOUT(offsetof(struct polorowan_link, k1) == 6 && offsetof(struct polorowan_link, n1) == 7);
POLOROWAN_LAYOUT(offsetof(struct polorowan_link, k2) == 8 && offsetof(struct polorowan_link, n2) == 9);
POLOROWAN_LAYOUT(offsetof(struct polorowan_link, range_count) == 10 && offsetof(struct polorowan_link, packet_ms) == 12);
POLOROWAN_LAYOUT(offsetof(struct polorowan_link, static_nack_ms) == 16 && offsetof(struct polorowan_link, idle_ms) == 20);
POLOROWAN_LAYOUT(offsetof(struct polorowan_link, ranges) == 24);
POLOROWAN_LAYOUT(sizeof(struct polorowan_arrival) == 40 && offsetof(struct polorowan_arrival, outcome) == 1);
POLOROWAN_LAYOUT(offsetof(struct polorowan_arrival, cid) == 2 && offsetof(struct polorowan_arrival, has_packet) == 4);
POLOROWAN_LAYOUT(offsetof(struct polorowan_arrival, has_feedback) == 5 && offsetof(struct polorowan_arrival, packet_length) == 8);
POLOROWAN_LAYOUT(offsetof(struct polorowan_arrival, feedback_length) == 16 && offsetof(struct polorowan_arrival, relayed_length) == 24);
POLOROWAN_LAYOUT(offsetof(struct polorowan_arrival, relayed_count) == 32);
POLOROWAN_LAYOUT(sizeof(struct polorowan_counts) == 304 && offsetof(struct polorowan_counts, feedback_alone) == 256);
POLOROWAN_LAYOUT(offsetof(struct polorowan_counts, words) == 264 && offsetof(struct polorowan_counts, relayed) == 296);
POLOROWAN_LAYOUT(sizeof(struct polorowan_restored) == 56 && offsetof(struct polorowan_restored, links) == 8);
POLOROWAN_LAYOUT(offsetof(struct polorowan_restored, unknown_links) == 16 && offsetof(struct polorowan_restored, other_links) == 24);
POLOROWAN_LAYOUT(offsetof(struct polorowan_restored, contexts) == 32 && offsetof(struct polorowan_restored, left_contexts) == 40);
POLOROWAN_LAYOUT(offsetof(struct polorowan_restored, high_contexts) == 48);
POLOROWAN_LAYOUT(sizeof(struct polorowan_context_info) == 16 && offsetof(struct polorowan_context_info, profile) == 2);
POLOROWAN_LAYOUT(offsetof(struct polorowan_context_info, state) == 4 && offsetof(struct polorowan_context_info, accepted) == 8);

#undef POLOROWAN_LAYOUT

#endif
