/**
 * @file polorowan.hpp
 * @brief The library for C++17: a gateway that frees itself, can be moved and not copied, and throws nothing.
 *
 * What each call means stands in polorowan.h. Buffers for answers are the gateway's own and grow with the longest packet;
 * octets of an answer stay until the next arrival. Calls that only read are const, and may run beside one another.
 */
#ifndef POLOROWAN_HPP
#define POLOROWAN_HPP

#include <cstddef>
#include <cstdint>
#include <cstring>
#include <memory>
#include <new>
#include <optional>
#include <string_view>
#include <utility>
#include <vector>

#include "polorowan.h"

namespace polorowan {

/** Octets that someone else owns. */
class octets {
public:
    constexpr octets() noexcept = default;
    constexpr octets(const std::uint8_t *data, std::size_t size) noexcept : data_(data), size_(size) {}
    octets(const std::vector<std::uint8_t> &from) noexcept : data_(from.data()), size_(from.size()) {}

    [[nodiscard]] constexpr const std::uint8_t *data() const noexcept { return data_; }
    [[nodiscard]] constexpr std::size_t size() const noexcept { return size_; }
    [[nodiscard]] constexpr bool empty() const noexcept { return size_ == 0; }
    [[nodiscard]] constexpr const std::uint8_t *begin() const noexcept { return data_; }
    [[nodiscard]] constexpr const std::uint8_t *end() const noexcept { return data_ + size_; }

    friend bool operator==(octets a, octets b) noexcept {
        return a.size_ == b.size_ && (a.size_ == 0 || std::memcmp(a.data_, b.data_, a.size_) == 0);
    }
    friend bool operator!=(octets a, octets b) noexcept { return !(a == b); }

private:
    const std::uint8_t *data_ = nullptr;
    std::size_t size_ = 0;
};

/** What became of a packet. */
enum class outcome : std::uint8_t {
    delivered,     /**< A packet was rebuilt. */
    stored,        /**< The context was made or renewed without a packet. */
    only_feedback, /**< The packet has only padding and feedback. */
    refused        /**< The packet was refused: see answer::refusal. */
};

/** The answer to a packet. */
struct answer {
    polorowan::outcome outcome;
    std::uint8_t refusal;               /**< The refusal's number, 1 to 30, or 0. */
    std::optional<std::uint16_t> cid;   /**< The CID, if the packet has one. */
    std::optional<octets> packet;       /**< The rebuilt packet. */
    std::optional<octets> feedback;     /**< The feedback for the compressor. */
    octets relayed;                     /**< Elements for this side's compressor, each after an octet that counts it. */

    /** Calls a function with each relayed element. */
    template <typename F>
    void each_relayed(F &&take) const {
        for (std::size_t at = 0; at < relayed.size(); at += 1 + std::size_t{relayed.data()[at]})
            take(octets{relayed.data() + at + 1, relayed.data()[at]});
    }
};

/** Why no gateway was made, or no link restored, and the place of the link or octet at fault, as polorowan.h says. */
struct fault {
    std::uint8_t number = POLOROWAN_MADE;
    std::size_t place = 0;
};

/** All contexts of all links. */
class gateway {
public:
    /** A gateway with these links; none at a fault, or without memory. */
    [[nodiscard]] static std::optional<gateway> make(const std::vector<polorowan_link> &links, fault *why = nullptr) noexcept {
        gateway made;
        fault found;
        found.number = made.state_ ? polorowan_open(links.data(), links.size(), &found.place, &made.state_->raw)
                                   : std::uint8_t{POLOROWAN_NO_MEMORY};
        if (why) *why = found;
        if (found.number != POLOROWAN_MADE) return std::nullopt;
        return made;
    }

    /** A gateway with these links that goes on from what save() gave. */
    [[nodiscard]] static std::optional<gateway> restore(const std::vector<polorowan_link> &links, octets saved,
                                                        polorowan_restored *told = nullptr, fault *why = nullptr) noexcept {
        gateway made;
        fault found;
        polorowan_restored restored{};
        found.number = made.state_ ? polorowan_open_saved(links.data(), links.size(), saved.data(), saved.size(),
                                                          &restored, &found.place, &made.state_->raw)
                                   : std::uint8_t{POLOROWAN_NO_MEMORY};
        if (why) *why = found;
        if (found.number != POLOROWAN_MADE) return std::nullopt;
        if (told) *told = restored;
        return made;
    }

    /**
     * Takes one packet of a link, and counts its answer if there are counts. None without memory for the buffers: then the
     * packet wasn't taken.
     */
    [[nodiscard]] std::optional<answer> arrive(std::uint16_t link, std::uint64_t moment, octets packet,
                                               polorowan_counts *counts = nullptr) noexcept {
        polorowan_arrival told{};
        if (!state_ || !state_->has_room(packet.size())) return std::nullopt;
        if (polorowan_arrive(state_->raw, link, moment, packet.data(), packet.size(), state_->packet.get(), state_->room,
                             state_->feedback, sizeof state_->feedback, state_->relayed.get(), state_->room,
                             &told) != POLOROWAN_ARRIVED)
            return std::nullopt;
        if (counts) polorowan_count(counts, &told, state_->feedback, sizeof state_->feedback);
        return read(told);
    }

    /** Forgets every context of a link. False if there is no such link. */
    bool reset(std::uint16_t link) noexcept { return state_ && polorowan_reset(state_->raw, link) == POLOROWAN_FORGOT; }

    /** Adds a link behind the others, without a context. @return one of enum polorowan_linked */
    std::uint8_t add_link(const polorowan_link &link) noexcept {
        return state_ ? polorowan_add_link(state_->raw, &link) : std::uint8_t{POLOROWAN_LINKED_NONE};
    }

    /**
     * Puts the contexts of one link, which holds none, back from what save_link() gave. False at a fault, and then nothing
     * changes; its number is as of polorowan_restore_link().
     */
    bool restore_link(std::uint16_t link, octets saved, polorowan_restored *told = nullptr, fault *why = nullptr) noexcept {
        fault found;
        polorowan_restored restored{};
        found.number = state_ ? polorowan_restore_link(state_->raw, link, saved.data(), saved.size(), &restored, &found.place)
                              : std::uint8_t{POLOROWAN_RESTORED_NONE};
        if (why) *why = found;
        if (found.number != POLOROWAN_RESTORED) return false;
        if (told) *told = restored;
        return true;
    }

    /** Changes the setting of the link of this number. @return one of enum polorowan_linked */
    std::uint8_t change_link(const polorowan_link &link) noexcept {
        std::size_t count = 0;
        return state_ ? polorowan_change_link(state_->raw, &link, &count) : std::uint8_t{POLOROWAN_LINKED_NONE};
    }

    /** Removes a link, and says how many contexts went with it. None if there is no such link. */
    std::optional<std::size_t> remove_link(std::uint16_t link) noexcept {
        std::size_t count = 0;
        if (!state_ || polorowan_remove_link(state_->raw, link, &count) != POLOROWAN_FORGOT) return std::nullopt;
        return count;
    }

    /** Forgets the context of one CID of a link, and says how many went. None if there is no such link. */
    std::optional<std::size_t> forget(std::uint16_t link, std::uint16_t cid) noexcept {
        std::size_t count = 0;
        if (!state_ || polorowan_forget(state_->raw, link, cid, &count) != POLOROWAN_FORGOT) return std::nullopt;
        return count;
    }

    /** Forgets the contexts of a link that have expired, and says how many went. None if there is no such link. */
    std::optional<std::size_t> forget_expired(std::uint16_t link, std::uint64_t moment) noexcept {
        std::size_t count = 0;
        if (!state_ || polorowan_forget_expired(state_->raw, link, moment, &count) != POLOROWAN_FORGOT) return std::nullopt;
        return count;
    }

    /** Whether the context of a CID of a link has expired at a moment; false if there is none. */
    [[nodiscard]] bool has_expired(std::uint16_t link, std::uint16_t cid, std::uint64_t moment) const noexcept {
        return state_ && polorowan_has_expired(state_->raw, link, cid, moment);
    }

    /** Whether there is a context for a CID of a link, even one that counts as none because it was idle too long. */
    [[nodiscard]] bool has_context(std::uint16_t link, std::uint16_t cid) const noexcept {
        return state_ && polorowan_has_context(state_->raw, link, cid);
    }

    /** The number of the link at a place. */
    [[nodiscard]] std::optional<std::uint16_t> link_at(std::size_t place) const noexcept {
        std::uint16_t link = 0;
        if (!state_ || !polorowan_link_at(state_->raw, place, &link)) return std::nullopt;
        return link;
    }

    /** The context at a place among those of a link. */
    [[nodiscard]] std::optional<polorowan_context_info> context_at(std::uint16_t link, std::size_t place) const noexcept {
        polorowan_context_info context{};
        if (!state_ || !polorowan_context_at(state_->raw, link, place, &context)) return std::nullopt;
        return context;
    }

    /** All that the gateway keeps, as octets. None without memory. */
    [[nodiscard]] std::optional<std::vector<std::uint8_t>> save(std::uint64_t moment) const {
        std::uint8_t none = 0;
        std::size_t count = 0;
        if (!state_ || polorowan_save(state_->raw, moment, &none, 0, &count) != POLOROWAN_SAVED_NO_ROOM) return std::nullopt;
        std::vector<std::uint8_t> saved(count);
        if (polorowan_save(state_->raw, moment, saved.data(), saved.size(), &count) != POLOROWAN_SAVED) return std::nullopt;
        return saved;
    }

    /** One link in the same form. None without memory, or if there is no such link. */
    [[nodiscard]] std::optional<std::vector<std::uint8_t>> save_link(std::uint16_t link, std::uint64_t moment) const {
        std::uint8_t none = 0;
        std::size_t count = 0;
        if (!state_ || polorowan_save_link(state_->raw, link, moment, &none, 0, &count) != POLOROWAN_SAVED_NO_ROOM)
            return std::nullopt;
        std::vector<std::uint8_t> saved(count);
        if (polorowan_save_link(state_->raw, link, moment, saved.data(), saved.size(), &count) != POLOROWAN_SAVED)
            return std::nullopt;
        return saved;
    }

private:
    struct state {
        polorowan_gateway *raw = nullptr;
        std::size_t room = 0;
        std::unique_ptr<std::uint8_t[]> packet, relayed;
        std::uint8_t feedback[POLOROWAN_FEEDBACK_ROOM]{};

        state() noexcept = default;
        state(const state &) = delete;
        state &operator=(const state &) = delete;
        ~state() { polorowan_close(raw); }

        /** Whether there is room for the answer to a packet of so many octets; it is made if there isn't. */
        bool has_room(std::size_t count) noexcept {
            const std::size_t wanted = count + POLOROWAN_HEAD_ROOM;
            if (wanted <= room) return true;
            const std::size_t next = wanted < 2048 ? 2048 : wanted;
            std::unique_ptr<std::uint8_t[]> a(new (std::nothrow) std::uint8_t[next]), b(new (std::nothrow) std::uint8_t[next]);
            if (!a || !b) return false;
            packet = std::move(a);
            relayed = std::move(b);
            room = next;
            return true;
        }
    };

    gateway() noexcept : state_(new (std::nothrow) state) {}

    [[nodiscard]] answer read(const polorowan_arrival &told) const noexcept {
        answer made{outcome::refused, 0, std::nullopt, std::nullopt, std::nullopt, {state_->relayed.get(), told.relayed_length}};
        if (told.kind == POLOROWAN_CONTEXT) made.cid = told.cid;
        if (told.kind == POLOROWAN_FEEDBACK) made.outcome = outcome::only_feedback;
        else if (told.outcome == POLOROWAN_DELIVERED) made.outcome = outcome::delivered;
        else if (told.outcome == POLOROWAN_STORED) made.outcome = outcome::stored;
        else made.refusal = told.outcome;
        if (told.has_packet) made.packet = octets{state_->packet.get(), told.packet_length};
        if (told.has_feedback) made.feedback = octets{state_->feedback, told.feedback_length};
        return made;
    }

    std::unique_ptr<state> state_;
};

/** The name of a refusal, or an empty text if there is none of this number. */
[[nodiscard]] inline std::string_view refusal_name(std::uint8_t number) noexcept {
    const char *name = polorowan_name_of(number);
    return name ? std::string_view(name) : std::string_view();
}

/** What a refusal means, in a sentence, or an empty text if there is none of this number. */
[[nodiscard]] inline std::string_view refusal_text(std::uint8_t number) noexcept {
    const char *text = polorowan_text_of(number);
    return text ? std::string_view(text) : std::string_view();
}

} // namespace polorowan

#endif
