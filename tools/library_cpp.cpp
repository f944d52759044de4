/* Tries the layer in C++: a call, its errors, a gateway that is moved, saved and restored, and four readers. */
#include <cstdio>
#include <cstdlib>
#include <thread>
#include <type_traits>

#include "polorowan.hpp"

static void must(bool holds, const char *what) {
    if (holds) return;
    std::printf("library_cpp: %s\n", what);
    std::exit(1);
}

static polorowan_link link(std::uint16_t number) {
    polorowan_link made{};
    made.link = number;
    made.max_cid = 15;
    made.optimistic = true;
    made.k1 = made.k2 = 2;
    made.n1 = made.n2 = 3;
    made.packet_ms = 20;
    made.static_nack_ms = 1000;
    return made;
}

int main() {
    using polorowan::gateway;
    static_assert(!std::is_copy_constructible_v<gateway> && std::is_nothrow_move_constructible_v<gateway>);
    polorowan::fault why;
    must(!gateway::make({}, &why) && why.number == POLOROWAN_NO_LINKS, "no links are taken");
    must(!gateway::make({link(1), link(1)}, &why) && why.number == POLOROWAN_DUPLICATE_LINK && why.place == 2, "a link twice");

    auto made = gateway::make({link(1)});
    must(made.has_value(), "no gateway");
    gateway moved = std::move(*made);
    const std::vector<std::uint8_t> first{0xfc, 0x00, 0xb7, 0x45, 0xaa};
    auto answer = moved.arrive(1, 0, first);
    must(answer && answer->outcome == polorowan::outcome::delivered && answer->cid == 0, "the first packet isn't delivered");
    must(*answer->packet == polorowan::octets(std::vector<std::uint8_t>{0x45, 0xaa}), "another packet");
    must(*answer->feedback == polorowan::octets(std::vector<std::uint8_t>{0xf1, 0x00}), "another feedback");

    answer = moved.arrive(2, 0, first);
    must(answer && answer->outcome == polorowan::outcome::refused && !answer->cid, "a link that isn't there");
    must(polorowan::refusal_name(answer->refusal) == "NoLink" && !polorowan::refusal_text(29).empty(), "another refusal");
    const std::vector<std::uint8_t> relay{0xf2, 0x01, 0x02};
    polorowan_counts counts{};
    answer = moved.arrive(1, 0, relay, &counts);
    must(counts.feedback_alone == 1 && counts.relayed == 1 && counts.outcomes[POLOROWAN_DELIVERED] == 0, "counts");
    std::size_t count = 0;
    must(answer && answer->outcome == polorowan::outcome::only_feedback, "feedback alone");
    answer->each_relayed([&](polorowan::octets element) { count += element.size(); });
    must(count > 0, "no relayed feedback");

    auto saved = moved.save(5);
    must(saved.has_value(), "not saved");
    polorowan_restored told{};
    auto other = gateway::restore({link(1)}, *saved, &told);
    must(other && told.contexts == 1 && other->has_context(1, 0), "not restored");
    saved->pop_back();
    must(!gateway::restore({link(1)}, *saved, nullptr, &why) && why.number == POLOROWAN_SHORT, "a cut text is restored");

    const gateway &shared = *other;
    std::vector<std::thread> readers;
    for (int i = 0; i < 4; i++)
        readers.emplace_back([&shared] {
            for (int j = 0; j < 20000; j++)
                must(shared.has_context(1, 0) && shared.link_at(0) == 1 && shared.context_at(1, 0)->profile == 0, "a reader");
        });
    for (auto &reader : readers) reader.join();
    must(other->add_link(link(2)) == POLOROWAN_LINKED && other->change_link(link(3)) == POLOROWAN_LINKED_NO_LINK, "links");
    must(other->remove_link(2) == 0u && !other->remove_link(2) && other->has_context(1, 0), "a link that is removed");
    must(other->forget(1, 1) == 0u && other->forget_expired(1, 5) == 0u && !other->has_expired(1, 0, 5), "forgetting");
    const auto alone = other->save_link(1, 6);
    must(alone && !other->save_link(2, 6), "a link that is saved");
    must(!other->restore_link(1, *alone, &told, &why) && why.number == POLOROWAN_RESTORED_HAS_CONTEXTS, "a link that is full");
    must(other->reset(1) && !other->has_context(1, 0) && !other->reset(2), "reset");
    must(other->restore_link(1, *alone, &told) && told.moment == 6 && told.contexts == 1, "a link that is restored");
    must(other->has_context(1, 0), "a restored context");
    std::puts("library_cpp: as wanted");
    return 0;
}
