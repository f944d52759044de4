"""A ROHC decompressor for many links: packets in, IP packets and feedback out.

A thin layer over the library for C, libpolorowan.so, which `bin/lib` builds and a wheel of `bin/wheel` contains. It is
taken from the folder or file that the environment variable POLOROWAN_LIBRARY names, else from this package, else from the
folder out/ of this repository, else from the system's libraries. The library is proved; this layer isn't.

    from polorowan import Concentrator, Link

    with Concentrator([Link(1)]) as concentrator:
        answer = concentrator.arrive(1, 0, bytes.fromhex("fc00b745aa"))
        print(answer.packet, answer.feedback)
"""

from __future__ import annotations

from collections.abc import Callable, Iterable, Iterator, Sequence
from dataclasses import dataclass
from enum import IntEnum
from itertools import islice
from typing import NamedTuple, NoReturn, TypeVar

from . import _library
from ._errors import (
    NOT_RESTORED,
    NOT_RESTORED_LINK,
    Closed,
    Error,
    NoLink,
    RestoreError,
    SavedError,
    SetupError,
)

T = TypeVar("T")

__all__ = [
    "Answer",
    "Closed",
    "Concentrator",
    "Context",
    "Counts",
    "Error",
    "Feedback",
    "Kind",
    "Link",
    "NoLink",
    "Range",
    "RestoreError",
    "Restored",
    "SavedError",
    "SetupError",
    "State",
]


class Kind(IntEnum):
    """The kind of an answer."""

    CONTEXT = 0
    """The packet has a CID, and its context answers."""
    FEEDBACK = 1
    """The packet has only padding and feedback."""
    REFUSED = 2
    """The packet was refused, and has no CID."""


class State(IntEnum):
    """The state of a decompressor for one context (RFC 3095 4.3.2)."""

    NO_CONTEXT = 0
    STATIC_CONTEXT = 1
    FULL_CONTEXT = 2


@dataclass(frozen=True)
class Context:
    """What is shown of a context."""

    cid: int
    profile: int
    """0x0000 or 0x0001."""
    state: State
    accepted: int
    """The time of its last accepted arrival, in milliseconds."""


@dataclass(frozen=True)
class Range:
    """A range of CIDs with a mode of its own, from `first` to `last`, both included."""

    first: int
    last: int
    optimistic: bool


@dataclass(frozen=True)
class Link:
    """The settings of a link. The fields are those of `struct polorowan_link` in include/polorowan.h."""

    link: int
    max_cid: int = 15
    large: bool = False
    optimistic: bool = True
    k1: int = 2
    n1: int = 3
    k2: int = 2
    n2: int = 3
    packet_ms: int = 20
    static_nack_ms: int = 1000
    idle_ms: int = 0
    ranges: Sequence[Range] = ()


class Answer(NamedTuple):
    """The answer to a packet."""

    kind: Kind
    cid: int | None
    """The CID; None if the packet has none."""
    packet: bytes | None
    """The rebuilt IP packet."""
    feedback: bytes | None
    """The feedback element for the compressor."""
    relayed: tuple[bytes, ...]
    """The data of the feedback elements in the packet, which are for this side's compressor."""
    refusal: str | None
    """The refusal's name; None if the packet was taken."""

    @property
    def stored(self) -> bool:
        """Whether the context was made or renewed without a packet."""
        return self.kind == Kind.CONTEXT and self.packet is None and self.refusal is None


class Feedback(IntEnum):
    """A kind of feedback for the compressor."""

    ACK = 0
    NACK = 1
    STATIC_NACK = 2
    PLAIN_ACK = 3
    """FEEDBACK-1 of profile 0x0000."""


class Counts:
    """How many answers of each kind there were: of a link, of a CID or of all, as the caller hands them in."""

    def __init__(self) -> None:
        self._raw = _library.Counts()

    @property
    def delivered(self) -> int:
        """Packets that were rebuilt."""
        return int(self._raw.outcomes[0])

    @property
    def stored(self) -> int:
        """Contexts that were made or renewed without a packet."""
        return int(self._raw.outcomes[31])

    @property
    def refused(self) -> dict[str, int]:
        """Packets that were refused, by the refusal's name; those that came."""
        named = zip(_library.refusal_names(), self._raw.outcomes)
        return {name: int(count) for name, count in named if name is not None and count}

    @property
    def feedback_alone(self) -> int:
        """Packets of padding and feedback alone."""
        return int(self._raw.feedback_alone)

    @property
    def feedback(self) -> dict[Feedback, int]:
        """Feedback for the compressor, by kind."""
        return {kind: int(self._raw.words[kind]) for kind in Feedback}

    @property
    def relayed(self) -> int:
        """Feedback elements for this side's compressor."""
        return int(self._raw.relayed)


@dataclass(frozen=True)
class Restored:
    """The moment of saving, and how much of what was saved was taken or left out."""

    moment: int
    links: int
    unknown_links: int
    """Links that aren't in the settings."""
    other_links: int
    """Links of another CID kind in the settings."""
    contexts: int
    left_contexts: int
    """Contexts that were left out with their link."""
    high_contexts: int
    """Contexts above the greatest CID of the settings."""


class Concentrator:
    """The contexts of all links. `close` or a `with` block frees it, and then every other call raises `Closed`.

    It can't be copied. Calls of several threads wait for one another, also where Python has no common lock.
    """

    def __init__(self, links: Iterable[Link]) -> None:
        self._room = _library.Room()
        status, place = _library.new(self._room.gateway, [_link(link) for link in links])
        if status != 0:
            raise SetupError(status, place)

    @classmethod
    def restored(
        cls, links: Iterable[Link], octets: bytes | bytearray | memoryview
    ) -> tuple[Concentrator, Restored]:
        """A concentrator with these links that goes on from what `save` gave, and what was taken and left out.

        The error is `SetupError` or `SavedError`.
        """
        new = cls.__new__(cls)
        new._room = _library.Room()
        raw = [_link(link) for link in links]
        status, place, told = _library.restore(new._room.gateway, raw, memoryview(octets).tobytes())
        if status != 0:
            raise SavedError(status, place) if status in NOT_RESTORED else SetupError(status, place)
        return new, _restored(told)

    def save(self, moment: int) -> bytes:
        """All that is kept, as octets (docs/FORMATS.md). The moment is of the clock of the arrivals, in milliseconds."""
        time = _within(moment, 64)
        with self._room as room:
            status, octets = _library.save(room.gateway, time)
        if status != 0:
            raise MemoryError
        return octets

    def save_link(self, link: int, moment: int) -> bytes:
        """One link in the same form. The error is `NoLink`."""
        number, time = _within(link, 16), _within(moment, 64)
        with self._room as room:
            status, octets = _library.save(room.gateway, time, number)
        if status == _library.NO_SAVED_LINK:
            raise NoLink(link)
        if status != 0:
            raise MemoryError
        return octets

    def restore_link(self, link: int, octets: bytes | bytearray | memoryview) -> Restored:
        """Puts the contexts of one link, which holds none, back from what `save_link` gave. Nothing else changes.

        The error is `NoLink`, `RestoreError` or `SavedError`; then nothing changes.
        """
        number, saved = _within(link, 16), memoryview(octets).tobytes()
        with self._room as room:
            status, place, told = _library.restore_link(room.gateway, number, saved)
        if status == _library.NO_RESTORED_LINK:
            raise NoLink(link)
        if status in NOT_RESTORED_LINK:
            raise RestoreError(status)
        if status in NOT_RESTORED:
            raise SavedError(status, place)
        if status != 0:
            raise MemoryError
        return _restored(told)

    def arrive(
        self, link: int, moment: int, octets: bytes | bytearray | memoryview, counts: Counts | None = None
    ) -> Answer:
        """Takes one packet of a link, with its arrival time in milliseconds, and returns the answer.

        The packet is all octets of a bytes-like object, whatever its items are. The answer is counted, if there are counts.
        """
        number, time, packet = _packet(link, moment, octets)
        with self._room as room:
            room.arrive(number, time, packet)
            if counts is not None:
                room.count(counts._raw)
            arrival = room.arrival
            cid = arrival.cid if arrival.kind == Kind.CONTEXT else None
            refusal = _library.refusal_names()[arrival.outcome]
            return Answer(_KINDS[arrival.kind], cid, room.packet, room.feedback, room.relayed, refusal)

    def arrive_many(
        self,
        packets: Iterable[tuple[int, int, bytes | bytearray | memoryview]],
        counts: Counts | None = None,
    ) -> list[Answer]:
        """Takes packets one after the other, as so many calls of `arrive`, and returns their answers.

        Each packet has its link, its arrival time in milliseconds and its octets. If one is refused by this layer, as for a
        number that is too great, those of its batch of up to 1,024 aren't taken, nor those behind.
        """
        answers: list[Answer] = []
        names, rest = _library.refusal_names(), iter(packets)
        with self._room as room:
            while batch := [_packet(*packet) for packet in islice(rest, _library.MANY)]:
                answers += [
                    Answer(_KINDS[kind], cid if kind == 0 else None, packet, feedback, relayed, names[outcome])
                    for kind, outcome, cid, packet, feedback, relayed in room.arrive_many(batch)
                ]
                if counts is not None:
                    room.count_many(counts._raw, [len(octets) for _, _, octets in batch])
        return answers

    def add_link(self, link: Link) -> None:
        """Adds a link behind the others, without a context. The error is `SetupError`; then nothing changes."""
        raw = _link(link)
        with self._room as room:
            status = _library.add_link(room.gateway, raw)
        if status != 0:
            raise SetupError(status, 0)

    def change_link(self, link: Link) -> int:
        """Changes the setting of the link of this number, and returns how many contexts went.

        Contexts stay, unless the CID kind changes or their CID is above the new greatest. The error is `NoLink` or
        `SetupError`; then nothing changes.
        """
        raw = _link(link)
        with self._room as room:
            status, count = _library.change_link(room.gateway, raw)
        if status == _library.NO_LINK:
            raise NoLink(link.link)
        if status != 0:
            raise SetupError(status, 0)
        return count

    def remove_link(self, link: int) -> int:
        """Removes a link with its contexts, and returns how many went."""
        number = _within(link, 16)
        with self._room as room:
            return _gone(link, *_library.remove_link(room.gateway, number))

    def forget(self, link: int, cid: int) -> bool:
        """Forgets the context of one CID of a link, and no other. Returns whether there was one."""
        number, identifier = _within(link, 16), _within(cid, 16)
        with self._room as room:
            return _gone(link, *_library.forget(room.gateway, number, identifier)) != 0

    def forget_expired(self, link: int, moment: int) -> int:
        """Forgets the contexts of a link that have expired at a moment, and returns how many went."""
        number, time = _within(link, 16), _within(moment, 64)
        with self._room as room:
            return _gone(link, *_library.forget_expired(room.gateway, number, time))

    def has_expired(self, link: int, cid: int, moment: int) -> bool:
        """Whether the context of a CID of a link has expired at a moment; False if there is none."""
        number, identifier, time = _within(link, 16), _within(cid, 16), _within(moment, 64)
        with self._room as room:
            return _library.has_expired(room.gateway, number, identifier, time)

    def reset(self, link: int) -> None:
        """Forgets every context of a link, and no other context."""
        number = _within(link, 16)
        with self._room as room:
            if _library.reset(room.gateway, number) != 0:
                raise NoLink(link)

    def has_context(self, link: int, cid: int) -> bool:
        """Whether there is a context for a CID of a link, even one that counts as none because it was idle too long."""
        number, identifier = _within(link, 16), _within(cid, 16)
        with self._room as room:
            return _library.has_context(room.gateway, number, identifier)

    def links(self) -> list[int]:
        """The numbers of the links, in their order."""
        with self._room as room:
            return list(_standing(lambda place: _library.link_at(room.gateway, place)))

    def contexts(self, link: int) -> list[Context]:
        """The contexts of a link, in the order of their first IR; none if there is no such link."""
        number = _within(link, 16)
        with self._room as room:
            found = _standing(lambda place: _library.context_at(room.gateway, number, place))
            return [Context(it.cid, it.profile, State(it.state), it.accepted) for it in found]

    def close(self) -> None:
        """Frees the concentrator. A second call does nothing."""
        self._room.free()

    def __reduce__(self) -> NoReturn:
        raise TypeError("a concentrator can't be copied")

    def __enter__(self) -> Concentrator:
        return self

    def __exit__(self, *_: object) -> None:
        self.close()

    def __del__(self) -> None:
        if hasattr(self, "_room"):
            self.close()


_KINDS = tuple(Kind)


def _standing(at: Callable[[int], T | None]) -> Iterator[T]:
    """What is found at the places from 0 on, up to the first at which nothing is."""
    place = 0
    while (found := at(place)) is not None:
        yield found
        place += 1


def _restored(told: _library.Restored) -> Restored:
    """What is told by a struct of C."""
    return Restored(*(getattr(told, name) for name, _ in told._fields_))


def _gone(link: int, status: int, count: int) -> int:
    """How many contexts went, if the link was there."""
    if status != 0:
        raise NoLink(link)
    return count


def _packet(link: int, moment: int, octets: bytes | bytearray | memoryview) -> tuple[int, int, bytes]:
    """A packet with its numbers, if they fit, and all its octets, whatever the items of `octets` are."""
    if not 0 <= link < 1 << 16 or not 0 <= moment < 1 << 64:
        raise OverflowError(f"{link} is no number of 16 bits, or {moment} none of 64")
    return link, moment, octets if type(octets) is bytes else memoryview(octets).tobytes()


def _within(number: int, bits: int) -> int:
    """The number, if it fits into this many bits."""
    if not 0 <= number < 1 << bits:
        raise OverflowError(f"{number} is no number of {bits} bits")
    return number


def _link(link: Link) -> _library.Link:
    """A link as a struct of C. If it has too many ranges, the library refuses it for their number."""
    raw = _library.Link(
        _within(link.link, 16),
        _within(link.max_cid, 16),
        link.large,
        link.optimistic,
        *(_within(number, 8) for number in (link.k1, link.n1, link.k2, link.n2, len(link.ranges))),
        *(_within(number, 32) for number in (link.packet_ms, link.static_nack_ms, link.idle_ms)),
    )
    for place, part in enumerate(link.ranges[: len(raw.ranges)]):
        raw.ranges[place] = _library.Range(_within(part.first, 16), _within(part.last, 16), part.optimistic)
    return raw
