"""The library for C, by ctypes: its structs, as in include/polorowan.h, and its functions."""

from __future__ import annotations

import ctypes
import ctypes.util
import os
import struct
from ctypes import POINTER, byref, c_bool, c_size_t, c_uint8, c_uint16, c_uint32, c_uint64, c_void_p
from collections.abc import Iterator, Sequence
from functools import cache
from pathlib import Path
from threading import Lock

from ._errors import Closed

HEAD_ROOM, FEEDBACK_ROOM, NAME_ROOM = 40, 8, 16
MANY = 1024
NO_ROOM = 2
NO_LINK = 7
NO_SAVED_LINK = 4
NO_RESTORED_LINK = 2

# `struct polorowan_packet` and `struct polorowan_arrival`, as the module struct writes and reads them.
PACKET = "H6xQQQ"
ARRIVAL = struct.Struct("=BBH??2xQQQQ")

Told = tuple[int, int, int, bytes | None, bytes | None, tuple[bytes, ...]]
"""Kind, outcome, CID, packet, feedback and relayed feedback."""


class Gateway(ctypes.Structure):
    _fields_ = [("live", c_bool), ("at", c_void_p)]


class Range(ctypes.Structure):
    _fields_ = [("first", c_uint16), ("last", c_uint16), ("optimistic", c_bool)]


class Link(ctypes.Structure):
    _fields_ = [
        ("link", c_uint16),
        ("max_cid", c_uint16),
        ("large", c_bool),
        ("optimistic", c_bool),
        ("k1", c_uint8),
        ("n1", c_uint8),
        ("k2", c_uint8),
        ("n2", c_uint8),
        ("range_count", c_uint8),
        ("packet_ms", c_uint32),
        ("static_nack_ms", c_uint32),
        ("idle_ms", c_uint32),
        ("ranges", Range * 8),
    ]


class Arrival(ctypes.Structure):
    _fields_ = [
        ("kind", c_uint8),
        ("outcome", c_uint8),
        ("cid", c_uint16),
        ("has_packet", c_bool),
        ("has_feedback", c_bool),
        ("packet_length", c_size_t),
        ("feedback_length", c_size_t),
        ("relayed_length", c_size_t),
        ("relayed_count", c_size_t),
    ]


class Counts(ctypes.Structure):
    _fields_ = [
        ("outcomes", c_uint64 * 32),
        ("feedback_alone", c_uint64),
        ("words", c_uint64 * 4),
        ("relayed", c_uint64),
    ]


class ContextInfo(ctypes.Structure):
    _fields_ = [("cid", c_uint16), ("profile", c_uint16), ("state", c_uint8), ("accepted", c_uint64)]


class Restored(ctypes.Structure):
    _fields_ = [
        (name, c_uint64)
        for name in (
            "moment",
            "links",
            "unknown_links",
            "other_links",
            "contexts",
            "left_contexts",
            "high_contexts",
        )
    ]


def _path() -> str:
    """Where the library is."""
    given = os.environ.get("POLOROWAN_LIBRARY")
    if given:
        return str(Path(given) / "libpolorowan.so") if Path(given).is_dir() else given
    folder = Path(__file__).resolve().parent
    built = [folder / "libpolorowan.so", folder.parent.parent / "out/libpolorowan.so"]
    found = next((str(file) for file in built if file.exists()), None) or ctypes.util.find_library("polorowan")
    if found is None:
        raise OSError("there is no libpolorowan.so: build it by bin/lib, or name it in POLOROWAN_LIBRARY")
    return found


@cache
def _functions() -> ctypes.PyDLL:
    """Loads the library, with the types of its functions. A call keeps the interpreter's lock, if there is one."""
    library = ctypes.PyDLL(_path())
    octets = ctypes.c_void_p
    types = {
        "polorowan_new": (c_uint8, [POINTER(Gateway), POINTER(Link), c_size_t, POINTER(c_size_t)]),
        "polorowan_free": (None, [POINTER(Gateway)]),
        "polorowan_arrive": (
            c_uint8,
            [POINTER(Gateway), c_uint16, c_uint64, *[octets, c_size_t] * 4, POINTER(Arrival)],
        ),
        "polorowan_arrive_many": (c_uint8, [POINTER(Gateway), *[octets, c_size_t] * 4]),
        "polorowan_count": (None, [POINTER(Counts), octets, octets, c_size_t]),
        "polorowan_add_link": (c_uint8, [POINTER(Gateway), POINTER(Link)]),
        "polorowan_remove_link": (c_uint8, [POINTER(Gateway), c_uint16, POINTER(c_size_t)]),
        "polorowan_change_link": (c_uint8, [POINTER(Gateway), POINTER(Link), POINTER(c_size_t)]),
        "polorowan_forget": (c_uint8, [POINTER(Gateway), c_uint16, c_uint16, POINTER(c_size_t)]),
        "polorowan_forget_expired": (c_uint8, [POINTER(Gateway), c_uint16, c_uint64, POINTER(c_size_t)]),
        "polorowan_has_expired": (c_bool, [POINTER(Gateway), c_uint16, c_uint16, c_uint64]),
        "polorowan_save_link": (
            c_uint8,
            [POINTER(Gateway), c_uint16, c_uint64, octets, c_size_t, POINTER(c_size_t)],
        ),
        "polorowan_restore_link": (
            c_uint8,
            [POINTER(Gateway), c_uint16, octets, c_size_t, POINTER(Restored), POINTER(c_size_t)],
        ),
        "polorowan_reset": (c_uint8, [POINTER(Gateway), c_uint16]),
        "polorowan_has_context": (c_bool, [POINTER(Gateway), c_uint16, c_uint16]),
        "polorowan_link_at": (c_bool, [POINTER(Gateway), c_size_t, POINTER(c_uint16)]),
        "polorowan_context_at": (c_bool, [POINTER(Gateway), c_uint16, c_size_t, POINTER(ContextInfo)]),
        "polorowan_refusal_name": (c_size_t, [c_uint8, octets, c_size_t]),
        "polorowan_save": (c_uint8, [POINTER(Gateway), c_uint64, octets, c_size_t, POINTER(c_size_t)]),
        "polorowan_restore": (
            c_uint8,
            [POINTER(Gateway), POINTER(Link), c_size_t, octets, c_size_t, POINTER(Restored), POINTER(c_size_t)],
        ),
    }
    for name, (result, arguments) in types.items():
        function = getattr(library, name)
        function.restype, function.argtypes = result, arguments
    return library


def new(gateway: Gateway, links: list[Link]) -> tuple[int, int]:
    """Makes a concentrator, and returns the status and the place of the link at fault."""
    place = c_size_t()
    array = (Link * max(len(links), 1))(*links)
    return _functions().polorowan_new(byref(gateway), array, len(links), byref(place)), place.value


def restore(gateway: Gateway, links: list[Link], octets: bytes) -> tuple[int, int, Restored]:
    """Makes a concentrator from saved octets. Returns the status, the place of the fault, and what was restored."""
    place, restored = c_size_t(), Restored()
    array = (Link * max(len(links), 1))(*links)
    status = _functions().polorowan_restore(
        byref(gateway), array, len(links), octets, len(octets), byref(restored), byref(place)
    )
    return status, place.value, restored


def restore_link(gateway: Gateway, link: int, octets: bytes) -> tuple[int, int, Restored]:
    """Restores one link. Returns the status, the place of the fault, and what was restored."""
    place, restored = c_size_t(), Restored()
    status = _functions().polorowan_restore_link(
        byref(gateway), link, octets, len(octets), byref(restored), byref(place)
    )
    return status, place.value, restored


def save(gateway: Gateway, moment: int, link: int | None = None) -> tuple[int, bytes]:
    """The status, and the octets of a concentrator, or of one link, that is saved at this moment."""
    function, of = (
        (_functions().polorowan_save, ()) if link is None else (_functions().polorowan_save_link, (link,))
    )
    count, none = c_size_t(), ctypes.create_string_buffer(1)
    status = function(byref(gateway), *of, moment, none, 0, byref(count))
    if status != NO_ROOM:
        return status, b""
    octets = ctypes.create_string_buffer(count.value)
    status = function(byref(gateway), *of, moment, octets, count.value, byref(count))
    return status, octets.raw


def add_link(gateway: Gateway, link: Link) -> int:
    return int(_functions().polorowan_add_link(byref(gateway), byref(link)))


def change_link(gateway: Gateway, link: Link) -> tuple[int, int]:
    """The status, and how many contexts went."""
    count = c_size_t()
    return _functions().polorowan_change_link(byref(gateway), byref(link), byref(count)), count.value


def remove_link(gateway: Gateway, link: int) -> tuple[int, int]:
    """The status, and how many contexts went."""
    count = c_size_t()
    return _functions().polorowan_remove_link(byref(gateway), link, byref(count)), count.value


def forget(gateway: Gateway, link: int, cid: int) -> tuple[int, int]:
    """The status, and how many contexts went."""
    count = c_size_t()
    return _functions().polorowan_forget(byref(gateway), link, cid, byref(count)), count.value


def forget_expired(gateway: Gateway, link: int, moment: int) -> tuple[int, int]:
    """The status, and how many contexts went."""
    count = c_size_t()
    return _functions().polorowan_forget_expired(byref(gateway), link, moment, byref(count)), count.value


def has_expired(gateway: Gateway, link: int, cid: int, moment: int) -> bool:
    return bool(_functions().polorowan_has_expired(byref(gateway), link, cid, moment))


@cache
def _packets_of(count: int) -> struct.Struct:
    """So many structs of a packet."""
    return struct.Struct("=" + PACKET * count)


class Room:
    """A gateway, and the room for its answers, which grows with the longest packet."""

    def __init__(self) -> None:
        self._lock = Lock()
        self.gateway = Gateway()
        self.arrival = Arrival()
        self._many = ctypes.create_string_buffer(1)
        self._arrivals = ctypes.create_string_buffer(MANY * ARRIVAL.size)
        self._grow(2048)

    def _grow(self, count: int) -> None:
        """Makes room for the answer to a packet of so many octets."""
        self._count = count
        self._packet = ctypes.create_string_buffer(count + HEAD_ROOM)
        self._feedback = ctypes.create_string_buffer(FEEDBACK_ROOM)
        self._relayed = ctypes.create_string_buffer(count)
        buffers = (self._packet, self._feedback, self._relayed)
        told: list[object] = [word for buffer in buffers for word in (ctypes.addressof(buffer), len(buffer))]
        self._told = [*told, byref(self.arrival)]

    def __enter__(self) -> Room:
        """Waits for a call of another thread. The error is `Closed`."""
        self._lock.acquire()
        if not self.gateway.live:
            self._lock.release()
            raise Closed("the concentrator is closed")
        return self

    def __exit__(self, *_: object) -> None:
        self._lock.release()

    def free(self) -> None:
        """Frees the concentrator, if there is one."""
        with self._lock:
            _functions().polorowan_free(byref(self.gateway))

    def arrive(self, link: int, moment: int, octets: bytes) -> None:
        """Takes a packet. There is a concentrator."""
        count = len(octets)
        if count > self._count:
            self._grow(count)
        status = _functions().polorowan_arrive(byref(self.gateway), link, moment, octets, count, *self._told)
        if status != 0:
            raise RuntimeError(f"polorowan_arrive answered {status}")

    def arrive_many(self, packets: Sequence[tuple[int, int, bytes]]) -> Iterator[Told]:
        """Takes up to `MANY` packets, each with its link and moment, and gives what is told of each."""
        count = len(packets)
        octets = b"".join([packet[2] for packet in packets])
        words: list[int] = []
        at = 0
        for link, moment, packet in packets:
            words += (link, moment, at, len(packet))
            at += len(packet)
        needed = 2 * at + count * (HEAD_ROOM + FEEDBACK_ROOM)
        if needed > len(self._many):
            self._many = ctypes.create_string_buffer(2 * needed)
        status = _functions().polorowan_arrive_many(
            byref(self.gateway),
            _packets_of(count).pack(*words),
            count,
            octets,
            at,
            self._many,
            needed,
            self._arrivals,
            count,
        )
        if status != 0:
            raise RuntimeError(f"polorowan_arrive_many answered {status}")
        room = ctypes.string_at(self._many, needed)
        told = ARRIVAL.iter_unpack(ctypes.string_at(self._arrivals, count * ARRIVAL.size))
        return _answers(room, [len(packet[2]) for packet in packets], told)

    def count(self, counts: Counts) -> None:
        """Counts the last answer."""
        _functions().polorowan_count(byref(counts), byref(self.arrival), self._feedback, FEEDBACK_ROOM)

    def count_many(self, counts: Counts, lengths: Sequence[int]) -> None:
        """Counts the answers to so many packets of these lengths, which were taken last."""
        answer, feedback = ctypes.addressof(self._arrivals), ctypes.addressof(self._many)
        for length in lengths:
            _functions().polorowan_count(byref(counts), answer, feedback + length + HEAD_ROOM, FEEDBACK_ROOM)
            answer += ARRIVAL.size
            feedback += 2 * length + HEAD_ROOM + FEEDBACK_ROOM

    @property
    def packet(self) -> bytes | None:
        """The rebuilt packet of the last answer."""
        return ctypes.string_at(self._packet, self.arrival.packet_length) if self.arrival.has_packet else None

    @property
    def feedback(self) -> bytes | None:
        """The feedback for the compressor of the last answer."""
        return ctypes.string_at(self._feedback, self.arrival.feedback_length) if self.arrival.has_feedback else None

    @property
    def relayed(self) -> tuple[bytes, ...]:
        """The feedback that the last packet carried for this side."""
        count = self.arrival.relayed_length
        return _elements(ctypes.string_at(self._relayed, count)) if count else ()


def _answers(room: bytes, lengths: list[int], arrivals: Iterator[tuple[int, ...]]) -> Iterator[Told]:
    """What is told of each packet: its answer's octets stand in its part of the room."""
    at = 0
    for length, arrival in zip(lengths, arrivals, strict=True):
        kind, outcome, cid, has_packet, has_feedback, packet_length, feedback_length, relayed_length, _ = arrival
        behind = at + length + HEAD_ROOM
        relayed = behind + FEEDBACK_ROOM
        yield (
            kind,
            outcome,
            cid,
            room[at : at + packet_length] if has_packet else None,
            room[behind : behind + feedback_length] if has_feedback else None,
            _elements(room[relayed : relayed + relayed_length]) if relayed_length else (),
        )
        at = relayed + length


def _elements(octets: bytes) -> tuple[bytes, ...]:
    """The data of each element. In the buffer one octet before it counts it."""
    elements, at = [], 0
    while at < len(octets):
        end = at + 1 + octets[at]
        elements.append(octets[at + 1 : end])
        at = end
    return tuple(elements)


def reset(gateway: Gateway, link: int) -> int:
    return int(_functions().polorowan_reset(byref(gateway), link))


def has_context(gateway: Gateway, link: int, cid: int) -> bool:
    return bool(_functions().polorowan_has_context(byref(gateway), link, cid))


def link_at(gateway: Gateway, place: int) -> int | None:
    """The number of the link at a place, or None if there is none."""
    link = c_uint16()
    return link.value if _functions().polorowan_link_at(byref(gateway), place, byref(link)) else None


def context_at(gateway: Gateway, link: int, place: int) -> ContextInfo | None:
    """The context at a place among those of a link, or None if there is none."""
    context = ContextInfo()
    return context if _functions().polorowan_context_at(byref(gateway), link, place, byref(context)) else None


def _refusal_name(number: int) -> str | None:
    name = ctypes.create_string_buffer(NAME_ROOM)
    length = _functions().polorowan_refusal_name(number, name, len(name))
    return name.raw[:length].decode("ascii") if length else None


@cache
def refusal_names() -> tuple[str | None, ...]:
    """The name of the refusal with each number, or None if there is none."""
    return tuple(_refusal_name(number) for number in range(256))
