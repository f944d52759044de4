#!/usr/bin/env python3
"""Runs the examples through the package, and a capture. POLOROWAN_LIBRARY names the folder of libpolorowan.so, if it isn't out/."""

from __future__ import annotations

import copy
import hashlib
import io
import pickle
import random
import re
import struct
import sys
import tomllib
import unittest
from collections.abc import Iterator
from pathlib import Path

TOP = Path(__file__).resolve().parent.parent
sys.path[:0] = [str(TOP / "python"), str(TOP / "python/examples")]

import pcap  # noqa: E402
from polorowan import (  # noqa: E402
    Answer,
    Closed,
    Concentrator,
    Context,
    Counts,
    Error,
    Feedback,
    Kind,
    Link,
    NoLink,
    Range,
    RestoreError,
    SavedError,
    SetupError,
    State,
)

EVENT = re.compile(rb"arrive (0|[1-9]\d{0,4}) (0|[1-9]\d{0,19}) (-|(?:[0-9a-f]{2})+)|reset (0|[1-9]\d{0,4})")


def links_of(path: Path) -> list[Link]:
    """The links of a links file."""
    return [
        Link(
            entry["number"],
            entry["max_cid"],
            entry["cid"] == "large",
            entry["mode"] == "O",
            *(entry[key] for key in ("k1", "n1", "k2", "n2", "packet_ms", "static_nack_ms")),
            entry.get("idle_ms", 0),
            [Range(part["first"], part["last"], part["mode"] == "O") for part in entry.get("range", [])],
        )
        for entry in tomllib.loads(path.read_text())["link"]
    ]


def hex_of(octets: bytes) -> str:
    return octets.hex() or "-"


def answer_lines(link: int, answer: Answer) -> Iterator[str]:
    """The answer lines of an answer, as in docs/FORMATS.md."""
    pair = f"{link} {'-' if answer.cid is None else answer.cid}"
    yield from (f"{link} - relay {hex_of(element)}" for element in answer.relayed)
    if answer.packet is not None:
        yield f"{pair} ip {hex_of(answer.packet)}"
    if answer.stored:
        yield f"{pair} stored"
    if answer.feedback is not None:
        yield f"{pair} feedback {hex_of(answer.feedback)}"
    if answer.refusal is not None:
        yield f"{pair} refused {answer.refusal}"


def run_line(concentrator: Concentrator, line: bytes) -> Iterator[str]:
    event = EVENT.fullmatch(line)
    if len(line) > 131200:
        yield "- - refused LongLine"
    elif event is None or any(int(event[n] or 0) >= 1 << bits for n, bits in ((1, 16), (2, 64), (4, 16))):
        yield "- - refused BadLine"
    elif event[4] is not None:
        try:
            concentrator.reset(int(event[4]))
        except NoLink:
            yield f"{int(event[4])} - refused NoLink"
    else:
        octets = b"" if event[3] == b"-" else bytes.fromhex(event[3].decode())
        yield from answer_lines(int(event[1]), concentrator.arrive(int(event[1]), int(event[2]), octets))


def replay(links: list[Link], script: bytes) -> str:
    lines = script.split(b"\n")
    with Concentrator(links) as concentrator:
        answers = [text for line in lines[:-1] + lines[-1:] * bool(lines[-1]) for text in run_line(concentrator, line)]
    return "".join(f"{text}\n" for text in answers)


class Examples(unittest.TestCase):
    def test_each_example(self) -> None:
        runs = [(script, TOP / "examples/worked/links-2.toml") for script in TOP.glob("examples/worked/*.script")]
        runs += [(script, script.with_suffix(".toml")) for script in TOP.glob("examples/scripts/*.script")]
        self.assertGreater(len(runs), 50)
        for script, links in runs:
            with self.subTest(script.name):
                wanted = script.with_suffix(".answers").read_text()
                self.assertEqual(replay(links_of(links), script.read_bytes()), wanted)


class Calls(unittest.TestCase):
    IR = bytes.fromhex("fc00b745aa")

    def test_an_answer(self) -> None:
        with Concentrator([Link(1)]) as concentrator:
            answer = concentrator.arrive(1, 0, self.IR)
            self.assertEqual((answer.kind, answer.cid, answer.packet), (Kind.CONTEXT, 0, b"\x45\xaa"))
            self.assertEqual((answer.feedback, answer.relayed, answer.refusal), (b"\xf1\x00", (), None))
            self.assertTrue(concentrator.has_context(1, 0))
            concentrator.reset(1)
            self.assertFalse(concentrator.has_context(1, 0))
            self.assertEqual(concentrator.arrive(1, 0, b"").refusal, "Empty")

    def test_what_stands(self) -> None:
        with Concentrator([Link(7), Link(1)]) as concentrator:
            self.assertEqual((concentrator.links(), concentrator.contexts(1), concentrator.contexts(2)), ([7, 1], [], []))
            concentrator.arrive(1, 5, bytes.fromhex("e5fc00f245aa"))
            concentrator.arrive(1, 6, self.IR)
            full = State.FULL_CONTEXT
            self.assertEqual(concentrator.contexts(1), [Context(5, 0x0000, full, 5), Context(0, 0x0000, full, 6)])
            self.assertEqual(concentrator.contexts(7), [])

    def test_faults(self) -> None:
        for links, status, place in (
            ([], 1, 0),
            ([Link(number) for number in range(257)], 2, 0),
            ([Link(1), Link(2, ranges=[Range(0, 0, True)] * 9)], 3, 2),
            ([Link(1, k1=4)], 4, 1),
            ([Link(1), Link(1)], 5, 2),
        ):
            with self.assertRaises(SetupError) as raised:
                Concentrator(links)
            self.assertEqual((raised.exception.status, raised.exception.place), (status, place))

    def test_closed(self) -> None:
        concentrator = Concentrator([Link(1)])
        with self.assertRaises(NoLink):
            concentrator.reset(2)
        concentrator.close()
        concentrator.close()
        with self.assertRaises(Closed):
            concentrator.arrive(1, 0, self.IR)
        for call in (
            concentrator.links,
            lambda: concentrator.contexts(1),
            lambda: concentrator.has_context(1, 0),
            lambda: concentrator.reset(1),
        ):
            with self.assertRaises(Closed) as raised:
                call()
            self.assertIsInstance(raised.exception, Error)
        with self.assertRaises(OverflowError):
            concentrator.arrive(65536, 0, self.IR)

    def test_octets_of_any_kind(self) -> None:
        pairs = self.IR + b"\xbb"
        with Concentrator([Link(1)]) as concentrator:
            for octets in (bytearray(pairs), memoryview(pairs), memoryview(pairs).cast("H")):
                wanted = concentrator.arrive(1, 0, bytes(octets))
                self.assertEqual(concentrator.arrive(1, 0, octets), wanted)
            every_other = memoryview(bytes(octet for octet in pairs for _ in range(2)))[::2]
            self.assertEqual(concentrator.arrive(1, 0, every_other).packet, b"\x45\xaa\xbb")
            self.assertEqual(concentrator.arrive(1, 0, self.IR + bytes(5000)).packet, b"\x45\xaa" + bytes(5000))
            for other in ("fc00", 5, None, [0xFC]):
                with self.assertRaises(TypeError):
                    concentrator.arrive(1, 0, other)  # type: ignore[arg-type]

    def test_many_are_as_single_ones(self) -> None:
        kinds = ["fc00b745aa", "e1fc003045aa", "45ab01", "e145ac", "f12045ad", "f22021", "e0e0", "fd0100", ""]
        source = random.Random(1)
        packets = [(source.choice([1, 1, 1, 9]), at, bytes.fromhex(source.choice(kinds))) for at in range(3000)]
        with Concentrator([Link(1)]) as many, Concentrator([Link(1)]) as single:
            self.assertEqual(many.arrive_many(iter(packets)), [single.arrive(*packet) for packet in packets])
            self.assertEqual(many.save(3000), single.save(3000))
            self.assertEqual(many.arrive_many([]), [])
            with self.assertRaises(OverflowError):
                many.arrive_many([(65536, 0, b"")])
            self.assertEqual(many.arrive_many([(1, 0, memoryview(b"\xe0\xe0").cast("H"))])[0].kind, Kind.FEEDBACK)

    def test_links_come_and_go(self) -> None:
        with Concentrator([Link(1, idle_ms=100)]) as it:
            it.arrive(1, 0, bytes.fromhex("fc00b745aa"))
            it.arrive(1, 50, bytes.fromhex("e1fc003045aa"))
            it.add_link(Link(2))
            with self.assertRaises(SetupError):
                it.add_link(Link(2))
            with self.assertRaises(SetupError):
                it.change_link(Link(1, max_cid=16))
            with self.assertRaises(NoLink):
                it.change_link(Link(3))
            self.assertEqual((it.change_link(Link(1, max_cid=1, idle_ms=100)), it.links()), (0, [1, 2]))
            self.assertEqual((it.has_expired(1, 0, 100), it.has_expired(1, 1, 100)), (True, False))
            self.assertEqual((it.forget_expired(1, 100), it.forget(1, 1), it.forget(1, 1)), (1, True, False))
            with self.assertRaises(NoLink):
                it.forget(3, 0)
            self.assertEqual(it.save_link(2, 7)[:9], b"Polorowan")
            with self.assertRaises(NoLink):
                it.save_link(3, 7)
            self.assertEqual((it.remove_link(1), it.links()), (0, [2]))
            with self.assertRaises(NoLink):
                it.remove_link(1)

    def test_answers_are_counted(self) -> None:
        packets = [bytes.fromhex(text) for text in ("fc00b745aa", "e1fc003045aa", "", "f22005f120", "f120fc00b745aa")]
        one, many = Counts(), Counts()
        with Concentrator([Link(1)]) as it:
            for packet in packets:
                it.arrive(1, 0, packet, one)
            it.arrive_many([(1, 0, packet) for packet in packets], many)
        for counts in (one, many):
            self.assertEqual((counts.delivered, counts.stored, counts.refused), (3, 0, {"Empty": 1}))
            self.assertEqual((counts.feedback_alone, counts.relayed), (1, 3))
            self.assertEqual(counts.feedback[Feedback.PLAIN_ACK], 3)
            self.assertEqual(sum(counts.feedback.values()), 3)

    def test_saved_and_restored(self) -> None:
        with Concentrator([Link(1), Link(2)]) as concentrator:
            self.assertEqual(concentrator.arrive(1, 3, self.IR).packet, b"\x45\xaa")
            octets = concentrator.save(5)
        # 21 octets, 8 for each link, 11 for the context, and a digest of 32.
        self.assertEqual((octets[:11], len(octets)), (b"Polorowan\0\1", 21 + 2 * 8 + 11 + 32))
        again, told = Concentrator.restored([Link(1), Link(3)], octets)
        with again:
            self.assertEqual((told.moment, told.links, told.unknown_links, told.contexts), (5, 1, 1, 1))
            self.assertEqual(again.arrive(1, 9, b"\x45\xab").packet, b"\x45\xab")
        with self.assertRaises(Closed):
            again.save(9)
        for bad, status, place in ((octets + b"x", 14, len(octets)), (octets[:-1], 9, len(octets) - 1)):
            with self.assertRaises(SavedError) as caught:
                Concentrator.restored([Link(1)], bad)
            self.assertEqual((caught.exception.status, caught.exception.place), (status, place))
        with self.assertRaises(SetupError):
            Concentrator.restored([], octets)

    def test_one_link_restored(self) -> None:
        with Concentrator([Link(1), Link(2)]) as here, Concentrator([Link(2), Link(1)]) as there:
            here.arrive(1, 3, self.IR)
            octets = here.save_link(1, 5)
            with self.assertRaises(RestoreError) as full:
                here.restore_link(1, octets)
            with self.assertRaises(RestoreError) as other:
                there.restore_link(2, octets)
            self.assertEqual((full.exception.status, other.exception.status), (3, 4))
            there.arrive(2, 4, self.IR)
            with self.assertRaises(NoLink):
                there.restore_link(3, octets)
            with self.assertRaises(SavedError) as cut:
                there.restore_link(1, octets[:-1])
            self.assertEqual((cut.exception.status, cut.exception.place), (9, len(octets) - 1))
            told = there.restore_link(1, octets)
            self.assertEqual((told.moment, told.links, told.contexts), (5, 1, 1))
            self.assertEqual(there.save_link(1, 5), octets)
            self.assertTrue(there.has_context(2, 0))
            self.assertEqual(there.arrive(1, 9, b"\x45\xab").packet, b"\x45\xab")

    def test_no_copy(self) -> None:
        with Concentrator([Link(1)]) as concentrator:
            for copy_of in (copy.copy, copy.deepcopy, pickle.dumps):
                with self.assertRaises(TypeError):
                    copy_of(concentrator)


class Saved(unittest.TestCase):
    """Octets that are no saved concentrator are refused, and others are those of what is restored."""

    STATIC = bytes.fromhex("40110a0000010a0000021388138a00000001")
    DYNAMIC = bytes.fromhex("004000012000000090000001000000a0000980a0")
    # A Normal call; Static Context; Full Context with a previous reference; No Context after two checks that failed.
    CALLS = (
        ("fc00b745aa",),
        ("fc01de" + STATIC.hex(),),
        ("fd012b" + STATIC.hex() + DYNAMIC.hex() + "ab", "10ac"),
        ("fd012b" + STATIC.hex() + DYNAMIC.hex() + "ab", "11ac", "11ac", "c00000"),
    )
    LINKS = tuple(Link(number, k1=1, n1=1, k2=1, n2=1) for number in range(1, 5))

    def setUp(self) -> None:
        with Concentrator(self.LINKS) as concentrator:
            for number, packets in enumerate(self.CALLS, start=1):
                for moment, packet in enumerate(packets):
                    concentrator.arrive(number, moment, bytes.fromhex(packet))
            states = [concentrator.contexts(link.link)[0].state for link in self.LINKS]
            self.octets = concentrator.save(9)
        wanted = [State.FULL_CONTEXT, State.STATIC_CONTEXT, State.FULL_CONTEXT, State.NO_CONTEXT]
        self.assertEqual(states, wanted)

    def judge(self, octets: bytes) -> int:
        """The fault of octets, or 0. What is restored whole is saved as the same octets, but for a link's greatest CID."""
        try:
            restored, told = Concentrator.restored(self.LINKS, octets)
        except SavedError as fault:
            self.assertIn(fault.place, range(len(octets) + 1))
            return fault.status
        with restored:
            if told.unknown_links == told.other_links == told.high_contexts == 0 and told.links == len(self.LINKS):
                again = restored.save(told.moment)
                self.assertEqual(len(again), len(octets))
                changes = [pair for pair in zip(octets[:-32], again[:-32], strict=True) if pair[0] != pair[1]]
                self.assertTrue(all(before < 15 and after == 15 for before, after in changes), changes)
        return 0

    def test_every_octet_changed(self) -> None:
        body, found = self.octets[:-32], set()
        for at in range(len(self.octets)):
            for value in range(256):
                changed = bytearray(self.octets)
                changed[at] = value
                self.assertEqual(self.judge(changed) == 0, value == self.octets[at])
                if at < len(body):
                    found.add(self.judge(changed[:-32] + hashlib.sha256(changed[:-32]).digest()))
        self.assertTrue({0, 7, 8, 10, 11, 12, 13} <= found, found)

    def test_every_cut(self) -> None:
        for count in range(len(self.octets)):
            self.assertNotEqual(self.judge(self.octets[:count]), 0)

    def test_random_octets(self) -> None:
        chance = random.Random(7)
        for _ in range(100_000):
            text = bytearray(self.octets[: chance.randrange(len(self.octets))])
            text += chance.randbytes(chance.randrange(60))
            self.judge(text + hashlib.sha256(text).digest())

    def test_many_contexts(self) -> None:
        links = [Link(number, max_cid=63, large=True) for number in range(256)]
        with Concentrator(links) as concentrator:
            for number in range(256):
                for cid in range(64):
                    packet = bytearray(b"\xfc\x00\x00\x45")
                    packet[2] = crc_8(b"\xfc" + bytes([cid]) + b"\x00")
                    concentrator.arrive(number, cid, b"\xfc" + bytes([cid]) + bytes(packet[1:]))
            octets = concentrator.save(1)
        restored, told = Concentrator.restored(links, octets)
        with restored:
            self.assertEqual((told.links, told.contexts), (256, 16_384))
            self.assertEqual(restored.save(1), octets)


def crc_8(octets: bytes) -> int:
    """The 8-bit check of RFC 3095 5.9.1, bit by bit."""
    register = 0xFF
    for octet in octets:
        register ^= octet
        for _ in range(8):
            register = register >> 1 ^ (0xE0 if register & 1 else 0)
    return register


class Capture(unittest.TestCase):
    def test_a_capture(self) -> None:
        source, target = io.BytesIO(), io.BytesIO()
        source.write(struct.pack("<IHHiIII", 0xA1B2C3D4, 2, 4, 0, 0, 65535, pcap.ETHERNET))
        for moment, kind, octets in ((0, b"\x22\xf1", "fc00b745aa"), (7, b"\x08\x00", "45"), (9, b"\x22\xf1", "45bb")):
            frame = bytes(12) + kind + bytes.fromhex(octets)
            source.write(struct.pack("<IIII", 0, moment, len(frame), len(frame)) + frame)
        source.seek(0)
        counts = pcap.decompress(source, target)
        self.assertEqual(counts, {"packets": 2, "delivered": 2, "stored": 0, "refused": 0})
        packets = target.getvalue()[24:]
        self.assertEqual((packets[16:18], packets[34:36], len(packets)), (b"\x45\xaa", b"\x45\xbb", 36))


if __name__ == "__main__":
    unittest.main()
