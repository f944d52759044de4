"""Runs `rohctl decompress` and `script` on captures made here by the words of the formats, whole, cut and changed, and on Wireshark's."""

import re
import select
import shutil
import struct
import subprocess
from collections.abc import Callable, Iterator, Sequence
from dataclasses import dataclass
from pathlib import Path

from program import Call, Ended, run
from random_script import check8
from trial import Trial

PROGRAM = "crates/rohctl/out/rohctl"
LINKS = "examples/links.toml"
SECOND = 1_700_000_000
STEP = 20_000_000
ETHERNET, PPP, RAW, COOKED, SECOND_COOKED = 1, 9, 101, 113, 276
# How many interfaces of a section are known.
MOST_INTERFACES = 65_536
# The longest packet of a datagram behind two headers and the number of a link.
LONGEST = 65_535 - 30
SECTION, INTERFACE, OBSOLETE, SIMPLE, ENHANCED = 0x0A0D0D0A, 1, 2, 3, 6

# An arrival of a script, with at least one octet.
ARRIVAL = re.compile(r"arrive (0|[1-9]\d*) (0|[1-9]\d*) ((?:[0-9a-f]{2})+)")

Frame = tuple[int, bytes]


def ethernet(kind: int, octets: bytes, vlans: Sequence[int] = (), tag: int = 0x8100) -> bytes:
    """An Ethernet frame with VLAN tags."""
    tags = b"".join(struct.pack(">HH", tag, vlan) for vlan in vlans)
    return bytes(range(12)) + tags + struct.pack(">H", kind) + octets


def datagram(port: int, payload: bytes, fragment: int = 0, total: int = 0, size: int = 0) -> bytes:
    """A UDP datagram over IPv4 (RFC 768, RFC 791), whose lengths may be false. No checksum is set."""
    udp = struct.pack(">HHHH", 40000, port, size or 8 + len(payload), 0) + payload
    addresses = bytes((127, 0, 0, 1)) * 2
    return struct.pack(">BBHHHBBH", 0x45, 0, total or 20 + len(udp), 1, fragment, 64, 17, 0) + addresses + udp


def pcap(frames: Sequence[Frame], link: int = ETHERNET, order: str = ">", nano: bool = True) -> bytes:
    """A file of pcap."""
    head = struct.pack(order + "IHHiIII", 0xA1B23C4D if nano else 0xA1B2C3D4, 2, 4, 0, 0, 262_144, link)
    unit = 1 if nano else 1000
    return head + b"".join(
        struct.pack(order + "IIII", at // 10**9, at % 10**9 // unit, len(octets), len(octets)) + octets for at, octets in frames
    )


def block(order: str, kind: int, body: bytes) -> bytes:
    """A block of pcapng."""
    padded = body + bytes(-len(body) % 4)
    size = struct.pack(order + "I", 12 + len(padded))
    return struct.pack(order + "I", kind) + size + padded + size


def option(order: str, code: int, octets: bytes) -> bytes:
    """An option of a block."""
    return struct.pack(order + "HH", code, len(octets)) + octets + bytes(-len(octets) % 4)


def section(order: str, link: int, unit: int | None = None) -> bytes:
    """The head of a section, an unknown block, and an interface whose times are in 10^-unit seconds."""
    head = block(order, SECTION, struct.pack(order + "IHHq", 0x1A2B3C4D, 1, 0, -1) + option(order, 4, b"here") + option(order, 0, b""))
    options = b"" if unit is None else option(order, 2, b"eth0") + option(order, 9, bytes((unit,))) + option(order, 0, b"")
    return head + block(order, 0x0BAD, b"skipped") + block(order, INTERFACE, struct.pack(order + "HHI", link, 0, 0) + options)


def pcapng(frames: Sequence[Frame], link: int = ETHERNET, order: str = ">", unit: int | None = 9) -> bytes:
    """A file of pcapng."""
    ticks = 10 ** (9 - (6 if unit is None else unit))
    return section(order, link, unit) + b"".join(
        block(order, ENHANCED, struct.pack(order + "IIIII", 0, at // ticks >> 32, at // ticks % 2**32, len(octets), len(octets)) + octets)
        for at, octets in frames
    )


def records(text: bytes) -> Iterator[Frame]:
    """The records of a pcap that rohctl wrote."""
    place = 24
    while place < len(text):
        second, nano, size, original = struct.unpack(">IIII", text[place : place + 16])
        assert size == original, "a record that isn't whole"
        yield second * 10**9 + nano, text[place + 16 : place + 16 + size]
        place += 16 + size


def moments(count: int) -> list[int]:
    """The times of so many frames, a packet time apart."""
    return [SECOND * 10**9 + 123_456_000 + STEP * place for place in range(count)]


def frames_of(octets: Sequence[bytes]) -> list[Frame]:
    """Frames with their times."""
    return list(zip(moments(len(octets)), octets, strict=True))


def decompress(trial: Trial, given: bytes, *words: str | Path, links: str | Path = LINKS) -> Ended:
    """How `rohctl decompress` ends on this capture."""
    return run(Call((trial.top / PROGRAM, "decompress", "--links", links, *words), given, {}, trial.top))


def good(trial: Trial, ended: Ended, wanted: Sequence[Frame], name: str) -> None:
    """A run must end well and write these packets with these times."""
    trial.demand((ended.status, ended.said) == (0, ""), f"{name}: {ended.end()} {ended.said}", ended.call)
    trial.same(name, repr(list(wanted)), repr(list(records(ended.output))), ended.call)


ROHC = [bytes.fromhex("fc00b745aa"), bytes.fromhex("45ab"), bytes.fromhex("45ac")]
REBUILT = [bytes.fromhex("45aa"), bytes.fromhex("45ab"), bytes.fromhex("45ac")]


def carriers() -> Iterator[tuple[str, int, Callable[[bytes], bytes], tuple[str, ...]]]:
    """Ways to carry a packet of link 1: a name, the link type, the frame, and the words that choose it."""
    yield "ethernet", ETHERNET, lambda p: ethernet(0x22F1, p), ("--link", "1")
    yield "one tag", ETHERNET, lambda p: ethernet(0x22F1, p, (0x2007,)), ("--vlan", "9=2,7=1")
    yield "two tags", ETHERNET, lambda p: ethernet(0x22F1, p, (5, 7), 0x88A8), ("--vlan", "7=1")
    yield "eight tags", ETHERNET, lambda p: ethernet(0x22F1, p, range(8)), ("--vlan", "7=1")
    yield "a length", ETHERNET, lambda p: ethernet(8 + len(p), b"\xaa\xaa\x03\0\0\0\x22\xf1" + p + bytes(40)), ("--link", "1")
    yield "cooked", COOKED, lambda p: bytes(14) + b"\x22\xf1" + p, ("--link", "1")
    yield "a tag, cooked", COOKED, lambda p: bytes(14) + b"\x81\0\0\x07\x22\xf1" + p, ("--vlan", "7=1")
    yield "cooked 2", SECOND_COOKED, lambda p: b"\x22\xf1" + bytes(18) + p, ("--link", "1")
    yield "PPP", PPP, lambda p: b"\xff\x03\0\x03" + p, ("--link", "1")
    yield "PPP, short", PPP, lambda p: b"\x05" + p, ("--link", "1")
    yield "PPP, UDP", PPP, lambda p: b"\0\x21" + datagram(5000, p), ("--port", "5000=1")
    yield "a port", RAW, lambda p: datagram(5000, p), ("--port", "5000=1")
    yield "a number", RAW, lambda p: datagram(5000, b"\0\x01" + p), ("--port", "4000=3,5000")
    yield "padded UDP", ETHERNET, lambda p: ethernet(0x0800, datagram(5000, p) + bytes(9)), ("--port", "5000=1")


def framings() -> Iterator[tuple[str, int, Callable[[bytes], bytes], tuple[str, ...]]]:
    """Ways to carry a packet of link 1 that an option has to name, likewise."""
    yield "another EtherType", ETHERNET, lambda p: ethernet(0x88B5, p), ("--link", "1", "--ethertype", "0x88b5")
    yield "the known one too", ETHERNET, lambda p: ethernet(0x22F1, p), ("--link", "1", "--ethertype", "0x88b5")
    yield "a tag before it", ETHERNET, lambda p: ethernet(0x88B5, p, (7,)), ("--vlan", "7=1", "--ethertype", "34997")
    yield "it, cooked", COOKED, lambda p: bytes(14) + b"\x88\xb5" + p, ("--link", "1", "--ethertype", "0x88b5")
    yield "a user link type", 147, lambda p: p, ("--link", "1", "--linktype", "147")
    yield "IP as ROHC", RAW, lambda p: p, ("--link", "1", "--linktype", "0x65")
    yield "an offset", ETHERNET, lambda p: ethernet(0x22F1, b"\xab\xcd\xef" + p), ("--link", "1", "--offset", "3")
    yield "an offset, UDP", RAW, lambda p: datagram(5000, b"\xab" + p), ("--port", "5000=1", "--offset", "0x1")
    yield "behind a number", RAW, lambda p: datagram(5000, b"\0\x01\xab" + p), ("--port", "5000", "--offset", "1")
    yield "PDCP", 155, lambda p: b"\x80\x01" + p, ("--link", "1", "--linktype", "155", "--offset", "2")


def three_links(trial: Trial) -> Path:
    """A links file with links 1, 2 and 3, since each link that a rule names must be there."""
    head, link = (trial.top / LINKS).read_text().split("[[link]]")
    numbers = (link.replace("number = 1", f"number = {number}").replace("= 600", f"= 6{number}0") for number in (1, 2, 3))
    path = trial.scratch / "three.toml"
    path.write_text("[[link]]".join((head, *numbers)))
    return path


def check_carriers(trial: Trial) -> None:
    """Each way to carry a packet, in each form of capture."""
    wanted = frames_of(REBUILT)
    links = three_links(trial)
    for name, link, carry, words in (*carriers(), *framings()):
        frames = frames_of([carry(packet) for packet in ROHC])
        for order in "<>":
            good(trial, decompress(trial, pcap(frames, link, order), *words, links=links), wanted, f"{name}, pcap {order}")
            good(trial, decompress(trial, pcapng(frames, link, order), *words, links=links), wanted, f"{name}, pcapng {order}")
        good(trial, decompress(trial, pcap(frames, link, "<", nano=False), *words, links=links), wanted, f"{name}, microseconds")
        good(trial, decompress(trial, pcapng(frames, link, "<", None), *words, links=links), wanted, f"{name}, no unit")


# Frames that carry nothing, and the counts that are told of them.
LOST = (
    ("NotUdp", RAW, datagram(5000, b"\0\x01\x45")[:9] + b"\x06" + datagram(5000, b"\0\x01\x45")[10:]),
    ("Fragment", RAW, datagram(5000, b"\0\x01\x45", fragment=0x2000)),
    ("Fragment", RAW, datagram(5000, b"\0\x01\x45", fragment=1)),
    ("IpLength", RAW, datagram(5000, b"\0\x01\x45", total=32)),
    ("IpLength", RAW, datagram(5000, b"\0\x01\x45", total=19)),
    ("UdpLength", RAW, datagram(5000, b"\0\x01\x45", size=7)),
    ("UdpLength", RAW, datagram(5000, b"\0\x01\x45", size=12)),
    ("IpHeader", RAW, b"\x60" + bytes(60)),
    ("IpHeader", RAW, b"\x44" + bytes(60)),
    ("Short", RAW, b"\x45\0\0"),
    ("Short", ETHERNET, bytes(13)),
    ("Tags", ETHERNET, ethernet(0x22F1, b"\x45", range(9))),
    ("Protocol", ETHERNET, ethernet(0x86DD, bytes(40))),
    ("LinkType", 105, bytes(40)),
)


# What is said of a capture that can't be read on, and of one that has nothing to show.
CAPTURE_FAULT = "rohctl: standard input: "
BEFORE = "; the frames before it were read"
NO_CAPTURE = f"{CAPTURE_FAULT}not a capture; expected pcap or pcapng"
NOTHING = "rohctl: standard input: nothing to show: "
NO_FRAME = f"{NOTHING}no frame matches; its first frames have "


def check_lost(trial: Trial) -> None:
    """Frames that carry nothing are counted by name, and nothing is written of them."""
    for name, link, frame in LOST:
        ended = decompress(trial, pcap(frames_of([frame]), link), "--port", "5000", "--stats")
        counts = "frames 1 arrivals 0 delivered 0 feedback 0 relayed 0 refused 0 no rule 0"
        trial.same(f"a frame with {name}", f"{counts} {name} 1", ended.said.split("\n")[0], ended.call)
        trial.demand(NO_FRAME in ended.said, f"{name}: {ended.said}", ended.call)
        trial.demand(ended.status == 6 and len(ended.output) == 24, f"{name}: {ended.end()}", ended.call)
    short = pcap(frames_of([datagram(5000, b"\0\x01\xfc")]), RAW)
    for words, count in (("1", "refused 1 no rule 0"), ("2", "refused 0 no rule 0 Offset 1")):
        ended = decompress(trial, short, "--port", "5000", "--offset", words, "--stats")
        trial.demand(f"{count}\n" in f"{ended.said}\n", f"an offset of {words}: {ended.said}", ended.call)
    cut = pcap(frames_of([ethernet(0x22F1, ROHC[0])]))
    ended = decompress(trial, cut[:36] + struct.pack(">I", 99) + cut[40:], "--link", "1", "--stats")
    trial.demand("no rule 0 NotWhole 1\n" in ended.said, f"a frame that was cut: {ended.said}", ended.call)
    ended = decompress(trial, cut, "--vlan", "7=1", "--stats")
    trial.demand("no rule 1\n" in ended.said, f"a frame without a rule: {ended.said}", ended.call)


def check_cuts(trial: Trial) -> None:
    """A capture that is cut at each octet: what was good before is written, and the fault's place is told."""
    frames = frames_of([ethernet(0x22F1, packet) for packet in ROHC])
    size = 16 + 14
    ends = [24, 24 + size + 5, 24 + 2 * size + 7, 24 + 3 * size + 9]
    whole = pcap(frames)
    for place in range(len(whole)):
        ended = decompress(trial, whole[:place], "--link", "1")
        done = [end for end in ends if end <= place]
        wanted = list(zip(moments(3), REBUILT, strict=True))[: max(len(done) - 1, 0)]
        trial.same(f"pcap cut at {place}", repr(wanted), repr(list(records(ended.output))), ended.call)
        fault = f"{CAPTURE_FAULT}the capture is cut off in the record at octet {done[-1]}{BEFORE}" if done else NO_CAPTURE
        said = fault if place not in ends else f"{NOTHING}the capture has no frame" if place == ends[0] else ""
        status = 0 if not said else 6 if place in ends else 4
        trial.demand((ended.status, ended.said) == (status, said), f"pcap cut at {place}: {ended.end()} {ended.said}", ended.call)
    blocks = pcapng(frames)
    for place in range(4, len(blocks)):
        ended = decompress(trial, blocks[:place], "--link", "1")
        trial.demand(ended.status in (0, 4, 6), f"pcapng cut at {place}: {ended.end()}", ended.call)
        trial.demand(ended.output == pcap(list(records(ended.output)), RAW), f"pcapng cut at {place}: half a record", ended.call)
        trial.demand(set(records(ended.output)) <= set(zip(moments(3), REBUILT, strict=True)), f"pcapng cut at {place}: other packets", ended.call)


def check_changes(trial: Trial) -> None:
    """A small capture with each octet changed: it ends by itself, and what is written can be read."""
    frames = frames_of([ethernet(0x22F1, packet) for packet in ROHC[:2]])
    for name, whole in (("pcap", pcap(frames)), ("pcapng", pcapng(frames))):
        for place in range(len(whole)):
            for mask in (0x01, 0x80, 0xFF):
                changed = whole[:place] + bytes([whole[place] ^ mask]) + whole[place + 1 :]
                ended = decompress(trial, changed, "--link", "1")
                trial.demand(ended.status in (0, 4, 6), f"{name}, octet {place} by {mask:02x}: {ended.end()}", ended.call)
                trial.demand(len(list(records(ended.output))) <= 2, f"{name}, octet {place} by {mask:02x}: too many packets", ended.call)


def check_blocks(trial: Trial) -> None:
    """Blocks of pcapng: two sections of either order, several interfaces, units, simple and obsolete blocks, and faults."""
    first, second, third = [ethernet(0x22F1, packet) for packet in ROHC]
    at = moments(3)
    one = pcapng([(at[0], first)], order="<")
    # 2^-20 seconds: 2^-20 of a second is 953.67 ns, so a moment comes back within one unit.
    ticks = at[1] * 2**20 // 10**9
    other = section(">", PPP, 6) + block(">", INTERFACE, struct.pack(">HHI", ETHERNET, 0, 0) + option(">", 9, bytes((128 + 20,))))
    other += block(">", OBSOLETE, struct.pack(">HHIIII", 1, 0, ticks >> 32, ticks % 2**32, len(second), len(second)) + second)
    simple = section("<", ETHERNET) + block("<", SIMPLE, struct.pack("<I", len(third)) + third)
    moment = ticks * 10**9 // 2**20
    wanted = [(at[0], REBUILT[0]), (moment, REBUILT[1]), (moment, REBUILT[2])]
    good(trial, decompress(trial, one + other + simple, "--link", "1"), wanted, "three sections")
    begin = section(">", ETHERNET)
    packet = block(">", ENHANCED, struct.pack(">IIIII", 1, 0, 0, 0, 0))
    interface = block(">", INTERFACE, struct.pack(">HHI", ETHERNET, 0, 0))
    faults = (
        (begin + packet, f"the packet at octet {len(begin)} is of an interface that its section does not describe"),
        (begin + packet[:4] + struct.pack(">I", 13) + packet[8:], f"the block at octet {len(begin)} has a wrong length"),
        (begin + packet[:-1] + b"\0", f"the block at octet {len(begin)} has a wrong length"),
        (begin + block(">", ENHANCED, struct.pack(">IIIII", 0, 0, 0, 1, 1)), f"the block at octet {len(begin)} has a wrong length"),
        (begin + packet[:4] + struct.pack(">I", 2_000_000) + packet[8:], f"the record at octet {len(begin)} is longer than 1 MiB"),
        (begin + begin[:8] + bytes(4) + begin[12:], f"the section at octet {len(begin)} has no known byte order"),
        (pcap([]) + struct.pack(">IIII", 0, 0, 2_000_000, 0), "the record at octet 24 is longer than 1 MiB"),
        (begin + (MOST_INTERFACES - 1) * interface + interface, f"the section at octet {len(begin) + (MOST_INTERFACES - 1) * len(interface)} describes more than 65536 interfaces"),
    )
    for text, fault in faults:
        ended = decompress(trial, text, "--link", "1")
        said = f"{CAPTURE_FAULT}{fault}{BEFORE}"
        trial.demand((ended.status, ended.said) == (4, said), f"{ended.end()}; wanted {said}", ended.call)
    ended = decompress(trial, b"GIF89a" + bytes(40), "--link", "1")
    trial.demand((ended.status, ended.said) == (4, NO_CAPTURE), f"{ended.end()}; wanted {NO_CAPTURE}", ended.call)


def check_outputs(trial: Trial) -> None:
    """Files in place of pipes, pcapng written, feedback, padding, and wrong words."""
    frames = frames_of([ethernet(0x22F1, packet) for packet in ROHC])
    given, packets, feedback = (trial.scratch / name for name in ("in.pcap", "out.pcap", "feedback.pcap"))
    given.write_bytes(pcap(frames))
    ended = decompress(trial, b"", "--link", "1", "--feedback", feedback, "--stats", given, packets)
    counts = "frames 3 arrivals 3 delivered 3 feedback 1 relayed 0 refused 0 no rule 0"
    trial.demand((ended.status, ended.said) == (0, counts), f"files: {ended.end()} {ended.said}", ended.call)
    trial.same("the file", repr(frames_of(REBUILT)), repr(list(records(packets.read_bytes()))), ended.call)
    element = bytes.fromhex("020000000000" "020000000001" "22f1" "f100")
    trial.same("the feedback", pcap([(moments(1)[0], element)]).hex(), feedback.read_bytes().hex(), ended.call)
    again = decompress(trial, decompress(trial, pcap(frames), "--link", "1", "--pcapng").output, "--link", "1")
    good(trial, again, frames_of(REBUILT), "pcapng read again")
    # An IPv4 packet of 21 octets, as it is: profile 0x0000. Behind it are five octets of padding.
    packet = struct.pack(">BBHHHBBH", 0x45, 0, 21, 1, 0, 64, 17, 0) + bytes((127, 0, 0, 1)) * 2 + b"x"
    padded = frames_of([ethernet(0x22F1, ROHC[0]), ethernet(0x22F1, packet + bytes(5))])
    for words, end in (((), bytes(5)), (("--padded",), b"")):
        wanted = frames_of([REBUILT[0], packet + end])
        good(trial, decompress(trial, pcap(padded), "--link", "1", *words), wanted, f"padding {words}")
    for words in ((), ("--link", "x"), ("--vlan", "7"), ("--vlan", "4096=1"), ("--port", "1,70000"), ("--link", "1", "a", "b", "c")):
        ended = decompress(trial, b"", *words)
        trial.demand(ended.status == 2, f"decompress {words}: {ended.end()}; wanted 2", ended.call)
    ended = decompress(trial, b"", "--link", "1", "nothing")
    trial.demand((ended.status, ended.said) == (4, "rohctl: nothing: cannot read it: no such file or directory"), f"no file: {ended.end()} {ended.said}", ended.call)


@dataclass(frozen=True)
class Shown:
    """A frame of a pcapng that rohctl wrote: its interface by name and link type, its time, its octets and its comment."""

    interface: tuple[str, int]
    at: int
    octets: bytes
    comment: str


def options_in(text: bytes) -> dict[int, bytes]:
    """The options of a block. Nothing may stand behind their end."""
    found: dict[int, bytes] = {}
    while text:
        code, size = struct.unpack(">HH", text[:4])
        if code == 0:
            assert text[4:] == b"", "octets behind the end of the options"
            return found
        found[code] = text[4 : 4 + size]
        assert text[4 + size : 4 + size + -size % 4] == bytes(-size % 4), "padding that isn't zero"
        text = text[4 + size + -size % 4 :]
    return found


def shown_in(text: bytes) -> Iterator[Shown]:
    """The frames of a pcapng that rohctl wrote."""
    interfaces: list[tuple[str, int]] = []
    while text:
        kind, size = struct.unpack(">II", text[:8])
        assert text[size - 4 : size] == text[4:8], "two lengths of a block"
        body, text = text[8 : size - 4], text[size:]
        if kind == SECTION:
            assert body == struct.pack(">IHHq", 0x1A2B3C4D, 1, 0, -1), "another section"
        elif kind == INTERFACE:
            options = options_in(body[8:])
            assert options[9] == b"\x09", "times in another unit"
            interfaces.append((options[2].decode(), struct.unpack(">H", body[:2])[0]))
        else:
            number, high, low, size, whole = struct.unpack(">IIIII", body[:20])
            assert kind == ENHANCED and size == whole, "another block"
            comment = options_in(body[20 + size + -size % 4 :]).get(1, b"").decode("ascii")
            yield Shown(interfaces[number], high << 32 | low, body[20 : 20 + size], comment)


# A call with a damaged IR between, and another whose last packet only the third attempt decodes; what is said of each, and
# what is delivered.
DAMAGED = "IR, link 1, CID 0: refused Check: the rebuilt header doesn't have the packet's CRC; usual cause: damage, or more losses in a row than the compressor expects (RFC 3095 5.3.2.2)"
ANNOTATED = (
    ("fc00b745aa", "IR, link 1, CID 0: delivered", "45aa"),
    ("f100", "no header, link 1: only padding and feedback", ""),
    ("fc00b845aa", DAMAGED, ""),
    ("45ab", "Normal, link 1, CID 0: delivered", "45ab"),
)
REPAIRED = (
    ("fd012b40110a0000010a0000021388138a00000001004000012000000090000001000000a0000980a0ab", "IR, link 1, CID 0: delivered"),
    ("10ac", "UO-0, link 1, CID 0: delivered"),
    ("6cad", "UO-0, link 1, CID 0: delivered"),
    ("20ae", "UO-0, link 1, CID 0: delivered, repaired by the third attempt"),
)


def annotated_by(trial: Trial, given: bytes, *words: str | Path, links: str | Path = LINKS) -> list[Shown]:
    """What `rohctl decompress --pcapng` writes. It must end well."""
    ended = decompress(trial, given, "--pcapng", *words, links=links)
    trial.demand((ended.status, ended.said) == (0, ""), f"annotated: {ended.end()} {ended.said}", ended.call)
    return list(shown_in(ended.output))


def check_annotated(trial: Trial) -> None:
    """In pcapng each frame stands with what became of it, and behind it the packet that pcap has alone."""
    links = three_links(trial)
    for name, link, carry, words in (*carriers(), *framings()):
        frames = frames_of([carry(packet) for packet in ROHC])
        shown = annotated_by(trial, pcap(frames, link), *words, links=links)
        wanted = [pair for frame, packet in zip(frames, frames_of(REBUILT), strict=True) for pair in ((("ROHC", link), *frame), (("IP", RAW), *packet))]
        trial.same(f"annotated, {name}", repr(wanted), repr([(one.interface, one.at, one.octets) for one in shown]))
    whole = [ethernet(0x22F1, bytes.fromhex(packet)) for packet, _, _ in ANNOTATED]
    frames = frames_of([whole[0], ethernet(0x0806, bytes(28)), *whole[1:]])
    told = [(one.interface[0], one.octets.hex(), one.comment) for one in annotated_by(trial, pcap(frames), "--link", "1")]
    rows = [row for frame, (_, comment, packet) in zip(whole, ANNOTATED) for row in (("ROHC", frame.hex(), comment), ("IP", packet, "")) if row[1]]
    trial.same("what is said", "\n".join(map(repr, rows)), "\n".join(map(repr, told)))
    usual = trial.write("usual.toml", run(Call((trial.top / PROGRAM, "links", "--new"), b"", {}, trial.top)).output)
    frames = frames_of([ethernet(0x22F1, bytes.fromhex(packet)) for packet, _ in REPAIRED])
    shown = annotated_by(trial, pcap(frames), "--link", "1", links=usual)
    trial.same("what is said of a repair", repr([comment for _, comment in REPAIRED]), repr([one.comment for one in shown if one.interface[0] == "ROHC"]))
    alone = records(decompress(trial, pcap(frames), "--link", "1", links=usual).output)
    trial.same("the packets of pcap", repr(list(alone)), repr([(one.at, one.octets) for one in shown if one.interface[0] == "IP"]))
    both = pcapng(frames_of([ethernet(0x22F1, ROHC[0])])) + pcapng(frames_of([b"\x05" + ROHC[1]]), PPP, "<")
    found = [one.interface for one in annotated_by(trial, both, "--link", "1")]
    trial.same("two link types", repr([("ROHC", ETHERNET), ("IP", RAW), ("ROHC", PPP), ("IP", RAW)]), repr(found))
    nothing = decompress(trial, pcap(frames_of([whole[0]])), "--vlan", "7=1", "--pcapng")
    trial.demand(nothing.status == 6 and not list(shown_in(nothing.output)), f"annotated, no frame: {nothing.end()}", nothing.call)
    feedback = trial.scratch / "feedback.pcapng"
    ended = decompress(trial, pcap(frames_of([whole[0]])), "--link", "1", "--pcapng", "--stats", "--feedback", feedback)
    counts = "frames 1 arrivals 1 delivered 1 feedback 1 relayed 0 refused 0 no rule 0"
    trial.demand(ended.said == counts and feedback.read_bytes().endswith(b"\xf1\0" + struct.pack(">I", 48)), f"annotated: {ended.said}", ended.call)


def arrivals(script: Path) -> list[tuple[int, int, bytes]]:
    """The link, the time in milliseconds and the octets of each good arrival of a script whose time a capture can have."""
    found = (ARRIVAL.fullmatch(line) for line in script.read_bytes().decode(errors="replace").split("\n"))
    words = [(int(match[1]), int(match[2]), bytes.fromhex(match[3])) for match in found if match]
    return [(link, moment, octets) for link, moment, octets in words if link < 2**16 and moment < 2**32]


def check_scripts(trial: Trial) -> None:
    """The arrivals of the whole scripts as datagrams: what is written is what a trace of them delivers, in order."""
    for script in sorted((trial.top / "examples/scripts").glob("*.script")):
        found = arrivals(script)
        frames = [(moment * 10**6, datagram(5000, struct.pack(">H", link) + octets)) for link, moment, octets in found]
        lines = "".join(f"arrive {link} {moment} {octets.hex()}\n" for link, moment, octets in found)
        links = script.with_suffix(".toml")
        traced = run(Call((trial.top / PROGRAM, "trace", "--links", links), lines.encode(), {}, trial.top))
        wanted: list[Frame] = []
        moment = 0
        for line in traced.text.splitlines():
            words = line.split()
            if words[1] == "arrive":
                moment = int(words[3]) * 10**6
            elif words[2] == "ip":
                wanted.append((moment, bytes.fromhex(words[3])))
        framed = [(at, ethernet(0x0800, octets)) for at, octets in frames]
        for text, link in ((pcap(frames, RAW), "raw IP"), (pcap(framed), "Ethernet"), (pcapng(framed), "pcapng")):
            good(trial, decompress(trial, text, "--port", "5000", links=links), wanted, f"{script.name}, {link}")


def check_long(trial: Trial) -> None:
    """More than is written at once, from file to file: packets of any length, and now and then one that a batch has no room for."""
    packets = [b"\x45" + bytes((size % 251,)) * (5000 if size % 400 == 7 else 20 + size * 7 % 300) for size in range(4000)]
    frames = frames_of([ethernet(0x0800, datagram(5000, packet)) for packet in [ROHC[0], *packets]])
    given, written = trial.scratch / "long", trial.scratch / "long.pcap"
    for text, form in ((pcap(frames), "pcap"), (pcapng(frames), "pcapng")):
        given.write_bytes(text)
        ended = decompress(trial, b"", "--port", "5000=1", given, written)
        trial.demand((ended.status, ended.said) == (0, ""), f"a long {form}: {ended.end()} {ended.said}", ended.call)
        trial.same(f"a long {form}", repr(frames_of([REBUILT[0], *packets])), repr(list(records(written.read_bytes()))), ended.call)


def plain_ir(cid: int, payload: bytes) -> bytes:
    """An IR of profile 0x0000 under a large CID of two octets (RFC 3095 5.10.1)."""
    head = struct.pack(">BHB", 0xFC, 0x8000 | cid, 0)
    return head + bytes((check8(head),)) + payload


def check_many(trial: Trial) -> None:
    """Packets of thousands of contexts in no order, which are looked at ahead, and some of links and CIDs that have none."""
    links = trial.scratch / "many.toml"
    links.write_text((trial.top / LINKS).read_text().replace('"small"', '"large"').replace("max_cid = 15", "max_cid = 16383"))
    cids = [200 + place * 2557 % 6000 for place in range(6000)]
    payloads = [struct.pack(">BHH", 0x45, cid, turn) for turn in range(3) for cid in (cids, sorted(cids), cids[::-1])[turn]]
    packets = [plain_ir(int.from_bytes(payload[1:3]), payload) for payload in payloads[: len(cids)]]
    packets += [payload[:1] + struct.pack(">H", 0x8000 | int.from_bytes(payload[1:3])) + payload[1:] for payload in payloads[len(cids) :]]
    frames = frames_of([datagram(5000, b"\0\x01" + packet) for packet in packets])
    strange = [datagram(5000, b"\0\x02" + packets[-1]), datagram(5000, b"\0\x01\x45\x01\x45"), datagram(5001, b""), b"\x45"]
    given = [*frames[:-1], *((frames[-1][0], octets) for octets in strange), frames[-1]]
    for text, form in ((pcap(given, RAW), "pcap"), (pcapng(given, RAW), "pcapng")):
        good(trial, decompress(trial, text, "--port", "5000", links=links), list(zip(moments(len(payloads)), payloads, strict=True)), f"many calls, {form}")


def check_live(trial: Trial) -> None:
    """What came through a pipe is written before more comes, in each form."""
    text = pcap(frames_of([ethernet(0x22F1, packet) for packet in ROHC]))
    for form in ((), ("--pcapng",)):
        words: tuple[str | Path, ...] = (trial.top / PROGRAM, "decompress", "--links", LINKS, "--link", "1", *form)
        wanted = decompress(trial, text, "--link", "1", *form).output
        with subprocess.Popen(words, stdin=subprocess.PIPE, stdout=subprocess.PIPE, cwd=trial.top, bufsize=0) as program:
            assert program.stdin and program.stdout
            program.stdin.write(text)
            seen = b""
            while len(seen) < len(wanted) and select.select([program.stdout], [], [], 20)[0]:
                seen += program.stdout.read(len(wanted) - len(seen)) or b""
            program.stdin.close()
            trial.same(f"what a pipe shows while it is open {form}", wanted.hex(), seen.hex(), Call(words, text, {}, trial.top))


def sum_of(head: bytes) -> int:
    """The checksum of an IPv4 header whose own is 0 (RFC 1071)."""
    total = sum(struct.unpack(f">{len(head) // 2}H", head))
    while total >= 2**16:
        total = total % 2**16 + total // 2**16
    return 2**16 - 1 - total


def sent(port: int, link: int, packet: bytes) -> bytes:
    """A datagram from a port of 127.0.0.1 to itself with the number of a link in front (RFC 768, RFC 791)."""
    payload = struct.pack(">H", link) + packet
    front = struct.pack(">BBHHHBB", 0x45, 0, 28 + len(payload), 0, 0x4000, 64, 17)
    addresses = bytes((127, 0, 0, 1)) * 2
    head = front + struct.pack(">H", sum_of(front + b"\0\0" + addresses)) + addresses
    return head + struct.pack(">HHHH", port, port, 8 + len(payload), 0) + payload


def scripted(trial: Trial, given: bytes, *words: str | Path) -> Ended:
    """How `rohctl script` ends on this input."""
    return run(Call((trial.top / PROGRAM, "script", *words), given, {}, trial.top))


def check_back(trial: Trial) -> None:
    """Each whole script as a capture, and that as a script again: its arrivals that a datagram and a capture can hold."""
    for script in sorted((trial.top / "examples/scripts").glob("*.script")):
        lines = script.read_bytes().split(b"\n")[: -1 if script.read_bytes().endswith(b"\n") else None]
        found = [one for one in arrivals(script) if len(one[2]) <= LONGEST]
        frames = [(moment * 10**6, sent(7000, link, octets)) for link, moment, octets in found]
        ended = scripted(trial, b"", "--back", "--port", "7000", script)
        kept = [one for one in records(ended.output) if one[0] < 2**32 * 10**6 and len(one[1]) > 30]
        trial.same(f"{script.name}: the datagrams", repr(frames), repr(kept), ended.call)
        everything = len(list(records(ended.output)))
        left = len(lines) - everything
        said = f"skipped {left} line{'s' * (left != 1)} (not arrivals, or too long for a capture)" if left else ""
        trial.demand(ended.said == said, f"{script.name}: {ended.said}; wanted {said}", ended.call)
        again = scripted(trial, ended.output, "--port", "7000")
        wanted = [f"arrive {link} {moment} {octets.hex()}" for link, moment, octets in found]
        text = [line for line in again.text.splitlines() if ARRIVAL.fullmatch(line) and int(line.split()[2]) < 2**32]
        trial.same(f"{script.name}: back and forth", "\n".join(wanted), "\n".join(text), again.call)


def check_ethernet(trial: Trial) -> None:
    """A script as a capture of Ethernet frames, whose source address has the link, and read back by its EtherType."""
    lines = "".join(f"arrive {link} {SECOND * 1000 + 20 * at} {packet.hex()}\n" for at, packet in enumerate(ROHC) for link in (1, 258))
    capture = trial.scratch / "ethernet.pcap"
    ended = scripted(trial, lines.encode(), "--back", "--ethertype", "0x88b5", "-", capture)
    trial.demand(ended.status == 0, f"Ethernet: {ended.end()}", ended.call)
    wanted = [bytes((2, 0, 0, 0, 0, 0, 2, 0, 0, 0)) + struct.pack(">HH", link, 0x88B5) + packet for packet in ROHC for link in (1, 258)]
    trial.same("frames of Ethernet", repr(wanted), repr([octets for _, octets in records(capture.read_bytes())]))
    back = scripted(trial, capture.read_bytes(), "--link", "1", "--ethertype", "0x88b5", "--from", "02:00:00:00:00:01")
    trial.same("frames of Ethernet, read back", "".join(line + "\n" for line in lines.splitlines() if line.startswith("arrive 1 ")), back.text, back.call)


def briefly(trial: Trial, links: Path, script: Path) -> dict[int, list[str]]:
    """What `explain --brief` says of each packet of a script, by its line."""
    text = run(Call((trial.top / PROGRAM, "explain", "--brief", "--links", links, script), folder=trial.top)).text
    return {int(row.split()[0]): row.split()[1:] for row in text.splitlines()}


def check_parts(trial: Trial) -> None:
    """A part of a script has the packets from a time on and those from the newest IR on before them, and each gets the answer that it has in
    the whole; so does a part of one call. A part of a capture has the packets that are delivered in that time."""
    count = 0
    for script in sorted((trial.top / "examples/scripts").glob("small-*.script")):
        links = script.with_suffix(".toml")
        moments = [int(match[2]) for match in map(ARRIVAL.fullmatch, script.read_text(errors="replace").splitlines()) if match]
        since = moments[len(moments) // 2]
        whole, part, listed = briefly(trial, links, script), trial.scratch / "part.script", trial.scratch / "part.lines"
        call = next(row for row in whole.values() if row[1] != "-" and row[3] == "delivered")
        for words in ((), ("--call", f"{call[0]}/{call[1]}")):
            ended = scripted(trial, b"", "--links", links, "--since", str(since), *words, "--lines", listed, script, part)
            if ended.status == 6 and words:
                continue
            trial.demand(ended.status == 0, f"a part of {script.name}: {ended.end()}", ended.call)
            own, rows = briefly(trial, links, part), (map(int, row.split()) for row in listed.read_text().splitlines())
            wrong = [(line, whole[number], own[line]) for line, number in rows if whole[number] != own[line]]
            trial.demand(not wrong, f"a part of {script.name} has other answers: {wrong[:2]}", ended.call)
            count += len(own)
    trial.demand(count > 1000, f"parts have {count} packets")
    given = pcap(frames_of([ethernet(0x22F1, packet) for packet in ROHC]))
    packets = list(records(decompress(trial, given, "--link", "1").output))
    at = packets[0][0] // 10**6
    first = decompress(trial, given, "--link", "1", "--call", "1/0", "--until", f"{at // 1000}.{at % 1000:03}")
    trial.same("the first packet", repr(packets[:1]), repr(list(records(first.output))), first.call)
    rest = decompress(trial, given, "--link", "1", "--since", f"{(at + 1) // 1000}.{(at + 1) % 1000:03}")
    trial.same("the packets after it", repr(packets[1:]), repr(list(records(rest.output))), rest.call)
    nothing = decompress(trial, given, "--link", "1", "--call", "1/7")
    trial.demand(nothing.status == 6 and "no packet of link 1, CID 7" in nothing.said, f"no such call: {nothing.end()}", nothing.call)


# A call of profile 0x0001 with one octet of payload: a whole IR, a UO-0 and a UOR-2 of the worked examples.
CALL = [bytes.fromhex(octets) for octets in ("fd012b40110a0000010a0000021388138a00000001004000012000000090000001000000a0000980a0ab", "10ac", "d4c33ead")]


def check_padded(trial: Trial) -> None:
    """With --payload the packets of frames that Ethernet padded to 60 octets are those of frames without padding."""
    plain, padded = (pcap(frames_of([ethernet(0x22F1, packet).ljust(size, b"\0") for packet in CALL])) for size in (0, 60))
    wanted = list(records(decompress(trial, plain, "--link", "1").output))
    trial.demand(len(wanted) == len(CALL), f"{len(wanted)} of {len(CALL)} packets are delivered without padding")
    good(trial, decompress(trial, padded, "--link", "1", "--payload", "1=1"), wanted, "padded")
    longer = decompress(trial, padded, "--link", "1", "--payload", "2=1,1=2")
    trial.demand(list(records(longer.output)) != wanted, "a payload of two octets is cut behind one", longer.call)
    script = trial.scratch / "padded.script"
    ended = scripted(trial, padded, "--link", "1", "--links", LINKS, "--payload", "1=1", "-", script)
    packets = [bytes.fromhex(line.split()[3]) for line in script.read_text().splitlines()]
    trial.demand(packets == CALL, f"the script of padded frames: {ended.end()}", ended.call)
    for name in ("explain", "report"):
        shown = [run(Call((trial.top / PROGRAM, name, "--links", LINKS, "--link", "1", *words), given, {}, trial.top)) for given, words in ((plain, ()), (padded, ("--payload", "1=1")))]
        trial.demand(shown[0].status == 0, f"{name} of frames without padding: {shown[0].end()}", shown[0].call)
        trial.same(f"{name} of padded frames", shown[0].text, shown[1].text, shown[1].call)
    wrong = decompress(trial, padded, "--link", "1", "--payload", "1")
    trial.demand(wrong.status == 2 and "--payload" in wrong.said and "LINK=OCTETS" in wrong.said, f"--payload 1: {wrong.said}", wrong.call)


def check_sides(trial: Trial) -> None:
    """A capture of both directions: one sender's packets arrive, the others' make a script of their own, and each line its frame."""
    near, far = b"\2\0\0\0\0\1", b"\2\0\0\0\0\2"
    feedback = bytes.fromhex("f420011139")
    both = [far + near + b"\x22\xf1" + ROHC[0], near + far + b"\x22\xf1" + feedback, bytes(20), far + near + b"\x22\xf1" + ROHC[1]]
    given = pcap(frames_of(both))
    times = [at // 10**6 for at in moments(4)]
    other, lines = (trial.scratch / name for name in ("other.script", "lines"))
    for octets, address in ((near, "02:00:00:00:00:01"), (far, "02:00:00:00:00:02")):
        ended = scripted(trial, given, "--link", "1", "--from", address, "--other", other, "--lines", lines)
        ours = [f"arrive 1 {times[0]} {ROHC[0].hex()}\n", f"arrive 1 {times[3]} {ROHC[1].hex()}\n"]
        theirs = [f"arrive 1 {times[1]} {feedback.hex()}\n"]
        # The record of frame 1 begins behind the head of 24 octets; each has 16 and its frame.
        starts = [24 + sum(16 + len(frame) for frame in both[:place]) for place in range(4)]
        listed = [f"1 1 {starts[0]}\n2 4 {starts[3]}\n", f"1 2 {starts[1]}\n"]
        wanted = ("".join(ours), "".join(theirs), listed[0]) if octets == near else ("".join(theirs), "".join(ours), listed[1])
        trial.same(f"sides, {address}", repr(wanted), repr((ended.text, other.read_text(), lines.read_text())), ended.call)
    datagrams = [(at, datagram(5000, b"\0\1" + packet)) for at, packet in zip(moments(3), ROHC, strict=True)]
    for address, count in (("127.0.0.1", 3), ("127.0.0.2", 0)):
        ended = scripted(trial, pcap(datagrams, RAW), "--port", "5000", "--from", address)
        trial.demand(ended.text.count("\n") == count, f"sides, {address}: {ended.text}", ended.call)
    for words in ((), ("--back",), ("--link", "1", "--from", "1.2.3"), ("--link", "1", "--from", "1:2"), ("--port", "x"), ("--link", "1", "--other", "x")):
        ended = scripted(trial, b"", *words)
        trial.demand(ended.status == 2, f"script {words}: {ended.end()}; wanted 2", ended.call)


def check_tools(trial: Trial) -> None:
    """Captures that Wireshark's tools turned from one form into another, and what tshark reads of those written here."""
    names = ("editcap", "mergecap", "tshark")
    tools = [shutil.which(name) for name in names]
    if None in tools:
        return
    editcap, mergecap, tshark = (Path(tool) for tool in tools if tool is not None)
    given, other, both = (trial.scratch / name for name in ("given.pcap", "other.pcapng", "both.pcapng"))
    given.write_bytes(pcap(frames_of([ethernet(0x22F1, packet) for packet in ROHC]), order="<"))
    for form in ("pcap", "nsecpcap", "pcapng"):
        run(Call((editcap, "-F", form, given, other), b"", {}, trial.top))
        good(trial, decompress(trial, b"", "--link", "1", other), frames_of(REBUILT), f"editcap {form}")
    run(Call((mergecap, "-a", "-w", both, other, given), b"", {}, trial.top))
    ended = decompress(trial, b"", "--link", "1", "--stats", both)
    trial.demand(ended.said.startswith("frames 6 arrivals 6 delivered 6"), f"mergecap: {ended.said}", ended.call)
    written = trial.scratch / "written"
    decompress(trial, b"", "--link", "1", given, written)
    read = run(Call((tshark, "-r", written, "-T", "fields", "-e", "frame.time_epoch", "-e", "frame.len"), b"", {}, trial.top))
    times = [f"{at // 10**9}.{at % 10**9:09d}" for at in moments(3)]
    trial.same("what tshark reads", "".join(f"{time}\t2\n" for time in times), read.text, read.call)
    decompress(trial, b"", "--link", "1", "--pcapng", given, written)
    fields = ("frame.time_epoch", "frame.len", "frame.interface_name", "frame.comment")
    read = run(Call((tshark, "-r", written, "-T", "fields", *(word for name in fields for word in ("-e", name))), b"", {}, trial.top))
    rows = [(time, 14 + len(packet), kind) for time, packet, kind in zip(times, ROHC, ("IR", "Normal", "Normal"), strict=True)]
    wanted = "".join(f"{time}\t{size}\tROHC\t{kind}, link 1, CID 0: delivered\n{time}\t2\tIP\t\n" for time, size, kind in rows)
    trial.same("what tshark reads of pcapng", wanted, read.text, read.call)


def check(trial: Trial) -> None:
    """All of it."""
    for part in (check_carriers, check_lost, check_cuts, check_changes, check_blocks, check_outputs, check_annotated, check_scripts, check_long, check_many, check_live, check_back, check_ethernet, check_parts, check_padded, check_sides, check_tools):
        part(trial)
