#!/usr/bin/env python3
"""Decompresses a capture: python/examples/pcap.py IN.pcap OUT.pcap

IN has Ethernet frames. Those with the EtherType of ROHC, 22F1, are taken. Each source address is a link of its own, with
small CIDs in O mode. OUT gets the rebuilt IP packets with the times of their frames. A line on standard output counts the
packets, those delivered, those stored and those refused.
"""

from __future__ import annotations

import struct
import sys
from collections.abc import Iterator
from typing import BinaryIO

from polorowan import Concentrator, Link

ROHC = 0x22F1
ETHERNET, RAW_IP = 1, 101
MOST_LINKS = 256


def frames(file: BinaryIO) -> Iterator[tuple[int, bytes]]:
    """The frames of a capture, with their times in microseconds."""
    header = file.read(24)
    order = "<" if header[:4] in (b"\xd4\xc3\xb2\xa1", b"\x4d\x3c\xb2\xa1") else ">"
    magic, _, _, _, _, _, network = struct.unpack(order + "IHHiIII", header)
    if magic not in (0xA1B2C3D4, 0xA1B23C4D) or network != ETHERNET:
        raise ValueError("no capture of Ethernet frames")
    parts = 1000 if magic == 0xA1B23C4D else 1
    while len(record := file.read(16)) == 16:
        seconds, fraction, kept, _ = struct.unpack(order + "IIII", record)
        yield seconds * 1_000_000 + fraction // parts, file.read(kept)


def write_header(file: BinaryIO) -> None:
    file.write(struct.pack("<IHHiIII", 0xA1B2C3D4, 2, 4, 0, 0, 65535, RAW_IP))


def write_packet(file: BinaryIO, moment: int, packet: bytes) -> None:
    file.write(struct.pack("<IIII", moment // 1_000_000, moment % 1_000_000, len(packet), len(packet)) + packet)


def decompress(source: BinaryIO, target: BinaryIO) -> dict[str, int]:
    """Decompresses one capture into another, and returns the counts."""
    counts = {"packets": 0, "delivered": 0, "stored": 0, "refused": 0}
    links: dict[bytes, int] = {}
    write_header(target)
    with Concentrator(Link(number) for number in range(MOST_LINKS)) as concentrator:
        for moment, frame in frames(source):
            if frame[12:14] != ROHC.to_bytes(2, "big"):
                continue
            link = links.setdefault(frame[6:12], len(links))
            answer = concentrator.arrive(link, moment // 1000, frame[14:])
            counts["packets"] += 1
            counts["refused"] += answer.refusal is not None
            counts["stored"] += answer.stored
            if answer.packet is not None:
                counts["delivered"] += 1
                write_packet(target, moment, answer.packet)
    return counts


def main() -> None:
    if len(sys.argv) != 3:
        sys.exit(__doc__)
    with open(sys.argv[1], "rb") as source, open(sys.argv[2], "wb") as target:
        counts = decompress(source, target)
    print(*(f"{name} {count}" for name, count in counts.items()))


if __name__ == "__main__":
    main()
