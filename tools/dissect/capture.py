"""Writes ROHC packets, and IP packets, as captures for Wireshark's dissectors.

On a link of small CIDs each ROHC packet is the payload of an Ethernet frame of EtherType 22F1. That says nothing of a
channel, and the dissector takes CIDs for small ones. So on a link of large CIDs each is the payload of a frame of PDCP
for LTE, in UDP as Wireshark's packet-pdcp-lte.h describes it, which says that CIDs are large.
"""

import struct
from collections.abc import Iterable
from pathlib import Path

ETHERNET, RAW_IP = 1, 101
ETHERTYPE = bytes.fromhex("020000000001" "020000000002" "22f1")
# What a frame of PDCP says of its packet: data of a user, without a header of PDCP, compressed by ROHC. The tags are the
# length of sequence numbers, the IP version, large CIDs, O mode, RND 0, no UDP checksum and profile 0x0001.
PDCP = b"pdcp-lte" + bytes.fromhex("010201" "020c" "060004" "0700" "0801" "0902" "0a00" "0b00" "0c0001" "01")
# A port that no other protocol has.
PORT = 9999


def in_udp(octets: bytes) -> bytes:
    """An IP packet without checksums."""
    udp = struct.pack(">HHHH", PORT, PORT, 8 + len(octets), 0) + octets
    addresses = bytes.fromhex("0a0000010a000002")
    return struct.pack(">BBHHHBBH", 0x45, 0, 20 + len(udp), 0, 0, 64, 17, 0) + addresses + udp


def write(file: Path, kind: int, frames: Iterable[bytes]) -> None:
    """A capture of frames of a link type, a millisecond apart."""
    with file.open("wb") as capture:
        capture.write(struct.pack("<IHHiIII", 0xA1B2C3D4, 2, 4, 0, 0, 262_144, kind))
        for number, frame in enumerate(frames):
            capture.write(struct.pack("<IIII", number // 1000, number % 1000 * 1000, len(frame), len(frame)) + frame)


def write_rohc(file: Path, packets: Iterable[bytes], is_small: bool) -> None:
    """A capture of the ROHC packets of a link."""
    if is_small:
        write(file, ETHERNET, (ETHERTYPE + octets for octets in packets))
    else:
        write(file, RAW_IP, (in_udp(PDCP + octets) for octets in packets))
