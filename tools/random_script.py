#!/usr/bin/env python3
"""Writes a random script: calls of both profiles on two links, with losses, damage, noise and resets.

usage: tools/random_script.py SEED LINES

The same seed gives the same script. It goes with the links of examples/two-links.toml: link 1 has small identifiers,
link 2 large ones. Most packets are those of honest senders, in formats that RFC 3095 5.7 names; some lines are spoilt.
"""

import random
import struct
import sys

IR, IR_DYN, PLAIN_IR = 0xFD, 0xF8, 0xFC


def check(octets, register, polynomial):
    """A check over octets, the least significant bit of each first (RFC 3095 5.9)."""
    for octet in octets:
        register ^= octet
        for _ in range(8):
            register = register >> 1 ^ (polynomial if register & 1 else 0)
    return register


def check8(octets):
    return check(octets, 0xFF, 0xE0)


class Wide:
    """A check of 3 or 7 bits. Its register is narrower than an octet."""

    def __init__(self, ones, polynomial):
        self.ones = ones
        self.after = [check([octet], 0, polynomial) for octet in range(256)]

    def of(self, octets):
        register = self.ones
        for octet in octets:
            register = self.after[register ^ octet]
        return register


CHECK3, CHECK7 = Wide(0x7, 0x6), Wide(0x7F, 0x79)
STATIC = [(0, 2), (6, 10), (12, 20), (20, 24), (28, 29), (36, 40)]
DYNAMIC = [(2, 6), (10, 12), (24, 28), (29, 36)]


def header_sum(octets):
    total = sum(struct.unpack(f">{len(octets) // 2}H", octets))
    while total > 0xFFFF:
        total = (total & 0xFFFF) + (total >> 16)
    return 0xFFFF - total


def value(number):
    """The encoding of a self-describing value below 2^14 (RFC 3095 4.5.6)."""
    return bytes([number]) if number < 1 << 7 else struct.pack(">H", number | 0x8000)


class Call:
    """A call of profile 0x0001, as its sender sees it."""

    def __init__(self, dice, cid_front, cid_behind):
        self.dice, self.cid_front, self.cid_behind = dice, cid_front, cid_behind
        self.source, self.destination = dice.randbytes(4), dice.randbytes(4)
        self.ports = dice.randrange(1 << 32)
        self.ssrc = dice.randrange(1 << 32)
        self.tos, self.ttl, self.df = 0, dice.choice([32, 64, 255]), dice.randrange(2)
        self.payload_type = dice.randrange(128)
        self.rnd = dice.random() < 0.2
        self.udp_sum = dice.random() < 0.3
        self.stride = dice.choice([160, 240, 960])
        self.sn, self.ts, self.id = dice.randrange(1 << 16), dice.randrange(1 << 24), dice.randrange(1 << 16)
        self.marker = 0
        self.sent = 0

    def advance(self):
        """The next packet; sometimes a talk spurt, a new offset of the Identification or another TOS."""
        dice = self.dice
        self.sn = (self.sn + 1) % (1 << 16)
        self.marker = int(dice.random() < 0.05)
        strides = dice.randrange(2, 9) if self.marker else 1
        self.ts = (self.ts + strides * self.stride) % (1 << 32)
        self.id = dice.randrange(1 << 16) if self.rnd else (self.id + 1) % (1 << 16)
        self.sum = dice.randrange(1, 1 << 16) if self.udp_sum else 0
        self.payload = dice.randbytes(dice.randrange(0, 40))
        self.sent += 1
        return strides

    def header(self):
        ip = struct.pack(">BBHHHBBH", 0x45, self.tos, 40 + len(self.payload), self.id, self.df << 14, self.ttl, 17, 0)
        ip += self.source + self.destination
        ip = ip[:10] + struct.pack(">H", header_sum(ip)) + ip[12:]
        udp = struct.pack(">IHH", self.ports, 20 + len(self.payload), self.sum)
        second = self.marker << 7 | self.payload_type
        return ip + udp + struct.pack(">BBHII", 0x80, second, self.sn, self.ts, self.ssrc)

    def check_of(self, kind):
        header = self.header()
        parts = b"".join(header[a:b] for a, b in STATIC + DYNAMIC)
        return kind.of(parts)

    def packet(self):
        strides = self.advance()
        roll = self.dice.random()
        if self.sent == 1 or roll < 0.03:
            return self.refresh(IR)
        if roll < 0.04:
            return self.refresh(IR_DYN)
        if roll < 0.05 and not self.rnd:
            return self.with_tos()
        if strides > 1 or roll < 0.1:
            return self.with_timestamp(roll < 0.5)
        if roll < 0.15 and not self.rnd:
            return self.with_offset()
        return self.behind(bytes([self.sn % 16 << 3 | self.check_of(CHECK3)]))

    def refresh(self, kind):
        static = b"\x40\x11" + self.source + self.destination + struct.pack(">II", self.ports, self.ssrc)
        dynamic = bytes([self.tos, self.ttl]) + struct.pack(">H", self.id)
        dynamic += bytes([self.df << 7 | self.rnd << 6 | 0x20, 0]) + struct.pack(">H", self.sum)
        dynamic += bytes([0x90, self.marker << 7 | self.payload_type]) + struct.pack(">HI", self.sn, self.ts)
        dynamic += b"\x00\x09" + value(self.stride)
        chains = (static if kind == IR else b"") + dynamic
        front = self.cid_front + bytes([kind]) + self.cid_behind + b"\x01"
        return front + bytes([check8(front + b"\x00" + chains)]) + chains + self.payload

    def behind(self, base):
        """A packet of kind Other: the base octets, and the octets after them."""
        octets = self.cid_front + base[:1] + self.cid_behind + base[1:]
        if self.rnd:
            octets += struct.pack(">H", self.id)
        if self.udp_sum:
            octets += struct.pack(">H", self.sum)
        return octets + self.payload

    def with_timestamp(self, wide):
        """UO-1 or UO-1-TS, UOR-2 or UOR-2-TS: scaled bits of the timestamp."""
        scaled = self.ts // self.stride
        if wide and self.rnd:
            base = [0xC0 | scaled >> 1 & 0x1F, (scaled & 1) << 7 | self.marker << 6 | self.sn % 64, self.check_of(CHECK7)]
        elif wide:
            base = [0xC0 | scaled & 0x1F, 0x80 | self.marker << 6 | self.sn % 64, self.check_of(CHECK7)]
        elif self.rnd:
            base = [0x80 | scaled & 0x3F, self.marker << 7 | self.sn % 16 << 3 | self.check_of(CHECK3)]
        else:
            base = [0xA0 | scaled & 0x1F, self.marker << 7 | self.sn % 16 << 3 | self.check_of(CHECK3)]
        return self.behind(bytes(base))

    def with_offset(self):
        """UO-1-ID: bits of the Identification's offset, which grows."""
        self.id = (self.id + self.dice.randrange(1, 9)) % (1 << 16)
        offset = (self.id - self.sn) % (1 << 16)
        return self.behind(bytes([0x80 | offset & 0x1F, self.sn % 16 << 3 | self.check_of(CHECK3)]))

    def with_tos(self):
        """UOR-2-ID with an extension 3 that gives another TOS."""
        self.tos = self.dice.randrange(256)
        offset = (self.id - self.sn) % (1 << 16)
        flags = 0x80 | self.df << 5 | 0x04
        base = [0xC0 | offset & 0x1F, self.marker << 6 | self.sn % 64, 0x80 | self.check_of(CHECK7)]
        return self.behind(bytes(base) + bytes([0xC2, flags, self.tos]))


class PlainCall:
    """A call of profile 0x0000: packets that start with 45, as IPv4 does, and are else random."""

    def __init__(self, dice, cid_front, cid_behind):
        self.dice, self.cid_front, self.cid_behind, self.sent = dice, cid_front, cid_behind, 0

    def packet(self):
        self.sent += 1
        ip = bytes([0x45]) + self.dice.randbytes(self.dice.randrange(1, 30))
        if self.sent > 1 and self.dice.random() < 0.9:
            return self.cid_front + ip[:1] + self.cid_behind + ip[1:]
        covered = (self.cid_front or bytes([PLAIN_IR])) + (bytes([PLAIN_IR]) if self.cid_front else b"")
        front = covered + self.cid_behind + b"\x00"
        return front + bytes([check8(front)]) + ip


def identifier(link, cid):
    """The CID octets before and after a header's first octet. Odd links have small CIDs."""
    if link % 2 == 1:
        return (bytes([0xE0 | cid]) if cid else b"", b"")
    return b"", bytes([cid]) if cid < 128 else struct.pack(">H", 0x8000 | cid)


def spoilt(dice, octets):
    """A packet that is cut, changed in one octet, preceded by feedback, or replaced by random octets."""
    kind = dice.randrange(4)
    if kind == 0:
        return octets[: dice.randrange(len(octets) + 1)]
    if kind == 1 and octets:
        place = dice.randrange(min(len(octets), 6))
        return octets[:place] + bytes([octets[place] ^ 1 << dice.randrange(8)]) + octets[place + 1 :]
    if kind == 2:
        return b"\xe0\xf2" + dice.randbytes(2) + octets
    return dice.randbytes(dice.randrange(60))


def made_calls(dice, pairs):
    """A call for each pair of a link and a CID. About every fifth is of profile 0x0000."""
    return [(link, (PlainCall if dice.random() < 0.2 else Call)(dice, *identifier(link, cid))) for link, cid in pairs]


def line_of(dice, link, call, moment):
    """A line for the next packet of a call, or None if it is lost."""
    octets = call.packet()
    roll = dice.random()
    if roll < 0.04:
        return None
    if roll < 0.08:
        octets = spoilt(dice, octets)
    if roll > 0.9998:
        return f"reset {link}"
    if roll > 0.998:
        return dice.choice(["oops", "reset 01", "arrive 1 0 FC", "arrive 1 0  10ac", ""])
    return f"arrive {link} {moment} {octets.hex() or '-'}"


def lines(seed, count):
    dice = random.Random(seed)
    pairs = [(1, cid) for cid in range(12)] + [(2, cid) for cid in dice.sample(range(16384), 20)]
    calls = made_calls(dice, pairs)
    moment = 0
    for _ in range(count):
        moment += 6000 if dice.random() < 0.0002 else dice.choice([0, 0, 1, 1, 2, 5, 10, 20])
        line = line_of(dice, *dice.choice(calls), moment)
        if line is not None:
            yield line


def main():
    if sys.argv[1:] == ["--help"]:
        print(__doc__.strip())
        return
    if len(sys.argv) != 3 or not all(word.isdigit() for word in sys.argv[1:]):
        sys.exit(__doc__)
    for line in lines(int(sys.argv[1]), int(sys.argv[2])):
        print(line)


if __name__ == "__main__":
    main()
