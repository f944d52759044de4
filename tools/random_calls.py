#!/usr/bin/env python3
"""Writes random calls: packets while links come, go and change, and contexts are forgotten and put.

usage: tools/random_calls.py SEED LINES

The same seed gives the same lines, which crates/calls runs. The tables are small, so that most calls meet
something. Each example of at most 1,000 lines begins anew; every eighth begins with 254 links more, so that
the table of links is full. The senders are those of tools/random_script.py.
"""

import copy
import random
import struct
import sys

from random_script import Call, PlainCall, check8, spoilt

LINKS = range(1, 7)
EXAMPLE = 1000
FULL = 8
BAD_LINES = (
    "",
    "oops",
    "reset 01",
    "reset 65536",
    "forget 1",
    "forget 1 2 ",
    "expire 1 18446744073709551616",
    "remove -1",
    "put 1 2 3",
    "put 1  2 3 4",
    "add 2 small 15 O 2 3 2 3 20 1000",
    "add 2 tiny 15 O 2 3 2 3 20 1000 0",
    "change 1 small 15 R 2 3 2 3 20 1000 0",
    "change 1 small 15 O 256 3 2 3 20 1000 0",
    "change 1 small 15 O 2 3 2 3 20 1000 0 4-7",
    "change 1 small 15 O 2 3 2 3 20 1000 0" + " 0-0-U" * 9,
    "arrive 1 0 FC",
    "arrive 1 0  10ac",
)


class Link:
    """A link as its senders see it."""

    def __init__(self, is_small, max_cid):
        self.is_small, self.max_cid = is_small, max_cid

    def identifier(self, cid):
        """The CID octets before and after a header's first octet. A small one is sent modulo 16."""
        if self.is_small:
            return bytes([0xE0 | cid % 16]) if cid % 16 else b"", b""
        return b"", bytes([cid]) if cid < 128 else struct.pack(">H", 0x8000 | cid)


class Sender(Call):
    """A sender of profile 0x0001. Some packets in a row are damaged, and some renew only the static part."""

    damaged = 0

    def packet(self):
        """The next packet."""
        if self.damaged:
            self.damaged -= 1
            return self.with_bad_check()
        roll = self.dice.random()
        if roll < 0.01:
            self.damaged = self.dice.randrange(1, 10)
        return self.static_ir() if roll > 0.985 else super().packet()

    def with_bad_check(self):
        """A UOR-2 or UOR-2-TS with another check."""
        self.advance()
        octets = bytearray(self.with_timestamp(True))
        octets[len(self.cid_front) + len(self.cid_behind) + 2] ^= 1
        return bytes(octets)

    def static_ir(self):
        """An IR without a dynamic chain."""
        chain = b"\x40\x11" + self.source + self.destination + struct.pack(">II", self.ports, self.ssrc)
        front = self.cid_front + b"\xfc" + self.cid_behind + b"\x01"
        return front + bytes([check8(front + b"\x00" + chain)]) + chain


class Calls:
    """Random lines of one example."""

    def __init__(self, dice):
        self.dice = dice
        self.links = {1: Link(True, 15)}
        self.senders = {}
        self.moment = 0

    def link(self):
        """The number of a link, mostly of one that is there."""
        is_there = self.links and self.dice.random() < 0.9
        return self.dice.choice(list(self.links) if is_there else [*LINKS, 9])

    def cid(self):
        """A CID, mostly one of a few."""
        others = self.dice.randrange(20), self.dice.randrange(16384)
        return self.dice.choice([0, 0, 1, 1, 2, 3, 4, 5, 7, 15, *others])

    def sender(self, link, cid):
        """The sender of a CID of a link, new if it has none. It sends with the link's CID kind of now."""
        kind = self.dice.choice([Sender, Sender, Sender, Sender, PlainCall])
        sender = self.senders.setdefault((link, cid), kind(self.dice, b"", b""))
        sender.cid_front, sender.cid_behind = self.links.get(link, Link(True, 15)).identifier(cid)
        return sender

    def lose(self, goes):
        """Contexts go. Most of their senders begin again with an IR."""
        for pair, sender in self.senders.items():
            if goes(*pair) and self.dice.random() < 0.7:
                sender.sent = 0

    def pair(self):
        """A link and a CID, mostly those of a sender whose link is there."""
        links = self.links
        pairs = [(link, cid) for link, cid in self.senders if link in links and cid <= links[link].max_cid]
        if pairs and self.dice.random() < 0.9:
            return self.dice.choice(pairs)
        return self.link(), self.cid()

    def arrive(self):
        """The next packet of a sender, seldom at a time that no other packet is near to."""
        link, cid = self.pair()
        octets = self.sender(link, cid).packet()
        if self.dice.random() < 0.08:
            octets = spoilt(self.dice, octets)
        moment = self.dice.choice([0, 2**64 - 1]) if self.dice.random() < 0.001 else self.moment
        return f"arrive {link} {moment} {octets.hex() or '-'}"

    def reset(self):
        link = self.link()
        self.lose(lambda other, cid: other == link)
        return f"reset {link}"

    def forget(self):
        link, cid = self.pair()
        self.lose(lambda *pair: pair == (link, cid))
        return f"forget {link} {cid}"

    def expire(self):
        moment = self.moment + self.dice.choice([-50, 0, 0, 50, 2000])
        return f"expire {self.link()} {max(0, moment)}"

    def remove(self):
        link = self.link()
        self.lose(lambda other, cid: other == link)
        self.links.pop(link, None)
        return f"remove {link}"

    def put(self):
        """A context is put under another CID, and its sender goes on there, too."""
        source = self.pair()
        link, cid = self.pair() if self.dice.random() < 0.2 else (self.link(), self.cid())
        if source in self.senders and self.dice.random() < 0.8:
            self.senders[link, cid] = copy.copy(self.senders[source])
        return f"put {link} {cid} {source[0]} {source[1]}"

    def ranges(self, max_cid):
        """Some ranges, mostly in order."""
        dice = self.dice
        if dice.random() < 0.03:
            ends = dice.choices(range(9), k=2 * dice.randrange(1, 9))
        else:
            count = dice.choice([0, 0, 2, 2, 4]) if max_cid >= 3 else 0
            ends = sorted(dice.sample(range(max_cid + 1), count))
        return [f"{first}-{last}-{dice.choice('UO')}" for first, last in zip(ends[::2], ends[1::2])]

    def setting(self, link, name):
        """The line of a call with a setting, seldom one that isn't good."""
        dice = self.dice
        is_small = dice.random() < 0.6
        max_cid = dice.choice([0, 1, 3, 5, 15, 15, 15] if is_small else [3, 5, 127, 200, 16383, 16383])
        windows = [sorted(dice.choices([1, 2, 3, 4, 64], k=2)) for _ in range(2)]
        choices = [1, 20, 20, 60000], [0, 100, 1000, 3600000], [0, 0, 50, 400, 86400000]
        times = [dice.choice(each) for each in choices]
        if dice.random() < 0.08:
            place = dice.randrange(3)
            times[place] = [60001, 3600001, 86400001][place]
        if dice.random() < 0.04:
            windows[dice.randrange(2)] = dice.choice([[3, 2], [0, 3], [1, 65], [255, 255]])
        if dice.random() < 0.03:
            max_cid = dice.choice([16, 16384, 65535])
        words = [name, link, "small" if is_small else "large", max_cid, dice.choice("UOOO")]
        words += [*windows[0], *windows[1], *times, *self.ranges(max_cid)]
        return self.links.get(link), Link(is_small, max_cid), " ".join(map(str, words))

    def add(self):
        link = self.dice.choice([*LINKS, 65535])
        before, after, line = self.setting(link, "add")
        self.links[link] = before or after
        return line

    def change(self):
        link = self.link()
        before, after, line = self.setting(link, "change")
        if before:
            self.links[link] = after
            is_other = before.is_small != after.is_small
            self.lose(lambda other, cid: other == link and (is_other or cid > after.max_cid))
        return line

    def line(self):
        """The next line."""
        dice = self.dice
        self.moment += 6000 if dice.random() < 0.001 else dice.choice([0, 0, 1, 1, 2, 5, 10, 20])
        if dice.random() < 0.002:
            self.moment //= 2
        roll = dice.random()
        if roll < 0.8:
            return self.arrive()
        if roll > 0.995:
            return dice.choice(BAD_LINES)
        calls = [self.reset, self.remove, *[self.add] * 3, *[self.put] * 6]
        calls += [self.change, self.expire, self.forget] * 2
        return dice.choice(calls)()


def example(dice, number, count):
    """The lines of one example."""
    yield f"= {number}"
    if number % FULL == 0 and count > 400:
        yield from (f"add {link} small 1 U 1 1 1 1 20 0 0" for link in range(1000, 1254))
        count -= 254
    calls = Calls(dice)
    for _ in range(count - 1):
        yield calls.line()


def lines(seed, count):
    """So many lines."""
    dice = random.Random(f"calls {seed}")
    for number, start in enumerate(range(0, count, EXAMPLE)):
        yield from example(dice, number, min(EXAMPLE, count - start))


def main():
    if sys.argv[1:] == ["--help"]:
        print(__doc__.strip())
        return
    if len(sys.argv) != 3 or not all(word.isdigit() for word in sys.argv[1:]):
        sys.exit(__doc__)
    for line in lines(int(sys.argv[1]), int(sys.argv[2])):
        print(line)


if __name__ == "__main__":
    main()
