#!/usr/bin/env python3
"""Writes a script of one call, of whose UO-0 each is decoded only by its second try, or only by its third.

usage: tools/late_tries.py second|third PACKETS

It goes with link 1 of examples/two-links.toml. Behind an IR come PACKETS UO-0, each with 4 bits of the SN. From a
reference r they mean an SN from r-1 to r+14 (RFC 3095 4.5.1), and by the second try one from r+15 to r+30.

- second: each packet has an SN from r+15 on, and comes 320 ms after the one before it: 16 times `packet_ms`.
- third: the SN is r+14 and r-1 in turn, where r is that of the IR, and all packets come at once. So each is meant by the
  previous reference, which stays that of the IR. The first of them is decoded by its first try.

No header of an earlier try has the packet's check.
"""

import random
import sys
from collections.abc import Iterator

from random_script import CHECK3, IR, Call

# The SN bits of a UO-0 wrap around after so many packets, and so much time, in milliseconds.
WRAP, WRAP_MS = 16, 320


class Steady(Call):
    """A call whose timestamp and Identification follow from the SN."""

    def __init__(self, seed: int) -> None:
        super().__init__(random.Random(seed), b"", b"")
        self.rnd = self.udp_sum = False
        self.sum, self.stride, self.payload = 0, 160, self.dice.randbytes(20)
        # Away from where the SN wraps around, and the Identification.
        self.sn = self.id = 1000

    def move(self, steps: int) -> None:
        """Goes on by so many packets, or back."""
        self.sn = (self.sn + steps) % (1 << 16)
        self.id = (self.id + steps) % (1 << 16)
        self.ts = (self.ts + steps * self.stride) % (1 << 32)

    def check_after(self, steps: int) -> int:
        """The check of the packet that comes after so many."""
        self.move(steps)
        found = self.check_of(CHECK3)
        self.move(-steps)
        return int(found)

    def uo_0(self) -> bytes:
        """The packet as a UO-0."""
        return self.behind(bytes([self.sn % WRAP << 3 | self.check_of(CHECK3)]))


def by_second_tries(call: Steady, count: int) -> Iterator[bytes]:
    """Packets of which each is decoded by its second try."""
    for _ in range(count):
        steps = next(n for n in range(WRAP, 2 * WRAP - 1) if call.check_after(n) != call.check_after(n - WRAP))
        call.move(steps)
        yield call.uo_0()


def by_third_tries(call: Steady, count: int) -> Iterator[bytes]:
    """Packets of which each but the first is decoded by its third try."""
    call.move(14)
    for number in range(count):
        yield call.uo_0()
        call.move(15 if number % 2 else -15)


def is_third(call: Steady) -> bool:
    """Whether the first tries of such packets miss: r+14 as r-2, from r-1, and r-1 as r+15, from r+14."""
    return call.check_after(14) != call.check_after(-2) and call.check_after(-1) != call.check_after(15)


def lines(kind: str, count: int) -> Iterator[str]:
    """The lines of a script."""
    if kind == "second":
        call = Steady(7)
        yield f"arrive 1 0 {call.refresh(IR).hex()}"
        for number, packet in enumerate(by_second_tries(call, count), 1):
            yield f"arrive 1 {number * WRAP_MS} {packet.hex()}"
    else:
        call = next(call for call in map(Steady, range(7, 1000)) if is_third(call))
        yield f"arrive 1 0 {call.refresh(IR).hex()}"
        for packet in by_third_tries(call, count):
            yield f"arrive 1 0 {packet.hex()}"


def main() -> None:
    words = sys.argv[1:]
    if words == ["--help"]:
        print((__doc__ or "").strip())
        return
    if len(words) != 2 or words[0] not in ("second", "third") or not words[1].isdigit():
        sys.exit(__doc__)
    for line in lines(words[0], int(words[1])):
        print(line)


if __name__ == "__main__":
    main()
