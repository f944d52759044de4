"""Makes scripts of packets of random octets, most of which carry the right check.

So they reach what no honest sender writes: any bits, any extension, any jump. The model runs along and shows against
which references a check must be right.
"""

import random
from collections.abc import Iterator

import decoding
import feedback
import forms
from checks import from_ones
from links import Setting
from octets import Refused, word_of
from original import LONGEST_PAYLOAD, header_check, original
from record import FullContext, Record, StaticContext
from replay import Concentrator, run_line
from values import written

CIDS = 3
# How long after the last packet the second try is made in any case.
LATE = 10**9


def often(dice: random.Random, octet: int, other: int) -> int:
    """An octet, or rarely another."""
    return octet if dice.random() < 0.98 else other


def static_chain(dice: random.Random) -> bytes:
    """A static chain, seldom a wrong one."""
    return bytes([often(dice, 0x40, dice.randrange(256)), often(dice, 0x11, 6)]) + dice.randbytes(16)


def dynamic_chain(dice: random.Random) -> bytes:
    """A dynamic chain, seldom a wrong one."""
    has_rx = dice.random() < 0.7
    first = 0x80 + 0x20 * dice.randrange(2) + 0x10 * has_rx
    chain = dice.randbytes(5) + bytes([often(dice, 0, 1)])
    chain += dice.choice([bytes(2), dice.randbytes(2)]) + bytes([often(dice, first, dice.randrange(256))])
    chain += dice.randbytes(7) + bytes([often(dice, 0, 1)])
    if has_rx:
        flags = dice.randrange(256)
        chain += bytes([flags])
        for place in (1, 2):
            value = dice.choice([1, 160, 240, 3000, dice.randrange(2**29)])
            chain += (written(value) or b"") if flags & place else b""
    return chain


def renewal(dice: random.Random) -> tuple[int, bytes]:
    """The first octet of an IR or an IR-DYN, and its chains."""
    first = dice.choice([0xFC, 0xFD, 0xFD, 0xFD, 0xF8])
    return first, static_chain(dice) * (first != 0xF8) + dynamic_chain(dice) * (first != 0xFC)


def shaped(dice: random.Random) -> bytes:
    """Octets of kind Other. Flags of an extension 3 that are refused are mostly cleared."""
    octets = bytearray([dice.randrange(0xE0)]) + dice.randbytes(dice.randrange(4, 25))
    place = forms.base_length(octets[0])
    if place > 1 and octets[place] >= 0xC0 and octets[place] & 0x02:
        octets[place + 1] &= often(dice, 0xE6, 0xFF)
    return bytes(octets)


def with_check(octets: bytes, check: int) -> bytes:
    """A packet of kind Other with this check."""
    place = forms.base_length(octets[0]) - 1
    width = 7 if place == 2 else 3
    last = octets[place] >> width << width | check
    return octets[:place] + bytes([last]) + octets[place + 1 :]


def fitting(dice: random.Random, state: StaticContext | FullContext, octets: bytes) -> bytes:
    """A packet whose check is right against one of the references that are tried."""
    assert state.reference is not None
    held = state.reference.fields
    content = forms.read(octets, held.rnd, state.reference.has_checksum, held.stride)
    reference, shift = dice.choice(decoding.tries(state, content, 0, LATE))
    fields = decoding.header_of(content, reference, shift)
    header = original(state.static, fields, min(len(content.payload), LONGEST_PAYLOAD))
    assert header is not None
    return with_check(octets, header_check(3 if octets[0] < 0xC0 else 7, header))


def update(dice: random.Random, record: Record | None) -> bytes:
    """A packet of kind Other. If it can't be read, it is mostly made anew."""
    octets = shaped(dice)
    while record and isinstance(record.state, (StaticContext, FullContext)) and record.state.reference:
        try:
            return fitting(dice, record.state, octets) if dice.random() < 0.9 else octets
        except Refused:
            if dice.random() < 0.1:
                break
            octets = shaped(dice)
    return octets


def packet(dice: random.Random, setting: Setting, cid: int, record: Record | None) -> bytes:
    """A packet for a CID."""
    around = feedback.cid_octets(setting.is_small, cid)
    before, behind = (around, b"") if setting.is_small else (b"", around)
    if dice.random() < (0.08 if record else 0.9):
        octet, chains = renewal(dice)
        front = before + bytes([octet]) + behind + bytes([1])
        check = often(dice, from_ones(8, front + bytes([0]) + chains), 0)
        return front + bytes([check]) + chains + dice.randbytes(dice.randrange(4)) * (octet != 0xFC)
    if dice.random() < 0.02:
        front = before + bytes([0xFC]) + behind + bytes([0])
        return front + bytes([from_ones(8, front)]) + dice.randbytes(dice.randrange(4))
    octets = update(dice, record)
    return before + octets[:1] + behind + octets[1:]


def lines(links: dict[int, Setting], seed: str, count: int) -> Iterator[bytes]:
    """The lines of a script with these links."""
    dice = random.Random(f"made {seed}")
    concentrator = Concentrator(links)
    now = 10**6
    for _ in range(count):
        now += dice.choice([0, 1, 20, 20, 20, 400, 1000, -100]) if dice.random() < 0.995 else 5000
        setting = dice.choice(list(links.values()))
        cid = dice.randrange(CIDS)
        octets = packet(dice, setting, cid, concentrator.records.get((setting.number, cid)))
        line = f"arrive {setting.number} {now} {word_of(octets)}".encode()
        list(run_line(concentrator, line))
        yield line
