#!/usr/bin/env python3
"""Writes scripts at the limits, each with the answers that belong to it.

usage: tools/limit_scripts.py links NUMBER          a links file of so many links, small identifiers on the odd ones
       tools/limit_scripts.py calls LINKS CIDS      a plain call on each of so many links and identifiers: its script
       tools/limit_scripts.py told LINKS CIDS       and its answers
       tools/limit_scripts.py flood LINES           the call of the examples with a flood of so many lines between
       tools/limit_scripts.py honest LINES          2,000 packets of an honest sender, of which up to 13 in a row are lost,
                                                    with a flood of so many lines between each two that arrive
       tools/limit_scripts.py sent                  and the answers to the packets that arrive
       tools/limit_scripts.py long TIMES            a packet of 65,535 octets so many times, behind its IR
"""

import random
import struct
import sys
from itertools import islice

from random_script import CHECK3, CHECK7, DYNAMIC, PLAIN_IR, STATIC, check8, header_sum, identifier

STATIC_CHAIN = "40110a0000010a0000021388138a00000001"
DYNAMIC_CHAIN = "004000012000000090000001000000a0000980a0"
CHAIN_WITHOUT_STRIDE = "004000012000000080000001000000a000"
WHOLE_IR = f"fd012b{STATIC_CHAIN}{DYNAMIC_CHAIN}ab"

# The packets of worked example refused-extensions that come after whole-ir, and the one that comes without a stride.
REFUSED = "c00380c104 c00380c201 c00380c208 c00380c1c0 c00380c21006 c00380c10200 c00380c602 8090c202 c003 c00380c2".split()
WITHOUT_STRIDE = "c00380c8"
TOO_LONG = "10" + "00" * 65_496
# Two UO-0s whose checks fail after whole-ir. They lead to Static Context, and a third isn't taken there.
FALL = ["11ac", "11ac", "11ac"]


def links(number):
    print("version = 1")
    for link in range(1, number + 1):
        size, most = ("small", 15) if link % 2 else ("large", 16383)
        print(f'[[link]]\nnumber = {link}\ncid = "{size}"\nmax_cid = {most}\nmode = "U"')
        print("k1 = 2\nn1 = 3\nk2 = 2\nn2 = 3\npacket_ms = 20\nstatic_nack_ms = 1000")
        print(f"deliver_port = {3 * link}\nfeedback_port = {3 * link + 1}\nrelay_port = {3 * link + 2}")


def plain_ir(link, cid):
    """An IR of profile 0x0000 without a packet."""
    before, behind = identifier(link, cid)
    front = before + bytes([PLAIN_IR]) + behind + b"\x00"
    return front + bytes([check8(front)])


def normal(link, cid):
    before, behind = identifier(link, cid)
    return before + b"\x45" + behind + cid.to_bytes(2, "big")


def calls(number, cids):
    """First the IR of each call, then a packet of each."""
    pairs = [(link, cid) for link in number for cid in range(cids if link % 2 == 0 else min(cids, 16))]
    for make in plain_ir, normal:
        for link, cid in pairs:
            yield link, cid, make(link, cid)


def under(link, cid, packet):
    """A packet in hexadecimal, with the octets of this CID."""
    before, behind = identifier(link, cid)
    return before.hex() + packet[:2] + behind.hex() + packet[2:]


def rtp_ir(link, cid, dynamic_chain):
    """An IR of profile 0x0001 with both chains."""
    front = under(link, cid, "fd") + "01"
    chains = STATIC_CHAIN + dynamic_chain
    return front + f"{check8(bytes.fromhex(front + '00' + chains)):02x}" + chains + "ab"


def live_call(dice, link, cid):
    """Packets that a context of profile 0x0001 refuses. It falls again and again, and an IR renews it."""
    while True:
        yield rtp_ir(link, cid, DYNAMIC_CHAIN)
        refused = REFUSED + [TOO_LONG] * (dice.randrange(40) == 0)
        for packet in dice.sample(refused, len(refused)) + FALL:
            yield under(link, cid, packet)
        yield rtp_ir(link, cid, CHAIN_WITHOUT_STRIDE)
        yield under(link, cid, WITHOUT_STRIDE)


def flood(seed):
    """Lines for other CIDs and another link, and bad lines, without an end. None of them resets link 1."""
    dice = random.Random(seed)
    refused = ["f100", "ff00", "f9", "e0", "fcc0", "", "11ac", *REFUSED]
    pairs = [(1, cid) for cid in range(8, 16)] + [(2, cid) for cid in range(296, 304)]
    live_calls = [(link, live_call(dice, link, cid)) for link, cid in pairs]
    while True:
        cid = dice.randrange(1, 8)
        roll = dice.randrange(7)
        if roll == 0:
            yield f"arrive 1 {dice.randrange(1000)} {0xE0 | cid:x}{dice.choice(refused)}"
        elif roll == 1:
            yield f"arrive 1 0 {plain_ir(1, cid).hex()}{dice.randbytes(3).hex()}"
        elif roll == 2:
            yield f"arrive 1 {dice.randrange(10**12)} {0xE0 | cid:x}{WHOLE_IR[: 2 * dice.randrange(40)]}"
        elif roll == 3:
            yield dice.choice(["oops", "arrive 1 0 FC", "arrive 1 0  10ac", "reset 01", "arrive 70000 0 10ac"])
        elif roll == 4:
            resets = ["reset 2"] * (dice.randrange(100) == 0)
            yield dice.choice([f"arrive 2 0 {plain_ir(2, cid).hex()}", f"arrive 2 7 {dice.randbytes(9).hex()}", *resets])
        else:
            link, call = dice.choice(live_calls)
            yield f"arrive {link} {dice.randrange(10**12)} {next(call)}"


def example_in_a_flood(count):
    hostile = flood(count)
    for line in f"arrive 1 0 {WHOLE_IR}", "arrive 1 20 10ac", "arrive 1 40 d4c33ead":
        print(line)
        for other in islice(hostile, count // 3):
            print(other)


def header(sn, ts, marker):
    """The header of worked example whole-ir with this SN, which the Identification follows, and this timestamp."""
    ip = bytes.fromhex("45000029") + struct.pack(">H", sn) + bytes.fromhex("00004011")
    addresses = bytes.fromhex("0a0000010a000002")
    ip += struct.pack(">H", header_sum(ip + bytes(2) + addresses)) + addresses
    udp = bytes.fromhex("1388138a00150000")
    return ip + udp + struct.pack(">BBHII", 0x80, marker << 7, sn, ts, 1)


def uo_0(octets, sn):
    return bytes([sn % 16 << 3 | CHECK3.of(octets)])


def uor_2_ts(octets, sn, ts, marker):
    return bytes([0xC0 | ts // 160 % 32, 0x80 | marker << 6 | sn % 64, CHECK7.of(octets)])


def honest_packets():
    """2,000 packets that are written for each of the last 14 references, and the header of each.

    The timestamp follows the SN by the stride. Every 40th packet has the marker and a timestamp eleven strides after the
    one before; it and the 13 after it carry timestamp bits.
    """
    ts = 160
    for sn in range(2, 2002):
        marker = int(sn % 40 == 0)
        ts += 160 * (11 if marker else 1)
        whole = header(sn, ts, marker)
        octets = b"".join(whole[a:b] for a, b in STATIC + DYNAMIC)
        jumped = sn >= 40 and sn % 40 < 14
        yield sn, uor_2_ts(octets, sn, ts, marker) if jumped else uo_0(octets, sn), whole


def arriving(packets):
    """Those that arrive: after one that arrives, none is lost, then one, and so on up to 13, and again none."""
    lost = 0
    while packet := next(packets, None):
        yield packet
        next(islice(packets, lost, lost), None)
        lost = (lost + 1) % 14


def honest_in_a_flood(count):
    hostile = flood(count)
    print(f"arrive 1 0 {WHOLE_IR}")
    for sn, packet, _ in arriving(honest_packets()):
        for other in islice(hostile, count):
            print(other)
        print(f"arrive 1 {20 * sn} {packet.hex()}ac")


def sent():
    print(f"1 0 ip {header(1, 160, 0).hex()}ab\n1 0 feedback f420011139")
    for _, _, whole in arriving(honest_packets()):
        print(f"1 0 ip {whole.hex()}ac")


def long_packets(times):
    print("arrive 1 0", plain_ir(1, 0).hex())
    line = "arrive 1 1 45" + "5a" * 65534
    for _ in range(times):
        print(line)


def main():
    if sys.argv[1:] == ["--help"]:
        print(__doc__.strip())
        return
    words = sys.argv[1:]
    numbers = [int(word) for word in words[1:] if word.isdigit()]
    match words[:1], numbers:
        case ["links"], [number]:
            links(number)
        case ["calls"], [number, cids]:
            for link, _, octets in calls(range(1, number + 1), cids):
                print("arrive", link, 0, octets.hex())
        case ["told"], [number, cids]:
            for link, cid, octets in calls(range(1, number + 1), cids):
                is_ir = octets == plain_ir(link, cid)
                print(link, cid, "stored" if is_ir else "ip 45" + cid.to_bytes(2, "big").hex())
        case ["flood"], [count]:
            example_in_a_flood(count)
        case ["honest"], [count]:
            honest_in_a_flood(count)
        case ["sent"], []:
            sent()
        case ["long"], [times]:
            long_packets(times)
        case _:
            sys.exit(__doc__)


if __name__ == "__main__":
    main()
