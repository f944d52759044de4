#!/usr/bin/env python3
"""Shows isolation on a script: each pair's answer lines are those of that pair's own script.

usage: tools/pair_scripts.py PROGRAM LINKS SCRIPT ANSWERS

A pair's own script has the resets of its link and the arrivals there that bear its identifier, and nothing else. ANSWERS
are those of the whole script. Link 1 has small identifiers, every other link large ones.
"""

import subprocess
import sys
from collections import defaultdict


def after_items(octets):
    """The octets after padding and feedback elements, or None if an element is cut off."""
    while octets and (octets[0] == 0xE0 or 0xF0 <= octets[0] <= 0xF7):
        if octets[0] == 0xE0:
            octets = octets[1:]
            continue
        size, start = octets[0] & 7, 1
        if size == 0:
            if len(octets) < 2:
                return None
            size, start = octets[1], 2
        if len(octets) < start + size:
            return None
        octets = octets[start + size :]
    return octets


def begins_header(octet):
    return octet < 0xE0 or octet in (0xF8, 0xFC, 0xFD)


def small_identifier(octets):
    if octets and 0xE1 <= octets[0] <= 0xEF:
        return octets[0] & 0xF if len(octets) > 1 and begins_header(octets[1]) else None
    return 0 if octets and begins_header(octets[0]) else None


def large_identifier(octets):
    if len(octets) < 2 or not begins_header(octets[0]) or octets[1] >= 0xC0:
        return None
    if octets[1] < 0x80:
        return octets[1]
    return (octets[1] & 0x3F) << 8 | octets[2] if len(octets) > 2 else None


def identifier(link, octets):
    """The CID that a packet has on this link, if it has one (RFC 5795 5.2)."""
    rest = after_items(octets)
    if rest is None:
        return None
    return small_identifier(rest) if link == "1" else large_identifier(rest)


def own_scripts(lines):
    """The own lines of each pair. A reset belongs to every pair of its link."""
    pairs, resets = defaultdict(list), defaultdict(list)
    for place, line in enumerate(lines):
        words = line.split(" ")
        if words[0] == "reset" and len(words) == 2 and words[1] in "12":
            resets[words[1]].append(place)
        elif words[0] == "arrive" and len(words) == 4 and set(words[3]) <= set("0123456789abcdef"):
            cid = identifier(words[1], bytes.fromhex(words[3]))
            if cid is not None:
                pairs[words[1], cid].append(place)
    return {pair: sorted(places + resets[pair[0]]) for pair, places in pairs.items()}


def main():
    if sys.argv[1:] == ["--help"]:
        print(__doc__.strip())
        return
    if len(sys.argv) != 5:
        sys.exit(__doc__)
    program, links, script, answers = sys.argv[1:]
    with open(script) as file:
        lines = file.read().splitlines()
    with open(answers) as file:
        told = file.read().splitlines()
    scripts = own_scripts(lines)
    for (link, cid), places in sorted(scripts.items()):
        own = "".join(lines[place] + "\n" for place in places)
        run = subprocess.run([program, "replay", "--links", links], input=own, capture_output=True, text=True, check=True)
        front = f"{link} {cid} "
        alone = [line for line in run.stdout.splitlines() if line.startswith(front)]
        among = [line for line in told if line.startswith(front)]
        if alone != among:
            sys.exit(f"link {link}, identifier {cid}: {len(among)} lines in the whole script, {len(alone)} alone, not the same")
    if len(scripts) < 20 or sum(" ip " in line for line in told) < len(lines) // 2:
        sys.exit("the script has too few pairs, or too little is delivered")
    print(f"{len(scripts)} pairs are told the same lines alone")


if __name__ == "__main__":
    main()
