#!/usr/bin/env python3
"""An hour of 256 links with 64 calls each on average, through a built rohcd, and then twice as many packets.

usage: tools/soak.py PROGRAM [PACKETS]

Packets are lost, spoilt and late, links are reset, and calls fall and are taken up again. Prints the packets a second and
the peak of memory of each run. The second run has twice as many packets and may not take more memory than the first.
"""

import contextlib
import random
import shutil
import subprocess
import sys
import tempfile
import time

from limit_scripts import links
from random_script import line_of, made_calls

LINKS, CALLS, HOUR = 256, 64, 3_600_000


def write_script(path, packets):
    """Writes a script of this many packets, spread over an hour. A link of small CIDs has sixteen calls."""
    dice = random.Random(packets)
    pairs = [(link, cid) for link in range(1, LINKS + 1) for cid in range(16 if link % 2 else 2 * CALLS - 16)]
    calls = made_calls(dice, pairs)
    with open(path, "w") as script:
        for number in range(packets):
            line = line_of(dice, *dice.choice(calls), number * HOUR // packets)
            if line is not None:
                script.write(line + "\n")


def watched(child):
    """Waits until a program ends, and returns the peak of its memory as it was last seen, in KiB."""
    peak = 0
    while child.poll() is None:
        with contextlib.suppress(OSError), open(f"/proc/{child.pid}/status") as status:
            peak = max([peak] + [int(line.split()[1]) for line in status if line.startswith("VmHWM:")])
        time.sleep(0.01)
    return peak


def run(program, folder, packets):
    write_script(f"{folder}/script", packets)
    start = time.monotonic()
    with open(f"{folder}/script") as script, open(f"{folder}/answers", "w") as answers:
        words = [program, "replay", "--links", f"{folder}/links"]
        child = subprocess.Popen(words, stdin=script, stdout=answers)
        peak = watched(child)
    seconds = time.monotonic() - start
    with open(f"{folder}/answers") as answers:
        delivered = sum(" ip " in line for line in answers)
    if child.returncode != 0 or delivered < packets // 2:
        sys.exit(f"status {child.returncode}, {delivered} of {packets} packets delivered")
    print(f"{packets} packets, {delivered} delivered, {packets / seconds:.0f} a second, peak {peak} KiB")
    return peak


def main():
    if sys.argv[1:] == ["--help"]:
        print(__doc__.strip())
        return
    if len(sys.argv) not in (2, 3) or not all(word.isdigit() and int(word) > 0 for word in sys.argv[2:]):
        sys.exit(__doc__)
    if not shutil.which(sys.argv[1]):
        sys.exit(f"tools/soak.py: there is no program {sys.argv[1]}")
    packets = int(sys.argv[2]) if len(sys.argv) == 3 else 1_000_000
    with tempfile.TemporaryDirectory() as folder:
        with open(f"{folder}/links", "w") as file, contextlib.redirect_stdout(file):
            links(LINKS)
        first = run(sys.argv[1], folder, packets)
        if run(sys.argv[1], folder, 2 * packets) > first + 256:
            sys.exit("the peak grew with the script")


if __name__ == "__main__":
    main()
