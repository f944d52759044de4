#!/usr/bin/env python3
"""A gateway for an hour, or so many seconds: calls come and go, are damaged and reset, and it is killed again and again.

usage: tools/gateway_soak.py PROGRAM ROHCD [SECONDS [DATAGRAMS_A_SECOND]]

PROGRAM is a rohc-gateway, ROHCD the rohcd that says by one replay what it must send. It runs in a folder of its own, with its
sockets at free ports of 127.0.0.1, and ends with this script. Its contexts are saved every second, and each call on the disk of
its state file takes 300 ms. Every thirty seconds its system's clock is set, by an hour or ten years, every minute its links file
is read anew, and every twenty seconds 2,000 empty packets come at once. Twenty times it is killed just after a save, while more
packets come: these it must have forgotten at its next start. A line a minute tells the datagrams that it took, its contexts and
its memory. The status is 1 if it ended by itself, lost a datagram, sent anything else than the replay answers, or if its memory
grew by more than a twentieth after the first tenth of the time, in which all calls have come.
"""

import contextlib
import hashlib
import random
import shutil
import struct
import subprocess
import sys
import tempfile
import time
from dataclasses import dataclass, field
from pathlib import Path
from typing import TextIO

TOP = Path(__file__).resolve().parent.parent
sys.path.insert(0, str(TOP / "tools/check"))

import gateway_run
from cluster import Arrival, made_arrivals
from gateway_clock import HOUR, YEAR, Clock
from gateway_run import KINDS, LOOPBACK, Gateway, Receivers, sends_of
from trial import Trial

LINKS = range(1, 21)
ARRIVALS = 20_000
TURN = 1_000_000
BATCH = 100
STEP, RELOAD, FLOOD = 30, 60, 20
KILLS, FORGOTTEN = 20, 60
# The datagrams of a flood, and how many come at a time.
FLOODED, BURST = 2_000, 50
DELAY = 300
# How far the clock is ahead, one after the other.
AHEAD = (-HOUR, 0, HOUR, -10 * YEAR, 0, 10 * YEAR)
# What marks a kill in the script, and in the answers.
MARK, MARKED = "-\n", "- - refused BadLine"


def digests() -> dict[str, "hashlib._Hash"]:
    """A digest of each kind of what is sent, of nothing so far."""
    return {kind: hashlib.sha256() for kind in KINDS}


def add(sums: dict[str, "hashlib._Hash"], kind: str, octets: bytes) -> None:
    """Adds a datagram to the digest of its kind."""
    sums[kind].update(struct.pack(">I", len(octets)) + octets)


def so_far(sums: dict[str, "hashlib._Hash"]) -> list[str]:
    """The digests of all that was added."""
    return [sums[kind].hexdigest() for kind in KINDS]


@dataclass
class Soak:
    """A gateway that is soaked, what was sent to it that counts, and what it sent."""

    gateway: Gateway
    clock: Clock
    receivers: Receivers
    script: TextIO
    seconds: float
    rate: float
    sums: dict[str, "hashlib._Hash"] = field(default_factory=digests)
    at_kills: list[list[str]] = field(default_factory=list)
    done: dict[str, int] = field(default_factory=dict)
    taken: int = 0
    lost: int = 0
    drops: int = 0
    longest_wake: float = 0.0
    peaks: list[int] = field(default_factory=lambda: [0, 0])
    number: int = 0
    begun: float = field(default_factory=time.monotonic)
    dice: random.Random = field(default_factory=lambda: random.Random(9))
    arrivals: list[Arrival] = field(default_factory=lambda: made_arrivals(ARRIVALS, 7))

    @property
    def passed(self) -> float:
        """The seconds since its begin."""
        return time.monotonic() - self.begun

    @property
    def memory(self) -> int:
        """The resident memory of the process, in KiB."""
        assert self.gateway.process
        text = Path(f"/proc/{self.gateway.process.pid}/status").read_text()
        return next(int(line.split()[1]) for line in text.splitlines() if line.startswith("VmRSS:"))

    def is_due(self, what: str, every: float) -> bool:
        """Whether this has to be done once more."""
        count = self.done.get(what, 0)
        if self.passed < every * (count + 1):
            return False
        self.done[what] = count + 1
        return True

    def next_arrival(self) -> Arrival:
        """The next arrival."""
        one = self.arrivals[self.number % len(self.arrivals)]
        found = Arrival(one.link, one.moment + self.number // len(self.arrivals) * TURN, one.octets)
        self.number += 1
        return found

    def gather(self) -> None:
        """Adds to the digests what was sent."""
        self.receivers.take()
        for kind, found in self.receivers.found.items():
            for octets in found:
                add(self.sums, kind, octets)
            found.clear()

    def send(self) -> None:
        """Sends some arrivals. A reset waits until all before it were taken."""
        for _ in range(BATCH):
            one = self.next_arrival()
            if one.octets is None:
                self.gateway.wait_taken()
                self.gather()
            self.gateway.send(one)
            self.script.write(f"{one.line()}\n")
        self.gather()

    def flood(self) -> None:
        """Sends packets of no octets, which change nothing."""
        for _ in range(0, FLOODED, BURST):
            for link in range(BURST):
                self.gateway.sender.sendto(struct.pack(">HQ", link % len(LINKS) + 1, 0), (LOOPBACK, self.gateway.timed_port))
            self.gateway.count += BURST
            time.sleep(0.001)

    def take_stock(self) -> None:
        """Waits until all that was sent was taken, and notes what was lost."""
        self.gateway.wait_taken()
        time.sleep(0.2)
        self.gather()
        taken = self.gateway.datagrams()
        self.taken += taken
        self.lost += self.gateway.count - taken
        for line in Path("/proc/net/udp").read_text().splitlines()[1:]:
            words = line.split()
            self.drops += int(words[-1]) if int(words[1].split(":")[1], 16) == self.gateway.timed_port else 0
        self.longest_wake = max(self.longest_wake, longest_wake_in(self.gateway.metrics()))

    def kill(self) -> None:
        """Saves, kills it while more packets come, and starts it again."""
        self.take_stock()
        self.at_kills.append(so_far(self.sums))
        self.script.write(MARK)
        if self.gateway.ask("POST", "/save").status != 200:
            raise RuntimeError("rohc-gateway doesn't save")
        before = self.number
        for _ in range(self.dice.randrange(1, FORGOTTEN)):
            one = self.next_arrival()
            if one.octets is not None:
                self.gateway.send(one)
        time.sleep(self.dice.random() * 0.02)
        self.gateway.kill()
        self.receivers.forget()
        # What was sent after the save comes again, and counts.
        self.number = before
        self.gateway.start()

    def tell(self) -> None:
        """Has the links file read anew, and tells how it goes."""
        self.gateway.ask("POST", "/reload")
        contexts = self.gateway.ask("GET", "/status").json["contexts"]
        minutes, taken = self.done["reload"], self.taken + self.gateway.datagrams()
        print(f"{minutes} minutes: {taken:,} datagrams, {contexts:,} contexts, {self.memory:,} KiB", flush=True)

    def run(self) -> None:
        """Soaks it for its time, and stops it."""
        while self.passed < self.seconds:
            self.send()
            part = int(self.passed > max(self.seconds / 10, 25))
            self.peaks[part] = max(self.peaks[part], self.memory)
            if self.is_due("flood", FLOOD):
                self.flood()
            if self.is_due("step", STEP):
                self.clock.set(AHEAD[self.done["step"] % len(AHEAD)])
            if self.is_due("reload", RELOAD):
                self.tell()
            if self.is_due("kill", self.seconds / (KILLS + 1)):
                self.kill()
            time.sleep(max(0.0, self.number / self.rate - self.passed))
        self.take_stock()
        self.at_kills.append(so_far(self.sums))
        self.script.write(MARK)
        self.script.flush()

    def is_good(self, answers: list[list[str]]) -> bool:
        """Tells what it came to. Whether nothing was lost, the answers are these, and the memory is flat."""
        kills = len(self.at_kills) - 1
        print(f"{self.passed:.0f} seconds, {self.taken:,} datagrams, {self.lost} lost, {self.drops} dropped; {kills} kills")
        print(f"memory: at most {self.peaks[0]:,} KiB at first, {self.peaks[1]:,} later; longest wake {self.longest_wake:.6f} s")
        wrong = [place for place, found in enumerate(self.at_kills) if answers[place : place + 1] != [found]]
        print(f"answers: not those of one replay from kill {wrong[0]} on" if wrong else "answers: those of one replay")
        return not (self.lost or self.drops or wrong) and self.peaks[1] <= self.peaks[0] * 1.05


def longest_wake_in(text: str) -> float:
    """The longest wake that the metrics tell, in seconds."""
    return next((float(line.split()[1]) for line in text.splitlines() if line.startswith("polorowan_longest_wake_seconds ")), 0.0)


def answered(rohcd: str, links: Path, script: Path) -> list[list[str]]:
    """The digests of what one replay of a script answers, up to each mark."""
    sums, found = digests(), list[list[str]]()
    with script.open() as given, subprocess.Popen((rohcd, "replay", "--links", links), stdin=given, stdout=subprocess.PIPE, text=True) as replay:
        assert replay.stdout
        for line in replay.stdout:
            if line.startswith(MARKED):
                found.append(so_far(sums))
            for kind, octets in sends_of([line.rstrip("\n")]):
                add(sums, kind, octets)
    return found


def main() -> int:
    """Runs the gateway, and soaks it."""
    if len(sys.argv) < 3 or sys.argv[1].startswith("-"):
        print(__doc__)
        return 0 if sys.argv[1:] in (["--help"], ["-h"]) else 2
    try:
        words = [float(word) for word in sys.argv[3:5]]
    except ValueError:
        sys.exit(f"tools/gateway_soak.py: {' '.join(sys.argv[3:5])}: seconds and datagrams a second are numbers")
    for program in sys.argv[1:3]:
        if not shutil.which(program):
            sys.exit(f"tools/gateway_soak.py: there is no program {program}")
    seconds, rate = words + [3600.0, 2000.0][len(words) :]
    gateway_run.PROGRAM = str(Path(sys.argv[1]).resolve())
    with tempfile.TemporaryDirectory(prefix="gateway-soak-") as folder, contextlib.ExitStack() as stack:
        trial = Trial(TOP, TOP / "none", Path(folder))
        receivers = stack.enter_context(Receivers())
        gateway = Gateway(trial, Path(folder) / "run", receivers.links(LINKS), save_seconds=1)
        disk = gateway.folder / "disk"
        disk.mkdir()
        gateway.file.write_text(gateway.file.read_text().replace('"calls"', '"disk/calls"\nscratch = "."'))
        clock = Clock.of(trial, gateway)
        preloaded = f"{gateway.environment['LD_PRELOAD']}:{trial.compiled('tools/slow_disk.c')}"
        gateway.environment |= {"LD_PRELOAD": preloaded, "SLOW_FOLDER": str(disk), "SLOW_MILLISECONDS": str(DELAY)}
        script = Path(folder) / "script"
        stack.enter_context(gateway)
        soak = Soak(gateway, clock, receivers, stack.enter_context(script.open("w")), seconds, rate)
        soak.run()
        good = soak.is_good(answered(sys.argv[2], gateway.folder / "links.toml", script))
        return 0 if gateway.stop() == 0 and good else 1


if __name__ == "__main__":
    sys.exit(main())
