"""Makes calls of a concentrator by crates/calls, by tools/model and by the library for C.

All three must answer the worked examples of calls as is kept, and random calls alike. Between the lines of each
worked script stand calls that concern other CIDs and links; its own answers must stay the same. Behind
`calls_alike` may stand how many random calls there are (30000), in parts of 10,000, each of its own seed. Then
nothing else is run. `bin/check calls_alike 1000000` is the long run.
"""

import os
import sys
from collections.abc import Iterator
from concurrent.futures import ThreadPoolExecutor
from dataclasses import dataclass
from functools import cached_property
from pathlib import Path

from between import check_between
from library import Library, NotBuilt
from program import Call, Ended, run
from trial import Trial

CALLS = "crates/calls"
PROGRAM = f"{CALLS}/out/calls"
RANDOM = "30000"
PART = 10_000
FLAGS = "-std=c99 -O2 -Wl,--no-as-needed -lcrypto"


def is_count(top: Path, word: str) -> bool:
    """Whether a word is how many random calls there are."""
    return word.isascii() and word.isdigit()


@dataclass(frozen=True)
class Makers:
    """What makes calls, by name: the program, the model, and the library for C if it can be built."""

    trial: Trial

    @cached_property
    def by_name(self) -> dict[str, tuple[str | Path, ...]]:
        """The words of each."""
        found: dict[str, tuple[str | Path, ...]] = {
            "program": (self.trial.top / PROGRAM, "-"),
            "model": (sys.executable, "-B", "tools/model", "calls"),
        }
        if self.trial.ran("pkg-config", "--exists", "libcrypto").status != 0:
            self.trial.leave_out("libcrypto is not installed, calls were not made by the library for C")
            return found
        library = Library(self.trial)
        if self.trial.over_gate or not library.copy_built():
            library.make()
        return {**found, "library": (library.build(FLAGS, "tools/calls.c", "calls_in_c"),)}

    def answers(self, name: str, lines: bytes | Path) -> Ended:
        """How one ended that made these calls."""
        return run(Call(self.by_name[name], lines, {}, self.trial.top), 3600)

    def are_answered(self, name: str, lines: bytes | Path, wanted: bytes) -> bool:
        """Each must answer these calls as wanted."""
        ends = {maker: self.answers(maker, lines) for maker in self.by_name}
        return all([self.is_right(f"{name}, {maker}", ended, wanted) for maker, ended in ends.items()])

    def is_right(self, name: str, ended: Ended, wanted: bytes) -> bool:
        """One must end well, with the answers that are wanted."""
        if not ended.is_good:
            return self.trial.wrong(f"{name}: {ended.end()}", ended.call)
        return self.trial.same(name, wanted, ended.output, ended.call)


def parts(count: int) -> Iterator[tuple[int, int]]:
    """The seed of each part, and how many calls it has."""
    for seed, start in enumerate(range(0, count, PART), 1):
        yield seed, min(PART, count - start)


def random_part(makers: Makers, part: tuple[int, int]) -> dict[str, Ended]:
    """How each ended that made the random calls of one part, or why there are no calls, as of the program."""
    seed, count = part
    written = makers.trial.ran(makers.trial.top / "tools/random_calls.py", str(seed), str(count))
    if not written.is_good:
        return {"program": written}
    return {maker: makers.answers(maker, written.output) for maker in makers.by_name}


def check_random(makers: Makers, count: int) -> None:
    """Random calls, as many parts at once as there are processors. Each must answer as the program does."""
    trial, delivered, answers = makers.trial, 0, 0
    with ThreadPoolExecutor(os.cpu_count()) as pool:
        for seed, ends in enumerate(pool.map(lambda part: random_part(makers, part), parts(count)), 1):
            wanted = ends["program"].output
            for maker, ended in ends.items():
                makers.is_right(f"seed {seed}, {maker}", ended, wanted)
            delivered += wanted.count(b" ip ")
            answers += wanted.count(b"\n")
    trial.demand(delivered > 0, "no packet was delivered")
    if not trial.wrongs:
        names = ", ".join(makers.by_name)
        trial.say(f"{count} random calls: {answers} answers alike by {names}, {delivered} packets delivered")


def check_examples(makers: Makers) -> None:
    """The worked examples of calls."""
    folder = makers.trial.top / CALLS
    wanted = (folder / "stdout").read_bytes()
    if makers.are_answered("worked examples of calls", folder / "data/calls.txt", wanted):
        makers.trial.say(f"{wanted.count(b'= ')} worked examples of calls answered as wanted")


def check(trial: Trial) -> None:
    """Runs what is asked for, or all."""
    makers = Makers(trial)
    try:
        if not trial.words:
            check_examples(makers)
            check_between(trial, makers.by_name["program"])
        check_random(makers, int((*trial.words, RANDOM)[0]))
    except NotBuilt:
        trial.say("calls_alike: the library or its caller isn't built, so the rest wasn't tried")
