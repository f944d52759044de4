"""Calls that go on in another process.

examples/gateway.c saves its calls into a file when it ends, and goes on from there when it starts. Each line of each script
runs in a process of its own, and each worked example is cut in two at each line. All answers together must be those of
the whole script.
"""

import os
from concurrent.futures import ThreadPoolExecutor
from dataclasses import dataclass
from pathlib import Path

from examples import WORKED, Example
from trial import Trial

# Octets that are no saved concentrator, and the number of the fault that examples/gateway.c tells.
REFUSED = ((b"", 7), (b"Polorowan", 9), (b"Polorowan\0\2", 8), (b"Polorowan\0\1" + b"\0" * 10 + b"\0" * 32, 13))


@dataclass(frozen=True)
class Restarted:
    """A script that runs in several processes, one after another."""

    trial: Trial
    program: Path
    example: Example
    links: Path
    state: Path

    def answers(self, parts: list[bytes]) -> bytes:
        """What the processes write, each of which takes one part of the script."""
        self.state.unlink(missing_ok=True)
        found = b""
        for part in parts:
            ended = self.trial.ran(self.program, self.links, self.state, given=part)
            if not ended.is_good:
                return found + f"{ended.end()}\n".encode()
            found += ended.output
        return found

    def goes_on(self) -> bool:
        """All cuts of the script."""
        lines = self.example.script.read_bytes().splitlines(keepends=True)
        cuts = {"a process a line": lines}
        if self.example.script.parent == self.trial.top / WORKED:
            cuts |= {f"cut at line {at}": [b"".join(lines[:at]), b"".join(lines[at:])] for at in range(len(lines) + 1)}
        wanted = self.example.answers.read_bytes()
        return all(
            [self.trial.same(f"{self.example.title}, {name}", wanted, self.answers(parts)) for name, parts in cuts.items()]
        )


def check_refused(trial: Trial, program: Path, links: Path) -> None:
    """A state that is refused ends the program, and stays as it was."""
    for octets, number in REFUSED:
        state = trial.write("restarts/refused", octets)
        ended = trial.ran(program, links, state)
        trial.demand(ended.status == 6 and f"refused with {number} " in ended.said, f"state {octets!r}: {ended.end()}", ended.call)
        trial.demand(state.read_bytes() == octets, f"state {octets!r}: changed")


def check(trial: Trial, program: Path, examples: list[Example], lines_of: dict[Path, Path]) -> None:
    """All examples and scripts, with their links as the program reads them."""
    folder = trial.scratch / "restarts"
    folder.mkdir(parents=True, exist_ok=True)
    runs = [
        Restarted(trial, program, example, lines_of[example.links], folder / f"{number}.state")
        for number, example in enumerate(examples)
    ]
    with ThreadPoolExecutor(os.cpu_count()) as pool:
        good = sum(pool.map(Restarted.goes_on, runs))
    trial.say(f"{program.name}: {good} scripts go on in other processes")
    check_refused(trial, program, runs[0].links)
