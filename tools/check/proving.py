"""Proves crates by `rt check`, over what earlier checks kept.

The gate proves from nothing, and shows the same. `bin/check since` runs this before it for the crates that changed, since a
wrong constant then shows in a minute or two, and what stands on a crate that isn't proved need not be tried. Names behind
`proving` are those of the crates, the lowest first; without any, all crates are proved.
"""

from collections.abc import Iterator
from pathlib import Path

from prover import TOLD, Crates, said_by
from trial import Trial

MOST_LINES = 12


def is_crate(top: Path, word: str) -> bool:
    """Whether a word is a crate."""
    return word in Crates(top).rows


def told(said: str) -> Iterator[str]:
    """The lines that say what isn't proved, or all if there are none: each cut off, and not more than some."""
    lines = said.splitlines()
    found = [line for line in lines if TOLD.match(line) or (line.startswith("fn ") and not line.endswith(": proved"))]
    for line in (found or lines)[:MOST_LINES]:
        yield f"    {line[:300]}"


def check(trial: Trial) -> None:
    """Says which crate isn't proved, and stops there."""
    crates = Crates(trial.top)
    names = trial.words or tuple(dict.fromkeys(one for name in crates.rows for one in (*crates.below(name), name)))
    for name in names:
        status, said = said_by(trial.top / "crates" / name, "rt", "check")
        if not trial.demand(status == 0, f"{name}: NOT proved, status {status}"):
            trial.say("\n".join(told(said)))
            return
    trial.say(f"proving: {', '.join(names)} proved")
