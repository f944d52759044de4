"""Lives of gateways in a simulated outside.

The gate lives the first 1,000. Here further ones are lived. In each of them calls to the outside fail, the clock jumps, and
the gateway is killed, alone or with its host, also in the middle of a save. What it sends must be what contexts send that run
alone, its file one that it saved, and its counts those of what it did. Behind `simulation` may stand how many lives (10000).
"""

from pathlib import Path

from trial import Trial

LIVES_OF_GATE = 1000
LIVES = "10000"


def is_number(top: Path, word: str) -> bool:
    """Whether a word is a number."""
    return word.isascii() and word.isdigit()


def check(trial: Trial) -> None:
    """Lives so many lives."""
    program = trial.top / "crates/simulation/out/simulation"
    if not trial.demand(program.exists(), "crates/simulation isn't built: `bin/check gate` builds it"):
        return
    lives = [*trial.words, LIVES][0]
    ran = trial.ran(program, str(LIVES_OF_GATE + 1), lives)
    first, *rest = ran.all.splitlines() or [""]
    if trial.demand(ran.status == 0 and first == f"{lives} lives, 0 of them wrong", f"{first or ran.end()}", ran.call):
        trial.say(f"{first}: {' '.join(rest)}")
