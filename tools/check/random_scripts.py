"""Runs the program on random scripts.

The answers must not depend on the pieces in which the script is read. Each pair of a link and a CID must get the answer
lines of its own script. The answers must be those of tools/model, also on packets of random octets with right checks.
Behind `random` may stand a seed (1) and how many lines there are (10000).
"""

import sys
from pathlib import Path

from trial import Trial

PIECES = (1, 7, 131_200)
MODEL_KINDS = ("random", "made")


def is_number(top: Path, word: str) -> bool:
    """Whether a word is a number."""
    return word.isascii() and word.isdigit()


def check(trial: Trial) -> None:
    """Runs one random script."""
    seed, lines = [*trial.words, *("1", "10000")[len(trial.words) :]][:2]
    links = trial.top / "examples/two-links.toml"
    script = trial.made("script", trial.top / "tools/random_script.py", seed, lines)
    whole = trial.program.replay(links, script)
    if not trial.demand(whole.status == 0, f"seed {seed}: {whole.end()}", whole.call):
        return
    for piece in PIECES:
        ended = trial.program.replay(links, script, trial.in_pieces(piece))
        if not trial.same(f"seed {seed}, in pieces of {piece} octets", whole.output, ended.output, ended.call):
            return
    answers = trial.write("answers", whole.output)
    pairs = trial.ran(trial.top / "tools/pair_scripts.py", trial.file, links, script, answers)
    if trial.demand(pairs.status == 0, f"seed {seed}, {lines} lines: {pairs.all.strip()}", pairs.call):
        trial.say(f"seed {seed}, {lines} lines: {pairs.all.strip()}")
    for kind in MODEL_KINDS:
        asked = trial.ran(sys.executable, "-B", "tools/model", kind, seed, lines, "--program", trial.file)
        if trial.demand(asked.status == 0, f"the model differs:\n{asked.all.strip()}", asked.call):
            trial.say(f"as the model: {asked.text.strip()}")
