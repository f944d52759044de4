"""Compares tools/model with all that is kept: the vectors, the worked examples, and the whole scripts.

The model was written from the documents alone, so that what is kept has a second origin. It runs on the examples as
`bin/check examples` runs the program, whole. Behind `model` may stand `vectors`, or names of examples.
"""

import sys
from pathlib import Path

from examples import LONG, SCRIPTS, WORKED, Example, is_example, make_long, names_in, with_links
from trial import Trial

MODEL = "tools/model"
VECTORS = "vectors"


def is_part(top: Path, word: str) -> bool:
    """Whether a word is the vectors, or the name of an example or of a whole script."""
    return word == VECTORS or is_example(top, word)


def is_answered(trial: Trial, name: str, words: tuple[str | Path, ...], given: Path, wanted: Path) -> bool:
    """The model must answer a file as is kept."""
    ended = trial.ran(sys.executable, "-B", MODEL, *words, given=given)
    if not ended.is_good:
        return trial.wrong(f"{name}: {ended.end()}", ended.call)
    return trial.same(name, wanted.read_bytes(), ended.output, ended.call)


def cases(trial: Trial) -> list[Example]:
    """The examples that are asked for."""
    worked, scripts = trial.top / WORKED, trial.top / SCRIPTS
    found = [case for name in trial.chosen(names_in(trial.top, WORKED)) for case in with_links(name, worked, worked)]
    long = make_long(trial)
    found += [case for name in trial.chosen(LONG) for case in with_links(name, long, worked)]
    for name in trial.chosen(names_in(trial.top, SCRIPTS)):
        found.append(Example(name, *(scripts / f"{name}.{kind}" for kind in ("toml", "script", "answers"))))
    return found


def check(trial: Trial) -> None:
    """Asks the model."""
    questions = 0
    for name in trial.chosen((VECTORS,)):
        kept = trial.top / "crates" / name
        is_answered(trial, name, ("vectors",), kept / "stdin", kept / "stdout")
        questions += sum(line[:1] != b"#" for line in (kept / "stdin").read_bytes().splitlines())
    examples = cases(trial)
    for case in examples:
        is_answered(trial, case.title, ("replay", "--links", case.links), case.script, case.answers)
    if trial.demand(trial.tried > 0, "nothing was asked") and not trial.wrongs:
        trial.say(f"model: {questions} questions and {len(examples)} scripts answered as is kept")
