"""Looks whether each wrong body, wrong definition and twin fits its crate. Nothing is proved.

Each can be applied, is named by the function or the word that it changes, and stands in the folder of its kind. A wrong
body that adds a statement, a branch or a function has a twin that adds as many. Names of crates behind `bodies` look at
their edits alone. What the prover says of them, `bin/check_bodies` shows.
"""

from collections import Counter
from collections.abc import Iterator
from pathlib import Path

from edits import REFUSED, TWINS, Edit, crates_with_edits, edits
from trial import Trial


def is_crate(top: Path, word: str) -> bool:
    """Whether a word is a crate that has edits."""
    return word in crates_with_edits(top)


def faults(wrong: list[Edit], twins: list[Edit]) -> Iterator[str]:
    """What is wrong with these edits and these twins."""
    for edit in (*wrong, *twins):
        yield from (f"{edit.title}: {fault}" for fault in edit.misfits())
    for edit in wrong:
        yield from (f"{edit.title}: {fault}" for fault in edit.misfits_of_twin())
    titles = {edit.title for edit in wrong}
    yield from (f"{twin.title}: NOT a twin: there is no wrong body of this name" for twin in twins if twin.title not in titles)
    for name, count in Counter(edit.file.name for edit in wrong).items():
        if count > 1:
            yield f"{name}: {count} edits have this name"


def check(trial: Trial) -> None:
    """Says which edits can't be applied, have a wrong name, or lack a twin."""
    crates = trial.chosen(crates_with_edits(trial.top))
    wrong, twins = edits(trial.top, crates, REFUSED), edits(trial.top, crates, (TWINS,))
    for fault in faults(wrong, twins):
        trial.wrong(fault)
    if trial.demand(bool(wrong), "there is no edit") and not trial.wrongs:
        trial.say(f"bodies: {len(wrong)} edits and {len(twins)} twins fit their crates")
