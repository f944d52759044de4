"""Gives bites what the prover says of an edit, as the prover has said it. It must tell a refusal from a fault.

Nothing is proved: the crate is made up, and the answers of the prover are given.
"""

from collections.abc import Iterable, Mapping
from dataclasses import dataclass, replace
from pathlib import Path

from bites import try_one
from edits import MORE, STATEMENTS, TWINS, Edit
from prover import NO_FUNCTION, Answer, Crates, Outcome, Room, read_answer
from trial import Trial

OPEN = "note: src/lib.rt:5:1: it is not proved that what the function ensures holds when it returns (`returns`)"
FALSE = f"{OPEN}; the facts known there allow values at which this goal is false"
SEARCH = f"{OPEN}; `search` gave up at one of its limits"
BY_HAND = "./proofs/f/Answers.antt:25:5: error: `returns`: `search`: no proof of `c.args.x + 2 ≡ c.args.x + 1`\n  was found. "
ALL_TRIED = f"{BY_HAND}Every way was tried: a deeper search would find nothing either. No hypothesis fits the goal as it stands."
NOT_ALL = f"{BY_HAND}Not every way was tried. No hypothesis and no lemma of the list fits the goal as it stands."
DIFFER = "./proofs/f/Answers.antt:8:5: error: `returns`: as printed, the two types differ only where one has `256` (expected)"
OMEGA = "./proofs/f/Answers.antt:16:6: error: `returns`: `omega`: the goal does not follow from what it read. All of that holds, and the goal fails, at `x` = `3`"
GRIND = "./proofs/f/Answers.antt:9:3: error: `returns`: `grind` stopped at its own limit of 100000 steps"
NAME = "./proofs/f/Answers.antt:7:9: error: `returns`: `c` has no field `in-Some`"
LOST = "./proofs/f/Answers.antt:5:31: error: `in`: `goal.returns-in-Some`: module `Rattle.made.proofs.f.Goals`\n  has no `returns-in-Some` that can be named from here"

# What the prover says after an edit of the code, with its status, and what that shows.
SAID = (
    (0, "logic=proved", Outcome.PROVED),
    (1, f"{OPEN}\nlogic=not-proved", Outcome.REFUSED),
    (1, f"{FALSE}\nonly=1 proved=0", Outcome.REFUSED),
    (1, f"{OMEGA}\nlogic=not-proved", Outcome.REFUSED),
    (1, f"{DIFFER}\nlogic=not-proved", Outcome.REFUSED),
    (1, f"{ALL_TRIED}\nlogic=not-proved", Outcome.REFUSED),
    (1, f"{NOT_ALL}\nlogic=not-proved", Outcome.BY_SEARCH),
    (1, f"{NOT_ALL}\n{OPEN}\nonly=2 proved=0", Outcome.REFUSED),
    (1, f"{SEARCH}\nlogic=not-proved", Outcome.BY_SEARCH),
    (1, f"{SEARCH}\n{FALSE}\nlogic=not-proved", Outcome.REFUSED),
    (1, f"{GRIND}\nlogic=not-proved", Outcome.BY_LIMITS),
    (1, f"{NAME}\nlogic=not-proved", Outcome.BY_NAMES),
    (1, f"{LOST}\n{NAME}\nlogic=not-proved", Outcome.BY_GOALS),
    (1, f"{LOST}\n{SEARCH}\nlogic=not-proved", Outcome.BY_SEARCH),
    (1, "src/lib.rt:5:9: error: `y` is not in scope\n", Outcome.NOT_READ),
    (2, "rattle: error: `made` has no function `tables`", Outcome.NOT_READ),
)

CODE = "pub fn f(x: u8) -> u8 {\n    x + 1\n}\n"
VALUE, BRANCH = "x + 2", "if x > 7 { x } else { x + 1 }"
PROVED, AT_SEARCH, AT_GRIND = (Answer(outcome) for outcome in (Outcome.PROVED, Outcome.BY_SEARCH, Outcome.BY_LIMITS))

# An edit's new text, whether it has a twin, the answers to the edit and to its twin, and whether it counts as refused.
JUDGED = (
    (VALUE, Answer(Outcome.REFUSED), None, True),
    (VALUE, AT_SEARCH, None, True),
    (VALUE, AT_SEARCH, PROVED, True),
    (VALUE, AT_SEARCH, AT_SEARCH, False),
    (VALUE, AT_GRIND, None, False),
    (VALUE, AT_GRIND, PROVED, True),
    (VALUE, PROVED, None, False),
    (VALUE, Answer(Outcome.BY_NAMES), PROVED, False),
    (BRANCH, Answer(Outcome.REFUSED), None, True),
    (BRANCH, AT_SEARCH, None, False),
    (BRANCH, AT_SEARCH, PROVED, True),
    (BRANCH, AT_SEARCH, AT_SEARCH, False),
    (BRANCH, AT_GRIND, PROVED, True),
)


@dataclass(frozen=True)
class Told(Room):
    """A room in which the answer to an edit and the answer to its twin are given."""

    answer: Answer = PROVED
    of_twin: Answer = PROVED

    def check(self, texts: Mapping[str, str], modules: Iterable[str] = ()) -> Answer:
        """The answer to a text: the twin's stands in brackets."""
        return self.of_twin if any("(" in text.splitlines()[1] for text in texts.values()) else self.answer


def written(crate: Path, folder: str, new: str) -> Edit:
    """An edit of the made-up crate in one of its folders."""
    file = crate / folder / "f.another.edit"
    file.parent.mkdir(parents=True, exist_ok=True)
    file.write_text(f"file: src/lib.rt\nold: x + 1\nnew: {new}\n")
    return Edit(file)


def made(folder: Path) -> Path:
    """A made-up crate: a function, and a module that has none."""
    (folder / "src").mkdir(parents=True)
    (folder / "src/lib.rt").write_text(CODE)
    (folder / "src/part.rt").write_text("/// A fn of no kind.\npub const FIRST: u8 = 1;\n")
    (folder / "src/step.rt").write_text("impl Step {\n    pub(crate) fn first() -> u8 {\n        1\n    }\n}\n")
    return folder


def check(trial: Trial) -> None:
    """Says which answer is read or judged otherwise than it must be."""
    for status, said, wanted in SAID:
        found = read_answer(status, said, {"src/lib.rt": CODE}).outcome
        trial.demand(found is wanted, f"bites_test: {said}: read as {found.name}, not as {wanted.name}")
    for number, (new, answer, of_twin, is_refused) in enumerate(JUDGED):
        crate = made(trial.scratch / f"crate_{number}")
        edit = written(crate, MORE, new)
        room = Told(Crates(trial.top), "made", crate, answer)
        if of_twin:
            written(crate, TWINS, f"({new})")
            room = replace(room, of_twin=of_twin)
        first = next(iter(try_one(room, edit)))
        twin = of_twin.outcome.name if of_twin else "none"
        trial.demand(first.is_right is is_refused, f"bites_test: {new}: {answer.outcome.name}, its twin {twin}: {first.line}")
    crate = made(trial.scratch / "modules")
    (crate / "specs").mkdir()
    (crate / "specs/Part.antt").write_text("FIRST : ℕ\nFIRST = 1\n")
    for folder, name, path, wanted in (
        (MORE, "first.another.edit", "src/step.rt", ["step"]),
        (MORE, "f.other.edit", "src/lib.rt", []),
        (STATEMENTS, "FIRST.other.edit", "specs/Part.antt", ["part"]),
    ):
        file = crate / folder / name
        file.parent.mkdir(parents=True, exist_ok=True)
        file.write_text(f"file: {path}\nold: 1\nnew: 2\n")
        found = Edit(file).modules
        trial.demand(found == wanted, f"bites_test: {name} of {path}: tried in {found}, not in {wanted}")
    trial.demand(bool(NO_FUNCTION.search(SAID[-1][1])), "bites_test: a module without functions isn't told")
    if not trial.wrongs:
        trial.say(f"bites_test: {trial.rights} answers are read and judged as they must be")
