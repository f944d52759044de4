"""Has the prover try wrong bodies, wrong definitions and twins.

It must refuse each wrong body and each wrong definition for its meaning: not because it can't be compiled, nor only
because a proof file names something that it removes or cites a goal that it removes. A message must show a goal that isn't met. If
all say that the prover ended at a limit, the refusal counts only if the same shape is proved within the limits: the twin,
or, at a limit of `search`, the unchanged crate, for an edit that only changes a value or a condition in place. The prover
must prove each twin.

At most 24 are tried: half from the crates that changed since the newest commit that is four hours older than HEAD, the
rest from at most four other crates, drawn by the commit's hash. Each twin is tried with its edit. Right after the gate,
the libraries below these crates are taken as the gate left them. Names of crates behind `bites` try all edits of these.
"""

import subprocess
import sys
import tempfile
from collections.abc import Iterable, Iterator, Sequence
from concurrent.futures import ThreadPoolExecutor
from dataclasses import dataclass
from hashlib import sha256
from os import cpu_count
from pathlib import Path

from edits import REFUSED, STATEMENTS, Edit, crates_with_edits, edits
from prover import Answer, Crates, Outcome, Room
from trial import Trial

TOP = Path(__file__).resolve().parent.parent.parent
# How many are tried, how many of these from crates that changed, and from how many other crates the rest are drawn.
MOST, MOST_CHANGED, MOST_OTHERS = 24, 12, 4
HOURS = 4


@dataclass(frozen=True)
class Verdict:
    """What the prover said of an edit or of a twin, and whether that is as it must be."""

    edit: Edit
    is_right: bool
    text: str

    @property
    def line(self) -> str:
        """The verdict as a line."""
        return f"{'twin ' if self.edit.is_twin else ''}{self.edit.title}: {self.text}"


def verdict_on(edit: Edit, answer: Answer) -> Verdict:
    """What the prover made of a crate with an edit, as a verdict on the edit."""
    if edit.is_twin:
        is_right = answer.outcome is Outcome.PROVED
        return Verdict(edit, is_right, "proved" if is_right else f"NOT proved: {answer.text}")
    if answer.outcome is Outcome.REFUSED:
        return Verdict(edit, True, answer.text)
    return Verdict(edit, False, f"NOT refused for its meaning: {answer.outcome.value}: {answer.text}")


def answer_to(room: Room, edit: Edit) -> Answer:
    """What the prover makes of a crate with an edit: of the modules in which it shows, or else of the whole crate.

    Those in which a definition shows may be others than those that are found by its word.
    """
    answer = room.check(edit.texts(), edit.modules)
    is_shown = answer.outcome is not Outcome.PROVED if not edit.is_statement else answer.outcome is Outcome.REFUSED
    return answer if edit.is_twin or not edit.modules or is_shown else room.check(edit.texts())


def judged(edit: Edit, answer: Answer, of_twin: Answer | None) -> Answer:
    """What the prover made of an edit: at a limit it refuses one only if the same shape is proved within the limits.

    The twin has that shape. If there is none, and the edit adds no shape, the unchanged crate has it, which was proved
    first; that counts for `search` alone, which ends at a limit on most false goals.
    """
    if of_twin:
        is_within = answer.outcome in (Outcome.BY_SEARCH, Outcome.BY_LIMITS) and of_twin.outcome is Outcome.PROVED
        same = "its twin"
    else:
        is_within = answer.outcome is Outcome.BY_SEARCH and not edit.needs_twin
        same = "the unchanged definition" if edit.is_statement else "the unchanged body"
    return Answer(Outcome.REFUSED, f"{same} is proved within the limits; {answer.text}") if is_within else answer


def try_one(room: Room, edit: Edit) -> Iterator[Verdict]:
    """Has the prover try an edit in a room of its crate, and then its twin."""
    try:
        answer, of_twin = answer_to(room, edit), answer_to(room, edit.twin) if edit.has_twin else None
    except ValueError as fault:
        yield Verdict(edit, False, f"NOT applied: {fault}")
        return
    yield verdict_on(edit, judged(edit, answer, of_twin))
    if of_twin:
        yield verdict_on(edit.twin, of_twin)


def try_crate(crates: Crates, chosen: Sequence[Edit]) -> list[Verdict]:
    """Has the prover prove the modules of a crate in which these edits show, and then try them and their twins in turn."""
    by_edit = [edit.modules for edit in chosen]
    modules = sorted({module for some in by_edit for module in some}) if all(by_edit) else []
    with tempfile.TemporaryDirectory(prefix="rohc-bites-") as folder:
        room = Room.made(crates, chosen[0].crate.name, Path(folder))
        answer = room.check({}, modules)
        if answer.outcome is not Outcome.PROVED:
            return [Verdict(edit, False, f"NOT tried: without it {answer.outcome.value}: {answer.text}") for edit in chosen]
        return [verdict for edit in chosen for verdict in try_one(room, edit)]


def work_in(some: Sequence[Edit]) -> int:
    """About how long the edits of a crate take, as a number to sort by: the lines of its code for a proof and each try."""
    lines = sum(file.read_text().count("\n") for file in some[0].crate.glob("src/**/*.rt"))
    return lines * (3 + cost_of(some))


def try_all(top: Path, chosen: Sequence[Edit], over_gate: bool = False) -> Iterator[Verdict]:
    """Has the prover try these edits and their twins, those of different crates side by side, the longest first.

    The libraries below their crates are built first, unless the gate has just left them.
    """
    crates = Crates(top)
    names = sorted({edit.crate.name for edit in chosen})
    errors = [] if over_gate and crates.are_of_gate(names) else crates.build_below(names)
    if errors:
        yield from (Verdict(edit, False, f"NOT tried: {errors[0]}") for edit in chosen)
        return
    by_crate = sorted(([edit for edit in chosen if edit.crate.name == name] for name in names), key=work_in, reverse=True)
    with ThreadPoolExecutor(cpu_count() or 1) as pool:
        for found in pool.map(lambda some: try_crate(crates, some), by_crate):
            yield from found


def git(top: Path, *words: str) -> str:
    """What git says, or nothing."""
    ran = subprocess.run(["git", *words], cwd=top, capture_output=True, text=True)
    return ran.stdout.strip() if ran.returncode == 0 else ""


def commit_before(top: Path) -> str:
    """The newest commit that is some hours older than HEAD, or else the first one."""
    made = git(top, "log", "-1", "--format=%ct", "HEAD")
    before = git(top, "rev-list", "-1", f"--before={int(made or 0) - HOURS * 3600}", "HEAD") if made else ""
    return before or git(top, "rev-list", "--max-parents=0", "HEAD").partition("\n")[0]


def changed_crates(top: Path, base: str) -> set[str]:
    """The crates of which a file changed since a commit."""
    names = git(top, "diff", "--name-only", base, "--", "crates").splitlines() if base else []
    return {name.split("/")[1] for name in names if name.count("/") > 1}


def drawn(some: Iterable[Edit], seed: str, most: int) -> list[Edit]:
    """Some of these edits in an order that the seed gives: as many as there may be tries, a twin counted with its edit."""
    chosen: list[Edit] = []
    left = most
    for edit in sorted(some, key=lambda edit: sha256(f"{seed} {edit.title}".encode()).digest()):
        cost = 1 + edit.has_twin
        if cost <= left:
            left -= cost
            chosen.append(edit)
    return chosen


def cost_of(some: Iterable[Edit]) -> int:
    """How many tries these edits take."""
    return sum(1 + edit.has_twin for edit in some)


def draw(top: Path) -> list[Edit]:
    """What is tried of this commit."""
    seed = git(top, "rev-parse", "HEAD")
    changed = changed_crates(top, commit_before(top))
    found = edits(top, crates_with_edits(top), REFUSED)
    first = drawn((edit for edit in found if edit.crate.name in changed), seed, MOST_CHANGED)
    others = sorted({edit.crate.name for edit in found} - changed, key=lambda name: sha256(f"{seed} {name}".encode()).digest())
    rest = (edit for edit in found if edit.crate.name in others[:MOST_OTHERS])
    return first + drawn(rest, seed, MOST - cost_of(first))


def check(trial: Trial) -> None:
    """Says which of the drawn edits the prover doesn't refuse for their meaning, and which twins it doesn't prove.

    Words behind the name are crates, of which all edits are tried.
    """
    if not trial.words and not git(trial.top, "rev-parse", "HEAD"):
        trial.leave_out("git knows no commit here, no wrong body was drawn")
        return
    chosen = edits(trial.top, trial.words, REFUSED) if trial.words else draw(trial.top)
    for verdict in try_all(trial.top, chosen, trial.over_gate):
        trial.demand(verdict.is_right, verdict.line)
    crates = sorted({edit.crate.name for edit in chosen})
    if trial.demand(bool(chosen), "no wrong body was drawn") and not trial.wrongs:
        twins = trial.rights - len(chosen) - 1
        trial.say(f"bites: {len(chosen)} edits refused for their meaning, {twins} twins proved, in {', '.join(crates)}")


def named(words: Sequence[str], found: Sequence[Edit]) -> list[Edit]:
    """Those of these edits that the words name, each by its crate or as CRATE/NAME. The error names an unknown word."""
    of_word = {word: [edit for edit in found if edit.is_named(word)] for word in words}
    unknown = [word for word, some in of_word.items() if not some]
    if unknown:
        crates = ", ".join(sorted({edit.crate.name for edit in found}))
        raise ValueError(f"no edits of {', '.join(unknown)}; expected CRATE or CRATE/NAME, with a crate of {crates}")
    return [edit for edit in found if not words or any(edit in some for some in of_word.values())]


def main(words: list[str]) -> int:
    """Tries edits and their twins, as the words say. The status is 1 if one isn't as it must be."""
    only_statements = words[:1] == ["--statements"]
    rest = words[1:] if only_statements else words
    try:
        found = edits(TOP, crates_with_edits(TOP), (STATEMENTS,) if only_statements else REFUSED)
        chosen = draw(TOP) if words == ["--drawn"] else named(rest, found)
    except ValueError as fault:
        print(f"bin/check_bodies: {fault}", file=sys.stderr)
        return 2
    wrong = 0
    for verdict in try_all(TOP, chosen):
        wrong += not verdict.is_right
        print(verdict.line, flush=True)
    print(f"{len(chosen)} edits, {wrong} not as they must be")
    return int(wrong > 0)


if __name__ == "__main__":
    sys.dont_write_bytecode = True
    sys.exit(main(sys.argv[1:]))
