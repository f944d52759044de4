"""Has the prover check a crate with some of its texts changed, and reads what it says.

A crate is checked in a copy of its own, over its libraries as `rt lib` built them in this checkout, and over what the
checks before it kept. So each function that an edit doesn't reach is proved once.
"""

import re
import shutil
import subprocess
from collections.abc import Iterable, Mapping
from dataclasses import dataclass
from enum import Enum
from functools import cache
from pathlib import Path

PARTS = ("src", "specs", "proofs")
# Where a message stands, and what it says. One that begins with `note: ` is of a function that has no proof file.
MESSAGE = re.compile(r"(?:note: )?(?:\./)?([\w/.-]+):\d+:\d+: (?:error: )?(.*)")
TOLD = re.compile(r"note: \S+:\d+:\d+: |\S+:\d+:\d+: error: ")
# A message that names a lost field may say so in its next line.
NEXT_LINE = re.compile(r"\n  (?=has no )")
# What the reader of a text says, and not the prover.
UNREAD = re.compile(r"is not in scope|has no field|is no name|operand is missing|expected the end|cannot continue")
NAMES = re.compile(r"has no field|is not in scope|has no `|was not admitted")
# A proof file cites a goal that there is no more, since the edit changed the branches before it.
LOST_GOAL = re.compile(r"`goal\.[\w+-]+`: module")
# It names values at which the goal is false.
UNMET = re.compile(r"allow values at which this goal is false|and the goal fails, at")
SEARCH_LIMIT = re.compile(r"`search` gave up at one of its limits")
# A module of plain values has no function that could be checked alone.
NO_FUNCTION = re.compile(r"^rattle: error: `\w+` has no function `", re.MULTILINE)
# A `search` in a proof by hand: it met no bound if its message goes on so.
SEARCH_BY_HAND, ALL_TRIED = "`search`: no proof of ", "Every way was tried"
LIMIT = re.compile(r"stopped at (?:its own limit|the step limit|a resource limit)|\bbroke off\b|`grind` gave up at one of its limits")


class Outcome(Enum):
    """What the prover made of a crate."""

    PROVED = "proved"
    REFUSED = "refused for its meaning"
    BY_NAMES = "refused only because a proof file names what it removes"
    BY_GOALS = "refused only because a proof file cites goals that it removes"
    BY_SEARCH = "refused only because `search` gave up at one of its limits"
    BY_LIMITS = "refused only by a limit of the prover"
    NOT_READ = "not compiled"


@dataclass(frozen=True)
class Answer:
    """What the prover made of a crate, and its first message that shows it."""

    outcome: Outcome
    text: str = ""


def is_unread(line: str, changed: Mapping[str, str]) -> bool:
    """Whether a line says that a changed text, the code or a definition can't be read."""
    found = re.match(r"(?:\./)?(\S+?):\d+:\d+: error: (`[^`]*`: )?(.*)", line)
    if not found or not (found[1] in changed or found[1].startswith(("src/", "specs/"))):
        return False
    return not found[2] or bool(UNREAD.search(re.sub(r"`[^`]*`", "", found[3])))


def kind_of(message: str) -> Outcome:
    """What a message of the prover shows of an edit, with the lines in which it goes on."""
    first = message.partition("\n")[0]
    if LOST_GOAL.search(first):
        return Outcome.BY_GOALS
    found = MESSAGE.match(first)
    if found and found[1].startswith("proofs/") and NAMES.search(first):
        return Outcome.BY_NAMES
    if UNMET.search(message):
        return Outcome.REFUSED
    if SEARCH_BY_HAND in first:
        return Outcome.REFUSED if ALL_TRIED in message else Outcome.BY_SEARCH
    if LIMIT.search(first):
        return Outcome.BY_LIMITS
    return Outcome.BY_SEARCH if SEARCH_LIMIT.search(first) else Outcome.REFUSED


def messages_in(lines: Iterable[str]) -> list[str]:
    """The messages that show why a crate isn't proved, each with the lines set in behind it, in which it goes on."""
    messages: list[str] = []
    goes_on = False
    for line in lines:
        if goes_on and line.startswith("  "):
            messages[-1] += f"\n{line}"
            continue
        goes_on = bool(TOLD.match(line))
        messages += [line] if goes_on else []
    return messages


def read_answer(status: int, said: str, changed: Mapping[str, str]) -> Answer:
    """What the prover made of a crate, by its status and all that it said."""
    lines = NEXT_LINE.sub(" ", said).rstrip("\n").splitlines() or [""]
    unread = next((line for line in lines if is_unread(line, changed)), "")
    if unread or (status != 0 and not lines[-1].startswith(("logic=not-proved", "only="))):
        return Answer(Outcome.NOT_READ, (unread or " ".join(lines[-3:]))[:300])
    if status == 0:
        return Answer(Outcome.PROVED)
    messages = messages_in(lines) or [lines[0]]
    kinds = [kind_of(message) for message in messages]
    # It is refused for its meaning if one message shows that, whatever the others say.
    order = (Outcome.REFUSED, Outcome.BY_SEARCH, Outcome.BY_LIMITS, Outcome.BY_GOALS, Outcome.BY_NAMES)
    worst = min(kinds, key=order.index)
    return Answer(worst, messages[kinds.index(worst)].partition("\n")[0][:300])


def said_by(folder: Path, *words: str) -> tuple[int, str]:
    """The status of a command in a folder, and what it said."""
    nothing, pipe, same = subprocess.DEVNULL, subprocess.PIPE, subprocess.STDOUT
    ran = subprocess.run(words, cwd=folder, stdin=nothing, stdout=pipe, stderr=same, text=True, errors="replace")
    return ran.returncode, ran.stdout


@cache
def kit() -> Path:
    """The folder of the toolchain."""
    status, said = said_by(Path(), "rt", "doc")
    if status:
        raise RuntimeError(f"rt doc: {said}")
    return Path(said.strip()).parent


@dataclass(frozen=True)
class Crates:
    """The crates of a checkout, by its crates.txt."""

    top: Path

    @property
    def rows(self) -> dict[str, tuple[bool, list[str]]]:
        """Each crate: whether it is a static library, and the libraries that it names."""
        found = re.findall(r"^(\w+)( staticlib)?:(.*)$", (self.top / "crates.txt").read_text(), re.MULTILINE)
        return {name: (bool(is_static), below.split()) for name, is_static, below in found}

    def below(self, name: str) -> list[str]:
        """The crates that a crate stands on, each behind those that it stands on itself."""
        rows, found = self.rows, list[str]()
        for each in rows[name][1]:
            if each in rows:
                found += [one for one in [*self.below(each), each] if one not in found]
        return found

    def library(self, name: str) -> Path:
        """Where the built library of a crate stands."""
        return self.top / "crates" / name / "out/rlib" / f"{name}.rlib"

    def below_all(self, names: Iterable[str]) -> list[str]:
        """The crates that some crates stand on, each behind those that it stands on itself."""
        return list(dict.fromkeys(one for name in names for one in self.below(name)))

    def are_of_gate(self, names: Iterable[str]) -> bool:
        """Whether all libraries below these crates are there as the gate left them, which stamps none."""
        libraries = [self.library(name) for name in self.below_all(names)]
        return all(library.is_dir() and not (library.parent / "stamp").exists() for library in libraries)

    def build_below(self, names: Iterable[str]) -> list[str]:
        """Proves and builds the libraries below these crates, unless that is done. Returns what was said where it failed."""
        for name in self.below_all(names):
            status, said = said_by(self.top / "crates" / name, "rt", "lib")
            if status:
                return [f"{name}: status {status}: {said[-300:]}"]
        return []

    def words(self, name: str) -> list[str]:
        """The words with which the prover checks a crate, in a folder with its texts."""
        rlibs = kit() / "rlibs"
        is_static, named = self.rows[name]
        main = "src/main.rt" if (self.top / "crates" / name / "src/main.rt").is_file() else "src/lib.rt"
        words = ["check", "--crate-name", name, main, "--extern", f"std={rlibs}/std.rlib", "-L", f"dependency={rlibs}"]
        for each in named:
            words += ["--extern", f"{each}={self.library(each) if each in self.rows else rlibs / f'{each}.rlib'}"]
        for each in self.below(name):
            words += ["-L", f"dependency={self.library(each).parent}"]
        words += ["--antt-project", f"{kit()}/rattle/logic/antt-project.json", "--logic-built", f"{kit()}/logic_built"]
        return [*words, "--jobs", "1", "--links", f"{name}=", *(["--crate-type", "staticlib"] if is_static else [])]


@dataclass(frozen=True)
class Room:
    """A folder in which one crate is checked, with what the checks kept."""

    crates: Crates
    name: str
    folder: Path

    @classmethod
    def made(cls, crates: Crates, name: str, folder: Path) -> "Room":
        """A new room with a crate's texts and what its own checks kept, if there is any."""
        own = crates.top / "crates" / name
        for part in PARTS:
            if (own / part).is_dir():
                shutil.copytree(own / part, folder / part)
        if (own / "out/incremental").is_dir():
            shutil.copytree(own / "out/incremental", folder / "kept")
        return cls(crates, name, folder)

    def check(self, texts: Mapping[str, str], modules: Iterable[str] = ()) -> Answer:
        """What the prover makes of the crate with these texts of some of its files, or of some modules and what they call."""
        before = {path: (self.folder / path).read_text() for path in texts}
        for path, text in texts.items():
            (self.folder / path).write_text(text)
        status, said = self.run(tuple(modules))
        for path, text in before.items():
            (self.folder / path).write_text(text)
        return read_answer(status, said, texts)

    def run(self, modules: tuple[str, ...]) -> tuple[int, str]:
        """The status of a check of some modules and what it said; of the whole crate if one of them has no function."""
        words = [str(kit() / "bin/rattle"), *self.crates.words(self.name), "--incremental", "kept"]
        words += [word for module in modules for word in ("--only", module)]
        status, said = said_by(self.folder, *words)
        return self.run(()) if modules and NO_FUNCTION.search(said) else (status, said)
