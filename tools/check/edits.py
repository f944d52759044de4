"""The edits that show that a contract or a definition binds, as files.

A wrong body is an edit of code. It stands in crates/CRATE/must-fail, where the gate tries it, or in must-fail-more, and
it is named FUNCTION.what.edit by the function that it changes. A wrong definition is an edit of specs/. It stands in
crates/CRATE/statements, and is named WORD.what.edit by the word that it changes. The prover must refuse both.

An edit that adds a statement, a branch or a function could be refused for its shape alone. So it has a twin: an edit of
the same name in crates/CRATE/twins, with the same shape and the right meaning. The prover must prove the twin. Where an
answer by hand binds to a shape, both may change that answer alike.
"""

import re
from collections import Counter
from collections.abc import Iterable, Iterator
from dataclasses import dataclass
from functools import cache
from pathlib import Path

GATE, MORE, STATEMENTS, TWINS = "must-fail", "must-fail-more", "statements", "twins"
REFUSED = (GATE, MORE, STATEMENTS)
FOLDERS = (*REFUSED, TWINS)
NAME = re.compile(r"(\w+)\.[a-z0-9_]+\.edit")
# What a new statement, branch or function needs. The semicolon of an array, `[0; SIZE]`, isn't one of a statement.
SHAPE = re.compile(r";(?! \w+\])|\?|=>|\b(?:fn|if|match|for|while|loop|return)\b")

# The word that the first line of a definition defines.
DEFINES = re.compile(r"^(?:(?:pub|abbrev|data|record|unfoldable)\s+)*(\w+)", re.MULTILINE)


def words_of(text: str) -> frozenset[str]:
    """The words of a text."""
    return frozenset(re.findall(r"\w+", text))


@cache
def definitions(crate: Path) -> list[tuple[str, frozenset[str]]]:
    """The definitions of a crate, each with the words of its text. An empty line ends a definition."""
    found = []
    for file in sorted(crate.glob("specs/**/*.antt")):
        for block in file.read_text().split("\n\n"):
            text = "\n".join(line for line in block.splitlines() if not line.startswith(("--", "use ")))
            defined = DEFINES.match(text)
            found += [(defined[1], words_of(text))] if defined else []
    return found


@dataclass(frozen=True)
class Pair:
    """A text of a file, and what stands in its place after the edit."""

    path: str
    old: str
    new: str


@dataclass(frozen=True)
class Edit:
    """A file of an edit."""

    file: Path

    @property
    def crate(self) -> Path:
        """The folder of its crate."""
        return self.file.parent.parent

    @property
    def title(self) -> str:
        """How it is named in what is said of it."""
        return f"{self.crate.name}/{self.file.name}"

    def is_named(self, word: str) -> bool:
        """Whether a word names it: its crate, or itself as CRATE/NAME."""
        return word in (self.crate.name, self.title, self.title.removesuffix(".edit"))

    @property
    def is_statement(self) -> bool:
        """Whether it changes a definition."""
        return self.file.parent.name == STATEMENTS

    @property
    def is_twin(self) -> bool:
        """Whether it is a twin, which the prover must prove."""
        return self.file.parent.name == TWINS

    @property
    def pairs(self) -> list[Pair]:
        """What it changes, in its order."""
        found, path, old = [], "", ""
        for line in self.file.read_text().splitlines():
            word, _, text = line.partition(":")
            text = text.removeprefix(" ")
            if word == "file":
                path = text.strip()
            elif word == "old":
                old = text
            elif word == "new":
                found.append(Pair(path, old, text))
        return found

    @property
    def paths(self) -> list[str]:
        """The files that it changes."""
        return sorted({pair.path for pair in self.pairs})

    @property
    def modules(self) -> list[str]:
        """The modules in which it shows: those that it changes, or those that name its word. No module stands for all.

        If no module names its word, they are those that name a definition over it, over as few others as may be.
        """
        files = [self.crate / path for path in self.paths if path.startswith("src/")]
        if self.is_statement:
            words = {self.file.name.partition(".")[0]}
            seen = set(words)
            while words and not files:
                files = [file for file in self.crate.glob("src/**/*.rt") if words & words_of(file.read_text())]
                words = {name for name, text in definitions(self.crate) if words & text} - seen
                seen |= words
        found = sorted({module_of(str(file.relative_to(self.crate))) for file in files})
        return [] if "" in found else found

    @property
    def added(self) -> Counter[str]:
        """How many more statements, branches and functions its code has, by their words."""
        added: Counter[str] = Counter()
        for pair in self.pairs:
            if pair.path.startswith("src/"):
                added.update(SHAPE.findall(pair.new))
                added.subtract(SHAPE.findall(pair.old))
        return Counter({word: count for word, count in added.items() if count})

    @property
    def of_proofs(self) -> list[Pair]:
        """What it changes in proofs, so that an answer by hand fits its shape."""
        return [pair for pair in self.pairs if pair.path.startswith("proofs/")]

    @property
    def needs_twin(self) -> bool:
        """Whether it adds a statement, a branch or a function, or changes a proof."""
        return bool(self.of_proofs) or any(count > 0 for count in self.added.values())

    @property
    def twin(self) -> "Edit":
        """Its twin, whether there is one or not."""
        return Edit(self.crate / TWINS / self.file.name)

    @property
    def has_twin(self) -> bool:
        """Whether it has one. An edit that doesn't need a twin may have one all the same."""
        return self.twin.file.is_file()

    def texts(self) -> dict[str, str]:
        """The texts of its files after the edit. The error says why it can't be applied to its crate."""
        texts: dict[str, str] = {}
        for pair in self.pairs:
            file = self.crate / pair.path
            if not file.is_file():
                raise ValueError(f"there is no {pair.path}")
            now = texts.get(pair.path) or file.read_text()
            if now.count(pair.old) != 1:
                raise ValueError(f"{pair.path} has an old text {now.count(pair.old)} times, not once: {pair.old[:60]}")
            texts[pair.path] = now.replace(pair.old, pair.new)
        if not texts:
            raise ValueError("it changes nothing")
        return texts

    def misfits(self) -> Iterator[str]:
        """Why it can't be applied, or may not have its name or its place."""
        try:
            self.texts()
        except ValueError as fault:
            yield f"NOT applied: {fault}"
        parts = NAME.fullmatch(self.file.name)
        if not parts:
            yield f"NOT named {'WORD' if self.is_statement else 'FUNCTION'}.what.edit"
        elif self.is_statement != any(path.startswith("specs/") for path in self.paths):
            yield "NOT in its folder: edits of definitions, and no others, stand in statements"
        elif parts[1] not in names_of(self.crate, self.is_statement):
            kind = "definitions" if self.is_statement else "code"
            yield f"NOT named so: {parts[1]} stands nowhere in its crate's {kind}"

    def misfits_of_twin(self) -> Iterator[str]:
        """What is wrong with its twin."""
        if self.needs_twin and not self.has_twin:
            words = ", ".join(sorted(word for word, count in self.added.items() if count > 0)) or "nothing to the code"
            yield f"NOT with a twin: it adds {words}; crates/{self.crate.name}/twins lacks {self.file.name}"
        elif self.has_twin and self.twin.of_proofs != self.of_proofs:
            yield "NOT alike: its twin changes proofs otherwise than it does"
        elif self.has_twin and self.twin.added != self.added:
            yield f"NOT alike: it adds {dict(self.added)}, and its twin {dict(self.twin.added)}"


def module_of(path: str) -> str:
    """The module that a file of src/ holds, by its path below the crate. The root has no name."""
    name = path.removeprefix("src/").removesuffix(".rt").removesuffix("/mod").replace("/", "::")
    return "" if name in ("lib", "main") else name


@cache
def names_of(crate: Path, is_statement: bool) -> frozenset[str]:
    """The functions of a crate, or the words of its definitions."""
    kind, pattern = ("specs/**/*.antt", r"(\w+) ") if is_statement else ("src/**/*.rt", r"\bfn (\w+)")
    return frozenset(name for file in crate.glob(kind) for name in re.findall(pattern, file.read_text()))


def edits(top: Path, crates: Iterable[str], folders: tuple[str, ...]) -> list[Edit]:
    """The edits of these crates in these folders."""
    places = [top / "crates" / crate / folder for crate in crates for folder in folders]
    return [Edit(file) for place in places for file in sorted(place.glob("*.edit"))]


def crates_with_edits(top: Path) -> list[str]:
    """The crates that have edits."""
    return sorted({file.parent.parent.name for folder in FOLDERS for file in top.glob(f"crates/*/{folder}/*.edit")})
