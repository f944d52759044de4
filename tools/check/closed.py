"""Refuses crates above rohc_context that look inside the step of one context.

The crates above may use a step by its stated laws alone. This is an allow-list: what it doesn't understand, it refuses.
In the crates above each mention of the name rohc_context, also in a comment of code, must be one of these:

- in code, a path to one of its public modules, types or functions;
- a line of its own `use Rattle.rohc_context.MODULE.{NAMES}`, with a module and names of the tables below.

None of these may be renamed or exported again. A closed word is one of these names that is marked `unfoldable`. A
file that has one may not have `unfold` or `unfolding`, but for words of its own, and may not rename it. Lines of definitions
and proofs that are comments only are passed over. Of the proofs of rohc_context only the
laws may be used: in StepLaws the type of each public lemma is a name of specs/Laws.antt. Beside them stand one example
of a call, in WrittenCall, and the two laws of saved contexts, in SavedLemmas.

The check can't see whether a law, or an open word, says too much. That can only be found by reading.
"""

import os
import re
from collections.abc import Callable, Iterator
from dataclasses import dataclass, field
from functools import cache
from pathlib import Path

from trial import Trial

# The modules of definitions that the crates above may use: some of their names, or all.
OPEN: dict[str, tuple[str, ...] | None] = {
    "specs.Step": ("LoneStep", "HasMissed"),
    "specs.Repaired": ("Repairs",),
    "specs.Excess": ("excess_in",),
    "specs.Fallen": ("fallen",),
    "specs.Record": ("Record", "record_of"),
    "specs.SavedText": ("saved_text",),
    "specs.SavedReading": ("saved_at",),
    **{f"specs.{name}": None for name in "Response Settings Standing Good Laws Honest Refusal Framing".split()},
    "proofs.WrittenCall": ("IsWrittenCall", "has_written_call"),
    "proofs.SavedLemmas": ("comes_back", "is_spelled"),
}
# The words that must be closed, with their modules.
MUST_BE_CLOSED = {
    "LoneStep": "Step",
    "HasMissed": "Step",
    "Repairs": "Repaired",
    "excess_in": "Excess",
    "fallen": "Fallen",
    "record_of": "Record",
    "saved_text": "SavedText",
    "saved_at": "SavedReading",
}

# A letter that isn't ASCII ends a word here, so that what is written with one is looked at.
WORD = re.compile(r"\w+", re.ASCII)
MENTION = re.compile(r"(?<!\w)rohc_context(?!\w)", re.ASCII)
BEHIND_USE = re.compile(r"[ \t]*(?:ghost )?use Rattle\.")
USE = re.compile(r"\.(\w+(?:\.\w+)*)(?:\.\{([^{}]*)\}|( as \w+));?[ \t]*(?:\n|\Z)", re.ASCII)
PATH = re.compile(r"((?:::\w+)*+)(?:::\{([^{}]*)\})?(?!\s*(?:::|as\b))", re.ASCII)
BEFORE_PATH = re.compile(r"(?:\.|::|[#\"«])\Z")
PUB_USE = re.compile(r"(?:.*\W|)pub use ", re.ASCII)
DECLARED = re.compile(r"specs\.declared\.[\w.]+?\.(\w+)", re.ASCII)
VARIANTS = re.compile(r"specs\.declared\.[\w.]+?\.(\w+)\.TheVariants", re.ASCII)
STATED = re.compile(r"use Rattle\.rohc_context\.specs\.Laws\.\{(\w+(?:, \w+)*)\}", re.ASCII)
LEMMA = re.compile(r"pub (\w+) : (\w+)", re.ASCII)
COMMENT = re.compile(r"^[ \t]*--(?: .*)?$", re.MULTILINE)
OWN = re.compile(r"^(?:abbrev |unfoldable )?(?:pub )?(\w+) :", re.ASCII | re.MULTILINE)
UNFOLDING = re.compile(r"^unfolding ([\w ]+)$", re.ASCII | re.MULTILINE)
PROOF = re.compile(r"(\w+) [^:]*=", re.ASCII)
LAW_LINE = re.compile(r"|(?: |--).*|use Rattle\.[\w.]+\.\{[^{}]*\}|unfolding [\w ]+", re.ASCII)


def are_all_of(names: str, may: Callable[[str], bool]) -> bool:
    """Whether a list has names, and each is one that may be used."""
    found = re.sub(r",+\s*\Z", "", names).split(",")
    return all(WORD.fullmatch(name.strip()) and may(name.strip()) for name in found)


@dataclass(frozen=True)
class Tables:
    """What the crates above may name: modules and exports of rohc_context, and its laws; and its closed words."""

    modules: frozenset[str]
    exports: frozenset[str]
    laws: frozenset[str]
    words: tuple[str, ...]

    def is_public(self, name: str) -> bool:
        """Whether a name is that of a public module or of an exported item."""
        return name in self.modules or name in self.exports

    def may_use(self, module: str, names: str | None, renamed: str | None) -> bool:
        """Whether the crates above may use these names of this module, or the module as one word."""
        if variants := VARIANTS.fullmatch(module):
            return variants[1] in self.exports and (bool(renamed) or are_all_of(names or "", lambda name: True))
        if renamed or names is None:
            return False
        if declared := DECLARED.fullmatch(module):
            return declared[1] in self.exports and names == declared[1]
        if module == "proofs.StepLaws":
            return are_all_of(names, self.laws.__contains__)
        allowed = OPEN.get(module, ())
        return are_all_of(names, lambda name: allowed is None or name in allowed)

    def may_call(self, path: str, names: str | None) -> bool:
        """Whether a path of code leads to a public item, or each of a list of paths does."""
        segments = list(filter(None, path.split("::")))
        if segments:
            return self.is_public(segments[0]) and (names is None or are_all_of(names, lambda name: True))
        return are_all_of(names or "", self.is_public)

    def may_mention(self, text: str, is_code: bool, start: int, end: int) -> bool:
        """Whether the crates above may make a mention, which stands there in a text."""
        line = text[text.rfind("\n", 0, start) + 1 : start]
        if BEHIND_USE.fullmatch(line):
            use = USE.match(text, end)
            return use is not None and self.may_use(use[1], use[2], use[3])
        if not is_code or BEFORE_PATH.search(line.strip() or text[:start].rstrip()[-2:]) or PUB_USE.fullmatch(line):
            return False
        path = PATH.match(text, end)
        return path is not None and self.may_call(path[1], path[2])


def without_own(text: str, words: tuple[str, ...]) -> str:
    """A text without the lines that unfold words of its own alone."""
    own = set(OWN.findall(text)) - set(words)
    return UNFOLDING.sub(lambda line: "" if set(line[1].split()) <= own else line[0], text)


@cache
def faults_in(text: str, is_code: bool, tables: Tables) -> tuple[str, ...]:
    """What a text may not have."""
    found = []
    if not is_code:
        text = without_own(COMMENT.sub("", text), tables.words)
    for mention in MENTION.finditer(text):
        if not tables.may_mention(text, is_code, *mention.span()):
            found.append("takes rohc_context" + re.split(r"\s", text[mention.end() :], maxsplit=1)[0])
    if any(word in text for word in tables.words):
        closed = rf"\b(?:{'|'.join(map(re.escape, tables.words))})\b"
        if re.search(r"\bunfold(?:ing)?\b", text, re.ASCII) and re.search(closed, text, re.ASCII):
            found.append("unfolds beside a closed word")
        if re.search(rf"{closed}\s+as\b", text, re.ASCII):
            found.append("gives a closed word another name")
    return tuple(found)


@dataclass
class Closed:
    """The crates of a folder, and what is refused in them."""

    crates: Path
    refused: list[str] = field(default_factory=list)

    @property
    def box(self) -> Path:
        """The crate that must stay closed."""
        return self.crates / "rohc_context"

    def files_below(self, folder: Path, parts: tuple[str, ...] = ()) -> Iterator[Path]:
        """The files of code, definitions and proofs in a folder. A link is refused, since it may lead anywhere."""
        for entry in sorted(os.scandir(folder), key=lambda entry: entry.name):
            path = folder / entry.name
            if entry.is_symlink():
                self.refused.append(f"{path}: is a link")
            elif entry.is_dir():
                if len(parts) != 1 or entry.name != "out":
                    yield from self.files_below(path, (*parts, entry.name))
            elif entry.name.endswith((".rt", ".antt")):
                yield path
            elif len(parts) > 1 and parts[1] in ("src", "specs", "proofs"):
                self.refused.append(f"{path}: is of no known kind")

    def words(self) -> tuple[str, ...]:
        """The closed words of the modules that may be used."""
        found = set()
        for module, names in OPEN.items():
            if module.startswith("specs."):
                file = self.box / f"specs/{module.removeprefix('specs.')}.antt"
                marked = re.findall(r"^\s*unfoldable pub (\S+) :", file.read_text(), re.MULTILINE)
                found |= {word for word in marked if names is None or word in names}
        for word, module in MUST_BE_CLOSED.items():
            file = self.box / f"specs/{module}.antt"
            text = file.read_text()
            if not re.search(rf"^unfoldable pub {word} :", text, re.MULTILINE) or "{-" in text:
                self.refused.append(f"{file}: {word} isn't closed")
            found.add(word)
        return tuple(sorted(found))

    def laws(self) -> frozenset[str]:
        """The lemmas of StepLaws. Only four kinds of lines may start at its margin."""
        file = self.box / "proofs/StepLaws.antt"
        stated: set[str] = set()
        lemmas: set[str] = set()
        for line in file.read_text().split("\n"):
            if named := STATED.fullmatch(line):
                stated |= set(named[1].split(", "))
            elif (lemma := LEMMA.fullmatch(line)) and lemma[2] in stated:
                lemmas.add(lemma[1])
            elif (proof := PROOF.match(line)) and proof[1] in lemmas:
                continue
            elif not LAW_LINE.fullmatch(line):
                self.refused.append(f"{file}: {line}")
        return frozenset(lemmas)

    def tables(self) -> Tables:
        """What the crates above may name."""
        text = (self.box / "src/lib.rt").read_text()
        modules = re.findall(r"^pub mod (\w+);$", text, re.MULTILINE)
        lists = re.findall(r"^pub use \w+::(\w+|\{[\w, ]+\});$", text, re.MULTILINE)
        exports = frozenset(name for names in lists for name in re.findall(r"\w+", names))
        return Tables(frozenset(modules) - exports, exports, self.laws(), self.words())

    def refusals(self) -> list[str]:
        """All that is refused."""
        tables = self.tables()
        for file in self.files_below(self.crates):
            if not str(file).startswith(f"{self.box}/"):
                faults = faults_in(file.read_text(), file.name.endswith(".rt"), tables)
                self.refused += [f"{file}: {fault}" for fault in faults]
        return self.refused


def refusals(crates: Path) -> list[str]:
    """What is refused in a folder of crates."""
    return Closed(crates).refusals()


def check(trial: Trial) -> None:
    """Judges the crates of the tree."""
    for text in refusals(trial.top / "crates"):
        trial.wrong(text.replace(f"{trial.top}/", ""))
