"""The part of docs/PROOFS.md that the sources write: each public function of a library crate that has a contract.

A digest of all these contracts stands with each crate, so that a change of any of them shows in the document.
"""

import hashlib
import re
from collections.abc import Iterator, Sequence
from dataclasses import dataclass
from pathlib import Path
from textwrap import TextWrapper

BY_CRATE, PREMISES = "\n## By crate\n", "\n## Premises\n"
HEAD = """
Each public function that has a contract, behind a digest of all contracts of its crate: if one changes, so does this
page. `bin/check --proofs` writes it.

"""
PUBLIC = re.compile(r"^( *)pub (?:extern \"C\" )?fn (\w+)", re.MULTILINE)
OWNER = re.compile(r"^(?:impl\b[^{]*?\b|pub trait )(\w+)(?:<[^{]*>)?(?: where[^{]*)? \{", re.MULTILINE)
WRAPPED = TextWrapper(width=118, subsequent_indent="  ", break_long_words=False, break_on_hyphens=False)
END = re.compile(r"\n *\{\}?\n|\};\n")


@dataclass(frozen=True)
class Function:
    """A function by its path within its crate, and its contract."""

    path: str
    contract: str


def crates(top: Path) -> list[str]:
    """The library crates, in the order of crates.txt."""
    names = re.findall(r"^(rohc_\w+)", (top / "crates.txt").read_text(), re.MULTILINE)
    return [name for name in names if (top / "crates" / name / "src/lib.rt").exists()]


def functions_of_file(file: Path, prefix: str) -> Iterator[Function]:
    """The public functions of a file that have a contract."""
    text = file.read_text()
    for found in PUBLIC.finditer(text):
        head = re.search(r"\n\s*(?:ensures|requires)\b| \{\n|;\n", text[found.end() :])
        if not head or not head[0].startswith("\n"):
            continue
        start = found.end() + head.start()
        end = END.search(text[start:])
        contract = text[start : start + end.start()] if end else ""
        if "ensures" not in contract:
            continue
        owners = OWNER.findall(text[: found.start()])
        owner = f"{owners[-1]}::" if found[1] and owners else ""
        yield Function(f"{prefix}{owner}{found[2]}", contract)


def functions(top: Path, crate: str) -> Iterator[Function]:
    """The functions of a crate, file by file in the order of its modules."""
    folder = top / "crates" / crate / "src"
    lib = (folder / "lib.rt").read_text()
    yield from functions_of_file(folder / "lib.rt", "")
    for public, name in re.findall(r"^(pub )?mod (\w+);", lib, re.MULTILINE):
        file = folder / f"{name}.rt"
        is_used = re.search(rf"^pub use (?:crate::)?{name}::", lib, re.MULTILINE)
        if file.exists():
            yield from functions_of_file(file, "" if is_used or not public else f"{name}::")
        for inner in sorted((folder / name).rglob("*.rt")) if (folder / name).is_dir() else ():
            yield from functions_of_file(inner, "")


def row(crate: str, found: Sequence[Function]) -> str:
    """The item of a crate."""
    digest = hashlib.sha256("".join(f"{one.path}{one.contract}" for one in found).encode()).hexdigest()[:8]
    return WRAPPED.fill(f"- `{crate}` {digest}: {', '.join(f'`{one.path}`' for one in found)}") + "\n"


def by_crate(top: Path) -> str:
    """The part of the document: an item for each crate with such functions."""
    found = ((crate, list(functions(top, crate))) for crate in crates(top))
    return BY_CRATE + HEAD + "".join(row(crate, each) for crate, each in found if each)


def page(top: Path) -> str:
    """The whole document: what is written by hand stays."""
    text = (top / "docs/PROOFS.md").read_text()
    return text.partition(BY_CRATE)[0] + by_crate(top) + PREMISES + text.partition(PREMISES)[2]
