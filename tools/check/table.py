"""Writes docs/TESTED.md, and finds what it lacks."""

import re
from collections.abc import Iterator
from textwrap import TextWrapper

from documents_text import manual_items
from registry import CHECKS, TESTED, TOP

HEAD = """\
# What is tested, and by which checks

For auditors, and for whoever changes something and asks which checks to run.

`bin/check --table` prints this from tools/check/registry.py. `bin/check --list` says what each check shows, and
`bin/check NAME` runs it. Promises are all those of docs/PROMISES.md; keys, faults, statuses and refusals those of the
manual pages. What `gate` proves is in docs/PROOFS.md.
"""

PLURALS = {
    "Promise": "Promises",
    "Key": "Keys of the links file",
    "Fault": "Faults of the links file",
    "Status": "Exit statuses",
    "Refusal": "Refusals",
    "Command": "Commands",
    "Text": "Texts",
}
WRAPPED = TextWrapper(width=118, subsequent_indent="  ", break_long_words=False, break_on_hyphens=False)


def words(cell: str) -> list[str]:
    """The words of a cell that has commas between them."""
    return [word.strip(" `") for word in cell.split(",")]


def named_in_documents() -> dict[str, list[str]]:
    """What the documents name, by its kind."""
    promises = (TOP / "docs/PROMISES.md").read_text()
    ends = [re.match(r"(\d) (?:rohcd: )?([a-z ]+)", end) for end in manual_items(TOP, "rohcd.1", "EXIT STATUS")]
    return {
        "Promise": re.findall(r"^## (\d\. .*)$", promises, re.MULTILINE),
        "Key": [word for item in manual_items(TOP, "rohc-links.5", "DESCRIPTION") for word in words(item)],
        "Fault": [word for item in manual_items(TOP, "rohc-links.5", "FAULTS") for word in words(item)],
        "Status": [f"{end[1]} {end[2]}" for end in ends if end],
        "Refusal": [item.split()[-1] for item in manual_items(TOP, "rohc-script.5", "REFUSALS")],
    }


def faults() -> Iterator[str]:
    """What the table lacks or has too much."""
    for kind, named in named_in_documents().items():
        there = [name for tested in TESTED if tested.kind == kind for name in words(tested.names)]
        if not named:
            yield f"the documents name no {kind.lower()}"
        yield from (f"there is no row of the {kind.lower()} {name}" for name in named if name not in there)
        yield from (f"no document names the {kind.lower()} {name}" for name in there if name not in named)
        yield from (f"two rows of the {kind.lower()} {name}" for name in set(there) if there.count(name) > 1)
    names = [check.name for check in CHECKS]
    used = [name for tested in TESTED for name in tested.checks.split()]
    yield from (f"there is no check {name}" for name in used if name not in names)
    yield from (f"there is no row of the check {name}" for name in names if name not in used)


def page() -> str:
    """The page: a list for each kind, with each item's checks in the order in which they are told."""
    lines = []
    kinds = [tested.kind for tested in TESTED]
    for place, tested in enumerate(TESTED):
        if tested.kind not in kinds[:place]:
            lines.append(f"\n## {PLURALS[tested.kind]}\n\n")
        checks = [check.name for check in CHECKS if check.name in tested.checks.split()]
        shown = ", ".join(f"`{name}`" for name in words(tested.names)) if tested.kind == "Key" else tested.names
        head = f"Promise {shown}" if tested.kind == "Promise" else shown
        lines.append(WRAPPED.fill(f"- {head}: {', '.join(checks)}") + "\n")
    return HEAD + "".join(lines)
