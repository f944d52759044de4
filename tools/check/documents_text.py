"""Reads the documents."""

import re
from collections.abc import Sequence
from pathlib import Path

ITEM = re.compile(r"^\.It (.*)$", re.MULTILINE)
FENCE = re.compile(r"^```\w*$")


def documents(top: Path) -> dict[str, str]:
    """Each document by its path from the top."""
    files = [*top.glob("*.md"), *top.glob("docs/*.md"), *top.glob("examples/*.md"), *top.glob("man/*")]
    return {str(file.relative_to(top)): file.read_text() for file in sorted(files)}


def block_at(lines: Sequence[str], start: int) -> tuple[str | None, int]:
    """The code block that starts at this line or after empty lines from it on, and the number of the line after it."""
    while start < len(lines) and not lines[start].strip():
        start += 1
    if start == len(lines) or not FENCE.match(lines[start]):
        return None, start
    end = start + 1
    while end < len(lines) and lines[end] != "```":
        end += 1
    return "".join(line + "\n" for line in lines[start + 1 : end]), end + 1


def manual_items(top: Path, page: str, section: str) -> list[str]:
    """What the items of a section of a manual page begin with, without the word for literal text."""
    text = (top / "man" / page).read_text().partition(f"\n.Sh {section}\n")[2].partition("\n.Sh ")[0]
    return [item.replace("Li ", "").replace(" , ", ", ") for item in ITEM.findall(text)]
