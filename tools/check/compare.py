"""The first difference between what was wanted and what was found."""

from dataclasses import dataclass

# How much of a line is shown around the difference.
BEFORE = 60
BEHIND = 100


@dataclass(frozen=True)
class Difference:
    """Where two texts differ first. The line and the column count from 1; the column counts octets."""

    line: int
    column: int
    wanted: str
    found: str

    def lines(self) -> list[str]:
        """The difference, for a reader."""
        return [
            f"    first difference: line {self.line}, column {self.column}",
            f"    wanted: {self.wanted}",
            f"    found:  {self.found}",
        ]


def shown(line: bytes | None, column: int) -> str:
    """The part of a line around a column, counted from 0."""
    if line is None:
        return "(the end)"
    start = max(0, column - BEFORE)
    part = line[start : column + BEHIND].decode(errors="backslashreplace")
    return f"{'..' if start else ''}{part}{'..' if len(line) > column + BEHIND else ''}"


def line_at(text: bytes, number: int) -> bytes | None:
    """A line with its newline, if there is one of this number, counted from 0."""
    lines = text.split(b"\n", number + 1)
    if number >= len(lines) or (number == len(lines) - 1 and not lines[number]):
        return None
    return lines[number] + (b"\n" if number < len(lines) - 1 else b"")


def shared(a: bytes, b: bytes) -> int:
    """How many octets two texts begin with alike."""
    low, high = 0, min(len(a), len(b))
    while low < high:
        middle = (low + high + 1) // 2
        if a[low:middle] == b[low:middle]:
            low = middle
        else:
            high = middle - 1
    return low


def difference(wanted: bytes, found: bytes) -> Difference | None:
    """Where two texts differ first, if they differ."""
    if wanted == found:
        return None
    at = shared(wanted, found)
    number = wanted.count(b"\n", 0, at)
    column = at - (wanted.rfind(b"\n", 0, at) + 1)
    ours, theirs = line_at(wanted, number), line_at(found, number)
    texts = [None if line is None else line.rstrip(b"\n") for line in (ours, theirs)]
    if texts[0] == texts[1]:
        texts = [line and line.replace(b"\n", b"\\n") for line in (ours, theirs)]
    return Difference(number + 1, column + 1, shown(texts[0], column), shown(texts[1], column))
