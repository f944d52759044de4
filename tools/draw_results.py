"""Draws the table of docs/RESULTS.md: a panel for each column, in U mode above and in O mode below."""

import math
from dataclasses import dataclass
from pathlib import Path

from draw_canvas import BadPicture, Canvas

RESULTS = Path(__file__).resolve().parent.parent / "docs" / "RESULTS.md"
# The lines of the four shares of damaged bits, on light and on dark pages.
LIGHT = ("#2a7d4f", "#2f6db5", "#8a5a00", "#b3382f")
DARK = ("#5fc98a", "#6ea8fe", "#e3b341", "#ff8f86")
DASHES = ("none", "9 4", "5 4", "2 3")
WIDTH, HEIGHT = 150, 120


def style() -> str:
    """The lines and the grid."""
    lines = [f".e{at} {{ fill: none; stroke: {LIGHT[at]}; stroke-width: 2; stroke-dasharray: {DASHES[at]}; }}" for at in range(4)]
    dark = [f"  .e{at} {{ stroke: {DARK[at]}; }}" for at in range(4)]
    grid = ".grid { stroke: #8c959f; stroke-width: 0.5; }"
    return "".join(f"    {line}\n" for line in [grid, *lines, "@media (prefers-color-scheme: dark) {", *dark, "}"])


@dataclass(frozen=True)
class Row:
    """A share of losses, one of damaged bits, and for each mode: right, wrong, damaged payload, none, header."""

    loss: str
    errors: str
    modes: tuple[list[float], list[float]]


@dataclass(frozen=True)
class Column:
    """What a panel shows, the column of the table, whether it is shown as a share of all, and its scale."""

    title: str
    place: int
    is_share: bool
    step: float
    low: float | None = 0

    def value(self, numbers: list[float]) -> float:
        """The value in a row."""
        return 100 * numbers[self.place] / sum(numbers[:4]) if self.is_share else numbers[self.place]

    def scale(self, rows: list[Row]) -> tuple[float, float]:
        """Where the scale of both modes begins and ends."""
        all_values = [self.value(numbers) for row in rows for numbers in row.modes]
        low = math.floor(min(all_values) / self.step) * self.step if self.low is None else self.low
        return low, max(math.ceil(max(all_values) / self.step) * self.step, low + self.step)


COLUMNS = (
    Column("right, %", 0, True, 10, None),
    Column("wrong, packets", 1, False, 4),
    Column("not delivered, %", 3, True, 4),
    Column("header, octets", 4, False, 0.5, 1),
)


def table() -> list[Row]:
    """The rows with shares of losses and of damaged bits."""
    block = RESULTS.read_text().partition("```lossy\n")[2].partition("```")[0]
    cells = [line.split() for line in block.splitlines()[2:]]
    rows = [line for line in cells if len(line) == 12 and line[0] not in ("late", "twice")]
    if len(rows) != 15:
        raise BadPicture("docs/RESULTS.md has no table of 15 rows")
    return [Row(line[0], line[1], ([*map(float, line[2:7])], [*map(float, line[7:])])) for line in rows]


def panel(c: Canvas, left: float, top: float, rows: list[Row], column: Column, mode: int) -> None:
    """One column of one mode."""
    low, high = column.scale(rows)
    losses = list(dict.fromkeys(row.loss for row in rows))
    for tick in (low, (low + high) / 2, high):
        y = top + HEIGHT * (high - tick) / (high - low)
        c.parts.append(f'<path class="grid" d="M {left:g} {y:g} h {WIDTH}"/>')
        c.text(left - 6, y, f"{tick:g}", "small", "end")
    for at, loss in enumerate(losses):
        c.text(left + 14 + at * 31, top + HEIGHT + 16, loss.rstrip("%"), "small")
    for at, errors in enumerate(dict.fromkeys(row.errors for row in rows)):
        values = [column.value(row.modes[mode]) for row in rows if row.errors == errors]
        places = [(left + 14 + x * 31, top + HEIGHT * (high - value) / (high - low)) for x, value in enumerate(values)]
        c.parts.append(f'<path class="e{at}" d="M {" L ".join(f"{x:g} {y:.4g}" for x, y in places)}"/>')


def lossy_link() -> Canvas:
    """What a lossy link leaves of a call, in U and in O mode."""
    c = Canvas("lossy-link", 900, 460, style())
    rows = table()
    for place, column in enumerate(COLUMNS):
        left = 90 + place * 205
        c.text(left + WIDTH / 2, 24, column.title, "bold")
        for mode in (0, 1):
            panel(c, left, 50 + mode * 180, rows, column, mode)
    c.text(30, 110, "U", "bold")
    c.text(30, 290, "O", "bold")
    c.text(450, 398, "packets that the link loses, %", "small")
    for at, errors in enumerate(dict.fromkeys(row.errors for row in rows)):
        c.parts.append(f'<path class="e{at}" d="M {190 + at * 160} 430 h 40"/>')
        c.text(240 + at * 160, 430, f"{errors} of the bits", "small", "start")
    return c
