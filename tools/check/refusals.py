"""The table of refusals, read from its definition."""

import re
from pathlib import Path

ROW = re.compile(r"^row_of \w+ = row (\d+) \(codes \"(\w+)\"\)", re.MULTILINE)


def refusal_names(top: Path) -> dict[int, str]:
    """The name of the refusal with each number, in the order of the numbers."""
    text = (top / "crates/rohc_context/specs/Refusal.antt").read_text()
    return {int(number): name for number, name in ROW.findall(text)}
