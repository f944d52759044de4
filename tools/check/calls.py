"""Refuses a public function that changes a concentrator and doesn't say which call it is.

Each `pub fn` of rohc_concentrator with `&mut self` must have a clause `event` that names `RunsCall`, or `Arrives`, which is
one of an arrival. So the laws over lists of calls speak of it.
"""

import re
from collections.abc import Iterator
from pathlib import Path

from trial import Trial

# A public function of an `impl Concentrator`, up to its body.
CHANGING = re.compile(r"^    pub fn (\w+)[^{;]*?\(\s*&mut self\b.*?^    \{$", re.MULTILINE | re.DOTALL)
EVENT = re.compile(r"\bensures event \{[^\n]*\b(?:RunsCall|Arrives)\b")


def blocks(text: str) -> Iterator[str]:
    """The bodies of the blocks `impl Concentrator`."""
    for found in re.finditer(r"^impl Concentrator \{$(.*?)^\}$", text, re.MULTILINE | re.DOTALL):
        yield found.group(1)


def changing(source: Path) -> Iterator[tuple[str, bool]]:
    """The functions that change a concentrator, and whether each says which call it is."""
    for file in sorted(source.glob("*.rt")):
        for block in blocks(file.read_text()):
            for found in CHANGING.finditer(block):
                yield found.group(1), bool(EVENT.search(found.group()))


def check(trial: Trial) -> None:
    """Judges rohc_concentrator."""
    functions = dict(changing(trial.top / "crates/rohc_concentrator/src"))
    for name, says in functions.items():
        trial.demand(says, f"rohc_concentrator: {name} changes a concentrator and has no clause `event` of a call")
    trial.demand("arrive" in functions, "rohc_concentrator: no function that changes a concentrator was found")
    trial.say(f"calls: {len(functions)} functions change a concentrator: {', '.join(functions)}")
