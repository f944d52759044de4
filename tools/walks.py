#!/usr/bin/env python3
"""Lists the functions that a packet goes through in `rohcd replay`, from its line of the script to the answer.

usage: tools/walks.py PROGRAM [--write DOCUMENT]

PROGRAM is a build of rohcd that inlines nothing, as the one without proofs that bin/rohcd keeps in out/unproved. gdb runs
it on a script for each of four packets, and stops at each function of ours from the line of the packet on. Functions of
the standard library, of libraries from elsewhere and of derived traits aren't listed.

The result is a paragraph for each packet: the functions by crate, each once, in the order of their first calls, and for
each packet but the first only those that the first has not. With --write they replace those that DOCUMENT shows.
"""

import json
import os
import re
import subprocess
import sys
import tempfile
import textwrap
from collections.abc import Iterator
from dataclasses import dataclass
from functools import cache
from pathlib import Path

from late_tries import WRAP_MS, Steady, by_second_tries
from random_script import IR

TOP = Path(__file__).resolve().parent.parent
LINKS = TOP / "examples/two-links.toml"
# The function that takes a line of the script.
LINE = "rohc_replay::turn::take_turn"
# A function of ours, and one that a derived trait or the end of a value has.
OURS = re.compile(r"rohc\w*::")
DERIVED = re.compile(r"::Destruct\b|\w(?:PartialEq|Clone|Copy|Default)\b|::fn::")
BEGIN, END = "<!-- walks: tools/walks.py -->", "<!-- end of walks -->"
SECONDS = 120

# What gdb runs: it names the functions that are called during the last line, until that returns.
TRACE = """
import gdb, json, os
places, line, times, out = json.loads(os.environ["WALK"])
called, outside = [], [0]
class Place(gdb.Breakpoint):
    def stop(self):
        if int(gdb.parse_and_eval("(unsigned long) $rsp")) > outside[0]:
            return True
        called.append(self.name)
        return False
for words in ("pagination off", "confirm off", "breakpoint always-inserted on"):
    gdb.execute("set " + words)
gdb.execute("starti")
base = int(gdb.execute("info proc mappings", to_string=True).split("0x", 1)[1].split()[0], 16)
base = base if min(places.values()) < base else 0
first = gdb.Breakpoint("*%d" % (base + places[line]))
first.ignore_count = times - 1
gdb.execute("continue")
first.delete()
outside[0] = int(gdb.parse_and_eval("(unsigned long) $rsp"))
called.append(line)
for name, place in places.items():
    Place("*%d" % (base + place)).name = name
gdb.execute("continue")
with open(out, "w") as file:
    json.dump(called, file)
gdb.execute("kill")
"""


@dataclass(frozen=True)
class Walk:
    """A packet, with those before it in its call. Times are in milliseconds."""

    name: str
    before: list[bytes]
    packet: bytes
    moment: int

    @property
    def script(self) -> str:
        """The script, of which the last line is the packet's."""
        lines = [f"arrive 1 {20 * number} {octets.hex()}\n" for number, octets in enumerate(self.before)]
        return "".join(lines) + f"arrive 1 {self.moment} {self.packet.hex()}\n"


def walks() -> Iterator[Walk]:
    """The packets whose ways are listed."""
    call = Steady(7)
    start = call.refresh(IR)
    call.move(1)
    before = call.uo_0()
    call.move(1)
    yield Walk("UO-0", [start, before], call.uo_0(), 40)
    late = Steady(7)
    yield Walk("UO-0 after a loss, decoded by its second try", [late.refresh(IR)], next(by_second_tries(late, 1)), WRAP_MS)
    yield Walk("IR, the first of its call", [], Steady(7).refresh(IR), 20)
    wide = Steady(7)
    start = wide.refresh(IR)
    wide.move(1)
    yield Walk("UOR-2 with extension 3", [start], wide.with_tos(), 20)


def plain(symbol: str) -> str:
    """The name of a function without its types."""
    return re.sub(r"::<.*", "", symbol)


def functions(program: Path) -> dict[str, int]:
    """Each function of ours that stands in a source, by its symbol, with its place in the program."""
    told = subprocess.run(["nm", "--defined-only", program], capture_output=True, text=True, check=True).stdout
    rows = [line.split(" ", 2) for line in told.splitlines()]
    return {
        name: int(place, 16)
        for place, kind, name in rows
        if kind in "tT" and OURS.match(name) and not DERIVED.search(plain(name))
    }


def called(program: Path, places: dict[str, int], walk: Walk) -> list[str]:
    """The functions that are called for a packet, in the order of their first calls."""
    line = next((symbol for symbol in places if plain(symbol) == LINE), "")
    if not line:
        raise ValueError(f"{program} has no function {LINE}")
    with tempfile.TemporaryDirectory() as folder:
        trace, script, out = (Path(folder) / name for name in ("trace.py", "script", "called"))
        trace.write_text(TRACE)
        script.write_text(walk.script)
        told = json.dumps([places, line, len(walk.before) + 1, str(out)])
        run = f"set args replay --links {LINKS} < {script}"
        words = ["gdb", "--quiet", "--nx", "--batch", "-ex", run, "-x", str(trace), str(program)]
        environment = {**os.environ, "WALK": told, "ASAN_OPTIONS": "detect_leaks=0"}
        ran = subprocess.run(words, env=environment, capture_output=True, text=True, timeout=SECONDS)
        if not out.is_file():
            raise ValueError(f"gdb, for {walk.name}: {ran.stderr.strip()[-400:]}")
        return list(dict.fromkeys(plain(symbol) for symbol in json.loads(out.read_text())))


def file_of(function: str) -> str:
    """The file of a function, as a path of modules: its name without itself and its type."""
    parts = function.split("::")[:-1]
    return "::".join(parts[:-1] if parts[-1][:1].isupper() else parts)


@cache
def words_of_sources() -> frozenset[str]:
    """The words of the sources."""
    return frozenset(word for file in TOP.glob("crates/*/src/**/*.rt") for word in re.findall(r"\w+", file.read_text()))


def type_of(name: str) -> str:
    """The type of a symbol: that of a trait's function has the trait's name behind the type's."""
    known = words_of_sources()
    fronts = [name[:end] for end in range(1, len(name)) if name[:end] in known and name[end:] in known]
    return name if name in known or not fronts else fronts[0]


def short(function: str) -> str:
    """The name of a function with its type, without its modules."""
    parts = function.split("::")
    return f"{type_of(parts[-2])}::{parts[-1]}" if parts[-2][:1].isupper() else parts[-1]


def by_crate(functions: list[str]) -> str:
    """Functions by crate, in the order of their first calls."""
    crates: dict[str, list[str]] = {}
    for function in functions:
        crates.setdefault(function.partition("::")[0], []).append(f"`{short(function)}`")
    return " ".join(f"*{crate}*: {', '.join(dict.fromkeys(some))}." for crate, some in crates.items())


def paragraph(walk: Walk, functions: list[str], known: list[str]) -> str:
    """A walk for a document: how many functions it has, and which of them aren't known yet, by crate."""
    new = [function for function in functions if function not in known]
    text = f"**{walk.name}**: {len(functions)} functions in {len({file_of(one) for one in functions})} files"
    text += f"; beyond those of the UO-0: {by_crate(new)}" if known else f". {by_crate(new)}"
    return textwrap.fill(text, 120, break_long_words=False, break_on_hyphens=False)


def paragraphs(program: Path) -> str:
    """All walks for a document. Of each but the first it shows what the first doesn't have."""
    places = functions(program)
    found = [(walk, called(program, places, walk)) for walk in walks()]
    first = found[0][1]
    return "\n\n".join(paragraph(walk, some, first if place else []) for place, (walk, some) in enumerate(found))


def shown_in(document: str) -> str:
    """The walks that a document shows."""
    return document.partition(BEGIN)[2].partition(END)[0].strip()


def main(words: list[str]) -> int:
    """Prints the walks, or writes them into a document. The status is 1 if that can't be done."""
    if words == ["--help"]:
        print((__doc__ or "").strip())
        return 0
    if len(words) not in (1, 3) or words[1:2] not in ([], ["--write"]):
        print("tools/walks.py: expected PROGRAM [--write DOCUMENT]", file=sys.stderr)
        return 2
    try:
        text = paragraphs(Path(words[0]).resolve())
    except (ValueError, OSError, subprocess.SubprocessError) as fault:
        print(f"tools/walks.py: {fault}", file=sys.stderr)
        return 1
    if len(words) == 1:
        print(text)
        return 0
    document = Path(words[2])
    before, begin, rest = document.read_text().partition(BEGIN)
    _, end, after = rest.partition(END)
    if not begin or not end:
        print(f"tools/walks.py: {document} has no place for walks; expected {BEGIN} and {END}", file=sys.stderr)
        return 1
    document.write_text(f"{before}{begin}\n\n{text}\n\n{end}{after}")
    return 0


if __name__ == "__main__":
    sys.exit(main(sys.argv[1:]))
