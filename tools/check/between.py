"""Puts calls that concern other CIDs and links between the lines of each worked script.

Every call of another link is made there, and those that concern one CID also for another CID of the script's
links, if one is free. Each is made once where it changes something, and once more right behind that. The answers
to the script's own lines must stay the same. All runs of all scripts are examples of one run of the program.
"""

import re
from collections.abc import Iterator
from dataclasses import dataclass
from functools import cached_property
from pathlib import Path

from examples import LINKS, WORKED, names_in
from program import Call, run
from trial import Trial

# Links that no worked script has: the first has a context from the start, the second comes and goes.
STANDING, PASSING = 100, 101
SETTING = "small 15 O 2 3 2 3 20 1000 50"
OTHER_SETTING = "small 3 U 1 1 1 1 20 0 50 0-1-O"
# The greatest CID of large CIDs of which one octet is enough.
GREATEST = 127


def check8(octets: bytes) -> int:
    """The 8-bit check (RFC 3095 5.9)."""
    register = 0xFF
    for octet in octets:
        register ^= octet
        for _ in range(8):
            register = register >> 1 ^ (0xE0 if register & 1 else 0)
    return register


def plain_ir(is_small: bool, cid: int) -> str:
    """An IR of profile 0x0000 with an IP packet of two octets, in hexadecimal digits."""
    front = (bytes([0xE0 + cid]) if cid else b"") + b"\xfc\0" if is_small else bytes([0xFC, cid, 0])
    return (front + bytes([check8(front)]) + b"\x45\xaa").hex()


def twice(*lines: str) -> list[str]:
    """Each line, and then once more."""
    return [line for line in lines for _ in range(2)]


@dataclass(frozen=True)
class Link:
    """A link of the scripts: its number, its CID kind, its greatest CID, and the words of its setting."""

    number: int
    is_small: bool
    greatest: int
    words: str


def links_in(lines: str) -> dict[int, Link]:
    """The links of a links file, as tools/link_lines.py writes them."""
    found: dict[int, Link] = {}
    number = 0
    for kind, *words in map(str.split, lines.splitlines()):
        if kind == "link":
            number = int(words[0])
            found[number] = Link(number, words[1] == "small", int(words[2]), " ".join(words))
        else:
            link = found[number]
            found[number] = Link(number, link.is_small, link.greatest, f"{link.words} {'-'.join(words)}")
    return found


@dataclass(frozen=True)
class Script:
    """A worked script, its answers, and the links with which it runs."""

    name: str
    lines: list[str]
    answers: list[str]
    links: dict[int, Link]

    @cached_property
    def own(self) -> set[tuple[str, ...]]:
        """The links with the CIDs, or without one, that its answers name."""
        return {tuple(line.split()[:2]) for line in self.answers}

    @cached_property
    def numbers(self) -> list[int]:
        """The numbers of the links that its lines name and that are there."""
        named = {line.split()[1] for line in self.lines if line.startswith(("arrive ", "reset "))}
        return [number for number in self.links if str(number) in named]

    def free(self, link: Link) -> int | None:
        """A CID of a link that isn't its own, if there is one."""
        cids = range(min(link.greatest, GREATEST), -1, -1)
        return next((cid for cid in cids if (str(link.number), str(cid)) not in self.own), None)

    @cached_property
    def groups(self) -> dict[str, list[str]]:
        """Calls that concern nothing of its own, by what they concern."""
        small = plain_ir(True, 0)
        packet = f"arrive {PASSING} 0 {small}"
        standing = [f"arrive {STANDING} 0 {small}", f"put {STANDING} 1 {STANDING} 0", f"forget {STANDING} 1"]
        passing = [f"add {PASSING} {SETTING}", packet, f"change {PASSING} {OTHER_SETTING}"]
        passing += [f"put {PASSING} 1 {STANDING} 0", f"forget {PASSING} 0", f"expire {PASSING} 50"]
        passing += [f"change {PASSING} {SETTING}", packet, f"reset {PASSING}", f"remove {PASSING}"]
        found = {f"link {STANDING}": twice(*standing), f"link {PASSING}": twice(*passing)}
        for link in map(self.links.__getitem__, self.numbers):
            cid = self.free(link)
            if cid is not None:
                pair, packet = f"{link.number} {cid}", f"arrive {link.number} 0 {plain_ir(link.is_small, cid)}"
                calls = twice(packet, f"forget {pair}", f"put {pair} {STANDING} 0", f"forget {pair}")
                found[f"CID {cid} of link {link.number}"] = calls
        return found

    def with_calls(self, calls: list[str]) -> list[str]:
        """Its lines with these calls before each of them and behind the last, on its links."""
        links = self.links.values()
        setup = [f"{'change' if link.number == 1 else 'add'} {link.words}" for link in links]
        setup += [f"add {STANDING} {SETTING}", f"arrive {STANDING} 0 {plain_ir(True, 0)}"]
        return [*setup, *(line for own in self.lines for line in (*calls, own)), *calls]

    @property
    def runs(self) -> Iterator[tuple[str, list[str]]]:
        """Its lines by the name of the run: without calls between them, with those of each group, and with all."""
        yield f"{self.name} alone", self.with_calls([])
        for name, calls in self.groups.items():
            yield f"{self.name} among calls of {name}", self.with_calls(calls)
        yield f"{self.name} among all calls", self.with_calls(sum(self.groups.values(), []))

    def kept(self, answers: list[str]) -> str:
        """The answers that name what is its own. A reset of a link that isn't there is answered as in a script."""
        told = [re.sub(r"^(\d+) reset NoLink$", r"\1 - refused NoLink", line) for line in answers]
        return "".join(f"{line}\n" for line in told if tuple(line.split()[:2]) in self.own)


def scripts(top: Path, links: dict[int, Link]) -> Iterator[Script]:
    """The worked scripts."""
    for name in names_in(top, WORKED):
        files = (top / WORKED / f"{name}.{kind}" for kind in ("script", "answers"))
        lines, answers = (file.read_text().split("\n") for file in files)
        yield Script(name, lines if lines[-1] else lines[:-1], answers[:-1], links)


def check_between(trial: Trial, program: tuple[str | Path, ...]) -> None:
    """Runs each worked script among calls that concern nothing of its own."""
    written = trial.made("links", trial.top / "tools/link_lines.py", trial.top / WORKED / LINKS[-1])
    found = list(scripts(trial.top, links_in(written.read_text())))
    runs = [(script, name, lines) for script in found for name, lines in script.runs]
    text = "".join(f"= {name}\n" + "".join(f"{line}\n" for line in lines) for _, name, lines in runs)
    ended = run(Call(program, text.encode(), {}, trial.top))
    if not ended.is_good:
        trial.wrong(f"worked scripts among calls: {ended.end()}", ended.call)
        return
    answered = re.split(r"^= ", ended.text, flags=re.MULTILINE)[1:]
    if not trial.demand(len(answered) == len(runs), f"{len(answered)} of {len(runs)} runs were answered", ended.call):
        return
    for (script, name, _), part in zip(runs, answered):
        wanted = "".join(f"{line}\n" for line in script.answers)
        trial.same(name, wanted, script.kept(part.splitlines()[1:]), ended.call)
    if not trial.wrongs:
        trial.say(f"{len(found)} worked scripts answered as wanted among other calls, in {len(runs)} runs")
