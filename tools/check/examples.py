"""Runs the program on the worked examples, whole and cut, and on the whole scripts.

Each packet of a worked example is cut before each of its octets: without a context, and after worked example whole-ir.
Each answer must be of a defined kind, and the example that runs behind its cuts must be answered as expected. Two long
examples, with a packet of 65,497 octets and a line of 200,000, aren't kept in the repository, but written out first.
Names of examples behind `examples` run these alone.
"""

import re
import sys
from collections.abc import Iterator
from dataclasses import dataclass
from pathlib import Path

from refusals import refusal_names
from trial import Trial

TOP = Path(__file__).resolve().parents[2]
WORKED = "examples/worked"
SCRIPTS = "examples/scripts"
LINKS = ("links-1.toml", "links-2.toml")
LONG = ("too-long", "long-line")

# Example whole-ir, for CID 0 on a link of small CIDs and for CID 300 on a link of large CIDs.
CHAINS = "40110a0000010a0000021388138a00000001004000012000000090000001000000a0000980a0"
WHOLE_IR = f"fd012b{CHAINS}ab"
WHOLE_IR_300 = f"fd812c01cb{CHAINS}ab"

OCTETS = "(?:-|(?:[0-9a-f]{2})+)"
REFUSED = f"refused (?:{'|'.join(refusal_names(TOP).values())})"
KIND = re.compile(f"[0-9]+ (?:- relay {OCTETS}|[0-9]+ (?:ip {OCTETS}|stored|feedback {OCTETS}|{REFUSED})|- {REFUSED})")


@dataclass(frozen=True)
class Example:
    """A script, the links with which it runs, and its answers."""

    name: str
    links: Path
    script: Path
    answers: Path

    @property
    def title(self) -> str:
        """How it is called when it fails."""
        return f"{self.name} with {self.links.name}"


def names_in(top: Path, folder: str) -> list[str]:
    """The names of the examples of a folder."""
    return sorted(file.stem for file in (top / folder).glob("*.script"))


def is_example(top: Path, word: str) -> bool:
    """Whether a word is the name of an example or of a whole script."""
    return word in [*names_in(top, WORKED), *names_in(top, SCRIPTS), *LONG]


def with_links(name: str, folder: Path, worked: Path) -> list[Example]:
    """An example with each links file. Examples of version 2 run with the second alone."""
    files = LINKS[1:] if name.startswith("version-2") else LINKS
    return [Example(name, worked / links, folder / f"{name}.script", folder / f"{name}.answers") for links in files]


def is_answered(trial: Trial, example: Example) -> bool:
    """The program must answer the example as expected."""
    ended = trial.program.replay(example.links, example.script)
    if not ended.is_good:
        return trial.wrong(f"{example.title}: {ended.end()}", ended.call)
    return trial.same(example.title, example.answers.read_bytes(), ended.output, ended.call)


def cuts(script: str) -> Iterator[str]:
    """Each packet of a script, cut before each of its octets, first without a context. At the end each link is reset."""
    links = {}
    for words in (line.split() for line in script.splitlines()):
        if len(words) != 4 or words[0] != "arrive" or not re.fullmatch("(?:[0-9a-f]{2})+", words[3]):
            continue
        _, link, moment, octets = words
        links[link] = WHOLE_IR_300 if link == "2" else WHOLE_IR
        for cut in range(0, len(octets), 2):
            arrival = f"arrive {link} {moment} {octets[:cut] or '-'}"
            yield from (f"reset {link}", arrival, f"reset {link}", f"arrive {link} {moment} {links[link]}", arrival)
    yield from (f"reset {link}" for link in links)


def cuts_are_answered(trial: Trial, example: Example, packet: str) -> bool:
    """Each whole-ir before a cut packet must be delivered as this packet, and each answer must be of a defined kind."""
    lines = list(cuts(example.script.read_text()))
    script = "".join(f"{line}\n" for line in lines).encode() + example.script.read_bytes()
    ended = trial.program.replay(example.links, script)
    if not ended.is_good:
        return trial.wrong(f"{example.title}, cut: {ended.end()}", ended.call)
    wanted = example.answers.read_bytes()
    before, behind = ended.output[: len(ended.output) - len(wanted)], ended.output[len(ended.output) - len(wanted) :]
    answers = before.decode(errors="replace").splitlines()
    for answer in answers:
        if not KIND.fullmatch(answer):
            return trial.wrong(f"{example.title}, cut: no answer of a defined kind: {answer[:200]}", ended.call)
    sent = sum(bool(re.fullmatch(f"arrive [1-5] [0-9]+ (?:{WHOLE_IR}|{WHOLE_IR_300})", line)) for line in lines)
    delivered = sum(bool(re.fullmatch(f"[1-5] (?:0|300) ip {packet}", answer)) for answer in answers)
    if sent != delivered:
        return trial.wrong(f"{example.title}, cut: {delivered} of {sent} times whole-ir delivered", ended.call)
    return trial.same(f"{example.title}, after its cuts", wanted, behind, ended.call)


def make_long(trial: Trial) -> Path:
    """The examples that aren't kept in the repository, since their lines are long."""
    folder = trial.scratch / "long"
    folder.mkdir(parents=True, exist_ok=True)
    trial.must_run(sys.executable, "-B", "tools/expand_examples.py", folder)
    return folder


def check(trial: Trial) -> None:
    """Runs the examples that are asked for."""
    worked, scripts = trial.top / WORKED, trial.top / SCRIPTS
    packet = re.search(" ip (.*)", (worked / "whole-ir.answers").read_text())
    assert packet
    right = 0
    for name in trial.chosen(names_in(trial.top, WORKED)):
        cases = with_links(name, worked, worked)
        right += all([is_answered(trial, case) & cuts_are_answered(trial, case, packet[1]) for case in cases])
    long = make_long(trial)
    for name in trial.chosen(LONG):
        right += all([is_answered(trial, case) for case in with_links(name, long, worked)])
    whole = 0
    for name in trial.chosen(names_in(trial.top, SCRIPTS)):
        files = [scripts / f"{name}.{kind}" for kind in ("toml", "script", "answers")]
        whole += is_answered(trial, Example(name, *files))
    trial.demand(right + whole > 0, "no example was answered as wanted")
    trial.say(f"{right} examples and {whole} scripts answered as wanted")
