"""Chooses the fast checks, or those that can notice what changed since a commit.

All checks that need nothing are chosen. If the sources of a crate changed, it is proved over what earlier checks kept, and
then the gate runs, which proves every crate from nothing, and the checks of the programs that stand on that crate. Of each
crate that changed, all wrong bodies, wrong definitions and twins are tried. A check is also chosen if a file changed that
it reads.
"""

import re
import subprocess
from collections.abc import Iterable, Mapping
from dataclasses import dataclass, field
from functools import cached_property
from pathlib import Path

from edits import FOLDERS, crates_with_edits
from registry import CHECKS, GATE, PROVING, Check, Needs

BITES = "bites"
# What `bin/check fast` runs beside the checks that need nothing.
FAST = ("callers", "program", "examples", "documents")


@dataclass(frozen=True)
class Notices:
    """The files and folders that a check on a program reads, and the crates of the programs that it runs."""

    reads: str
    programs: str = ""


LIBRARY_TOOLS = (
    "tools/library_calls.c tools/library_cpp.cpp tools/library_memory.c tools/library_running.c tools/library_symbols.txt "
    "tools/link_lines.py tools/random_library.py tools/random_script.py tools/stress tools/stress.c tools/udp_gateway_test.py "
    "tools/check/restarts.py tools/check/shipping.py"
)

CALLS_TOOLS = (
    "tools/worked_calls.txt tools/random_calls.py tools/random_script.py tools/model tools/link_lines.py examples/worked "
    "tools/check/between.py"
)

NOTICES = {
    "library": Notices(f"include library bindings python examples bin/lib bin/wheel {LIBRARY_TOOLS}", "rohc_c"),
    "program": Notices("tools/serve_script.py tools/refuse_request.c", "rohcd"),
    "examples": Notices("examples tools/worked_examples.txt", "rohcd"),
    "lines": Notices("examples tools/short_reads.c", "rohcd"),
    "random": Notices("tools/random_script.py tools/model", "rohcd"),
    "simulation": Notices("", "simulation"),
    "calls_alike": Notices(f"include library tools/calls.c {CALLS_TOOLS}", "calls rohc_c"),
    "limits": Notices("tools/limit_scripts.py", "rohcd"),
    "rohctl": Notices("examples man completion tools/refuse_request.c tools/failing_calls.c", "rohctl"),
    "evidence": Notices("bench tests tools/compressor tools/dissect tools/fuzz tools/model", "rohcd rohctl rohc_c"),
    "gateway": Notices(
        "deploy tests/alerts.yml docs/GATEWAY.md tools/gateway_soak.py tools/udp_gateway_test.py tools/refuse_request.c tools/failing_calls.c",
        "rohc_gateway rohctl",
    ),
    "spread": Notices("deploy examples", "rohc_gateway rohctl"),
    "cluster": Notices("cluster", "rohc_c"),
    "call": Notices("examples/call tools/compressor", "rohc_gateway rohctl"),
    "standby": Notices("deploy tools/compressor", "rohc_gateway"),
    "moving": Notices("deploy tools/compressor", "rohc_gateway rohctl"),
    "packages": Notices("bin/package bin/install bin/wheel library man python completion", "rohctl"),
    "poverty": Notices("tools/refuse_request.c", "rohcd rohctl rohc_gateway"),
    "launcher": Notices("bin tools/check/launcher_tools.py tools/walks.py docs/ARCHITECTURE.md", "rohcd"),
    "install": Notices("bin/install bin/sources completion man tools/link_lines.py"),
    "documents": Notices("docs README.md CONTRIBUTING.md man examples", "rohcd rohctl"),
    "documents_test": Notices("docs README.md man"),
}
# A check on a program that stands here under no name would end `since`.
assert {check.name for check in CHECKS if check.needs is Needs.PROGRAM and check.is_in_all} == set(NOTICES)


def stands_on(top: Path) -> dict[str, list[str]]:
    """The crates of the repository that each crate stands on, by crates.txt."""
    rows = re.findall(r"^(\w+)(?: staticlib)?:(.*)$", (top / "crates.txt").read_text(), re.MULTILINE)
    names = {name for name, _ in rows}
    return {name: [word for word in below.split() if word in names] for name, below in rows}


def changed_files(top: Path, commit: str) -> list[str]:
    """The files that differ from a commit, and those that git doesn't track yet. The error is git's own."""
    words = (("diff", "--name-only", commit, "--"), ("ls-files", "--others", "--exclude-standard"))
    texts = [subprocess.run(["git", *each], cwd=top, capture_output=True, text=True, check=True).stdout for each in words]
    return sorted({name for text in texts for name in text.splitlines()})


@dataclass(frozen=True)
class Change:
    """What changed."""

    top: Path
    files: list[str]
    below: Mapping[str, list[str]] = field(default_factory=dict)

    def crates(self, of_edits: bool) -> set[str]:
        """The crates of which a source changed; or also those of which an edit alone did."""
        found = [re.match(r"crates/(\w+)/([^/]+)", name) for name in self.files]
        names = {match[1] for match in found if match and (of_edits or match[2] not in FOLDERS)}
        return set(self.below) if "crates.txt" in self.files else names & set(self.below)

    @property
    def lowest_first(self) -> tuple[str, ...]:
        """The crates of which a source changed, each behind those that it stands on; none if the list of crates changed."""
        names = set() if "crates.txt" in self.files else self.crates(of_edits=False)
        return tuple(sorted(names, key=lambda name: (len(self.all_below(name)), name)))

    @cached_property
    def proved(self) -> set[str]:
        """The crates that have to be proved: those that changed, and all that stand on one of them."""
        proved = self.crates(of_edits=False)
        for name in self.below:
            proved |= {name} if self.all_below(name) & proved else set()
        return proved

    def all_below(self, name: str) -> set[str]:
        """All crates that a crate stands on."""
        found: set[str] = set()
        left = list(self.below[name])
        while left:
            one = left.pop()
            if one not in found:
                found.add(one)
                left += self.below[one]
        return found

    def concerns(self, check: Check) -> bool:
        """Whether the check, which runs on a program, can notice it."""
        notices = NOTICES[check.name]
        reads = (f"tools/check/{check.function.__module__}.py", *notices.reads.split())
        is_read = any(name == each or name.startswith(f"{each}/") for name in self.files for each in reads)
        return is_read or bool(self.proved & set(notices.programs.split()))


@dataclass(frozen=True)
class Choice:
    """The checks that are to be run, with the words behind their names, and what is left out."""

    words: dict[str, tuple[str, ...]]
    left_out: list[str]


def choose(change: Change, checks: Iterable[Check] = CHECKS) -> Choice:
    """Chooses the checks that can notice a change."""
    tried = sorted(change.crates(of_edits=True) & set(crates_with_edits(change.top)))
    words: dict[str, tuple[str, ...]] = {PROVING: change.lowest_first} if change.lowest_first else {}
    whole = [check for check in checks if check.is_in_all]
    for check in whole:
        if check.name == GATE:
            is_chosen = bool(change.proved)
        elif check.name == BITES:
            is_chosen = bool(tried)
        else:
            is_chosen = check.needs is Needs.NOTHING or change.concerns(check)
        if is_chosen:
            words[check.name] = tuple(tried) if check.name == BITES else ()
    left = [check.name for check in whole if check.name not in words]
    above = sorted((change.proved & set(crates_with_edits(change.top))) - set(tried))
    lines = [f"left out: {', '.join(left)}: they can't notice these changes"] if left else []
    if above:
        lines.append(f"left out: the wrong bodies of {', '.join(above)}, which stand on what changed and did not change")
    return Choice(words, lines)


def fast() -> dict[str, tuple[str, ...]]:
    """The fast checks."""
    return {check.name: () for check in CHECKS if check.needs is Needs.NOTHING or check.name in FAST}


def since(top: Path, commit: str) -> Choice:
    """The checks that can notice what changed since a commit."""
    return choose(Change(top, changed_files(top, commit), stands_on(top)))
