"""Runs the checks of the repository; bin/check says how it is called."""

import sys
from inspect import cleandoc, getdoc
from os import X_OK, access
from pathlib import Path
from subprocess import CalledProcessError

import proofs_table
from registry import CHECKS, PROGRAM, TOP, Check, Needs
from run import Order, run_checks
from since import fast, since
from table import faults, page

BY_NAME = {check.name: check for check in CHECKS}


def refuse(text: str) -> int:
    """Says what is wrong with the words."""
    print(f"bin/check: {text}", file=sys.stderr)
    return 2


def show_list() -> int:
    """Prints each check with what it needs and what it shows."""
    print(f"{'name':16}{'needs':11}shows")
    for check in CHECKS:
        print(f"{check.name:16}{check.needs.value:11}{check.shows}")
    print(f"\n{Needs.PROGRAM.value}: {PROGRAM}, as the gate left it, proved from these sources")
    return 0


def show_table() -> int:
    """Prints the page of what is tested. The status is 1 if it lacks something."""
    print(page(), end="")
    found = list(faults())
    for fault in found:
        print(f"tools/check/registry.py: {fault}", file=sys.stderr)
    return int(bool(found))


def write_proofs() -> int:
    """Writes the part of docs/PROOFS.md that the sources have."""
    text = proofs_table.page(TOP)
    (TOP / "docs/PROOFS.md").write_text(text)
    return 0


def show_help(check: Check) -> int:
    """Prints what a check says of itself."""
    module = sys.modules[check.function.__module__]
    text = getdoc(check.function if module.__name__ == "registry" else module) or ""
    print(f"bin/check {check.name}: {check.shows}.\n\n{cleandoc(text)}")
    return 0


def run_since(commit: str) -> int:
    """Runs the checks that can notice what changed since a commit, and ends by naming what it left out."""
    try:
        choice = since(TOP, commit)
    except CalledProcessError as fault:
        return refuse(f"since {commit}: {fault.stderr.strip()}")
    status = run_checks(*ordered(choice.words))
    print(*choice.left_out, sep="\n")
    return status


def ordered(
    words: dict[str, tuple[str, ...]], program: Path = TOP / PROGRAM, is_given: bool = False
) -> tuple[list[Check], Order]:
    """The checks of these names in their order, and what is asked of them."""
    checks = [check for check in CHECKS if check.name in words]
    is_all = all(check in checks for check in CHECKS if check.is_in_all)
    return checks, Order(words, program, is_given, is_all)


def read(words: list[str]) -> dict[str, tuple[str, ...]] | str:
    """The names of checks, each with the words behind it, or what is wrong."""
    chosen: dict[str, tuple[str, ...]] = {}
    last = ""
    for word in words:
        if word in BY_NAME:
            last = word
            chosen.setdefault(word, ())
        elif last and BY_NAME[last].knows(TOP, word):
            chosen[last] += (word,)
        else:
            what = f"{last} has no part {word}, and " if last else ""
            return f"{what}there is no check {word}; there are {', '.join(BY_NAME)}"
    return chosen


def main(words: list[str]) -> int:
    """Does what the words say, and returns the status."""
    if words == ["--list"]:
        return show_list()
    if words == ["--table"]:
        return show_table()
    if words == ["--proofs"]:
        return write_proofs()
    sys.stdout.reconfigure(errors="replace")  # type: ignore[union-attr]
    if words == ["fast"]:
        return run_checks(*ordered(fast()))
    if len(words) == 2 and words[0] == "since":
        return run_since(words[1])
    if len(words) == 2 and words[0] in BY_NAME and words[1] == "--help":
        return show_help(BY_NAME[words[0]])
    is_given = words[:1] == ["--program"]
    program = Path(words[1] if is_given and len(words) > 1 else TOP / PROGRAM).resolve()
    if is_given and not (program.is_file() and access(program, X_OK)):
        return refuse(f"no program at {program}")
    chosen = read(words[2:] if is_given else words)
    if isinstance(chosen, str):
        return refuse(chosen)
    return run_checks(*ordered(chosen or {check.name: () for check in CHECKS if check.is_in_all}, program, is_given))


if __name__ == "__main__":
    sys.exit(main(sys.argv[1:]))
