"""Compiles each script in Python with warnings as errors, and finds tabs and blanks at the ends of lines.

It also runs the linters of scripts in bash and of manual pages.
"""

import warnings
from collections.abc import Iterator
from pathlib import Path

from trial import Trial

FOLDERS = ("bin", "bench", "tools", "python", "examples")
BASH_FOLDERS = ("bin", "bench", "tools", "tools/fuzz", "tests", ".ci", "completion", "cluster", "deploy", "examples/call")


def scripts(top: Path) -> Iterator[Path]:
    """The scripts in Python: by their name, or by their first line."""
    for file in sorted(file for folder in FOLDERS for file in (top / folder).rglob("*") if file.is_file()):
        with file.open("rb") as opened:
            first = opened.readline()
        if file.suffix == ".py" or (first.startswith(b"#!") and b"python" in first):
            yield file


def faults(top: Path, file: Path) -> Iterator[str]:
    """What is wrong with a script."""
    name = file.relative_to(top)
    text = file.read_text()
    try:
        compile(text, str(name), "exec")
    except (SyntaxError, Warning) as fault:
        yield f"{name}: {fault}"
    for number, line in enumerate(text.split("\n"), 1):
        if line != line.rstrip() or "\t" in line:
            yield f"{name}:{number}: a tab, or blanks at the end of the line"
    if not text.endswith("\n") or text.endswith("\n\n"):
        yield f"{name}: doesn't end with one newline"


def check_python(trial: Trial) -> None:
    """Tells the faults of the scripts in Python."""
    files = list(scripts(trial.top))
    with warnings.catch_warnings():
        warnings.simplefilter("error")
        for file in files:
            for fault in faults(trial.top, file):
                trial.wrong(fault)
    if trial.demand(bool(files), "there is no script in Python") and not trial.wrongs:
        trial.say(f"python: {len(files)} scripts compile")


def is_bash(file: Path) -> bool:
    """Whether a file is a script in bash, by its text."""
    if not file.is_file():
        return False
    lines = file.read_bytes().split(b"\n")
    return any((line.startswith(b"#!") and b"bash" in line) or line.startswith(b"# shellcheck shell=bash") for line in lines)


def check_shell(trial: Trial) -> None:
    """Runs shellcheck on the scripts in bash."""
    files = [file for folder in BASH_FOLDERS for file in sorted((trial.top / folder).glob("*")) if is_bash(file)]
    names = [str(file.relative_to(trial.top)) for file in files]
    if trial.demand(bool(names), "there is no script in bash"):
        trial.must_run("shellcheck", "--severity=warning", *names)


def check_manual(trial: Trial) -> None:
    """Runs mandoc on the manual pages."""
    names = [str(file.relative_to(trial.top)) for kind in ("*.1", "*.5") for file in sorted((trial.top / "man").glob(kind))]
    if trial.demand(bool(names), "there is no manual page"):
        trial.must_run("mandoc", "-T", "lint", "-W", "warning", *names)
