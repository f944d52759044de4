"""Compares the answers of a program with the model's, on random scripts."""

import subprocess
import sys
from collections.abc import Iterator
from pathlib import Path

import links
import made
from replay import replay_by_line

TOP = Path(__file__).resolve().parent.parent.parent
LINKS = {"random": TOP / "examples/two-links.toml", "made": TOP / "examples/worked/links-2.toml"}


def random_script(kind: str, seed: str, count: str) -> bytes:
    """A random script of so many lines."""
    if kind == "made":
        settings = links.read(LINKS[kind].read_bytes())
        return b"".join(line + b"\n" for line in made.lines(settings, seed, int(count)))
    words = [sys.executable, "-B", TOP / "tools/random_script.py", seed, count]
    return subprocess.run(words, stdout=subprocess.PIPE, check=True).stdout


def answers_of(program: Path, file: Path, script: bytes) -> list[str]:
    """The answer lines of a program, with a links file."""
    words = [program, "replay", "--links", file]
    done = subprocess.run(words, input=script, stdout=subprocess.PIPE, check=True)
    return done.stdout.decode().splitlines()


def differences(file: Path, script: bytes, found: list[str]) -> Iterator[str]:
    """The first line of a script whose answers aren't the model's, with both."""
    place = 0
    for number, (line, wanted) in enumerate(replay_by_line(links.read(file.read_bytes()), script), 1):
        theirs = found[place : place + len(wanted)]
        place += len(wanted)
        if theirs != wanted:
            yield f"line {number}: {line.decode(errors='backslashreplace')}"
            yield from (f"    model:   {answer}" for answer in wanted)
            yield from (f"    program: {answer}" for answer in theirs)
            return
    if place != len(found):
        yield f"the program has {len(found) - place} more answers"


def compare(kind: str, seed: str, count: str, program: Path) -> int:
    """Tells the first difference, if there is one. The status is 1 then."""
    script = random_script(kind, seed, count)
    found = answers_of(program.resolve(), LINKS[kind], script)
    told = list(differences(LINKS[kind], script, found))
    delivered = sum(" ip " in answer for answer in found)
    for line in told or [f"{kind} {seed}: {len(found)} answers alike, {delivered} packets delivered"]:
        print(line)
    return int(bool(told))
