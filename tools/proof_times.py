#!/usr/bin/env python3
"""Lists the functions of a crate whose proofs take longest, in seconds.

usage: tools/proof_times.py CRATE [MOST]

It proves the crate from nothing, by one process, over the libraries that `rt lib` or the gate built in this checkout, and
prints the MOST (20) slowest functions. A function that is the first to use a library also has the time in which that is
loaded. Functions that hold values with a drop across many `?` or arms of a match are slow: let one function own such
values, and lend them to another that has the `?`.
"""

import subprocess
import sys
import time
from collections.abc import Iterator
from pathlib import Path

TOP = Path(__file__).resolve().parent.parent
sys.path.insert(0, str(TOP / "tools/check"))
from prover import Crates, kit  # noqa: E402

MOST = 20


def proofs(crates: Crates, name: str) -> Iterator[tuple[float, str]]:
    """The functions of a crate, each with the seconds since the one before it, as they are proved. The error is the prover's."""
    words = [str(kit() / "bin/rattle"), *crates.words(name), "--progress"]
    said = []
    with subprocess.Popen(
        words, cwd=TOP / "crates" / name, stdout=subprocess.PIPE, stderr=subprocess.STDOUT, text=True, errors="replace"
    ) as process:
        before = time.monotonic()
        for line in process.stdout or ():
            said.append(line)
            if line.startswith("checked "):
                now = time.monotonic()
                yield now - before, line.split()[1].rstrip(",")
                before = now
    if process.returncode != 0:
        raise RuntimeError("".join(said[-5:]).strip())


def main(words: list[str]) -> int:
    """Prints the slowest functions. The status is 1 if the crate isn't proved, and 2 for wrong words."""
    if words == ["--help"]:
        print((__doc__ or "").strip())
        return 0
    crates = Crates(TOP)
    if len(words) not in (1, 2) or words[0] not in crates.rows or not all(word.isdigit() for word in words[1:]):
        print("tools/proof_times.py: expected a crate of crates.txt, and how many functions", file=sys.stderr)
        return 2
    try:
        found = list(proofs(crates, words[0]))
    except RuntimeError as fault:
        print(f"tools/proof_times.py: {words[0]} is not proved: {fault}", file=sys.stderr)
        return 1
    for seconds, function in sorted(found, reverse=True)[: int(words[1]) if words[1:] else MOST]:
        print(f"{seconds:7.1f}  {function}")
    print(f"{sum(seconds for seconds, _ in found):7.1f}  all {len(found)} functions of {words[0]}")
    return 0


if __name__ == "__main__":
    sys.exit(main(sys.argv[1:]))
