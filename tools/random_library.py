#!/usr/bin/env python3
"""Runs random scripts through the library for C under the sanitizers.

usage: tools/random_library.py [SCRIPTS [LINES]]

Each of SCRIPTS (10,000) is tools/random_script.py's, by its number, of LINES (200) lines, and goes through
examples/gateway.c, built with the address and undefined behaviour sanitizers. Its answers are those of the proved rohcd, where
that stands (`bin/check` makes it), and otherwise lines of a defined form. Ends at the first that isn't as wanted.
"""

import re
import subprocess
import sys
import tempfile
from pathlib import Path

import random_script

TOP = Path(__file__).resolve().parent.parent
ROHCD = TOP / "crates/rohcd/out/rohcd"
LINKS = TOP / "examples/two-links.toml"
OCTETS = rb"(?:-|(?:[0-9a-f]{2})+)"
LINE = re.compile(
    rb"\d+ (?:- relay %b|\d+ (?:ip %b|stored|feedback %b)|(?:\d+|-) refused \w+)|- - refused \w+" % (OCTETS, OCTETS, OCTETS)
)


def build(folder):
    """Builds the gateway with the sanitizers."""
    subprocess.run([TOP / "bin/lib", folder], check=True)
    flags = ["-std=c99", "-g", "-O1", "-fsanitize=address,undefined", "-fno-sanitize-recover=all", "-I", TOP / "include"]
    gateway = folder / "gateway"
    library = ["-L", folder, "-l:libpolorowan.a"]
    subprocess.run(["cc", *flags, "-o", gateway, TOP / "examples/gateway.c", *library], check=True)
    lines = subprocess.run([TOP / "tools/link_lines.py", LINKS], check=True, capture_output=True).stdout
    (folder / "links").write_bytes(lines)
    return [gateway, folder / "links"]


def run(words, script):
    """The answers of a program to a script. The program must end well."""
    done = subprocess.run(words, input=script, capture_output=True)
    if done.returncode != 0 or done.stderr:
        sys.exit(f"{words[0]}: status {done.returncode}: {done.stderr.decode()}")
    return done.stdout


def main():
    if sys.argv[1:] == ["--help"]:
        print(__doc__.strip())
        return
    words = sys.argv[1:]
    if len(words) > 2 or not all(word.isdigit() for word in words):
        sys.exit(__doc__)
    scripts, count = list(map(int, words)) + [10_000, 200][len(words) :]
    with tempfile.TemporaryDirectory() as folder:
        gateway = build(Path(folder))
        for seed in range(scripts):
            script = "".join(f"{line}\n" for line in random_script.lines(seed, count)).encode()
            answers = run(gateway, script)
            if ROHCD.exists():
                as_wanted = answers == run([ROHCD, "replay", "--links", LINKS], script)
            else:
                as_wanted = all(LINE.fullmatch(line) for line in answers.splitlines())
            if not as_wanted:
                sys.exit(f"script {seed} of {count} lines: NOT as wanted")
    print(f"{scripts} random scripts of {count} lines as wanted{'' if ROHCD.exists() else ', by their form'}")


if __name__ == "__main__":
    main()
