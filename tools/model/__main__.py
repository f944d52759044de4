"""A slow, plain model of the decompressor, written from the documents alone.

usage: python3 tools/model vectors < QUESTIONS
       python3 tools/model replay|repaired --links FILE < SCRIPT
       python3 tools/model calls < CALLS
       python3 tools/model random|made SEED COUNT --program FILE

`vectors` answers each question of crates/vectors/stdin. `replay` answers a script as `rohcd replay` does,
and `calls` the lines of crates/calls. `repaired` prints the numbers of the lines of a script whose packets are
delivered by the second or the third try. `random` and `made` compare the answers of a program with the model's,
on a random script of so many lines: `random` on one of tools/random_script.py, and `made` on one of packets
of random octets, most of which carry the right check.
"""

import sys

# The model leaves no compiled modules beside its own.
sys.dont_write_bytecode = True

from pathlib import Path  # noqa: E402

import against  # noqa: E402
import calls  # noqa: E402
import links  # noqa: E402
import vectors  # noqa: E402
from replay import repaired_lines, replay  # noqa: E402

HELP = (__doc__ or "").strip()


def settings_of(file: Path) -> dict[int, links.Setting]:
    """The settings of a links file."""
    try:
        return links.read(file.read_bytes())
    except OSError as fault:
        raise links.LinksFault("Unreadable") from fault


def show_replay(kind: str, file: Path, script: bytes) -> int:
    """Answers a script, or prints the numbers of the lines whose packets are repaired."""
    try:
        settings = settings_of(file)
    except links.LinksFault as fault:
        print(f"rohcd: links file: {fault}", file=sys.stderr)
        return 3
    for line in replay(settings, script) if kind == "replay" else repaired_lines(settings, script):
        print(line)
    return 0


def main(words: list[str]) -> int:
    """Does what the words say."""
    match words:
        case ["--help"]:
            print(HELP)
        case ["vectors"]:
            for line in vectors.answers(sys.stdin.read().splitlines()):
                print(line)
        case ["calls"]:
            for line in calls.answers(sys.stdin.buffer.read()):
                print(line)
        case ["replay" | "repaired" as kind, "--links", file]:
            return show_replay(kind, Path(file), sys.stdin.buffer.read())
        case ["random" | "made" as kind, seed, count, "--program", file] if seed.isdecimal() and count.isdecimal():
            return against.compare(kind, seed, count, Path(file))
        case _:
            print(HELP, file=sys.stderr)
            return 2
    return 0


if __name__ == "__main__":
    sys.exit(main(sys.argv[1:]))
