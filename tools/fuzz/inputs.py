"""Makes inputs of the fuzzer, which tools/fuzz/target.c describes.

usage: python3 tools/fuzz/inputs.py write FOLDER LINKS SCRIPT..    writes scripts as inputs
       python3 tools/fuzz/inputs.py pack FOLDER > FILE             writes inputs as lines, in base64
       python3 tools/fuzz/inputs.py unpack FOLDER < FILE           makes inputs of such lines

Of a script, the links of small CIDs become the fuzzer's first, and those of large CIDs its second. Times come to the
nearest step that it has. Packets of more than 255 octets are left out.
"""

import sys
from base64 import b64decode, b64encode
from collections.abc import Iterator
from hashlib import sha256
from pathlib import Path

# It leaves no compiled modules.
sys.dont_write_bytecode = True
sys.path.append(str(Path(__file__).resolve().parent.parent / "model"))

from links import Setting, read  # noqa: E402
from replay import ARRIVE  # noqa: E402

LONGEST = 255
EVENTS = 96
# Milliseconds, each with its flags.
STEPS = ((0, 0x00), (20, 0x10), (400, 0x20), (70_000, 0x30))
LARGE, RESET = 0x01, 0x02
# O mode, and the second of three failures leads to Static Context.
SETTINGS = 0x03


def step(milliseconds: int) -> int:
    """The flags of the nearest step."""
    return min((abs(milliseconds - one), flags) for one, flags in STEPS)[1]


def events(links: dict[int, Setting], script: bytes) -> Iterator[bytes]:
    """The events of a script."""
    before, reset = 0, 0
    for line in script.splitlines():
        arrives = ARRIVE.fullmatch(line)
        reset |= RESET * line.startswith(b"reset ")
        if not arrives or int(arrives[1]) not in links or arrives[3] == b"-" or len(arrives[3]) > 2 * LONGEST:
            continue
        octets, moment = bytes.fromhex(arrives[3].decode()), int(arrives[2])
        flags = step(max(0, moment - before)) | reset | LARGE * (not links[int(arrives[1])].is_small)
        before, reset = moment, 0
        yield bytes([flags, len(octets)]) + octets


def keep(folder: Path, text: bytes) -> None:
    """Writes an input."""
    (folder / sha256(text).hexdigest()[:16]).write_bytes(text)


def write(folder: Path, links: dict[int, Setting], scripts: list[str]) -> None:
    """Writes scripts as inputs."""
    for name in scripts:
        found = list(events(links, Path(name).read_bytes()))
        for at in range(0, len(found), EVENTS):
            keep(folder, bytes([SETTINGS]) + b"".join(found[at : at + EVENTS]))


def main(words: list[str]) -> int:
    """Does what the words say."""
    match words:
        case ["--help"]:
            print((__doc__ or "").strip())
        case ["write", folder, links, *scripts] if scripts:
            write(Path(folder), read(Path(links).read_bytes()), scripts)
        case ["pack", folder]:
            for file in sorted(Path(folder).iterdir(), key=lambda file: (file.stat().st_size, file.name)):
                print(b64encode(file.read_bytes()).decode())
        case ["unpack", folder]:
            for line in sys.stdin:
                keep(Path(folder), b64decode(line))
        case _:
            print((__doc__ or "").strip(), file=sys.stderr)
            return 2
    return 0


if __name__ == "__main__":
    sys.exit(main(sys.argv[1:]))
