#!/usr/bin/env python3
"""Writes the worked examples out as scripts and their answers.

usage: tools/expand_examples.py [FOLDER]

It reads worked_examples.txt beside it, and writes examples/worked/NAME.script and NAME.answers. All examples, with their
questions, go to crates/worked, which the gate runs: to data/examples.txt, with the links files and the hostile lines
beside it, and their answers to stdout. Those of worked_calls.txt go to crates/calls in the same way. Scripts with lines
of 100,000 octets and more aren't kept in the repository: with FOLDER only these are written, to that folder. It knows
only the rows, and nothing of how a decompressor comes by an answer.
"""

import pathlib
import re
import shutil
import sys
from dataclasses import dataclass, replace

HERE = pathlib.Path(__file__).resolve().parent
SCRIPTS = HERE.parent / "examples" / "worked"
PROGRAM = HERE.parent / "crates" / "worked"
CALLS = HERE.parent / "crates" / "calls"

STATIC_CHAIN = "40110a0000010a0000021388138a00000001"
DYNAMIC_CHAIN = "004000012000000090000001000000a0000980a0"

SCRIPT_LINE = ">"
QUESTION = "?"
# The answers that have octets.
WITH_OCTETS = ("ip", "feedback", "relay")


@dataclass(frozen=True)
class Turn:
    """A line of a script, or a question, with its answers, how often it stands there, and the number of the first."""

    mark: str
    line: str
    times: int
    first: int
    answers: tuple[str, ...] = ()


def header(fields):
    """The octets of the header P(tos id sum m sn ts), with a UDP checksum if one is given."""
    tos, ip_id, header_sum, marker, sn, ts, udp_sum = (fields.split() + ["0000"])[:7]
    return (
        f"45{tos}0029{ip_id}00004011{header_sum}0a0000010a000002"
        f"1388138a0015{udp_sum}80{marker}{sn}{ts}00000001"
    )


def written_out(line):
    """The line with its octets in full, as one word: the fourth word of an arrival, or of an answer with octets."""
    words = line.split(" ", 3)
    if len(words) < 4 or not (words[0] == "arrive" or words[2] in WITH_OCTETS):
        return line
    octets = re.sub(r"P\((.*?)\)", lambda found: header(found.group(1)), words[3])
    octets = octets.replace("S", STATIC_CHAIN).replace("Y", DYNAMIC_CHAIN)
    return " ".join(words[:3] + [octets.replace(" ", "")])


def turn_of(mark, line):
    """A turn, which has no answers yet."""
    times = re.search(r" \*(?:(\d+)\.\.)?(\d+)$", line)
    line = line[: times.start()] if times else line
    first, last = (int(times[1] or 1), int(times[2])) if times else (1, 1)
    return Turn(mark, written_out(line) if mark == SCRIPT_LINE else line, last - first + 1, first)


def answered(turn, line):
    """The turn with one more line of answers."""
    return replace(turn, answers=(*turn.answers, line if turn.mark == QUESTION else written_out(line)))


def read_examples(text):
    """The turns of each example by its name."""
    examples = {}
    for line in text.splitlines():
        if not line or line.startswith("#"):
            continue
        if line.startswith("= "):
            turns = examples[line[2:]] = []
        elif line.startswith("+ "):
            turns.extend(examples[line[2:]])
        elif line.startswith(("> ", "? ")):
            turns.append(turn_of(line[0], line[2:]))
        else:
            turns[-1] = answered(turns[-1], line)
    return examples


def has_script(turns):
    """Whether an example has a script, which may be empty, and not questions only."""
    return not turns or any(turn.mark == SCRIPT_LINE for turn in turns)


def is_flooded(turns):
    """Whether hostile lines stand between those of an example."""
    return any(turn.mark == QUESTION and turn.line.startswith("hostile_lines ") for turn in turns)


def is_long(turns):
    """Whether a line of an example is too long to be kept whole."""
    return any("{" in turn.line for turn in turns)


def script(turns):
    """The script of an example."""
    text = "".join(f"{turn.line}\n" * turn.times for turn in turns if turn.mark == SCRIPT_LINE).replace("$\n", "")
    return re.sub(r"\{(\w+)\*(\d+)\}", lambda found: found[1] * int(found[2]), text)


def texts(lines):
    """These lines, each ended by a newline."""
    return "".join(f"{line}\n" for line in lines)


def script_answers(turns):
    """The answers to the script of an example."""
    return "".join(texts(turn.answers) * turn.times for turn in turns if turn.mark == SCRIPT_LINE)


def given(name, turns):
    """What crates/worked reads of an example."""
    return f"= {name}\n" + "".join(f"{turn.mark} {turn.line}\n" * turn.times for turn in turns)


def wanted(name, turns):
    """What crates/worked must write of an example: its questions and all answers, and how many lines of its script are
    events and how many are bad."""
    text, counts = f"= {name}\n", [0, 0]
    for turn in turns:
        if turn.mark == QUESTION:
            text += f"? {turn.line}\n"
        else:
            counts[texts(turn.answers).startswith("- - refused ")] += turn.times
        text += texts(turn.answers) * turn.times
    return text + f"events {counts[0]} bad {counts[1]}\n"


def write_scripts(folder, examples, long):
    """Writes the scripts of the long examples, or of all others, and their answers."""
    for name, turns in examples.items():
        if has_script(turns) and not is_flooded(turns) and is_long(turns) == long:
            (folder / f"{name}.script").write_text(script(turns))
            (folder / f"{name}.answers").write_text(script_answers(turns))


def write_program(examples):
    """Writes what crates/worked reads, and what it must write."""
    data = PROGRAM / "data"
    data.mkdir(parents=True, exist_ok=True)
    (data / "examples.txt").write_text("".join(given(*example) for example in examples.items()))
    (data / "hostile-lines.script").write_text(script(examples["hostile-lines"]))
    for links in SCRIPTS.glob("links-*.toml"):
        shutil.copyfile(links, data / links.name)
    (PROGRAM / "stdout").write_text("".join(wanted(*example) for example in examples.items()))


def numbered(turn, text):
    """A text once for each time that a turn stands there, with the number of that time for each %."""
    return "".join(text.replace("%", str(turn.first + place)) for place in range(turn.times))


def write_calls(examples):
    """Writes what crates/calls reads, and what it must write."""
    (CALLS / "data").mkdir(parents=True, exist_ok=True)
    files = {"data/calls.txt": lambda turn: f"{turn.line}\n", "stdout": lambda turn: texts(turn.answers)}
    for file, text_of in files.items():
        text = ""
        for name, turns in examples.items():
            text += f"= {name}\n" + "".join(numbered(turn, text_of(turn)) for turn in turns)
        (CALLS / file).write_text(text)


def main():
    if sys.argv[1:] == ["--help"]:
        print(__doc__.strip())
        return
    folders = [pathlib.Path(word) for word in sys.argv[1:]]
    if len(folders) > 1 or not all(folder.is_dir() for folder in folders):
        sys.exit(__doc__)
    examples = read_examples((HERE / "worked_examples.txt").read_text())
    if folders:
        write_scripts(folders[0], examples, True)
        return
    write_scripts(SCRIPTS, examples, False)
    write_program(examples)
    write_calls(read_examples((HERE / "worked_calls.txt").read_text()))


if __name__ == "__main__":
    main()
