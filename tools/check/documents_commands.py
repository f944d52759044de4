"""Runs the commands that documents show, and compares what they show of scripts and answers."""

import os
import re
from collections.abc import Iterator, Sequence
from pathlib import Path

from documents_text import block_at, documents
from program import Call, Program, run
from trial import Trial

MARK = "<!-- run -->"
BESIDE = re.compile(r"^<!-- beside (\S+) (\S+) -->$")


def marked_commands(text: str) -> Iterator[tuple[int, str | None, str]]:
    """Each marked command with the output that it must have. The command is None if no code block follows the mark."""
    lines = text.splitlines()
    for number, line in enumerate(lines):
        if line == MARK:
            command, behind = block_at(lines, number + 1)
            wanted, _ = block_at(lines, behind) if command else (None, behind)
            yield number + 1, command, wanted or ""


def check_commands(trial: Trial, names: Sequence[str]) -> None:
    """Runs the marked commands, and tells those with another output. The commands of a document share a folder."""
    count = 0
    for name in names:
        folder = trial.scratch / "documents" / name
        (folder / "bin").mkdir(parents=True)
        rohctl = trial.top / "crates/rohctl/out/rohctl"
        for link, target in (("rohcd", trial.file), ("rohctl", rohctl)):
            (folder / link).symlink_to(target)
            (folder / "bin" / link).symlink_to(target)
        (folder / "examples").symlink_to(trial.top / "examples")
        environment = {"PATH": f"{folder}:{os.environ['PATH']}", "LC_ALL": "C"}
        for line, command, wanted in marked_commands(documents(trial.top)[name]):
            count += 1
            if command is None:
                trial.wrong(f"{name}:{line}: a mark without a command")
                continue
            call = Call(("bash", "-eu", "-o", "pipefail", "-c", command), environment=environment, folder=folder)
            ended = run(call, 60)
            if ended.status != 0:
                trial.wrong(f"{name}:{line}: {ended.end()}, and not the output that the document shows", call)
            else:
                trial.same(f"{name}:{line}: the command's output", wanted, ended.output, call)
    trial.demand(count > 0 or bool(trial.words), "no document has a marked command")


def rows_of(program: Program, links: Path, script: str) -> Iterator[tuple[str, str]]:
    """The lines of a script beside the answers to each. A line stands beside its first answer, and nothing beside the others."""
    lines = script.splitlines()
    scripts = ["".join(f"{line}\n" for line in lines[:count]) for count in range(len(lines) + 1)]
    told = [program.replay(links, text.encode(), seconds=60).text.splitlines() for text in scripts]
    for line, before, after in zip(lines, told, told[1:]):
        answers = after[len(before) :] or [""]
        yield from zip([line] + [""] * (len(answers) - 1), answers)


def rows_shown(block: str) -> Iterator[tuple[str, list[str]]]:
    """The rows of a block as they stand: a line, its octets, an answer, its octets. The first line is a head."""
    lines = [line for line in block.splitlines() if line]
    middle = lines[0].find("comes out") if lines else 0
    for row in lines[1:]:
        halves = [re.fullmatch(r"(.*?)(?:  +(\d+))?", half.strip()) for half in (row[:middle], row[middle:])]
        yield row, [part or "" for half in halves for part in half.groups()]


def octets_at_the_end(line: str) -> str:
    """How many octets the last word of a line spells; nothing if it spells none."""
    word = line.split(" ")[-1]
    return str(len(word) // 2) if re.fullmatch(r"(?:[0-9a-f]{2})+", word) else ""


def is_shown(shown: str, text: str) -> bool:
    """Whether a text is shown, whole or with its middle cut out."""
    front, cut, end = shown.partition("..")
    is_cut = cut and front and end and len(front) + len(end) < len(text)
    return shown == text or bool(is_cut and text.startswith(front) and text.endswith(end))


def compare_rows(
    trial: Trial, name: str, script: str, shown: Sequence[tuple[str, list[str]]], wanted: Sequence[tuple[str, str]]
) -> None:
    """Compares the rows that a document shows with the lines of a script and their answers."""
    text = f"{name}: shows {len(shown)} rows of {script} where there are {len(wanted)}"
    trial.demand(len(shown) == len(wanted), text)
    for (row, cells), (line, answer) in zip(shown, wanted):
        counts = [octets_at_the_end(line), octets_at_the_end(answer)]
        holds = is_shown(cells[0], line) and is_shown(cells[2], answer) and cells[1::2] == counts
        told = " | ".join([line, counts[0], answer, counts[1]])
        trial.demand(holds, f"{name}: isn't what {script} is answered: {row}\n    wanted: {told}")


def check_beside(trial: Trial, names: Sequence[str]) -> None:
    """Compares each block that shows a script beside its answers with what the program answers."""
    count = 0
    for name in names:
        lines = documents(trial.top)[name].splitlines()
        for number, found in enumerate(map(BESIDE.match, lines)):
            if found:
                count += 1
                script = (trial.top / found[2]).read_text()
                wanted = list(rows_of(trial.program, trial.top / found[1], script))
                shown = list(rows_shown(block_at(lines, number + 1)[0] or ""))
                compare_rows(trial, name, found[2], shown, wanted)
    trial.demand(count > 0 or bool(trial.words), "no document shows a script beside its answers")
