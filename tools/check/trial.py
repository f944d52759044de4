"""What a check gets, and how it tells what it found."""

import os
import subprocess
from collections.abc import Mapping, Sequence
from dataclasses import dataclass, field
from functools import cached_property
from pathlib import Path

from compare import difference
from program import SECONDS, Call, Ended, Program, Word, run

LEFT_OUT = "left out: "


@dataclass
class Trial:
    """One run of a check: the tree, the program, a folder of its own, and what it says.

    The words are those that stood behind the check's name. It may be one of all checks. The folder stays if the check
    fails. The last line is said once more at the end of all.
    """

    top: Path
    file: Path
    scratch: Path
    words: tuple[str, ...] = ()
    over_gate: bool = False
    is_all: bool = False
    lines: list[str] = field(default_factory=list)
    rights: int = 0
    wrongs: int = 0
    last: str = ""

    @property
    def program(self) -> Program:
        """The program that is tested."""
        return Program(self.file, self.top)

    @property
    def tried(self) -> int:
        """How much was tried."""
        return self.rights + self.wrongs

    def say(self, text: str) -> None:
        """Tells something."""
        self.lines += text.splitlines()

    def leave_out(self, text: str) -> None:
        """Tells what isn't tried, and why."""
        self.say(LEFT_OUT + text)

    def wrong(self, text: str, call: Call | None = None) -> bool:
        """Tells a fault, and the command that shows it."""
        self.wrongs += 1
        self.say(text)
        if call:
            self.say(f"    repeat: {self.repeat(call)}")
        return False

    def demand(self, holds: bool, text: str, call: Call | None = None) -> bool:
        """Tells a fault if something doesn't hold."""
        if not holds:
            return self.wrong(text, call)
        self.rights += 1
        return True

    def same(self, name: str, wanted: bytes | str, found: bytes | str, call: Call | None = None) -> bool:
        """Tells the first difference if what is found isn't what is wanted."""
        texts = [text.encode() if isinstance(text, str) else text for text in (wanted, found)]
        differ = difference(*texts)
        if differ:
            return self.wrong("\n".join([f"{name}: NOT as wanted", *differ.lines()]), call)
        self.rights += 1
        return True

    def repeat(self, call: Call) -> str:
        """The command that repeats a call. What it was given stands in a file."""
        given = call.given
        if isinstance(given, bytes) and given:
            file = self.scratch / f"given-{self.wrongs}"
            file.write_bytes(given)
            given = file
        return call.shown(self.top, given if isinstance(given, Path) else Path("/dev/null"))

    def write(self, name: str, text: bytes | str) -> Path:
        """A file of this check's own folder with a text."""
        file = self.scratch / name
        file.parent.mkdir(parents=True, exist_ok=True)
        file.write_bytes(text.encode() if isinstance(text, str) else text)
        return file

    def ran(
        self,
        *words: Word,
        given: bytes | Path = b"",
        environment: Mapping[str, str] | None = None,
        seconds: float = SECONDS,
    ) -> Ended:
        """How a command ended that ran at the top of the tree."""
        return run(Call(words, given, environment or {}, self.top), seconds)

    def must_run(
        self, *words: Word, environment: Mapping[str, str] | None = None, seconds: float = SECONDS
    ) -> bool:
        """Tells what a command said if it failed."""
        ended = self.ran(*words, environment=environment, seconds=seconds)
        return self.demand(ended.status == 0, f"status {ended.status}: {ended.all.strip()}", ended.call)

    def shown_live(self, *words: str, environment: Mapping[str, str] | None = None) -> int:
        """The status of a command at the top of the tree, which is shown as it goes on."""
        pipe, all_environment = subprocess.PIPE, {**os.environ, **(environment or {})}
        with subprocess.Popen(
            words, cwd=self.top, stdout=pipe, stderr=subprocess.STDOUT, encoding="utf-8", errors="replace", env=all_environment
        ) as process:
            for line in process.stdout or ():
                self.last = line.rstrip("\n")
                print(self.last, flush=True)
        return process.returncode

    def made(self, name: str, *words: Word) -> Path:
        """A file of this check's own folder with what a command writes."""
        ended = self.ran(*words)
        if ended.status != 0:
            raise RuntimeError(f"{self.repeat(ended.call)}: {ended.end()}")
        return self.write(name, ended.output)

    def compiled(self, source: str) -> Path:
        """A library for LD_PRELOAD."""
        file = self.scratch / f"{Path(source).stem}.so"
        self.made("compiler.log", "cc", "-shared", "-fPIC", "-O1", "-o", file, self.top / source)
        return file

    @cached_property
    def short_reads(self) -> Path:
        """The library that makes reads short."""
        return self.compiled("tools/short_reads.c")

    def in_pieces(self, size: int) -> dict[str, str]:
        """The environment in which a program reads pieces of at most this size."""
        return {"LD_PRELOAD": str(self.short_reads), "OCTETS_A_READ": str(size)}

    def chosen(self, names: Sequence[str]) -> list[str]:
        """Those of these names that are asked for, or all."""
        return [name for name in names if name in (self.words or names)]
