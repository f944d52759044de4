"""The one way to run a program: its words, what it is given, and how it ended."""

import os
import select
import shlex
import subprocess
import time
from collections.abc import Mapping
from dataclasses import dataclass, field
from pathlib import Path

Word = str | bytes | Path
# How long a run may take if nothing else is said, and the status of one that didn't end in its time.
SECONDS = 600
LATE = 124


@dataclass(frozen=True)
class Call:
    """A program with its words. A file that it is given may be a folder too."""

    words: tuple[Word, ...]
    given: bytes | Path = b""
    environment: Mapping[str, str] = field(default_factory=dict)
    folder: Path | None = None

    def all_environment(self) -> dict[str, str]:
        """The environment of the run."""
        return {**os.environ, **self.environment}

    def shown(self, top: Path, given: Path) -> str:
        """The command that repeats the call, with this file as its input, at the top of the tree."""
        is_there = self.folder in (None, top)
        words = [os.fsdecode(word).removeprefix(f"{top}/" if is_there else "") for word in (*self.words, given)]
        inherited = ":" + os.environ["PATH"]
        own = {name: text for name, text in self.environment.items() if text != os.environ.get(name)}
        texts = {name: shlex.quote(text.removesuffix(inherited)) for name, text in own.items()}
        before = [f"{name}={text}{':$PATH' * self.environment[name].endswith(inherited)}" for name, text in texts.items()]
        there = "" if is_there else f"cd {shlex.quote(str(self.folder))} && "
        return there + " ".join([*before, *map(shlex.quote, words[:-1]), "<", shlex.quote(words[-1])])


@dataclass(frozen=True)
class Ended:
    """How a call ended."""

    call: Call
    status: int
    output: bytes
    error: bytes

    @property
    def text(self) -> str:
        """What it wrote."""
        return self.output.decode(errors="replace")

    @property
    def said(self) -> str:
        """What it wrote to standard error, without the newlines at its end."""
        return self.error.decode(errors="replace").rstrip("\n")

    @property
    def is_good(self) -> bool:
        """Whether it ended well, and said nothing."""
        return self.status == 0 and not self.error

    @property
    def all(self) -> str:
        """All that it wrote."""
        return self.text + self.error.decode(errors="replace")

    def end(self) -> str:
        """Its status and what it said."""
        return f"status {self.status}, {self.said or 'nothing said'}"


def run(call: Call, seconds: float = SECONDS) -> Ended:
    """Runs a call to its end, or for so many seconds."""
    descriptor = os.open(call.given, os.O_RDONLY) if isinstance(call.given, Path) else None
    try:
        done = subprocess.run(
            call.words,
            input=call.given if descriptor is None else None,
            stdin=descriptor,
            capture_output=True,
            cwd=call.folder,
            env=call.all_environment(),
            timeout=seconds,
        )
    except subprocess.TimeoutExpired as late:
        return Ended(call, LATE, late.stdout or b"", (late.stderr or b"") + f"no end after {seconds} seconds".encode())
    finally:
        if descriptor is not None:
            os.close(descriptor)
    return Ended(call, done.returncode, done.stdout, done.stderr)


@dataclass(frozen=True)
class Program:
    """A built rohcd, or what must behave as one."""

    path: Path
    folder: Path | None = None

    def call(self, *words: Word, given: bytes | Path = b"", environment: Mapping[str, str] | None = None) -> Call:
        """A call of it."""
        return Call((self.path, *words), given, environment or {}, self.folder)

    def replay(
        self, links: Path, given: bytes | Path, environment: Mapping[str, str] | None = None, seconds: float = SECONDS
    ) -> Ended:
        """Replays a script."""
        return run(self.call("replay", "--links", links, given=given, environment=environment), seconds)


class Live:
    """A call whose input stays open."""

    def __init__(self, call: Call) -> None:
        """Starts it."""
        self.call = call
        self.process = subprocess.Popen(
            call.words,
            bufsize=0,
            stdin=subprocess.PIPE,
            stdout=subprocess.PIPE,
            stderr=subprocess.DEVNULL,
            cwd=call.folder,
            env=call.all_environment(),
        )
        self.heard = b""

    def tell(self, line: str) -> None:
        """Sends a line."""
        assert self.process.stdin
        try:
            self.process.stdin.write(f"{line}\n".encode())
        except BrokenPipeError:
            return

    def hear(self, seconds: float) -> str:
        """The next line that it writes; nothing if none comes in so many seconds."""
        assert self.process.stdout
        until = time.monotonic() + seconds
        while b"\n" not in self.heard:
            ready = select.select([self.process.stdout], [], [], max(0, until - time.monotonic()))[0]
            more = os.read(self.process.stdout.fileno(), 65_536) if ready else b""
            if not more:
                return ""
            self.heard += more
        line, _, self.heard = self.heard.partition(b"\n")
        return line.decode(errors="replace")

    def end(self, seconds: float = SECONDS) -> int:
        """Closes its input. Returns its status."""
        assert self.process.stdin and self.process.stdout
        self.process.stdin.close()
        try:
            return self.process.wait(seconds)
        except subprocess.TimeoutExpired:
            self.process.kill()
            return LATE
        finally:
            self.process.stdout.close()
            self.process.wait()
