"""Runs bin/rohctl and bin/rohc-gateway with a proved program and without one.

What a toolchain builds without proofs is the proved program here, since a real build takes longer than all the rest.
"""

import shutil
import stat
from dataclasses import dataclass
from pathlib import Path

from program import Call, Ended, Word, run
from trial import Trial

WITHOUT_TOOLCHAIN = "/usr/bin:/bin"
NOT_BUILT = "there is no proved program, and rt, the toolchain, is not on the PATH; install the toolchain or a package"
BUILD_FAILED = "the build without proofs failed; the lines above, from the toolchain, say why"
# A toolchain that builds a program, unless it is told to fail, and runs it with the words behind its own. It may be told
# to change a source too.
TOOLCHAIN = """\
#!/bin/bash
[ "$1" = try ] && [ ! -e "{0}/fails" ] || {{ echo 'not built'; exit 1; }}
[ ! -e "{0}/changes" ] || echo >>src/main.rt
mkdir "$TMPDIR/rt-try" && cp "{1}" "$TMPDIR/rt-try/program"
until [ "$1" = -- ]; do shift; done
"$TMPDIR/rt-try/program" "${{@:2}}"
status=$?
rm -r "$TMPDIR/rt-try"
exit "$status"
"""


def may_run(file: Path) -> Path:
    """A file that is made executable."""
    file.chmod(file.stat().st_mode | stat.S_IXUSR | stat.S_IXGRP | stat.S_IXOTH)
    return file


@dataclass
class Tool:
    """A tree with a launcher, the crate of its program, and words with which it is called."""

    trial: Trial
    name: str
    crate: str
    words: tuple[tuple[Word, ...], ...]
    path: str = WITHOUT_TOOLCHAIN

    def __post_init__(self) -> None:
        """Makes the tree."""
        self.source.parent.mkdir(parents=True)
        self.source.write_text("a source\n")
        shutil.copytree(self.trial.top / "bin", self.tree / "bin")
        shutil.copy(self.trial.top / "crates.txt", self.tree)

    @property
    def tree(self) -> Path:
        """The tree."""
        return self.trial.scratch / self.name

    @property
    def source(self) -> Path:
        """A source of the program."""
        return self.tree / f"crates/{self.crate}/src/main.rt"

    @property
    def program(self) -> Path:
        """The proved program, which the gate made."""
        return self.trial.top / f"crates/{self.crate}/out/{self.crate}"

    @property
    def kept(self) -> list[Path]:
        """The builds without proofs that are kept."""
        return list((self.tree / "out/unproved").glob(f"{self.name}-*"))

    @property
    def builds(self) -> str:
        """What the launcher says before it builds."""
        return f"bin/{self.name}: building the program once, without proofs; this takes up to two minutes on four processors\n"

    @property
    def note(self) -> str:
        """What the launcher says of a build without proofs."""
        return f"bin/{self.name}: this build has no proofs, and is slow (bin/check gate makes the proved program)\n"

    def run(self, *words: Word) -> Ended:
        """How the launcher ends."""
        return run(Call((self.tree / "bin" / self.name, *words), environment={"PATH": self.path}, folder=self.trial.top))

    def behaves(self, *notes: str) -> None:
        """It must do all that the program does. Before the first run it must say all of these notes, then the last alone."""
        said = "".join(notes)
        for words in self.words:
            ended = self.run(*words)
            wanted = run(Call((self.program, *words), folder=self.trial.top))
            holds = (ended.status, ended.output) == (wanted.status, wanted.output)
            shown = " ".join(map(str, words))
            self.trial.demand(holds, f"bin/{self.name} {shown}: {ended.end()}; the program: {wanted.end()}", ended.call)
            self.trial.same(f"bin/{self.name} {shown}", said.encode() + wanted.error, ended.error, ended.call)
            said = notes[-1] if notes else ""

    def refuses(self, text: str) -> None:
        """It must refuse, and the last line must have this text."""
        ended = self.run(*self.words[0])
        holds = ended.status == 1 and ended.said.split("\n")[-1] == f"bin/{self.name}: {text}"
        self.trial.demand(holds, f"bin/{self.name}: {ended.end()}; wanted 1, {text}", ended.call)

    def helps(self, is_there: bool) -> None:
        """`--help` must show how the launcher is called, and then the program's own help if the program is there."""
        ended = self.run("--help")
        own = run(Call((self.program, "--help"))).text
        holds = ended.is_good and f"\nusage: bin/{self.name} " in ended.text and ended.text.endswith(f"\n\n{own}") == is_there
        self.trial.demand(holds, f"bin/{self.name} --help: {ended.all}", ended.call)

    def check_proved(self) -> None:
        """With a proved program, and then without one, and without a toolchain."""
        program = self.tree / f"crates/{self.crate}/out/{self.crate}"
        program.parent.mkdir()
        shutil.copy(self.program, program)
        self.refuses(NOT_BUILT)
        self.helps(False)
        digest = run(Call((self.tree / "bin/sources", "digest"))).text.strip()
        self.trial.must_run(self.tree / "bin/sources", "record", digest, self.crate)
        self.behaves()
        self.helps(True)
        self.source.write_text("another source\n")
        self.refuses(NOT_BUILT)

    def check_unproved(self) -> None:
        """Without a proved program: a build without proofs is made once, and kept until a source changes."""
        fails = self.trial.write("fails", "")
        tool = may_run(self.trial.write(f"{self.name}-toolchain/rt", TOOLCHAIN.format(self.trial.scratch, self.program)))
        self.path = f"{tool.parent}:{WITHOUT_TOOLCHAIN}"
        unwritten = self.trial.write(f"{self.name}/out", "")
        self.refuses(f"cannot write into {self.tree}/out/unproved; expected a checkout that this user may write")
        unwritten.unlink()
        self.refuses(BUILD_FAILED)
        fails.unlink()
        changes = self.trial.write("changes", "")
        self.refuses(f"a source changed during the build; run bin/{self.name} again")
        changes.unlink()
        self.behaves(self.builds, self.note)
        self.helps(True)
        first = self.kept
        self.path = WITHOUT_TOOLCHAIN
        self.behaves(self.note)
        self.source.write_text("a third source\n")
        self.refuses(NOT_BUILT)
        self.path = f"{tool.parent}:{WITHOUT_TOOLCHAIN}"
        self.behaves(self.builds, self.note)
        holds = len(first) == len(self.kept) == 1 and first != self.kept
        self.trial.demand(holds, f"bin/{self.name}: kept {first}, and then {self.kept}")


def check_tools(trial: Trial) -> None:
    """Runs both launchers."""
    if shutil.which("rt", path=WITHOUT_TOOLCHAIN):
        trial.leave_out("rt stands in /usr/bin or /bin, bin/rohctl and bin/rohc-gateway were not tried")
        return
    links = trial.top / "examples/links.toml"
    rohctl = Tool(trial, "rohctl", "rohctl", (("links", links), ("links", "/dev/null"), ("--version",), ("no", "such word")))
    gateway = Tool(trial, "rohc-gateway", "rohc_gateway", (("check", "absent.toml"), ("--version",), ()))
    for tool in (rohctl, gateway):
        tool.check_proved()
        tool.check_unproved()
