"""Runs bin/rohcd with a proved program and without one, and then bin/rohctl and bin/rohc-gateway.

In both bin/rohcd must behave as the program: each word and status, answers to a line before the next is sent, and a script of
three megabytes. Status 5 is the lack of memory, which only the program itself can be put to (`poverty`).
"""

import os
import shutil
import subprocess
import threading
import time
from collections.abc import Mapping
from concurrent.futures import ThreadPoolExecutor
from dataclasses import dataclass, field
from functools import partial
from hashlib import sha256
from pathlib import Path

from ends import is_live
from launcher_tools import BUILD_FAILED, NOT_BUILT, WITHOUT_TOOLCHAIN, check_tools, may_run
from program import Call, Ended, Word, run
from trial import Trial

BUILDS = "bin/rohcd: building the program once, without proofs; this takes some 40 seconds\n"
PROVING = "bin/rohcd: proving and building the program; this takes some 10 minutes on four processors\n"
WAITS = "bin/rohcd: waiting for another call that is building the program\n"
NO_PROOFS = "bin/rohcd: this build has no proofs, and is slow (bin/rohcd --build makes the proved program)"
# Between these docs/ARCHITECTURE.md shows the ways of packets.
WALKS, END_OF_WALKS = "<!-- walks: tools/walks.py -->", "<!-- end of walks -->"
WAIT = 30
SECONDS = 1200
LONG_SCRIPT = 2_800_000
QUIET = '#!/bin/bash\nexec ./call "$@" 2> >(grep -v "^bin/rohcd: " >&2)\n'
# A toolchain that waits until it may end, and then ends as it is told.
TOOLCHAIN = """\
#!/bin/bash
until [ -e "{0}/may_end" ]; do sleep 0.1; done
[ "$1" = run ] && [ -e "{0}/proves" ] || {{ echo 'not proved'; exit 1; }}
mkdir -p out && cp "{1}" out/rohcd
echo 'rohcd: command line'
exit 2
"""


@dataclass
class Launcher:
    """A tree with the launcher, which is called from another folder, through a link."""

    trial: Trial
    name: str
    # What the launcher itself writes to standard error.
    note: str = ""
    path: str = field(default_factory=lambda: os.environ["PATH"])

    def __post_init__(self) -> None:
        """Makes the tree."""
        (self.tree / "crates/rohcd/src").mkdir(parents=True)
        self.calls.mkdir()
        shutil.copytree(self.trial.top / "bin", self.tree / "bin")
        shutil.copy(self.trial.top / "crates.txt", self.tree)
        (self.calls / "call").symlink_to(self.tree / "bin/rohcd")
        (self.calls / "replay").touch()

    @property
    def tree(self) -> Path:
        """The tree."""
        return self.trial.scratch / self.name

    @property
    def calls(self) -> Path:
        """The folder from which it is called."""
        return self.trial.scratch / f"{self.name}-calls"

    @property
    def main(self) -> Path:
        """A source of the program."""
        return self.tree / "crates/rohcd/src/main.rt"

    @property
    def worked(self) -> Path:
        """The worked examples."""
        return self.trial.top / "examples/worked"

    @property
    def links(self) -> Path:
        """Their links file."""
        return self.worked / "links-1.toml"

    def call(self, *words: Word, given: bytes | Path = b"") -> Call:
        """A call of the launcher."""
        environment: Mapping[str, str] = {"PATH": self.path}
        return Call(("./call", *words), given, environment, self.calls)

    def sources(self, *words: str) -> bool:
        """Whether bin/sources says yes."""
        return run(Call((self.tree / "bin/sources", *words))).status == 0

    def ends(self, status: int, text: str, *words: Word, given: bytes | Path = b"") -> Ended:
        """The launcher must end with this status. Standard error must be the note, and then this text."""
        ended = run(self.call(*words, given=given), SECONDS)
        wanted = "\n".join(filter(None, (self.note, text)))
        holds = (ended.status, ended.said) == (status, wanted)
        shown = " ".join(map(str, words))
        self.trial.demand(holds, f"bin/rohcd {shown}: {ended.end()}; wanted {status}, {wanted}", ended.call)
        return ended

    def refuses(self, text: str, *words: Word) -> None:
        """It must refuse, and the last line must have this text."""
        ended = run(self.call(*words), SECONDS)
        last = ended.said.split("\n")[-1]
        holds = ended.status == 1 and last == f"bin/rohcd: {text}"
        shown = " ".join(map(str, words))
        self.trial.demand(holds, f"bin/rohcd {shown}: {ended.end()}; wanted 1, {text}", ended.call)

    def refuses_replay(self, text: str) -> None:
        """It must refuse to replay."""
        self.refuses(text, "replay", "--links", self.links)

    def answers(self, *words: Word) -> None:
        """It must answer the example."""
        given = self.worked / "plain-call.script"
        ended = self.ends(0, "", *(words or ("replay", "--links", self.links)), given=given)
        self.trial.same("bin/rohcd", (self.worked / "plain-call.answers").read_bytes(), ended.output, ended.call)

    def answers_live(self) -> None:
        """It must answer a line before the next is sent."""
        is_live(self.trial, self.call("replay", "--links", self.links), WAIT)

    def answers_pipe(self) -> None:
        """It must read the links file from a pipe."""
        pipe = self.calls / "links"
        os.mkfifo(pipe)
        writer = threading.Thread(target=lambda: pipe.write_bytes(self.links.read_bytes()), daemon=True)
        writer.start()
        self.answers("replay", "--links", pipe)
        pipe.unlink()

    def answers_long(self) -> None:
        """It must answer a script of three megabytes as the program does."""
        links, script = self.trial.top / "examples/two-links.toml", self.trial.scratch / "long"
        ended = self.ends(0, "", "replay", "--links", links, given=script)
        self.trial.same("a long script", (self.trial.scratch / "told").read_bytes(), ended.output, ended.call)

    def serves(self) -> None:
        """Datagrams, a port that is taken, and an output that is full, without what the launcher itself says."""
        (self.calls / "quiet").write_text(QUIET)
        may_run(self.calls / "quiet")
        scripts = [self.worked / f"{name}.script" for name in ("two-calls-and-noise", "relayed-feedback")]
        words = (self.trial.top / "tools/serve_script.py", "./quiet", self.links, *scripts)
        ended = run(Call(words, environment={"PATH": self.path}, folder=self.calls), SECONDS)
        self.trial.demand(ended.status == 0, f"serve: {ended.all}", ended.call)

    def behaves(self) -> None:
        """It must do all that the program does."""
        self.answers()
        self.answers("replay", f"--links={self.links}")
        self.answers_pipe()
        self.answers_live()
        self.answers_long()
        self.ends(2, "rohcd: command line")
        self.ends(2, "rohcd: command line", "rebuild")
        self.ends(2, "rohcd: command line", "serve", "--links", self.links)
        self.ends(3, "rohcd: links file: Unreadable", "replay", "--links", "absent.toml")
        self.ends(3, "rohcd: links file: BadVersion", "replay", "--links", "/dev/null")
        self.ends(4, "rohcd: read", "replay", "--links", self.links, given=self.calls)
        self.serves()
        self.refuses("unexpected word after --build; run bin/rohcd --build without another word", "--build", "replay")

    def change(self) -> None:
        """Changes a source."""
        with self.main.open("a") as source:
            source.write("\n")

    def change_back(self) -> None:
        """Takes the change back."""
        self.main.write_text(self.main.read_text()[:-1])


def make_long(trial: Trial) -> None:
    """A long script, and what the program answers."""
    script = trial.made("long", trial.top / "tools/random_script.py", "1", "50000")
    ended = trial.program.replay(trial.top / "examples/two-links.toml", script, seconds=SECONDS)
    trial.write("told", ended.output)
    trial.demand(script.stat().st_size > LONG_SCRIPT, "the long script is too short")


def check_proved(trial: Trial) -> None:
    """With a proved program, of one source; then the same without the toolchain on the path."""
    launcher = Launcher(trial, "proved")
    program = launcher.tree / "crates/rohcd/out/rohcd"
    program.parent.mkdir()
    launcher.main.write_text("a source\n")
    shutil.copy(trial.file, program)
    other = sha256(b"other\n").hexdigest()
    trial.demand(not launcher.sources("stands"), "a program stands that was never recorded")
    trial.demand(not launcher.sources("record", other), "a program of other sources is recorded")
    trial.demand(not launcher.sources("stands"), "a program of other sources stands")
    trial.demand(launcher.sources("record"), "bin/sources record: no program")
    launcher.behaves()
    if shutil.which("rt", path=WITHOUT_TOOLCHAIN):
        trial.leave_out("rt stands in /usr/bin or /bin, the launcher was not tried without it")
        return
    launcher.path = WITHOUT_TOOLCHAIN
    launcher.answers()
    launcher.main.write_text("another source\n")
    launcher.refuses_replay(NOT_BUILT)
    launcher.refuses("rt, the toolchain, is not on the PATH; install the toolchain", "--build")
    launcher.main.write_text("a source\n")
    shutil.copy("/bin/true", program)
    launcher.refuses_replay(NOT_BUILT)


def build_at_once(launcher: Launcher) -> None:
    """Of two calls at once one builds, and both answer."""
    wanted = (launcher.worked / "plain-call.answers").read_bytes()
    call = launcher.call("replay", "--links", launcher.links, given=launcher.worked / "plain-call.script")
    with ThreadPoolExecutor(2) as pool:
        ended = list(pool.map(partial(run, seconds=SECONDS), [call, call]))
    for number, one in enumerate(ended, 1):
        launcher.trial.same(f"call {number} of two at once: {one.end()}", wanted, one.output, call)
    said = "".join(one.said for one in ended)
    for text in BUILDS, WAITS:
        launcher.trial.demand(said.count(text) == 1, f"two calls at once: {said}; wanted one line {text}")


def check_walks(trial: Trial, program: Path) -> None:
    """docs/ARCHITECTURE.md shows the ways of packets as they are in this build."""
    if not shutil.which("gdb"):
        trial.leave_out("gdb is not installed, the ways of packets in docs/ARCHITECTURE.md were not compared")
        return
    ended = trial.ran("tools/walks.py", program, seconds=SECONDS)
    shown = (trial.top / "docs/ARCHITECTURE.md").read_text().partition(WALKS)[2].partition(END_OF_WALKS)[0]
    if trial.demand(ended.status == 0, f"tools/walks.py: {ended.end()}", ended.call):
        trial.same(f"docs/ARCHITECTURE.md: tools/walks.py {program} --write", ended.text.strip(), shown.strip())


def make_toolchain(launcher: Launcher) -> Path:
    """Puts another toolchain on the path."""
    scratch = launcher.trial.scratch
    tool = launcher.trial.write("toolchain/rt", TOOLCHAIN.format(scratch, launcher.trial.file))
    may_run(tool)
    launcher.path = f"{tool.parent}:{launcher.path}"
    return scratch / "may_end"


def check_build(launcher: Launcher) -> None:
    """--build: what isn't proved doesn't stand, nor what was proved from other sources."""
    trial = launcher.trial
    may_end = make_toolchain(launcher)
    may_end.touch()
    # The kept build serves without the toolchain, and not for other sources.
    launcher.answers()
    launcher.change()
    launcher.refuses_replay(BUILD_FAILED)
    launcher.change_back()
    launcher.refuses("the proof failed; the lines above, from the toolchain, say why", "--build")
    launcher.answers()
    trial.write("proves", "")
    may_end.unlink()

    def change_meanwhile() -> None:
        """Changes a source while it proves."""
        time.sleep(1)
        launcher.change()
        may_end.touch()

    meanwhile = threading.Thread(target=change_meanwhile)
    meanwhile.start()
    launcher.refuses("a source changed during the proof; run bin/rohcd --build again", "--build")
    meanwhile.join()
    launcher.change_back()
    launcher.answers()
    check_building(launcher, may_end)


def check_building(launcher: Launcher, may_end: Path) -> None:
    """While it proves, the kept build serves; then the proved program does."""
    may_end.unlink()
    call = launcher.call("--build")
    building = subprocess.Popen(
        call.words, cwd=call.folder, env=call.all_environment(), stdin=subprocess.DEVNULL, stderr=subprocess.PIPE
    )
    time.sleep(1)
    launcher.answers()
    launcher.answers_live()
    may_end.touch()
    _, said = building.communicate(timeout=SECONDS)
    wanted = f"{PROVING}bin/rohcd: the proved program is {launcher.tree}/crates/rohcd/out/rohcd\n"
    launcher.trial.demand(building.returncode == 0, f"--build: {said.decode(errors='replace')}", call)
    launcher.trial.same("--build", wanted.encode(), said, call)
    launcher.note = ""
    launcher.answers()
    launcher.answers_live()


def check_unproved(trial: Trial) -> None:
    """Without a proved program."""
    launcher = Launcher(trial, "unproved")
    shutil.copytree(
        trial.top / "crates", launcher.tree / "crates", ignore=shutil.ignore_patterns("out"), dirs_exist_ok=True
    )
    build_at_once(launcher)
    for program in (launcher.tree / "out/unproved").glob("rohcd-*"):
        check_walks(trial, program)
    launcher.note = NO_PROOFS
    launcher.behaves()
    check_build(launcher)


def check(trial: Trial) -> None:
    """Runs all of it."""
    make_long(trial)
    check_proved(trial)
    check_unproved(trial)
    check_tools(trial)
    if not trial.wrongs:
        trial.say("the launchers: as expected")
