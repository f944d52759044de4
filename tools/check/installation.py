"""Runs bin/install with a proved program and without one. Tries the completion, and tools/link_lines.py on faulty files."""

import os
import re
import shutil
from dataclasses import dataclass
from pathlib import Path

from program import Call, Ended, run
from trial import Trial

USAGE = "usage: bin/install PREFIX"
ROHCTL = "crates/rohctl/out/rohctl"
GATEWAY = "crates/rohc_gateway/out/rohc_gateway"
NOT_PROVED = "bin/install: expected a program that is proved from exactly these sources"
# Prints the completion of its words; the last is being typed.
COMPLETE = (
    '. "$0" && COMP_WORDS=("$@") COMP_CWORD=$(($# - 1)) && _rohcd && '
    "printf '%s\\n' \"${COMPREPLY[@]}\" | LC_ALL=C sort | tr '\\n' ' '"
)
COMPLETIONS = (
    ("replay serve", ("",)),
    ("replay", ("re",)),
    ("--links", ("replay", "--")),
    ("--count --links --port", ("serve", "")),
    ("--count --port", ("serve", "--links", "x.toml", "--")),
    ("--count --port", ("serve", "--links", "=", "x.toml", "--")),
    ("--count --port", ("serve", "--links=x.toml", "--")),
    ("folder lines links.toml more.conf", ("replay", "--links", "")),
    ("lines links.toml", ("replay", "--links", "li")),
    ("folder/inner", ("replay", "--links", "folder/")),
    ("folder lines links.toml more.conf", ("replay", "--links", "=")),
    ("more.conf", ("serve", "--links", "=", "mo")),
    ("--links=more.conf", ("serve", "--links=mo")),
    ("", ("serve", "--port", "")),
    ("", ("serve", "--port", "=", "")),
    ("", ("other", "--")),
)


@dataclass(frozen=True)
class Tree:
    """A tree with the installer, one source and a program that was never recorded as proved."""

    trial: Trial
    folder: Path

    @property
    def program(self) -> Path:
        """Its program."""
        return self.folder / "crates/rohcd/out/rohcd"

    @property
    def prefix(self) -> Path:
        """Where it installs."""
        return self.trial.scratch / "put"

    def make(self) -> None:
        """Makes the tree."""
        top = self.trial.top
        for name in ("bin", "man", "completion", "examples", "deploy"):
            shutil.copytree(top / name, self.folder / name)
        shutil.copy(top / "crates.txt", self.folder)
        self.program.parent.mkdir(parents=True)
        self.source("a source\n")
        shutil.copy(self.trial.file, self.program)
        for program in (ROHCTL, GATEWAY):
            (self.folder / program).parent.mkdir(parents=True)
            shutil.copy(top / program, self.folder / program)

    def source(self, text: str) -> None:
        """Gives its source this text."""
        self.trial.write("tree/crates/rohcd/src/main.rt", text)

    def install(self, *words: str | Path) -> Ended:
        """How its installer ends."""
        return run(Call((self.folder / "bin/install", *words), folder=self.trial.top))

    def refuses(self, status: int, text: str, *words: str | Path) -> None:
        """It must end with this status, its standard error must start with this text, and nothing may be installed."""
        ended = self.install(*words)
        what = f"bin/install {' '.join(map(str, words))}"
        holds = ended.status == status and ended.said.startswith(text) and not ended.output
        self.trial.demand(holds, f"{what}: {ended.end()}; wanted {status}, {text}", ended.call)
        self.trial.demand(not self.prefix.is_dir(), f"{what}: something was put", ended.call)


def check_refusals(tree: Tree) -> None:
    """Wrong words, and a program that isn't the proved one of these sources."""
    prefix = tree.prefix
    for words in (), ("",), ("--other",), (prefix, "more"):
        tree.refuses(2, USAGE, *words)
    tree.refuses(1, NOT_PROVED, prefix)
    tree.trial.must_run(tree.folder / "bin/sources", "record")
    tree.source("another source\n")
    tree.refuses(1, NOT_PROVED, prefix)
    tree.source("a source\n")
    shutil.copy("/bin/true", tree.program)
    tree.refuses(1, NOT_PROVED, prefix)
    shutil.copy(tree.trial.file, tree.program)
    file = tree.trial.write("file", "")
    tree.refuses(1, f"bin/install: {file} is not a directory", file)
    tree.refuses(1, "bin/install: cannot make the directory /dev/null/put/bin", "/dev/null/put")


def check_installed(tree: Tree) -> None:
    """The program must be installed, and all that the head of bin/install names."""
    trial, share = tree.trial, tree.prefix / "share"
    ended = tree.install(tree.prefix)
    trial.demand(ended.status == 0, f"bin/install: refused a proved program: {ended.end()}", ended.call)
    trial.demand(not (tree.prefix / "bin/rohctl").exists(), "bin/install: a rohctl was put that was never recorded")
    digest = trial.ran(tree.folder / "bin/sources", "digest").text.strip()
    for program in ("rohctl", "rohc_gateway"):
        trial.must_run(tree.folder / "bin/sources", "record", digest, program)
    again = tree.install(tree.prefix)
    trial.demand(again.status == 0, f"bin/install: refused three proved programs: {again.end()}", again.call)
    unit = (tree.prefix / "lib/systemd/system/rohc-gateway@.service").read_text()
    trial.demand(f"ExecStart={tree.prefix}/bin/rohc-gateway run" in unit, "bin/install: the unit names another program")
    pairs = (
        (trial.top / ROHCTL, tree.prefix / "bin/rohctl"),
        (trial.top / "completion/rohctl.bash", share / "bash-completion/completions/rohctl"),
        (trial.top / "completion/_rohctl", share / "zsh/site-functions/_rohctl"),
        (trial.top / "completion/rohctl.fish", share / "fish/vendor_completions.d/rohctl.fish"),
        (trial.top / "man/rohctl.1", share / "man/man1/rohctl.1"),
        (trial.top / GATEWAY, tree.prefix / "bin/rohc-gateway"),
        (trial.top / "completion/rohc-gateway.bash", share / "bash-completion/completions/rohc-gateway"),
        (trial.top / "completion/_rohc-gateway", share / "zsh/site-functions/_rohc-gateway"),
        (trial.top / "completion/rohc-gateway.fish", share / "fish/vendor_completions.d/rohc-gateway.fish"),
        (trial.top / "man/rohc-gateway.1", share / "man/man1/rohc-gateway.1"),
        (trial.top / "deploy/link.js", share / "doc/rohc-gateway/link.js"),
        *((trial.top / f"deploy/{name}", share / f"doc/rohc-gateway/{name}") for name in ("loopback.nft", "both.nft", "reached.nft", "standby", "move-link")),
        (trial.top / "deploy/entrypoint", tree.prefix / "lib/rohc-gateway/entrypoint"),
        (trial.top / "deploy/rohc-tun@.service", tree.prefix / "lib/systemd/system/rohc-tun@.service"),
        (trial.file, tree.prefix / "bin/rohcd"),
        (trial.top / "man/rohcd.1", share / "man/man1/rohcd.1"),
        (trial.top / "man/rohc-links.5", share / "man/man5/rohc-links.5"),
        (trial.top / "man/rohc-script.5", share / "man/man5/rohc-script.5"),
        (trial.top / "completion/rohcd.bash", share / "bash-completion/completions/rohcd"),
        (trial.top / "examples/links.toml", share / "doc/rohcd/examples/links.toml"),
    )
    scripts = ("share/doc/rohc-gateway/standby", "share/doc/rohc-gateway/move-link", "lib/rohc-gateway/entrypoint")
    for name in scripts:
        trial.demand(os.access(tree.prefix / name, os.X_OK), f"bin/install: {name} can't be executed")
    for source, copy in pairs:
        trial.demand(copy.is_file() and copy.read_bytes() == source.read_bytes(), f"bin/install: {copy} isn't {source}")
    examples = share / "doc/rohcd/examples"
    call = Call((tree.prefix / "bin/rohcd", "replay", "--links", "links.toml"), examples / "plain-call.script", {}, examples)
    answered = run(call)
    trial.same("the installed program", (examples / "plain-call.answers").read_bytes(), answered.output, call)


def check_completion(trial: Trial) -> None:
    """What bash completes."""
    typing = trial.scratch / "typing"
    for name in ("links.toml", "lines", "more.conf", "folder/inner"):
        trial.write(f"typing/{name}", "")
    script = trial.top / "completion/rohcd.bash"
    for wanted, words in COMPLETIONS:
        ended = run(Call(("bash", "-c", COMPLETE, script, "rohcd", *words), folder=typing))
        found = ended.text.removesuffix("\n").rstrip(" ")
        trial.demand(found == wanted, f"completion of '{' '.join(words)}': '{found}'; wanted '{wanted}'", ended.call)


def refuses_links(trial: Trial, text: str, file: Path) -> None:
    """tools/link_lines.py must refuse a links file in one line that ends with this text."""
    ended = trial.ran(trial.top / "tools/link_lines.py", file)
    said = ended.all.rstrip("\n")
    holds = ended.status == 1 and said == f"link_lines.py: {file}: {text}"
    trial.demand(holds, f"tools/link_lines.py: status {ended.status}, {said}; wanted {text}", ended.call)


def check_link_lines(trial: Trial) -> None:
    """Faulty links files, and what tools/link_lines.py says to each."""
    links = (trial.top / "examples/links.toml").read_text()

    def changed(key: str, line: str) -> str:
        """The links file with another line."""
        return re.sub(f"^{key} = .*", line, links, flags=re.MULTILINE)

    refuses_links(trial, "No such file or directory", trial.scratch / "absent.toml")
    refuses_links(trial, "Is a directory", trial.scratch)
    cases: tuple[tuple[str, str | bytes], ...] = (
        ("isn't UTF-8 at octet 3", b"# \xff\n"),
        ("Invalid value (at line 2, column 8)", "version = 1\nlink = x\n"),
        ("there is no table [[link]]", "version = 1\n"),
        ("link isn't an array of tables", "link = 1\n"),
        ("link table 1 isn't a table", "link = [1]\n"),
        ("link table 2 has no number", f"{links}[[link]]\n"),
        ("number of link table 1 isn't a whole number", changed("number", "number = true")),
        ("k1 of link table 1 isn't a whole number", changed("k1", 'k1 = "2"')),
        ("cid of link table 1 isn't a text", changed("cid", "cid = 1")),
        ("range of link table 1 isn't an array of tables", f"{links}range = 1\n"),
        ("range 1 of link table 1 isn't a table", f"{links}range = [1]\n"),
        ("range 1 of link table 1 has no mode", f"{links}range = [{{ first = 1, last = 2 }}]\n"),
    )
    for number, (text, content) in enumerate(cases):
        refuses_links(trial, text, trial.write(f"faulty-{number}.toml", content))


def check(trial: Trial) -> None:
    """Runs all of it."""
    tree = Tree(trial, trial.scratch / "tree")
    tree.make()
    check_refusals(tree)
    check_installed(tree)
    check_completion(trial)
    check_link_lines(trial)
    if not trial.wrongs:
        trial.say("installation: as expected")
