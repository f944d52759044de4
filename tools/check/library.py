"""Builds the library for C, and runs it from C.

examples/gateway.c must answer each example and each whole script as expected, octet for octet, and random scripts as the
program does. tools/library_calls.c calls the library at its limits, and tools/library_running.c while links come and go,
with many packets in one call, and from four threads that read at once. All run under the address sanitizer and under
valgrind, if these are installed, and the readers under helgrind. tools/library_memory.c counts the memory that calls ask for and give back. The header
is compiled as C99, C11 and C++. Scripts go on in other processes from saved calls. examples/udp_gateway.c takes a packet,
the package in Python and the example in Go run the examples, and pkg-config and CMake find the installed library. tools/stress
runs for a short while, and finds bugs that are planted. shipping.py has what the library is to others.
"""

import os
import shutil
from dataclasses import dataclass
from pathlib import Path

import restarts
import shipping
from examples import LONG, SCRIPTS, WORKED, Example, make_long, names_in, with_links
from trial import Trial

WARNINGS = ("-Wall", "-Wextra", "-Wpedantic", "-Werror")
LANGUAGES = (
    "-x c -std=c99",
    "-x c -std=c11",
    "-x c++ -std=c++98 -Wno-long-long",
    "-x c++ -std=c++11",
)
RUNNING = "-std=c11 -pthread"
EDGES = "-std=c11 -Wl,--wrap=malloc,--wrap=realloc"
COUNTING = "-std=c11 -Wl,--wrap=malloc,--wrap=calloc,--wrap=realloc,--wrap=free"
SANITIZER = "-g -fsanitize=address,undefined -fno-sanitize-recover=all"
VALGRIND = ("valgrind", "-q", "--error-exitcode=9", "--leak-check=full")
HELGRIND = ("valgrind", "-q", "--error-exitcode=9", "--tool=helgrind")
INSTALLED = ("lib/libpolorowan.a", "lib/pkgconfig/polorowan.pc", "include/polorowan.h", "share/doc/polorowan/LIBRARY.md")
SECONDS = 3600
STRESS_SECONDS = "10"


class NotBuilt(Exception):
    """The library or a program of this check can't be built. What is said stands in the trial."""


@dataclass(frozen=True)
class Library:
    """The library, built into this check's own folder."""

    trial: Trial

    @property
    def folder(self) -> Path:
        """Where it stands."""
        return self.trial.scratch

    @property
    def compiler(self) -> str:
        """The compiler for C."""
        return os.environ.get("CC", "cc")

    @property
    def call_of_example(self) -> Example:
        """An example that runs in several ways."""
        worked = self.trial.top / WORKED
        return with_links("two-calls-and-noise", worked, worked)[0]

    def copy_built(self) -> bool:
        """Copies the library that bin/lib left in out, if it is there."""
        files = list((self.trial.top / "out").glob("libpolorowan.*"))
        for file in files:
            shutil.copy(file, self.folder)
        return any(file.suffix == ".a" for file in files)

    def make(self) -> None:
        """Builds it."""
        environment = {"POLOROWAN_OVER_GATE": "1" if self.trial.over_gate else ""}
        if not self.trial.must_run(self.trial.top / "bin/lib", self.folder, environment=environment, seconds=SECONDS):
            raise NotBuilt

    def build(self, flags: str, source: str, program: str) -> Path:
        """Builds a program in C with the library."""
        made = self.folder / program
        words = [self.compiler, *WARNINGS, *flags.split(), "-I", "include", "-o", made, source, "-L", self.folder]
        if not self.trial.must_run(*words, "-l:libpolorowan.a"):
            raise NotBuilt
        return made

    def links(self, file: Path) -> Path:
        """The lines of a links file, as the programs in C read it."""
        return self.trial.made("links", self.trial.top / "tools/link_lines.py", file)

    def is_answered(self, program: Path, example: Example) -> bool:
        """A program must answer an example as expected."""
        ended = self.trial.ran(program, self.links(example.links), given=example.script)
        if not ended.is_good:
            return self.trial.wrong(f"{program.name}: {example.title}: {ended.end()}", ended.call)
        return self.trial.same(f"{program.name}: {example.title}", example.answers.read_bytes(), ended.output, ended.call)


def check_header(library: Library) -> None:
    """The header alone, in each language that it supports."""
    for language in LANGUAGES:
        words = (library.compiler, *WARNINGS, *language.split(), "-I", "include", "-fsyntax-only", "-")
        ended = library.trial.ran(*words, given=b'#include "polorowan.h"\n')
        library.trial.demand(ended.status == 0, f"include/polorowan.h with {language}: NOT read: {ended.said}", ended.call)


def all_examples(trial: Trial) -> list[Example]:
    """Every example and script."""
    top, worked = trial.top, trial.top / WORKED
    found = [case for name in names_in(top, WORKED) for case in with_links(name, worked, worked)]
    found += [case for name in LONG for case in with_links(name, trial.scratch / "long", worked)]
    for folder in ("examples", SCRIPTS):
        for name in names_in(top, folder):
            script = top / folder / f"{name}.script"
            links = script.with_suffix(".toml")
            links = links if links.exists() else top / "examples/links.toml"
            found.append(Example(name, links, script, script.with_suffix(".answers")))
    return found


def all_answers(library: Library, program: Path) -> None:
    """A program must answer every example and script as expected."""
    count = sum(library.is_answered(program, example) for example in all_examples(library.trial))
    library.trial.say(f"{program.name}: {count} runs of examples and scripts answered as wanted")


def must_end_well(library: Library, *words: str | Path) -> None:
    """A program must end with status 0. What it says is told."""
    ended = library.trial.ran(*words, seconds=SECONDS)
    library.trial.say(ended.all)
    names = " ".join(Path(word).name for word in words)
    library.trial.demand(ended.status == 0, f"{names}: status {ended.status}", ended.call)


def sanitizes(library: Library) -> bool:
    """Whether the sanitizers are there."""
    tried = library.folder / "try"
    words = (library.compiler, "-fsanitize=address,undefined", "-x", "c", "-o", tried, "-")
    built = library.trial.ran(*words, given=b"int main(void) { return 0; }\n").status == 0
    return built and library.trial.ran(tried).status == 0


def check_sanitized(library: Library) -> None:
    """The same under the sanitizers."""
    if sanitizes(library):
        all_answers(library, library.build(f"-std=c99 {SANITIZER}", "examples/gateway.c", "sanitized_gateway"))
        must_end_well(library, library.build(f"{EDGES} {SANITIZER}", "tools/library_calls.c", "sanitized_calls"))
        must_end_well(library, library.build(f"{RUNNING} {SANITIZER}", "tools/library_running.c", "sanitized_running"))


def check_valgrind(library: Library, gateway: Path, calls: Path, running: Path) -> None:
    """The calls, and one example, under valgrind; threads that read at once under helgrind."""
    if not shutil.which("valgrind"):
        library.trial.leave_out("valgrind is not installed, the library was not run with it")
        return
    must_end_well(library, *VALGRIND, calls)
    must_end_well(library, *VALGRIND, running)
    must_end_well(library, *HELGRIND, running, "readers")
    answers_call(library, *VALGRIND, gateway)


def check_stress(library: Library) -> None:
    """A short run of tools/stress, and planted bugs, which it must find."""
    if not sanitizes(library):
        library.trial.leave_out("the sanitizers are not installed, tools/stress was not run")
        return
    must_end_well(library, library.trial.top / "tools/stress", STRESS_SECONDS, library.folder)
    must_end_well(library, library.trial.top / "tools/stress", "--test", library.folder)


def answers_call(library: Library, *words: str | Path) -> None:
    """A program must answer one example."""
    example = library.call_of_example
    ended = library.trial.ran(*words, library.links(example.links), given=example.script, seconds=SECONDS)
    library.trial.demand(ended.status == 0, f"{words[-1]}: {ended.end()}", ended.call)
    library.trial.same(f"{words[-1]}: {example.title}", example.answers.read_bytes(), ended.output, ended.call)


def check_random(library: Library, gateway: Path) -> None:
    """Random scripts, compared with the program."""
    trial = library.trial
    links = trial.top / "examples/two-links.toml"
    if not trial.file.exists():
        return
    for seed in ("1", "2", "3"):
        script = trial.made("random", trial.top / "tools/random_script.py", seed, "20000")
        wanted = trial.program.replay(links, script, seconds=SECONDS)
        trial.demand(wanted.status == 0, f"random script {seed}: {wanted.end()}", wanted.call)
        answers = trial.write("wanted", wanted.output)
        library.is_answered(gateway, Example(f"random script {seed}", links, script, answers))


def check_restarts(library: Library, gateway: Path) -> None:
    """Calls that go on in another process."""
    found = all_examples(library.trial)
    files = {example.links for example in found}
    tool = library.trial.top / "tools/link_lines.py"
    lines_of = {file: library.trial.made(f"links-{number}", tool, file) for number, file in enumerate(sorted(files))}
    restarts.check(library.trial, gateway, found, lines_of)


def check_beside(library: Library) -> None:
    """The gateway on sockets, and the package in Python."""
    trial = library.trial
    gateway = library.build("-std=c99 -O2", "examples/udp_gateway.c", "udp_gateway")
    must_end_well(library, trial.top / "tools/udp_gateway_test.py", gateway, library.links(library.call_of_example.links))
    if (library.folder / "libpolorowan.so").is_file():
        environment = {"POLOROWAN_LIBRARY": str(library.folder)}
        ended = trial.ran("python3", trial.top / "python/test_polorowan.py", environment=environment, seconds=SECONDS)
        trial.say(ended.all)
        trial.demand(ended.status == 0, f"python/test_polorowan.py: status {ended.status}", ended.call)


def check_installed(library: Library) -> None:
    """The installed library, as pkg-config finds it."""
    trial, prefix = library.trial, library.folder / "prefix"
    shipping.check_other(trial, library.folder, prefix)
    environment = {"POLOROWAN_OVER_GATE": "1" if trial.over_gate else ""}
    ended = trial.ran(trial.top / "bin/install", "--library", prefix, environment=environment, seconds=SECONDS)
    trial.demand(ended.status == 0, f"bin/install --library: {ended.all}", ended.call)
    for name in INSTALLED:
        holds = str(prefix / name) in ended.text.splitlines() and (prefix / name).is_file()
        trial.demand(holds, f"bin/install --library: no {name}")
    shipping.others_stay(trial, prefix)
    shipping.check_first(trial, prefix)
    example = library.call_of_example
    shipping.check_cmake(trial, prefix, library.links(example.links), example.script, example.answers.read_bytes())
    if not shutil.which("pkg-config"):
        trial.leave_out("pkg-config is not installed, the library was not run with it")
        return
    found = trial.ran("pkg-config", "--cflags", "--libs", "polorowan", environment={"PKG_CONFIG_PATH": f"{prefix}/lib/pkgconfig"})
    trial.demand(found.status == 0, f"pkg-config: {found.end()}", found.call)
    installed = library.folder / "installed"
    flags = (*found.text.split(), f"-Wl,-rpath,{prefix}/lib")
    trial.must_run(library.compiler, "-std=c99", "-o", installed, "examples/gateway.c", *flags)
    answers_call(library, installed)


def check_shipped(library: Library) -> None:
    """Its names, versions and the ways in which it is linked."""
    example = library.call_of_example
    links = library.links(example.links)
    shipping.check(library.trial, library.folder, links, example.script, example.answers.read_bytes())


def check_callers(trial: Trial) -> None:
    """The header, the callers in C and the package in Python, with the library that bin/lib left in out."""
    library = Library(trial)
    if not library.copy_built():
        trial.leave_out("out has no library, the callers in C and Python were not run (bin/lib builds it)")
        return
    try:
        check_header(library)
        make_long(trial)
        all_answers(library, library.build("-std=c99 -O2", "examples/gateway.c", "gateway"))
        must_end_well(library, library.build(EDGES, "tools/library_calls.c", "calls"))
        must_end_well(library, library.build(COUNTING, "tools/library_memory.c", "memory"))
        must_end_well(library, library.build(f"{RUNNING} -O2", "tools/library_running.c", "running"))
        check_beside(library)
    except NotBuilt:
        trial.say("callers: a caller isn't built, so the rest wasn't tried")


def check(trial: Trial) -> None:
    """Runs all of it."""
    library = Library(trial)
    try:
        library.make()
        check_header(library)
        make_long(trial)
        gateway = library.build("-std=c99 -O2", "examples/gateway.c", "gateway")
        calls = library.build(EDGES, "tools/library_calls.c", "calls")
        memory = library.build(COUNTING, "tools/library_memory.c", "memory")
        running = library.build(f"{RUNNING} -O2", "tools/library_running.c", "running")
        all_answers(library, gateway)
        must_end_well(library, calls)
        must_end_well(library, running)
        must_end_well(library, memory)
        check_sanitized(library)
        check_valgrind(library, gateway, calls, running)
        check_stress(library)
        check_random(library, gateway)
        check_restarts(library, gateway)
        check_beside(library)
        check_shipped(library)
        check_installed(library)
    except NotBuilt:
        trial.say("library: a part of it isn't built, so the rest wasn't tried")
