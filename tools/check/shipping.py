"""The library as others get it: its names, its versions, and the ways in which it is linked.

Only what polorowan.h declares leaves the archive and the shared object. The names, files and packages of librohc, another
library, stay free: both are linked into one program and installed into one prefix, with a stand-in for the other. The
library is linked with --whole-archive, with -flto, into a plugin, twice into one process, by CMake, and with musl.
"""

import re
import shutil
import zipfile
from collections.abc import Iterator
from pathlib import Path

from program import Call, run
from trial import Trial

SYMBOLS = "tools/library_symbols.txt"
HEADER = "include/polorowan.h"
# What the library asks of C.
ASKED = {"malloc", "realloc", "free", "memcpy", "memmove", "memset", "memcmp", "bcmp"}
# Names, files and packages of the other library.
OTHER_SOURCE = """
#include "rohc.h"
int rohc_version(void) { return 2; }
void rohc_free(void *it) { (void)it; }
"""
OTHER_HEADER = """
#ifndef ROHC_H
#define ROHC_H
enum rohc_status { ROHC_OK, ROHC_NO_CONTEXT };
struct rohc_decomp;
int rohc_version(void);
void rohc_free(void *it);
#endif
"""
BOTH = """
#include "polorowan.h"
#include "rohc.h"
#include <stdio.h>
int main(void) {
    rohc_free(0);
    puts(polorowan_version());
    return rohc_version() == 2 && ROHC_NO_CONTEXT == 1 ? 0 : 1;
}
"""
# Runs the gateway of examples/gateway.c in each of these plugins, from the start of standard input.
HOST = """
#include <dlfcn.h>
#include <stdio.h>
int main(int count, char **words) {
    for (int i = 2; i < count; i++) {
        void *plugin = dlopen(words[i], RTLD_NOW | RTLD_LOCAL);
        int (*run)(int, char **) = 0;
        if (plugin) *(void **)&run = dlsym(plugin, "gateway_main");
        if (!run) return 9;
        char *own[] = {words[0], words[1], 0};
        rewind(stdin);
        if (run(2, own) != 0) return 8;
    }
    return 0;
}
"""
CMAKE = """
cmake_minimum_required(VERSION 3.13)
project(user C)
find_package(polorowan {version} REQUIRED)
add_executable(shared_gateway {gateway})
target_link_libraries(shared_gateway polorowan::polorowan)
add_executable(static_gateway {gateway})
target_link_libraries(static_gateway polorowan::static)
"""
FROM_WHEEL = """
from polorowan import Concentrator, Link
with Concentrator([Link(1)]) as concentrator:
    print(concentrator.arrive(1, 0, bytes.fromhex("fc00b745aa")).packet.hex())
"""
VERSIONS = (
    ("python/pyproject.toml", r'^version = "([^"]*)"$'),
    ("bindings/rust/Cargo.toml", r'^version = "([^"]*)"$'),
    ("crates/rohctl_words/src/words.rt", r'\.version\("([^"]*)"\)'),
    ("CHANGELOG.md", r"^## ([0-9.]+)\b"),
)


def version(trial: Trial) -> str:
    """The version, from the one file that has it."""
    return (trial.top / "VERSION").read_text().strip()


def check_versions(trial: Trial) -> None:
    """Each place that tells the version tells that of VERSION."""
    wanted = version(trial)
    for file, pattern in VERSIONS:
        found = re.search(pattern, (trial.top / file).read_text(), re.MULTILINE)
        trial.demand(found is not None and found[1] == wanted, f"{file}: its version isn't {wanted}, as in VERSION")
    header = (trial.top / HEADER).read_text()
    numbers = [re.search(rf"^#define POLOROWAN_VERSION_{part} (\d+)$", header, re.MULTILINE) for part in ("MAJOR", "MINOR", "PATCH")]
    found_version = ".".join(number[1] if number else "?" for number in numbers)
    trial.same(f"{HEADER}: its version", wanted, found_version)


def names(trial: Trial, *words: str | Path) -> list[str]:
    """The symbols that nm prints."""
    ended = trial.ran("nm", *words)
    trial.demand(ended.status == 0, f"nm: {ended.end()}", ended.call)
    return sorted(line.split()[-1] for line in ended.text.splitlines() if line.strip() and not line.endswith(":"))


def declared(trial: Trial) -> list[str]:
    """The functions that the header declares."""
    text = re.sub(r"/\*.*?\*/", "", (trial.top / HEADER).read_text(), flags=re.DOTALL)
    return sorted(set(re.findall(r"\b(polorowan_\w+)\(", text)))


def check_symbols(trial: Trial, folder: Path) -> None:
    """The names that leave the library are those of the header, and those that were written down."""
    kept = (trial.top / SYMBOLS).read_text()
    trial.same(f"{SYMBOLS}: what {HEADER} declares", "".join(f"{name}\n" for name in declared(trial)), kept)
    left = names(trial, "--defined-only", "--extern-only", folder / "libpolorowan.a")
    trial.same("libpolorowan.a: the names that leave it", kept, "".join(f"{name}\n" for name in left))
    asked = set(names(trial, "--undefined-only", folder / "libpolorowan.a")) - {"_GLOBAL_OFFSET_TABLE_"}
    trial.demand(asked <= ASKED, f"libpolorowan.a asks for {' '.join(sorted(asked - ASKED))}")
    shared = folder / "libpolorowan.so"
    if not shared.exists():
        return
    left = names(trial, "--dynamic", "--defined-only", shared)
    trial.same("libpolorowan.so: the names that leave it", kept, "".join(f"{name}\n" for name in left))
    ended = trial.ran("readelf", "--dynamic", "--wide", shared)
    soname = f"libpolorowan.so.{version(trial).split('.')[0]}"
    trial.demand(f"[{soname}]" in ended.text, f"libpolorowan.so: its SONAME isn't {soname}", ended.call)
    trial.demand((folder / soname).resolve() == shared.resolve(), f"{soname} and libpolorowan.so aren't one file")


def check_other(trial: Trial, folder: Path, prefix: Path) -> None:
    """A library of the other's names goes with this one, in one program and in one prefix."""
    other = trial.scratch / "other"
    header, source = trial.write("other/rohc.h", OTHER_HEADER), trial.write("other/rohc.c", OTHER_SOURCE)
    trial.must_run("cc", "-I", other, "-c", "-o", other / "rohc.o", source)
    trial.must_run("ar", "rcs", other / "librohc.a", other / "rohc.o")
    both = other / "both"
    words = ("-I", other, "-I", folder, trial.write("other/both.c", BOTH))
    trial.must_run("cc", *words, "-o", both, other / "librohc.a", folder / "libpolorowan.a")
    ended = trial.ran(both)
    trial.demand(ended.status == 0, f"both libraries in one program: {ended.end()}", ended.call)
    told = rf"{re.escape(version(trial))} sources [0-9a-f]{{64}} logic [0-9a-f]{{8,}}\n"
    trial.demand(re.fullmatch(told, ended.text) is not None, f"polorowan_version() says {ended.text!r}", ended.call)
    for name in ("include/rohc.h", "lib/librohc.a", "lib/pkgconfig/rohc.pc", "share/doc/rohc/README"):
        (prefix / name).parent.mkdir(parents=True, exist_ok=True)
        (prefix / name).write_bytes(header.read_bytes())


def others_stay(trial: Trial, prefix: Path) -> None:
    """What the other library had installed is as it was."""
    for name in ("include/rohc.h", "lib/librohc.a", "lib/pkgconfig/rohc.pc", "share/doc/rohc/README"):
        trial.same(f"{name} of the other library", OTHER_HEADER, (prefix / name).read_bytes())


def ways(trial: Trial, folder: Path) -> Iterator[tuple[str, tuple[str | Path, ...]]]:
    """Programs that were linked in several ways, each with the words that run it before the file of links."""
    gateway, archive = trial.top / "examples/gateway.c", folder / "libpolorowan.a"
    made = trial.scratch / "ways"
    made.mkdir(exist_ok=True)
    whole = ("-Wl,--whole-archive", archive, "-Wl,--no-whole-archive")
    for name, compiler, flags, library in (
        ("whole archive", "cc", (), whole),
        ("link-time optimization", "cc", ("-O2", "-flto"), (archive,)),
        ("musl", "musl-gcc", ("-static",), (archive,)),
    ):
        if not shutil.which(compiler):
            trial.leave_out(f"{compiler} is not installed, the library was not run with it")
            continue
        program = made / name.replace(" ", "_")
        if trial.must_run(compiler, *flags, "-I", folder, "-o", program, gateway, *library):
            yield name, (program,)
    plugins = [made / "first.so", made / "second.so"]
    trial.must_run("cc", "-shared", "-fPIC", "-Dmain=gateway_main", "-I", folder, "-o", plugins[0], gateway, archive)
    shutil.copy(plugins[0], plugins[1])
    host = made / "host"
    trial.must_run("cc", "-o", host, trial.write("ways/host.c", HOST), "-ldl")
    yield "plugin", (host, "LINKS", plugins[0])
    yield "two copies", (host, "LINKS", *plugins)


def check_ways(trial: Trial, folder: Path, links: Path, script: Path, answers: bytes) -> None:
    """The gateway answers an example in each way."""
    for name, words in ways(trial, folder):
        run = [links if word == "LINKS" else word for word in words]
        ended = trial.ran(*(run if "LINKS" in words else [*run, links]), given=script)
        trial.demand(ended.status == 0, f"{name}: {ended.end()}", ended.call)
        trial.same(name, answers * (2 if name == "two copies" else 1), ended.output, ended.call)


def check_first(trial: Trial, prefix: Path) -> None:
    """The first program of docs/LIBRARY.md works from the installed files alone."""
    page = (prefix / "share/doc/polorowan/LIBRARY.md").read_text()
    source = page.partition("```c\n")[2].partition("```\n")[0]
    wanted = re.search(r"^prints `([^`]*)`", page, re.MULTILINE)
    file = trial.write("first/first.c", source)
    program = file.with_suffix("")
    words = ("cc", "-Wall", "-Wextra", "-Werror", "-I", prefix / "include", "-o", program, file)
    if trial.demand(bool(source and wanted), "docs/LIBRARY.md doesn't begin with a program") and wanted:
        trial.must_run(*words, prefix / "lib/libpolorowan.a")
        trial.same("the first program of docs/LIBRARY.md", wanted[1] + "\n", trial.ran(program).output)
    for name in set(re.findall(r"`([\w./]+\.(?:c|h|hpp))`", page)) - {"first.c", "library/gateway.c"}:
        found = any((prefix / folder / Path(name).name).exists() for folder in ("include", "share/doc/polorowan"))
        trial.demand(found, f"docs/LIBRARY.md names {name}, which isn't installed")


def check_cmake(trial: Trial, prefix: Path, links: Path, script: Path, answers: bytes) -> None:
    """CMake finds the installed library, and both its targets answer an example."""
    if not shutil.which("cmake"):
        trial.leave_out("cmake is not installed, its package was not tried")
        return
    wanted = version(trial)
    text = CMAKE.format(version=wanted.rpartition(".")[0], gateway=trial.top / "examples/gateway.c")
    folder = trial.write("cmake/CMakeLists.txt", text).parent
    made = folder / "made"
    configured = ("cmake", "-S", folder, "-B", made, f"-DCMAKE_PREFIX_PATH={prefix}")
    if trial.must_run(*configured) and trial.must_run("cmake", "--build", made):
        for name in ("shared_gateway", "static_gateway"):
            ended = trial.ran(made / name, links, given=script)
            trial.same(f"CMake: {name}", answers, ended.output, ended.call)


def check_cpp(trial: Trial, folder: Path) -> None:
    """The layer in C++: as C++17 and C++20, and its test, under the sanitizers for addresses and for threads."""
    include, archive = ("-I", trial.top / "include"), folder / "libpolorowan.a"
    warnings = ("-Wall", "-Wextra", "-Wpedantic", "-Werror")
    for language in ("-std=c++17", "-std=c++20"):
        trial.must_run("c++", language, *warnings, *include, "-fsyntax-only", "tools/library_cpp.cpp")
    for sanitizer in ("", "-fsanitize=address,undefined", "-fsanitize=thread"):
        program = trial.scratch / f"cpp{sanitizer.partition('=')[2].replace(',', '_')}"
        words = ("c++", "-std=c++17", "-g", *sanitizer.split(), *warnings, *include, "-o", program, "tools/library_cpp.cpp")
        if trial.ran(*words, archive, "-lpthread").status != 0:
            trial.leave_out(f"the layer in C++ can't be built with {sanitizer or 'c++'}")
            continue
        ended = trial.ran(program)
        trial.demand(ended.status == 0, f"library_cpp {sanitizer}: {ended.end()} {ended.text}", ended.call)


def check_rust(trial: Trial, folder: Path) -> None:
    """The layer in Rust: its tests, its examples and its lints."""
    if not shutil.which("cargo"):
        trial.leave_out("cargo is not installed, the layer in Rust was not run")
        return
    environment = {"POLOROWAN_LIBRARY": str(folder), "CARGO_TARGET_DIR": str(trial.scratch / "rust")}
    manifest = ("--offline", "--quiet", "--manifest-path", trial.top / "bindings/rust/Cargo.toml")
    trial.must_run("cargo", "test", *manifest, environment=environment)
    if trial.ran("cargo", "clippy", "--version").status == 0:
        trial.must_run("cargo", "clippy", *manifest, "--all-targets", "--", "-D", "warnings", environment=environment)
    trial.must_run("cargo", "fmt", "--check", "--manifest-path", trial.top / "bindings/rust/Cargo.toml")


def check_go(trial: Trial, folder: Path, links: Path, script: Path, answers: bytes) -> None:
    """The example in Go: vetted, laid out, and it answers an example."""
    if not shutil.which("go"):
        trial.leave_out("go is not installed, examples/go was not run")
        return
    environment = {"PKG_CONFIG_PATH": str(folder), "LD_LIBRARY_PATH": str(folder), "GOPROXY": "off", "CGO_ENABLED": "1"}
    environment |= {"GOCACHE": str(trial.scratch / "go/cache"), "GOPATH": str(trial.scratch / "go/path")}
    program = trial.scratch / "go/gateway"
    for words in (("go", "vet", "."), ("go", "build", "-o", program, ".")):
        made = run(Call(words, environment=environment, folder=trial.top / "examples/go"))
        if not trial.demand(made.status == 0, f"examples/go: {made.end()}", made.call):
            return
    ended = trial.ran(program, links, given=script, environment=environment)
    trial.demand(ended.is_good, f"examples/go: {ended.end()}", ended.call)
    trial.same("examples/go", answers, ended.output, ended.call)


def check_wheel(trial: Trial, folder: Path) -> None:
    """The wheel is the same each time, contains the library, and answers from a folder where nothing else is."""
    if not (folder / "libpolorowan.so").exists():
        return
    wheels = []
    for name in ("first", "second"):
        made = trial.scratch / "wheels" / name
        trial.must_run(trial.top / "bin/wheel", made, environment={"POLOROWAN_LIBRARY": str(folder)})
        wheels += made.glob("*.whl")
    if trial.demand(len(wheels) == 2, "bin/wheel made no wheel"):
        trial.demand(wheels[0].read_bytes() == wheels[1].read_bytes(), "bin/wheel: two wheels of the same sources differ")
        target = trial.scratch / "wheels/target"
        with zipfile.ZipFile(wheels[0]) as wheel:
            wheel.extractall(target)
        ended = trial.ran("python3", "-c", FROM_WHEEL, environment={"PYTHONPATH": str(target), "POLOROWAN_LIBRARY": ""})
        trial.same("the package from its wheel", "45aa\n", ended.output, ended.call)


def check_types(trial: Trial) -> None:
    """The package has no fault of types."""
    if not shutil.which("mypy"):
        trial.leave_out("mypy is not installed, the types of the package in Python were not checked")
        return
    cache = f"--cache-dir={trial.scratch / 'types'}"
    trial.must_run("mypy", "--strict", cache, trial.top / "python/polorowan", environment={"MYPYPATH": str(trial.top / "python")})


def check(trial: Trial, folder: Path, links: Path, script: Path, answers: bytes) -> None:
    """All that needs no installed library."""
    check_versions(trial)
    check_symbols(trial, folder)
    check_ways(trial, folder, links, script, answers)
    check_wheel(trial, folder)
    check_rust(trial, folder)
    check_go(trial, folder, links, script, answers)
    check_cpp(trial, folder)
    check_types(trial)
