"""The packages: made twice they are equal, unpacked they run, and `rohctl verify` finds what was changed.

The part `clean` installs, runs and removes them in a root that debootstrap makes, which takes a minute and Debian's mirror.
"""

import os
import shutil
import subprocess
import tarfile
from pathlib import Path

from program import Call, run
from trial import Trial

PARTS = ("equal", "unpacked", "clean")
# rohcd tells no version.
PROGRAMS = ("rohctl", "rohc-gateway")
SCRIPTS = ("usr/lib/rohc-gateway/entrypoint", "usr/share/doc/rohc-gateway/standby", "usr/share/doc/rohc-gateway/move-link")
NAMES = ("polorowan", "libpolorowan1", "libpolorowan-dev")


def is_part(top: Path, word: str) -> bool:
    """Whether this is the name of a part."""
    return word in PARTS


def made(trial: Trial, name: str) -> Path:
    """A folder with the packages."""
    folder = trial.scratch / name
    environment = {"POLOROWAN_OVER_GATE": "1"} if trial.over_gate else {}
    trial.must_run(trial.top / "bin/package", folder, environment=environment, seconds=1800)
    return folder


def package(folder: Path, name: str) -> Path:
    """A package of Debian's."""
    return next(folder.glob(f"{name}_*_amd64.deb"))


def check_equal(trial: Trial, folder: Path) -> None:
    """Two runs give the same octets."""
    other = made(trial, "again")
    names = sorted(file.name for file in folder.iterdir())
    trial.demand(names == sorted(file.name for file in other.iterdir()), f"packages: {names}")
    for name in names:
        trial.demand((folder / name).read_bytes() == (other / name).read_bytes(), f"packages: two runs differ in {name}")


def check_unpacked(trial: Trial, folder: Path) -> None:
    """The programs run, and a changed file is found."""
    version = (trial.top / "VERSION").read_text().strip()
    root = trial.scratch / "root"
    for name in NAMES:
        trial.must_run("dpkg-deb", "-x", package(folder, name), root)
        lists = root / f"usr/share/polorowan/{name}.digests"
        ended = run(Call((root / "usr/bin/rohctl", "verify", lists, "--root", root)))
        trial.demand(ended.is_good and "as packaged" in ended.text, f"{name}: {ended.all}", ended.call)
    for name in PROGRAMS:
        ended = run(Call((root / "usr/bin" / name, "--version")))
        trial.demand(ended.is_good and version in ended.text, f"{name} --version: {ended.end()}", ended.call)
    check_build(trial, root / "usr")
    ended = run(Call((root / "usr/bin/rohcd",)))
    trial.demand((ended.status, ended.said) == (2, "rohcd: command line"), f"rohcd: {ended.end()}", ended.call)
    for name in SCRIPTS:
        trial.demand(os.access(root / name, os.X_OK), f"{name} can't be executed")
    unit = root / "usr/lib/systemd/system/rohc-gateway@.service"
    trial.demand("ExecStart=/usr/bin/rohc-gateway run" in unit.read_text(), "the unit doesn't name the installed program")
    page = root / "usr/share/man/man1/rohcd.1"
    page.write_bytes(page.read_bytes() + b"x")
    (root / "usr/share/man/man1/rohctl.1").unlink()
    ended = run(Call((root / "usr/bin/rohctl", "verify", root / "usr/share/polorowan/polorowan.digests", "--root", root)))
    wanted = (
        "usr/share/man/man1/rohcd.1: it differs from the package; install it again\n"
        "usr/share/man/man1/rohctl.1: cannot read it: no such file or directory\n"
    )
    trial.demand((ended.status, ended.text) == (1, wanted), f"changed files: {ended.status} {ended.all}", ended.call)
    with tarfile.open(next(folder.glob("*.tar.gz"))) as archive:
        archive.extractall(trial.scratch / "tarball", filter="data")
    top = next((trial.scratch / "tarball").iterdir())
    ended = run(Call((top / "bin/rohctl", "verify", top / "share/polorowan/polorowan.digests", "--root", top)))
    trial.demand(ended.is_good, f"the tarball: {ended.all}", ended.call)
    check_build(trial, top)


def check_build(trial: Trial, prefix: Path) -> None:
    """The program says of which sources it was made, and with other sources the digest is another."""
    sources = trial.ran("bin/sources", "digest").text.strip()
    logic = trial.ran("rt", "version").text.split()[-1]
    copy = trial.scratch / "sources"
    if not copy.exists():
        shutil.copytree(trial.top / "crates", copy / "crates", ignore=shutil.ignore_patterns("out"))
        shutil.copytree(trial.top / "bin", copy / "bin")
        shutil.copy(trial.top / "crates.txt", copy)
    trial.demand(run(Call((copy / "bin/sources", "digest"))).text.strip() == sources, "the copy of the sources has another digest")
    changed = copy / "crates/rohc_gateway/src/main.rt"
    text = changed.read_text()
    changed.write_text(f"{text}\n")
    other = run(Call((copy / "bin/sources", "digest"))).text.strip()
    changed.write_text(text)
    ended = run(Call((prefix / "bin/rohc-gateway", "--version")))
    version = (trial.top / "VERSION").read_text().strip()
    wanted = f"rohc-gateway {version} (sources {sources}, logic {logic})\n"
    trial.demand(ended.text == wanted and other not in ended.text, f"{prefix}: {ended.text}, wanted {wanted}", ended.call)
    (prefix / "share/polorowan/build").rename(trial.scratch / "build")
    ended = run(Call((prefix / "bin/rohc-gateway", "--version")))
    (trial.scratch / "build").rename(prefix / "share/polorowan/build")
    wanted = f"rohc-gateway {version} (sources unknown, logic unknown)\n"
    trial.demand(ended.text == wanted, f"{prefix}: {ended.text}, wanted {wanted}", ended.call)


def check_clean(trial: Trial, folder: Path) -> None:
    """Installed, run and removed in a clean root."""
    if not shutil.which("debootstrap") or os.geteuid() != 0:
        trial.leave_out("debootstrap is not installed, or root isn't, the packages were not installed in a clean root")
        return
    root = trial.scratch / "clean"
    if subprocess.run(["debootstrap", "--variant=minbase", "stable", root], capture_output=True).returncode != 0:
        trial.leave_out("debootstrap made no root, the packages were not installed in one")
        return
    for file in folder.glob("*.deb"):
        shutil.copy(file, root)
    trial.must_run("chroot", root, "sh", "-c", "dpkg -i /*.deb")
    for name in PROGRAMS:
        trial.must_run("chroot", root, name, "--version")
    trial.must_run("chroot", root, "rohctl", "verify", "/usr/share/polorowan/polorowan.digests")
    trial.must_run("chroot", root, "dpkg", "-r", *reversed(NAMES))
    left = [path for path in root.rglob("*rohc*") if path.is_file() and "dpkg" not in path.parts and path.suffix != ".deb"]
    trial.demand(not left, f"after the removal: {left}")


def check(trial: Trial) -> None:
    """Makes the packages, and runs the parts: `clean` only if it is asked for."""
    if not shutil.which("dpkg-deb"):
        trial.leave_out("dpkg-deb is not installed, no packages were made")
        return
    folder = made(trial, "packages")
    if trial.wrongs:
        return
    for part in trial.words or ("equal", "unpacked"):
        {"equal": check_equal, "unpacked": check_unpacked, "clean": check_clean}[part](trial, folder)
