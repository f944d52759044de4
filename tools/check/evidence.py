"""Shows the program to others' eyes, and to what was written apart from it.

Each part says what it leaves out if a tool isn't there. Words behind `evidence` run these parts alone:

- compressor: tests/compressor.sh, calls of many kinds and the real calls of tests/calls from tools/compressor.
- lossy: tests/lossy_link.sh, calls over a lossy link with feedback in time.
- real: calls that SIPp, GStreamer and FFmpeg make now (tools/real_calls, as root), sent likewise.
- tshark: packets of such calls and what was delivered for them, as Wireshark's dissectors and scapy read them, beside
  tools/model and beside what `rohctl explain` says (tools/dissect). A bit that is turned in each packet must be seen.
- fuzz: libFuzzer on the library for C (tools/fuzz), and bugs that are planted into it, which must be found.
- bench: the loads of bench/run that the repository makes by itself, each answered without a refusal.

Among all checks the parts are smaller. They run side by side.
"""

import re
import shutil
import sys
from collections.abc import Callable
from concurrent.futures import ThreadPoolExecutor
from dataclasses import dataclass
from pathlib import Path

from program import Word
from trial import LEFT_OUT, Trial

SECONDS = 2400
ROHCTL = "crates/rohctl/out/rohctl"
# The version of Wireshark whose readings are known. Another's may differ.
VERSION = re.compile(r"Wireshark\) (\d+\.\d+)")
KNOWN_VERSION = "4.0"
# Kinds of calls whose packets tshark reads, fewer among all checks, and the ways in which they are sent.
KINDS = (
    "g711 random-id swapped-id zero-id checksum checksum-off tos flags stride two many wrap video late jumps mixed no-rtp"
).split()
FEW_KINDS = "random-id checksum flags many jumps mixed".split()
WAYS = (("small", "smallest"), ("small", "any"), ("large", "any"))
# The calls of other programs that are made anew among all checks.
REAL_CALLS = ("sipp-pcma", "gst-opus-dtx", "ffmpeg-opus")
# Packets that are damaged until feedback asks for others, so that feedback is read too.
DAMAGED = "--damage 40 --lose 10 --w 6 --optimistic 6 --without uo-0,uo-1,uo-1-id,uo-1-ts".split()


@dataclass(frozen=True)
class Evidence:
    """The check, with the compressor for tests if it could be built."""

    trial: Trial
    compressor: Path | None

    @property
    def environment(self) -> dict[str, str]:
        """What tells scripts of a compressor that is built, and bin/lib whether the gate ran just before."""
        over_gate = {"POLOROWAN_OVER_GATE": "1" if self.trial.over_gate else ""}
        return {**over_gate, "COMPRESSOR": str(self.compressor)} if self.compressor else over_gate

    def size(self, few: str, many: str) -> str:
        """One of two sizes: the smaller among all checks."""
        return few if self.trial.is_all else many

    def runs(self, *words: Word) -> bool:
        """A script must end well. Its last line is told, and what it leaves out."""
        ended = self.trial.ran(*words, environment=self.environment, seconds=SECONDS)
        lines = ended.text.splitlines()
        for line in lines:
            if line.startswith(LEFT_OUT):
                self.trial.leave_out(line.removeprefix(LEFT_OUT))
        told = ended.all.strip() if ended.status else "\n".join(lines[-1:])
        if not told.startswith(LEFT_OUT):
            self.trial.say(told)
        return self.trial.demand(ended.status == 0, f"{Path(str(words[0])).name}: status {ended.status}", ended.call)


def build_compressor(trial: Trial) -> Path | None:
    """Builds the compressor once for all parts."""
    file = trial.scratch / "compressor"
    words = '. tests/build_compressor.sh && build && cp "$compressor" "$0"'
    ended = trial.ran("bash", "-c", words, file, seconds=SECONDS)
    if file.exists():
        return file
    if not ended.text.startswith(LEFT_OUT):
        trial.wrong(f"tools/compressor isn't built: {ended.all.strip()}", ended.call)
    return None


def compressor(evidence: Evidence) -> None:
    """Calls of many kinds."""
    evidence.runs("tests/compressor.sh", *["--small"] * evidence.trial.is_all, evidence.trial.file)


def lossy(evidence: Evidence) -> None:
    """A lossy link."""
    evidence.runs("tests/lossy_link.sh", evidence.trial.file)


def sent(evidence: Evidence, name: str, capture: Path, *options: str) -> Path:
    """A folder with a script of a capture, its links file, and what the program says to it."""
    trial = evidence.trial
    folder = trial.scratch / "runs" / name
    folder.mkdir(parents=True)
    ended = trial.ran(evidence.compressor or "", "script", capture, "--links", folder / "links.toml", *options)
    trial.demand(ended.status == 0, f"{name}: {ended.end()}", ended.call)
    (folder / "script").write_bytes(ended.output)
    answers = trial.program.replay(folder / "links.toml", folder / "script", seconds=SECONDS)
    trial.demand(answers.is_good, f"{name}: {answers.end()}", answers.call)
    (folder / "answers").write_bytes(answers.output)
    return folder


def real(evidence: Evidence) -> None:
    """Calls that other programs make now."""
    trial, folder = evidence.trial, evidence.trial.scratch / "real"
    folder.mkdir()
    made = trial.ran("tools/real_calls", folder, *(REAL_CALLS if trial.is_all else ()), seconds=SECONDS)
    if made.status != 0:
        said = made.said.replace("tools/real_calls: ", "").replace("\n", "; ")
        trial.leave_out(f"{said}, so not all calls of other programs were made anew")
    for file in sorted(folder.glob("*.pcap")):
        expected = folder / f"{file.stem}.expected"
        run = sent(evidence, f"real-{file.stem}", file, "--expect", expected, "--lose", "20", "--pick", "any")
        compared = trial.ran(evidence.compressor or "", "check", expected, run / "answers")
        if trial.demand(compared.status == 0, f"{file.stem}: {compared.all.strip()}", compared.call):
            trial.say(f"{file.stem}, made now: {compared.text.strip()}")


def captures(evidence: Evidence) -> list[Path]:
    """Made calls, and the real ones."""
    found = []
    for seed, kind in enumerate(FEW_KINDS if evidence.trial.is_all else KINDS, 1):
        file = evidence.trial.scratch / f"{kind}.pcap"
        words = ("generate", kind, file, "--packets", evidence.size("60", "120"), "--seed", str(seed))
        evidence.trial.must_run(evidence.compressor or "", *words)
        found.append(file)
    return found if evidence.trial.is_all else [*found, *sorted((evidence.trial.top / "tests/calls").glob("*.pcap"))]


def tshark(evidence: Evidence) -> None:
    """What Wireshark's dissectors and scapy say."""
    trial = evidence.trial
    if not shutil.which("tshark"):
        trial.leave_out("tshark is not installed, no packets were read by Wireshark's dissectors")
        return
    if not evidence.compressor:
        return
    folders = []
    for file in captures(evidence):
        for cid, pick in WAYS:
            folders.append(sent(evidence, f"{file.stem}-{cid}-{pick}", file, "--cid", cid, "--pick", pick))
        folders.append(sent(evidence, f"{file.stem}-damaged", file, *DAMAGED))
    words = (sys.executable, "-B", "tools/dissect")
    told: tuple[Word, ...] = ("--explain", ROHCTL)
    if not (trial.top / ROHCTL).exists():
        trial.leave_out("rohctl isn't built, what it explains was not compared with Wireshark's readings")
        told = ()
    ended = trial.ran(*words, *told, *folders, seconds=SECONDS)
    trial.say(ended.text)
    version = VERSION.search(trial.ran("tshark", "--version").text)
    if version and version[1] == KNOWN_VERSION or ended.status == 0:
        trial.demand(ended.status == 0, f"tools/dissect: {ended.end()}", ended.call)
    else:
        trial.leave_out(f"tshark isn't of version {KNOWN_VERSION}, with which tools/dissect was tried: readings differ")
    bent = trial.ran(*words, "--bend", *told, folders[0], seconds=SECONDS)
    trial.demand(bent.status == 1 and "otherwise: 0\n" not in bent.text, "a bit that is turned isn't seen", bent.call)


def fuzz(evidence: Evidence) -> None:
    """libFuzzer on the library, and planted bugs."""
    evidence.runs("tools/fuzz/run", "--test", evidence.size("10", "60"))


def bench(evidence: Evidence) -> None:
    """The loads of bench/run."""
    evidence.runs("bench/run", "--check", evidence.trial.file)


PARTS: dict[str, Callable[[Evidence], None]] = {
    "compressor": compressor,
    "lossy": lossy,
    "real": real,
    "tshark": tshark,
    "fuzz": fuzz,
    "bench": bench,
}


def is_part(top: Path, word: str) -> bool:
    """Whether a word is the name of a part."""
    return word in PARTS


def check(trial: Trial) -> None:
    """Runs the parts that are asked for, side by side."""
    file = build_compressor(trial)
    if not file:
        trial.leave_out("cargo isn't installed, so no packets of the test compressor were tried")
    evidence = Evidence(trial, file)
    names = [name for name in trial.chosen(list(PARTS)) if file or name == "fuzz"]
    with ThreadPoolExecutor(len(PARTS)) as pool:
        for done in [pool.submit(PARTS[name], evidence) for name in names]:
            done.result()
    trial.demand(trial.tried > 0 or not names, "nothing was tried")
