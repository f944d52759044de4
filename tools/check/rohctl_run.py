"""Runs scripts by `rohctl run`, also from the contexts of state files that are written here by docs/FORMATS.md."""

import hashlib
import re
from pathlib import Path

import rohctl_explain
import rohctl_report
from program import Call, Ended, run
from trial import Trial

PROGRAM = "crates/rohctl/out/rohctl"
LINKS = "examples/worked/links-1.toml"
# The context that docs/EXAMPLES.md's whole-ir leaves at 0: the addresses, the ports and the SSRC of S, the fields of Y, RND 0,
# NBO 1, no UDP checksum, a stride of 160, no previous reference, and no outcome.
STATIC = "0a0000010a0000021388138a00000001"
FIELDS = "00400001000000010000" + "00a0" + "00000000"
FULL = "0000000000000000" + "03" + STATIC + FIELDS + "000100" + "01000000a0" + "00" + "00" + "0000000000000000"
# Those of first-uo-0, which may follow it.
NEXT = b"arrive 1 20 10ac\n"
NEXT_ANSWER = "1 0 ip 4500002900020000401166c00a0000010a0000021388138a00150000800000020000014000000001ac\n"
NO_CONTEXT = "1 0 refused NoContext\n"
WHOLE = "expected a complete state file of this version"


def link(number: int, contexts: list[str], kind: int = 0, max_cid: int = 15) -> str:
    """A link with contexts, whose CIDs count from 0."""
    saved = "".join(f"{cid:04x}{context}" for cid, context in enumerate(contexts))
    return f"{number:04x}{kind:02x}00{max_cid:04x}{len(contexts):04x}{saved}"


def state(*links: str, version: int = 1) -> bytes:
    """A state file of these links."""
    octets = b"Polorowan" + bytes.fromhex(f"{version:04x}{0:016x}{len(links):04x}" + "".join(links))
    return octets + hashlib.sha256(octets).digest()


def ran(trial: Trial, *words: str | Path, given: bytes = b"") -> Ended:
    """How `rohctl run` ends with these words."""
    return run(Call((trial.top / PROGRAM, "run", *words), given, {}, trial.top))


def check_scripts(trial: Trial) -> None:
    """All scripts of the examples, without a state file: the answers are those of `rohcd replay`."""
    for script, links in rohctl_explain.scripts(trial):
        ended = ran(trial, "--links", links, script)
        trial.same(f"{script.name}: the answers", script.with_suffix(".answers").read_bytes(), ended.output, ended.call)
        trial.demand(ended.status == 0 and not ended.said, f"{script.name}: {ended.end()}", ended.call)
    bad = ran(trial, "--links", LINKS, given=b"oops\nreset 9\n")
    trial.demand((bad.status, bad.text) == (0, "- - refused BadLine\n9 - refused NoLink\n"), f"bad lines: {bad.end()}, {bad.text}", bad.call)


def check_states(trial: Trial) -> None:
    """Runs and explanations that begin with saved contexts, or with what is left of them."""
    whole = trial.write("whole.state", state(link(1, [FULL])))
    ended = ran(trial, "--links", LINKS, "--state", whole, given=NEXT)
    trial.demand((ended.status, ended.text, ended.said) == (0, NEXT_ANSWER, ""), f"a saved context: {ended.end()}, {ended.text}", ended.call)
    ended = ran(trial, "--links", LINKS, given=NEXT)
    trial.demand((ended.status, ended.text) == (0, NO_CONTEXT), f"without it: {ended.end()}, {ended.text}", ended.call)
    for words, answers, status in ((("--state", whole), NEXT_ANSWER, 0), ((), NO_CONTEXT, 1)):
        ended = rohctl_report.report(trial, "--links", LINKS, *words, given=NEXT)
        trial.demand((ended.status, ended.said) == (status, ""), f"report {words}: {ended.end()}; wanted {status}", ended.call)
        page = rohctl_report.page_in(trial, ended)
        rohctl_report.check_totals(trial, f"report {words}", page, answers.encode())
        trial.demand(("NoContext" in ended.text) == bool(status), f"report {words}: NoContext", ended.call)
    words = (trial.top / PROGRAM, "explain", "--links", LINKS, "--state", whole)
    told = run(Call(words, NEXT, {}, trial.top))
    trial.demand(told.status == 0 and "SN 2" in told.text and " was 160\n" in told.text, f"an explained saved context: {told.end()}, {told.text}", told.call)
    told = run(Call((*words, "--link", "1", "--brief", "10ac"), b"", {}, trial.top))
    trial.same("a packet behind a saved context", "1 1 0 UO-0 delivered\n", told.text, told.call)
    for number, links, contexts, count in ((1, [link(1, [FULL]), link(9, [FULL, FULL])], 2, 1), (2, [link(1, [FULL]), link(2, [FULL])], 1, 1)):
        other = trial.write(f"other-{number}.state", state(*links))
        ended = ran(trial, "--links", LINKS, "--state", other, given=NEXT)
        said = f"rohctl: {other}: left out {contexts} contexts and {count} links; the links file has not their link, its CID kind or their CIDs"
        trial.demand((ended.status, ended.text, ended.said) == (0, NEXT_ANSWER, said), f"left out: {ended.end()}, {ended.text}; wanted {said}", ended.call)
        ended = rohctl_report.report(trial, "--links", LINKS, "--state", other, given=NEXT)
        trial.demand((ended.status, ended.said) == (0, said), f"report, left out: {ended.end()}; wanted {said}", ended.call)


def check_refused(trial: Trial) -> None:
    """State files that are none, or damaged."""
    good = state(link(1, [FULL]))
    damaged = bytearray(good)
    damaged[-1] ^= 1
    for name, octets, why in (
        ("empty", b"", "it is not a state file"),
        ("text", b"version = 1\n" * 20, "it is not a state file"),
        ("newer", state(link(1, [FULL]), version=2), "it has an unknown version, at octet 9"),
        ("cut", good[:-40], f"it is cut off, at octet {len(good) - 40}"),
        ("long", good + b"\n", f"octets follow its end, at octet {len(good)}"),
        ("damaged", bytes(damaged), "it is damaged: its digest does not match"),
        ("bad", state(link(1, [FULL.replace("0000000000000000" + "03", "0000000000000000" + "04", 1)])), "it has a bad value, at octet 39"),
    ):
        file = trial.write(f"{name}.state", octets)
        ended = ran(trial, "--links", LINKS, "--state", file, given=NEXT)
        said = f"rohctl: {file}: {why}; {WHOLE}"
        trial.demand((ended.status, ended.text, ended.said) == (4, "", said), f"{name}: {ended.end()}; wanted 4, {said}", ended.call)
    for octets in (good, bytes(damaged)):
        file = trial.write("kept.state", octets)
        ran(trial, "--links", LINKS, "--state", file, given=NEXT)
        trial.demand(file.read_bytes() == octets, "a state file was changed")


def check_help(trial: Trial) -> None:
    """Its help names the state file."""
    ended = ran(trial, "--help")
    trial.demand(ended.status == 0 and re.search(r"--state <FILE>", ended.text) is not None, f"run --help: {ended.end()}", ended.call)


def check(trial: Trial) -> None:
    """All of it."""
    for part in (check_scripts, check_states, check_refused, check_help):
        part(trial)
