"""Runs the program at its limits. It may not report lack of memory there.

256 links; all 16,384 CIDs of a link; a packet of 65,535 octets; more than 2^20 reads; more than 2^32 octets written; a
call in a flood of 100,000 lines for other calls; an honest sender's packets in such a flood, with losses. Words behind
`limits` run these parts alone: links, cids, reads, packet, octets, call, sender.
"""

import subprocess
import sys
from pathlib import Path

from program import Ended
from trial import Trial

REFUSED = (
    "Csrc OuterHeader ExtensionList ReliableMode Protocol ZeroStride IpIdTwice RndInUo1 Truncated TooLong NoStride Check "
    "StateTooLow"
).split()
# The packet of 65,535 octets, as a line with its newline; and the line of its IR.
LONGEST_LINE = 131_078
IR_LINE = 11
TIMES = 33_000
SECONDS = 1800


def made(trial: Trial, *words: object) -> Path:
    """A file with what tools/limit_scripts.py writes."""
    texts = [str(word) for word in words]
    file = trial.scratch / "-".join(texts)
    return file if file.exists() else trial.made(file.name, trial.top / "tools/limit_scripts.py", *texts)


def replayed(trial: Trial, links: Path, script: Path, environment: dict[str, str] | None = None) -> Ended:
    """How a script is answered."""
    return trial.program.replay(links, script, environment, SECONDS)


def is_wanted(trial: Trial, name: str, holds: bool, ended: Ended) -> bool:
    """Tells whether one more limit holds."""
    if trial.demand(holds and ended.is_good, f"{name}: NOT as wanted, {ended.end()}", ended.call):
        trial.say(f"{name}: as wanted")
    return holds


def is_told(trial: Trial, name: str, wanted: bytes, found: bytes, ended: Ended) -> None:
    """Tells whether one more limit holds, by its answers."""
    if trial.same(name, wanted, found, ended.call):
        is_wanted(trial, name, True, ended)


def check_links(trial: Trial) -> None:
    """As many links as there may be, and one more."""
    ended = replayed(trial, made(trial, "links", 256), made(trial, "calls", 256, 20))
    is_told(trial, "256 links", made(trial, "told", 256, 20).read_bytes(), ended.output, ended)
    refused = trial.program.replay(made(trial, "links", 257), b"")
    if trial.same("257 links", "rohcd: links file: TooManyLinks\n", refused.output + refused.error, refused.call):
        trial.say("257 links: as wanted")


def check_cids(trial: Trial) -> None:
    """All CIDs of two links."""
    ended = replayed(trial, made(trial, "links", 2), made(trial, "calls", 2, 16384))
    is_told(trial, "all identifiers of two links", made(trial, "told", 2, 16384).read_bytes(), ended.output, ended)


def last_lines(text: bytes, count: int) -> bytes:
    """The last lines of a text."""
    return b"".join(text.splitlines(keepends=True)[-count:])


def check_reads(trial: Trial) -> None:
    """A script of more than 2^20 octets, in reads of one octet."""
    calls = made(trial, "calls", 2, 16384).read_bytes()
    twice = trial.write("twice", calls + calls)
    ended = replayed(trial, made(trial, "links", 2), twice, trial.in_pieces(1))
    trial.demand(twice.stat().st_size > 2**20, "more than 2^20 reads: the script is too short")
    wanted = last_lines(made(trial, "told", 2, 16384).read_bytes(), 16_400)
    is_told(trial, "more than 2^20 reads", wanted, last_lines(ended.output, 16_400), ended)


def check_packet(trial: Trial) -> None:
    """The longest packet."""
    ended = replayed(trial, made(trial, "links", 2), made(trial, "long", 1))
    last = last_lines(ended.output, 1)
    trial.same("a packet of 65,535 octets: its line's length", str(LONGEST_LINE), str(len(last)), ended.call)
    is_wanted(trial, "a packet of 65,535 octets", last.startswith(b"1 0 ip 45") and len(last) == LONGEST_LINE, ended)


def check_octets(trial: Trial) -> None:
    """The longest packet so often that more than 2^32 octets are written. They are counted, and not kept."""
    words = [sys.executable, trial.top / "tools/limit_scripts.py", "long", str(TIMES)]
    replay = [trial.file, "replay", "--links", made(trial, "links", 2)]
    count = 0
    with subprocess.Popen(words, stdout=subprocess.PIPE) as maker:
        with subprocess.Popen(replay, stdin=maker.stdout, stdout=subprocess.PIPE, bufsize=0) as program:
            assert maker.stdout and program.stdout
            maker.stdout.close()
            while piece := program.stdout.read(1 << 20):
                count += len(piece)
    wanted = IR_LINE + TIMES * LONGEST_LINE
    repeat = f"tools/limit_scripts.py long {TIMES} | {trial.file} replay --links {replay[-1]} | wc -c"
    if trial.demand(
        count == wanted and maker.returncode == 0 and program.returncode == 0,
        f"more than 2^32 octets written: {count}, wanted {wanted}; status {program.returncode}\n    repeat: {repeat}",
    ):
        trial.say("more than 2^32 octets written: as wanted")


def is_refused(words: list[str]) -> bool:
    """Whether an answer is the refusal of a packet with a CID."""
    return len(words) == 4 and words[1].isdigit() and words[2] == "refused"


def in_flood(trial: Trial, name: str, script: Path, wanted: bytes) -> None:
    """A call must be answered as wanted, and on both links living contexts refuse the packets that they must."""
    ended = replayed(trial, trial.top / "examples/worked/links-1.toml", script)
    lines = ended.output.decode(errors="replace").splitlines(keepends=True)
    own = "".join(line for line in lines if line.startswith("1 0 "))
    there = {(words[0], words[3]) for words in map(str.split, lines) if is_refused(words)}
    missing = [f"{link} {refusal}" for link in "12" for refusal in REFUSED if (link, refusal) not in there]
    is_own = trial.same(name, wanted, own, ended.call)
    if trial.demand(not missing, f"{name}: nothing is refused as {', '.join(missing)}", ended.call) and is_own:
        is_wanted(trial, name, True, ended)


def check_call(trial: Trial) -> None:
    """The call of an example in a flood."""
    wanted = (trial.top / "examples/worked/uor-2-ts-jump.answers").read_bytes()
    in_flood(trial, "a call in a flood", made(trial, "flood", 100_000), wanted)


def check_sender(trial: Trial) -> None:
    """An honest sender in a flood."""
    in_flood(trial, "an honest sender in a flood", made(trial, "honest", 150), made(trial, "sent").read_bytes())


PARTS = {
    "links": check_links,
    "cids": check_cids,
    "reads": check_reads,
    "packet": check_packet,
    "octets": check_octets,
    "call": check_call,
    "sender": check_sender,
}


def is_part(top: Path, word: str) -> bool:
    """Whether a word is a part of this check."""
    return word in PARTS


def check(trial: Trial) -> None:
    """Runs the parts that are asked for."""
    for part in trial.chosen(list(PARTS)):
        PARTS[part](trial)
