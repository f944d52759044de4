"""Runs rohctl on answers and scripts whose totals and traces were counted by hand, and to each of its statuses."""

import json
import os
import pty
import re
import select
import subprocess
import time
from collections import Counter
from collections.abc import Sequence
from pathlib import Path

import rohctl_capture
import completion
import rohctl_diff
import rohctl_explain
import rohctl_feed
import rohctl_links
import rohctl_plan
import rohctl_report
import rohctl_run
import rohctl_spread
import rohctl_survey
import rohctl_wrong
from completion import COMMANDS
from program import Call, Ended, run
from trial import Trial

PROGRAM = "crates/rohctl/out/rohctl"
PLAIN = "examples/plain-call"
LINKS = "examples/links.toml"
SCRIPTS = "examples/scripts"
SHOWN = 120
WAIT_SECONDS = 20.0
CLEAR = b"\x1b[H\x1b[2J"

# The call of plain-call.answers: two packets, FEEDBACK-1, and refusals since its line 4. Line 5 is a bad line.
PLAIN_ROWS = (
    "1 0 2 0 1 0 0 0 2 2 4 NoContext",
    "1 all 2 0 1 0 0 0 2",
    "9 all 0 0 0 0 0 0 1",
    "all all 2 0 1 0 0 0 3",
)
PLAIN_LINES = "lines 7 relayed 0 bad 1 long 0 no answer 0"

# Answer lines of two links, with the feedback of docs/FORMATS.md: FEEDBACK-1 of CID 1, small; ACK and NACK are kept in
# whole examples. Line 6 is no answer line, since its CID has a leading zero, nor is line 8, whose octets are odd.
MIXED = """2 - relay 20
2 300 ip 4501
1 1 stored
1 1 feedback f2e100
1 1 refused Truncated
1 01 ip 45
2 300 refused Check
2 300 ip 450
2 300 refused StateTooLow
2 - refused Empty
- - refused LongLine
3 7 feedback f100"""
MIXED_ROWS = (
    "2 300 1 0 0 0 0 0 2 2 7 StateTooLow",
    "1 1 0 1 1 0 0 0 1 1 5 Truncated",
    "3 7 0 0 0 0 0 1 0",
)
MIXED_LINES = "lines 12 relayed 1 bad 0 long 1 no answer 2"
HOSTILE = b"\x1b[31m\n1 0 ip \x00\n\xff\xfe refused Check\n1 0 refused \"}\n" + b"1 0 ip " + b"0" * 131_200

# A script of one packet, a line with an escape, and a last line without a newline.
SCRIPT = b"arrive 1 0 fc00b745aa\n\x1b[2J\nreset 9"
TRACE = """1 arrive 1 0 fc00b745aa
1 0 ip 45aa
1 0 feedback f100
2 \\x1b[2J
- - refused BadLine
3 reset 9
9 - refused NoLink
"""


def call(trial: Trial, *words: str | Path, given: bytes | Path = b"") -> Ended:
    """How rohctl ends with these words, at the top of the tree."""
    return run(Call((trial.top / PROGRAM, *words), given, {}, trial.top))


def ends(trial: Trial, ended: Ended, status: int, said: str = "") -> None:
    """A call must end with this status, and say this on standard error."""
    words = " ".join(str(word) for word in ended.call.words[1:])
    holds = (ended.status, ended.said) == (status, said)
    trial.demand(holds, f"rohctl {words}: {ended.end()}; wanted {status}, {said or 'nothing'}", ended.call)


def rows(text: str) -> list[str]:
    """The lines of a table, with one space between the cells."""
    return [" ".join(line.split()) for line in text.splitlines()]


def has_rows(trial: Trial, ended: Ended, wanted: Sequence[str]) -> None:
    """The first rows behind the table's head must be these."""
    found = rows(ended.text)[1 : 1 + len(wanted)]
    trial.same("the rows", "\n".join(wanted), "\n".join(found), ended.call)


def check_totals(trial: Trial) -> None:
    """The totals of the plain call and of mixed lines, as tables."""
    ended = call(trial, "totals", f"{PLAIN}.answers")
    ends(trial, ended, 1)
    has_rows(trial, ended, PLAIN_ROWS)
    trial.same("the table", (trial.top / "crates/rohctl/stdout").read_text(), ended.text, ended.call)
    trial.demand(PLAIN_LINES in rows(ended.text), f"no row '{PLAIN_LINES}'", ended.call)
    mixed = call(trial, "totals", given=MIXED.encode())
    ends(trial, mixed, 1)
    has_rows(trial, mixed, MIXED_ROWS)
    trial.same("the last rows", f"{MIXED_LINES}\nline 6 is not an answer line", "\n".join(rows(mixed.text)[-2:]))
    ends(trial, call(trial, "totals", "-", given=b"1 0 ip 45aa\n1 0 feedback f100\n"), 0)
    ends(trial, call(trial, "totals"), 0)


def check_json(trial: Trial) -> None:
    """Each line of --json must be an object, and say what the table says."""
    ended = call(trial, "totals", "--json", given=MIXED.encode())
    objects = [json.loads(line) for line in ended.text.splitlines()]
    first, last = objects[0], objects[-1]
    trial.same("the silent call", "2 300 2 7 StateTooLow", " ".join(str(first[key]) for key in (
        "link", "cid", "refused_since_delivery", "since_line", "last_refusal"
    )), ended.call)
    trial.same("its refusals", json.dumps({"StateTooLow": 1, "Check": 1}), json.dumps(first["refused"]), ended.call)
    trial.same("the lines", "12 2 6 1", " ".join(str(last[key]) for key in ("lines", "no_answer", "first_no_answer", "long")))
    trial.demand(objects[2]["feedback"]["other"] == 1, "no other feedback for link 3", ended.call)
    trial.demand(objects[1]["feedback"]["plain"] == 1, "no FEEDBACK-1 for link 1", ended.call)


def check_metrics(trial: Trial) -> None:
    """The metrics of --prometheus: each sample stands behind its HELP and TYPE."""
    ended = call(trial, "totals", "--prometheus", f"{PLAIN}.answers")
    for line in (
        "# TYPE polorowan_delivered_total counter",
        'polorowan_delivered_total{link="1",cid="0"} 2',
        'polorowan_feedback_total{link="1",cid="0",kind="plain"} 1',
        'polorowan_refused_total{link="1",cid="0",refusal="Check"} 1',
        'polorowan_refused_since_delivery{link="1",cid="0"} 2',
        'polorowan_lines_total{kind="bad"} 1',
    ):
        trial.demand(line in ended.text.splitlines(), f"no line '{line}'", ended.call)
    names: set[str] = set()
    for line in ended.text.splitlines():
        if line.startswith("# TYPE "):
            names.add(line.split()[2])
        elif not line.startswith("#"):
            trial.demand(line.split("{")[0] in names, f"'{line}' stands before its TYPE", ended.call)


def check_hostile(trial: Trial) -> None:
    """Lines of any octets are counted, and nothing of them is shown."""
    for form in ((), ("--json",), ("--prometheus",)):
        ended = call(trial, "totals", *form, given=HOSTILE)
        ends(trial, ended, 1)
        trial.demand(ended.output.isascii() and b"\x1b" not in ended.output, "an octet of the input is shown", ended.call)
    table = call(trial, "totals", given=HOSTILE)
    trial.demand("no answer 5" in table.text, "not 5 lines that are no answer lines", table.call)


def counted(answers: str) -> Counter[str]:
    """The lines of each call, by the word that says what they are; refusals by their names too."""
    words = [line.split() for line in answers.splitlines()]
    kinds = [(link, cid, " ".join([kind, *rest][: 2 if kind == "refused" else 1])) for link, cid, kind, *rest in words]
    return Counter(" ".join(kind) for kind in kinds if kind[1] != "-")


def told(text: str) -> Counter[str]:
    """What --json says of the calls, in the same way."""
    found: Counter[str] = Counter()
    for row in filter(lambda row: "cid" in row, map(json.loads, text.splitlines())):
        pair = f"{row['link']} {row['cid']}"
        counts = {"ip": row["delivered"], "stored": row["stored"], "feedback": sum(row["feedback"].values())}
        counts |= {f"refused {name}": count for name, count in row["refused"].items()}
        found += Counter({f"{pair} {kind}": count for kind, count in counts.items()})
    return found


def shown(line: bytes) -> str:
    """What a trace shows of a line."""
    front = "".join(chr(octet) if 32 <= octet < 127 else f"\\x{octet:02x}" for octet in line[:SHOWN])
    return front + ".." * (len(line) > SHOWN)


def check_whole(trial: Trial) -> None:
    """The totals of the whole scripts' answers, against a count of their words; their traces, against the answers."""
    files = sorted((trial.top / SCRIPTS).glob("*.script"))
    trial.demand(bool(files), "there is no whole script")
    for script in files:
        answers = script.with_suffix(".answers")
        totals = call(trial, "totals", "--json", answers)
        lacks = counted(answers.read_text()) - told(totals.text)
        more = told(totals.text) - counted(answers.read_text())
        trial.demand(not lacks and not more, f"{answers.name}: lacks {lacks}, has more {more}", totals.call)
        traced = call(trial, "trace", "--links", script.with_suffix(".toml"), script)
        lines = script.read_bytes().removesuffix(b"\n").split(b"\n")
        heads = Counter(f"{number} {shown(line)}" for number, line in enumerate(lines, 1))
        left = Counter(traced.text.splitlines()) - heads
        trial.demand(left == Counter(answers.read_text().splitlines()), f"{script.name}: other answers", traced.call)


def check_trace(trial: Trial) -> None:
    """The trace of a script."""
    ended = call(trial, "trace", "--links", LINKS, given=SCRIPT)
    ends(trial, ended, 1)
    ends(trial, call(trial, "trace", "--links", LINKS, given=b"arrive 1 0 fc00b745aa\nreset 9\n"), 0)
    trial.same("the trace", TRACE, ended.text, ended.call)


def on_terminal(trial: Trial, environment: dict[str, str], *more: str) -> bytes:
    """What rohctl writes to a terminal for the plain call, with these words more."""
    ours, theirs = pty.openpty()
    everything = {name: text for name, text in os.environ.items() if name != "NO_COLOR"} | environment
    words = [trial.top / PROGRAM, "totals", trial.top / f"{PLAIN}.answers", *more]
    subprocess.run(words, stdout=theirs, env=everything, check=False)
    os.close(theirs)
    written = os.read(ours, 1 << 16)
    os.close(ours)
    return written


def check_colour(trial: Trial) -> None:
    """A silent call is red on a terminal alone, and not with NO_COLOR; --color decides before both."""
    trial.demand(on_terminal(trial, {}).count(b"\x1b[31m") == 1, "a silent call isn't red on a terminal")
    trial.demand(b"\x1b" not in on_terminal(trial, {"NO_COLOR": "1"}), "NO_COLOR: a colour on a terminal")
    ended = call(trial, "totals", f"{PLAIN}.answers")
    trial.demand(b"\x1b" not in ended.output, "a colour in a pipe", ended.call)
    trial.demand(b"\x1b" not in on_terminal(trial, {}, "--color", "never"), "--color never: a colour on a terminal")
    trial.demand(b"\x1b[31m" in on_terminal(trial, {"NO_COLOR": "1"}, "--color", "always"), "--color always: no colour")
    ended = call(trial, "totals", "--color", "always", f"{PLAIN}.answers")
    trial.demand(ended.output.count(b"\x1b[31m") == 1, "--color always: no colour in a pipe", ended.call)
    for own, colours in ((), 1), (("--color", "never"), 0):
        ended = call(trial, "--color", "always", "totals", *own, f"{PLAIN}.answers")
        trial.demand(ended.output.count(b"\x1b[31m") == colours, f"--color always before totals {own}: not {colours} colours", ended.call)
    for name in COMMANDS.split():
        ended = call(trial, "--color", "never", name, "--help")
        trial.demand(ended.status == 0 and "--color" in ended.text, f"--color before {name}: {ended.end()}", ended.call)


def read_until(terminal: int, mark: bytes) -> bytes:
    """What stands on a terminal up to a mark, or all that is written if it never comes."""
    found = b""
    while mark not in found and select.select([terminal], [], [], WAIT_SECONDS)[0]:
        try:
            found += os.read(terminal, 1 << 16)
        except OSError:
            break
    return found


def check_follow(trial: Trial) -> None:
    """On a terminal the table is drawn again while lines come; the last is that of all lines. In a pipe there is one table."""
    text = (trial.top / f"{PLAIN}.answers").read_bytes()
    first, rest = text.split(b"\n", 1)
    wanted = call(trial, "totals", f"{PLAIN}.answers").output
    ours, theirs = pty.openpty()
    words = [trial.top / PROGRAM, "totals", "--follow"]
    environment = os.environ | {"NO_COLOR": "1"}
    with subprocess.Popen(words, stdin=subprocess.PIPE, stdout=theirs, env=environment) as process:
        os.close(theirs)
        assert process.stdin
        process.stdin.write(first + b"\n")
        process.stdin.flush()
        early = read_until(ours, b"lines 1 ")
        trial.demand(b"lines 1 " in early, f"followed: no table behind one line: {early!r}")
        process.stdin.write(rest)
        process.stdin.close()
        late = read_until(ours, b"no such text")
    os.close(ours)
    tables = (early + late).replace(b"\r\n", b"\n").split(CLEAR)
    trial.demand(len(tables) >= 3, f"followed: {len(tables) - 1} tables; wanted one for each write and the last")
    trial.same("followed: the last table", wanted, tables[-1])
    ended = call(trial, "totals", "--follow", given=text)
    trial.same("followed in a pipe", wanted, ended.output, ended.call)


def check_progress(trial: Trial) -> None:
    """What takes longer than a second shows on a terminal how far it is, and takes that away at its end. Elsewhere nothing is shown."""
    lines = b"1 0 stored\n" * 20_000
    for words in (["totals"], ["script", "--back", "--port", "1", "-", os.devnull]):
        ours, theirs = pty.openpty()
        with subprocess.Popen([trial.top / PROGRAM, *words], stdin=subprocess.PIPE, stdout=subprocess.DEVNULL, stderr=theirs) as process:
            os.close(theirs)
            assert process.stdin
            for _ in range(2):
                process.stdin.write(lines)
                process.stdin.flush()
                time.sleep(1.2)
            process.communicate(lines)
        shown = read_until(ours, b"no such text")
        os.close(ours)
        told = re.search(rb"\r(\d+) lines, (\d+) lines/s\x1b\[K", shown)
        trial.demand(bool(told) and b"\r\x1b[K" in shown, f"progress of {words[0]}: {shown!r}")
    ended = call(trial, "totals", given=lines)
    trial.demand(not ended.said, f"progress in a pipe: {ended.said}", ended.call)


def check_site(trial: Trial) -> None:
    """The page of docs/site is the one that tools/make_site.py makes."""
    folder = trial.scratch / "site"
    if trial.must_run(trial.top / "tools/make_site.py", trial.top / PROGRAM, folder):
        trial.same("docs/site/index.html", (folder / "index.html").read_bytes(), (trial.top / "docs/site/index.html").read_bytes())


def check_ends(trial: Trial) -> None:
    """The statuses of wrong words and files; help and version."""
    for words in (("--help",), ("--version",), ("totals", "--help"), ("trace", "--help"), ("links", "--help"), ("diff", "--help"), ("plan", "--help"), ("spread", "--help"), ("explain", "--help"), ("decompress", "--help"), ("report", "--help"), ("survey", "--help"), ("find", "--help"),
                  ("status", "--help"), ("reset", "--help")):
        ended = call(trial, *words)
        trial.demand(ended.status == 0 and ended.text != "", f"rohctl {words}: {ended.end()}", ended.call)
    for name, option in (("totals", "--follow"), ("decompress", "--padded"), ("plan", "--split"), ("reset", "--cid")):
        helped, own = call(trial, "help", name), call(trial, name, "--help")
        trial.demand(helped.text == own.text and option in own.text, f"help {name}: {helped.end()}", helped.call)
    for words in ((), ("frob",), ("trace",), ("links",), ("diff", "a"), ("totals", "--json", "--prometheus"), ("totals", "a", "b"), ("stop",),
                  ("reset", "--control", "x"), ("reset", "--control", "x", "--link", "70000"), ("spread", LINKS)):
        ended = call(trial, *words)
        trial.demand(ended.status == 2 and ended.said != "" or words == (), f"rohctl {words}: {ended.end()}; wanted 2", ended.call)
    told = "rohctl: nothing: no such file or directory; expected the control socket of a running gateway"
    ends(trial, call(trial, "status", "--control", "nothing"), 4, f"{told} (systemctl status rohc-gateway@NAME)")


def check(trial: Trial) -> None:
    """All of it, on the program that the gate left."""
    completion.check_made(trial, trial.top / PROGRAM)
    for part in (check_totals, check_json, check_metrics, check_hostile, check_trace, check_whole, check_colour, check_follow, check_progress, check_site, check_ends,
                 rohctl_explain.check, rohctl_links.check, rohctl_diff.check, rohctl_plan.check, rohctl_spread.check,
                 rohctl_capture.check, rohctl_feed.check, rohctl_report.check, rohctl_survey.check, rohctl_run.check, rohctl_wrong.check):
        part(trial)
