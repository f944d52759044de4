"""Compares answers and traces by `rohctl diff`: the first difference of each call, and no other."""

import json
from pathlib import Path

from program import Call, Ended, run
from trial import Trial

PROGRAM = "crates/rohctl/out/rohctl"
SCRIPT = "examples/scripts/middle-09.script"
# Two answers. Call 1 0 differs at its second line and again later, call 2 300 lacks its last line in the second, and
# call 1 1 is equal although its lines stand elsewhere.
ONE = """1 0 ip 45aa
2 300 ip 4501
1 1 stored
1 0 refused Check
2 300 refused Check
1 0 ip 45ab
1 1 feedback f2e100
"""
OTHER = """1 1 stored
1 0 ip 45aa
1 1 feedback f2e100
2 300 ip 4501
1 0 ip 45ab
1 0 refused Check
"""
TOLD = """link 1 CID 0
  A line 4: 1 0 refused Check
  B line 5: 1 0 ip 45ab
                ^
link 2 CID 300
  A line 5: 2 300 refused Check
  B no line
"""


def diff(trial: Trial, *words: str | Path, given: bytes = b"") -> Ended:
    """How `rohctl diff` ends with these words."""
    return run(Call((trial.top / PROGRAM, "diff", *words), given, folder=trial.top))


def check(trial: Trial) -> None:
    """Answers, traces, a text that is far ahead, and hostile lines."""
    one, other = trial.write("one.answers", ONE), trial.write("other.answers", OTHER)
    told = diff(trial, one, other)
    trial.same("the differences", TOLD, told.text, told.call)
    trial.demand(told.status == 1, f"rohctl diff: {told.end()}; wanted 1", told.call)
    rows = [json.loads(line) for line in diff(trial, "--json", one, other).text.splitlines()]
    trial.demand([(row["link"], row["cid"], row["a_line"], row["b_line"], row["offset"]) for row in rows] == [(1, 0, 4, 5, 4), (2, 300, 5, None, None)], f"{rows}")
    # Behind 7 octets of front and 102 digits "10" and "11" differ in their second octet, at offset 110: 20 octets before it are shown.
    long = [f"1 0 ip {'ab' * 51}{word}{'cd' * 40}" for word in ("10", "11")]
    deep = diff(trial, trial.write("a.answers", f"{long[0]}\n"), trial.write("b.answers", f"1 1 stored\n{long[1]}\n"))
    shown = [f"..{line[90:150]}.." for line in long]
    wanted = f"link 1 CID 0\n  A line 1: {shown[0]}\n  B line 2: {shown[1]}\n{' ' * (12 + 2 + 20)}^\nlink 1 CID 1\n  A no line\n  B line 1: 1 1 stored\n"
    trial.same("a difference far behind", wanted, deep.text, deep.call)
    trial.demand(diff(trial, one, one).status == 0 and diff(trial, "-", one, given=ONE.encode()).status == 0, "equal answers differ")
    script = trial.top / SCRIPT
    traced = run(Call((trial.top / PROGRAM, "trace", "--links", script.with_suffix(".toml"), script), folder=trial.top)).output
    lines = traced.splitlines(keepends=True)
    place = next(place for place, line in enumerate(lines) if place > 200 and b" ip 45" in line)
    number = next(int(line.split()[0]) for line in lines[place::-1] if b" arrive " in line)
    lines[place] = lines[place].replace(b" ip 45", b" ip 46")
    changed = diff(trial, trial.write("a.trace", traced), trial.write("b.trace", b"".join(lines)))
    trial.demand(f"A line {number}: " in changed.text and changed.text.count("link ") == 1, f"not line {number} alone: {changed.text}", changed.call)
    far = b"7 7 ip 45\n" * 1_000
    ahead = diff(trial, trial.write("far.answers", far + b"1 0 ip 45aa\n"), trial.write("short.answers", b"1 0 ip 45aa\n"))
    trial.same("a text far ahead", "link 7 CID 7\n  A line 1: 7 7 ip 45\n  B no line\n", ahead.text, ahead.call)
    hostile = diff(trial, "--json", trial.write("hostile", b"\x1b[2J\"\\\n" + b"9" * 200_000), one)
    trial.demand(b"\x1b" not in hostile.output and all(json.loads(line) for line in hostile.text.splitlines()), "a control character is shown", hostile.call)
    trial.demand(diff(trial, "nothing", one).status == 4, "a file that isn't there can be read")
