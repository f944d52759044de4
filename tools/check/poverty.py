"""Runs the program once for each of its requests for memory, with that request refused.

Either the run ends with `rohcd: memory` and nothing written, or it ends well. Then the answer to one first IR is
`refused NoMemory`, the later answers for its link and CID are `refused NoContext`, and all other lines are unchanged.

rohctl and rohc-gateway do all that they are asked for, or end with status 5 and say what to do.
"""

from collections import Counter
from pathlib import Path

from gateway_run import dated
from program import Ended
from trial import Trial

SCRIPTS = (
    ("examples/worked/two-calls-and-noise", "examples/worked/links-1.toml", ("1 0", "2 300")),
    ("examples/memory/growing-tables", "examples/memory/growing-tables.toml", ("1 0", "1 9", "2 300")),
)
SCRIPT = "examples/plain-call.script"
MEMORY, HINT = "memory", "a hint"
# Calls of the other programs: the program, its words, and the line with which it ends.
ROHCTL, NO_MEMORY = "crates/rohctl/out/rohctl", "rohctl: out of memory; try a smaller input, or raise the limit (ulimit -v)"
TOOLS = (
    (ROHCTL, ("links", "examples/links.toml"), NO_MEMORY),
    (
        "crates/rohc_gateway/out/rohc_gateway",
        ("check", "crates/rohc_gateway/data/gateway.toml"),
        "DATE rohc-gateway: out of memory; rohctl plan --calls COUNT shows what calls need",
    ),
)


def poor(pair: str, answers: str) -> bytes:
    """The answers if the first IR of a pair finds no memory."""
    told, seen = [], 0
    for line in answers.splitlines():
        if not line.startswith(f"{pair} "):
            told.append(line)
            continue
        told += [f"{pair} refused NoMemory"] if seen == 0 else [f"{pair} refused NoContext"] if seen > 1 else []
        seen += 1
    return "".join(f"{line}\n" for line in told).encode()


def kind_of(ended: Ended, answers: dict[str, bytes]) -> str:
    """How a run ended: `memory`, `a hint`, or a pair whose first IR found no memory; nothing if it ended otherwise."""
    if ended.status == 5:
        return MEMORY if not ended.output and ended.said == "rohcd: memory" else ""
    return next((pair for pair, text in answers.items() if ended.is_good and ended.output == text), "")


def refusing(refuse: Path, request: int, count: Path) -> dict[str, str]:
    """The environment in which this request is refused, and the number of requests is written to a file."""
    return {"LD_PRELOAD": str(refuse), "REFUSED_REQUEST": str(request), "REQUEST_COUNT": str(count)}


def refuse_each(trial: Trial, refuse: Path, name: str, links: str, pairs: tuple[str, ...]) -> None:
    """Every request of a run is refused in turn, and each of these pairs must find no memory once."""
    script, wanted = (trial.top / f"{name}.{kind}" for kind in ("script", "answers"))
    answers = {HINT: wanted.read_bytes()} | {pair: poor(pair, wanted.read_text()) for pair in pairs}
    kinds: Counter[str] = Counter()
    count = trial.scratch / "made"
    request = 1
    while True:
        ended = trial.program.replay(trial.top / links, script, refusing(refuse, request, count))
        made = int(count.read_text())
        if made < request and ended.status == 0:
            break
        kind = kind_of(ended, answers) if made >= request else ""
        if not kind:
            trial.wrong(f"{name}, request {request} of {made} refused: {ended.end()}", ended.call)
            trial.same(f"{name}, request {request} refused", wanted.read_bytes(), ended.output)
            return
        kinds[kind] += 1
        request += 1
    trial.same(f"{name}, with ample memory", wanted.read_bytes(), ended.output, ended.call)
    for kind in (MEMORY, HINT, *pairs):
        trial.demand(kinds[kind] > 0, f"{name}: not met: {kind}")
    trial.say(f"{name}: {request - 1} requests refused in turn, {kinds[MEMORY]} of them before the first line")


def refuse_tool(trial: Trial, refuse: Path, program: str, words: tuple[str | Path, ...], said: str) -> None:
    """Every request of another program is refused in turn: it must do all, or say that there is no memory."""
    whole = trial.ran(trial.top / program, *words)
    count = trial.scratch / "made"
    poor, request = 0, 1
    while True:
        ended = trial.ran(trial.top / program, *words, environment=refusing(refuse, request, count))
        made = int(count.read_text())
        if made < request:
            break
        is_poor = (ended.status, dated(ended.said)) == (5, said) and whole.output.startswith(ended.output)
        is_whole = (ended.status, ended.output, ended.error) == (whole.status, whole.output, whole.error)
        if not trial.demand(is_poor or is_whole, f"{program} {words}, request {request} of {made} refused: {ended.end()}", ended.call):
            return
        poor += is_poor
        request += 1
    trial.demand(poor > 0, f"{program}: never without memory")
    trial.say(f"{Path(program).name}: {request - 1} requests refused in turn, {poor} of them told")


def check(trial: Trial) -> None:
    """Refuses each request of two scripts, and of the other programs."""
    refuse = trial.compiled("tools/refuse_request.c")
    capture = trial.scratch / "call.pcap"
    trial.ran(trial.top / ROHCTL, "script", "--back", "--port", "7000", SCRIPT, capture)
    reports = [(ROHCTL, ("report", "--links", "examples/links.toml", *words), NO_MEMORY) for words in ((SCRIPT,), ("--port", "7000", capture))]
    for program, words, said in (*TOOLS, *reports):
        refuse_tool(trial, refuse, program, words, said)
    for name, links, pairs in SCRIPTS:
        refuse_each(trial, refuse, name, links, pairs)
