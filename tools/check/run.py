"""Runs checks, tells what each said, and ends with a table."""

import shutil
import subprocess
import tempfile
import time
import traceback
from collections.abc import Iterable, Iterator, Mapping
from concurrent.futures import ProcessPoolExecutor
from dataclasses import dataclass, field, replace
from pathlib import Path

from registry import GATE, PROGRAM, PROVING, TOP, Check, Needs
from trial import LEFT_OUT, Trial

NO_PROGRAM = f"needs the program, and no {PROGRAM} stands that was proved from these sources: `bin/check gate` makes it"


@dataclass(frozen=True)
class Result:
    """How a check ended."""

    name: str
    outcome: str
    seconds: int
    lines: list[str] = field(default_factory=list)
    last: str = ""

    @property
    def failed(self) -> bool:
        """Whether it didn't pass."""
        return self.outcome.startswith("NOT ")

    @property
    def left_out(self) -> list[str]:
        """The lines that say what was left out."""
        return [line for line in self.lines if line.startswith(LEFT_OUT)]


@dataclass(frozen=True)
class Order:
    """What is to be run: checks with the words behind their names, on a program.

    The program may be given. Otherwise it must be the one that was proved. The names may be all that there are.
    """

    words: Mapping[str, tuple[str, ...]]
    program: Path
    is_given: bool
    is_all: bool
    over_gate: bool = False


def say(text: str) -> None:
    """Prints a line at once."""
    print(text, flush=True)


def seconds_since(start: float) -> int:
    """Whole seconds since a time of the monotonic clock."""
    return round(time.monotonic() - start)


def faults_of(wrongs: int) -> str:
    """How many faults, in words."""
    return "passed" if wrongs == 0 else f"NOT passed, {wrongs} fault{'s' * (wrongs != 1)}"


def run_one(check: Check, order: Order) -> Result:
    """Runs a check. What it says is kept, and its folder if it fails."""
    if check.tool and not shutil.which(check.tool):
        return Result(check.name, "left out", 0, [f"{LEFT_OUT}{check.tool} is not installed, {check.without_tool}"])
    start = time.monotonic()
    scratch = Path(tempfile.mkdtemp(prefix=f"rohc-{check.name}-"))
    trial = Trial(TOP, order.program, scratch, order.words[check.name], order.over_gate, order.is_all)
    try:
        check.function(trial)
    except Exception:
        trial.wrong(f"{check.name}: {traceback.format_exc()}")
    if trial.wrongs and any(scratch.iterdir()):
        trial.say(f"{check.name}: its files stay in {scratch}")
    else:
        shutil.rmtree(scratch, ignore_errors=True)
    return Result(check.name, faults_of(trial.wrongs), seconds_since(start), trial.lines, trial.last)


def tell(result: Result) -> Result:
    """Tells what a check said, except what it left out, and how it ended."""
    for line in result.lines:
        if line not in result.left_out:
            say(line)
    say(f"{result.name}: {result.outcome}, {result.seconds} seconds")
    return result


def run_side_by_side(checks: list[Check], order: Order) -> Iterator[Result]:
    """Runs checks side by side. They are told in their order, each as soon as those before it have ended."""
    with ProcessPoolExecutor(max(1, len(checks))) as pool:
        yield from map(tell, pool.map(run_one, checks, [order] * len(checks)))


def run_on_program(checks: list[Check], order: Order) -> Iterator[Result]:
    """Runs checks on the program that is given, or on the one that was proved from these sources, if it stands.

    Right after a gate that passed, bin/lib takes the crates below rohc_c as the gate has just left them
    (POLOROWAN_OVER_GATE). At any other time they may be older than their sources, and it proves them.
    """
    stands = not checks or order.is_given or subprocess.run(["bin/sources", "stands"], cwd=TOP).returncode == 0
    ready = [check for check in checks if stands or (check.can_do_without and not order.is_all)]
    together = [check for check in ready if not check.is_apart]
    if together:
        yield from run_side_by_side(together, order)
    yield from (tell(run_one(check, order)) for check in ready if check.is_apart)
    for check in checks:
        if check not in ready:
            yield tell(Result(check.name, "NOT run", 0, [f"bin/check: {check.name} {NO_PROGRAM}"]))


def are_unproved(results: Iterable[Result]) -> bool:
    """Whether the crates that changed aren't proved."""
    return any(result.failed and result.name == PROVING for result in results)


def not_run(check: Check) -> Result:
    """Tells that a check isn't run, since the crates that changed aren't proved."""
    return tell(Result(check.name, "NOT run", 0, [f"bin/check: {check.name} needs the crates that {PROVING} proves"]))


def tell_table(results: Iterable[Result]) -> None:
    """A row for each check, and then what was left out."""
    results = list(results)
    say(f"\n{'check':16}{'seconds':>7}  result")
    for result in results:
        say(f"{result.name:16}{result.seconds:7}  {result.outcome}")
    for line in sorted({line for result in results for line in result.left_out}):
        say(line)


def run_checks(checks: list[Check], order: Order) -> int:
    """Runs checks: those that need nothing, the gate, and those on the program. The status is 1 if one didn't pass."""
    by_needs = {needs: [check for check in checks if check.needs is needs] for needs in Needs}
    results = list(run_side_by_side(by_needs[Needs.NOTHING], order))
    early = [result.name for result in results if result.failed]
    if early and len(checks) > len(results):
        say(f"bin/check: NOT passed so far: {', '.join(early)}. The rest runs all the same.")
    gates: list[Result] = []
    for check in by_needs[Needs.TOOLCHAIN]:
        gates.append(not_run(check) if are_unproved(gates) else tell(run_one(check, order)))
    results += gates
    if are_unproved(gates):
        results += [not_run(check) for check in by_needs[Needs.PROGRAM]]
    else:
        over_gate = any(result.name == GATE and not result.failed for result in gates)
        results += run_on_program(by_needs[Needs.PROGRAM], replace(order, over_gate=over_gate))
    tell_table(results)
    for gate in gates:
        if gate.last:
            say(gate.last)
    return int(any(result.failed for result in results))
