"""Compares what `rohctl plan` says of windows with a simulation of them, and with what is known of short ones."""

import json
import random

from program import Call, Ended, run
from trial import Trial

PROGRAM = "crates/rohctl/out/rohctl"
SEED = 3
FALLS = 3_000
# A packet time so great that the milliseconds told have the packets to five places.
PACKET_MS = 60_000
# Of 100 damaged headers a check of 3 bits finds 87.5.
FOUND = 0.875
# The share of damaged headers, and windows, so that a fall takes few packets.
CASES = ((20, 2, 3), (20, 2, 5), (30, 3, 5), (40, 4, 8), (10, 1, 1), (15, 2, 16), (50, 8, 8))


def plan(trial: Trial, *words: str) -> Ended:
    """How `rohctl plan` ends with these words."""
    return run(Call((trial.top / PROGRAM, "plan", *words), folder=trial.top))


def packets(trial: Trial, damage: float, k: int, n: int) -> tuple[float, float]:
    """The packets until a good call falls, and until a lost context is noticed, as rohctl tells them."""
    told = plan(trial, "--json", "--damage", str(damage), "--packet-ms", str(PACKET_MS), "--window", f"{k}/{n}")
    row = json.loads(told.text.splitlines()[0])
    trial.demand((row["k"], row["n"]) == (k, n), f"the first row isn't {k}/{n}", told.call)
    return row["falls_after_ms"] / PACKET_MS, row["unnoticed_ms"] / PACKET_MS


def simulated(chance: random.Random, failing: float, k: int, n: int) -> float:
    """The packets until k of the last n outcomes are failures, on average over many falls."""
    total = 0
    for _ in range(FALLS):
        outcomes: list[bool] = []
        while sum(outcomes[-n:]) < k:
            outcomes.append(chance.random() < failing)
        total += len(outcomes)
    return total / FALLS


def near(found: float, wanted: float, share: float) -> bool:
    """Whether a number is within a share of another."""
    return abs(found - wanted) <= share * wanted


def check_recommended(trial: Trial) -> None:
    """The recommended window stands in the table and in JSON, once: of the windows up to 8 that hold an hour, the one that notices first."""
    hour = 3_600_000
    for damage in ("0.1", "2"):
        rows = [json.loads(line) for line in plan(trial, "--json", "--damage", damage).text.splitlines()]
        best = [row for row in rows if row["recommended"]]
        others = []
        for n in range(1, 9):
            for k in range(1, n + 1):
                told = plan(trial, "--json", "--damage", damage, "--window", f"{k}/{n}")
                others.append(json.loads(told.text.splitlines()[0]))
        seldom = [row for row in others if row["falls_after_ms"] is None or row["falls_after_ms"] >= hour]
        first = min(row["unnoticed_ms"] for row in seldom)
        fits = len(best) == 1 and any((row["k"], row["n"]) == (best[0]["k"], best[0]["n"]) for row in seldom)
        trial.demand(fits and best[0]["unnoticed_ms"] == first, f"recommended at {damage} %: {best}; wanted one that notices after {first} ms")
        table = plan(trial, "--damage", damage)
        marked = [" ".join(line.split()) for line in table.text.splitlines() if line.endswith("  recommended for k1/n1 and k2/n2")]
        trial.demand(len(marked) == 1 and marked[0].startswith(f"{best[0]['k']}/{best[0]['n']} "), f"recommended at {damage} %: {marked}", table.call)
    none = plan(trial, "--damage", "100")
    rows = plan(trial, "--json", "--damage", "100").text
    trial.demand("for k1/n1" not in none.text and '"recommended":true' not in rows, "a window is recommended where none fits", none.call)
    asked = [json.loads(line) for line in plan(trial, "--json", "--damage", "2", "--window", "3/3").text.splitlines()]
    trial.demand([row["recommended"] for row in asked] == [True, False, False, False, False], f"an asked window that is recommended: {asked}")


def check(trial: Trial) -> None:
    """Windows against a simulation and by hand; the table, memory and shares."""
    chance = random.Random(SEED)
    for damage, k, n in CASES:
        falls, unnoticed = packets(trial, damage, k, n)
        for found, failing in ((falls, damage / 100 * FOUND), (unnoticed, FOUND)):
            wanted = simulated(chance, failing, k, n)
            trial.demand(near(found, wanted, 0.1), f"{k}/{n} at {failing:.3f}: {found:.2f} packets, simulated {wanted:.2f}")
    # One failure: 1 / f packets. Two of two: (1 + f) / f^2.
    for damage, k, n, wanted in ((1, 1, 1, 1 / 0.00875), (2, 2, 2, 1.0175 / 0.0175**2), (0.01, 1, 4, 1 / 0.0000875)):
        falls, _ = packets(trial, damage, k, n)
        trial.demand(near(falls, wanted, 1e-6), f"{k}/{n} at {damage} %: {falls:.6f} packets, by hand {wanted:.6f}")
    table = plan(trial, "--damage", "2")
    for text in ("2/3", "2/5", "3/5", "4/8", "recommended: k1 = 3, n1 = 3 (a healthy call falls to Static Context at most once per hour; a lost context is noticed after 79 ms)", "note: lost packets do not count as failures; only damaged ones do"):
        trial.demand(text in table.text, f"the table has no '{text}'", table.call)
    check_recommended(trial)
    trial.demand("never" in plan(trial, "--damage", "0").text, "without damage a call falls")
    for words in (("--window", "4/3"), ("--window", "1/17"), ("--damage", "-1"), ("--damage", "x"), ("--split", "2")):
        ended = plan(trial, *words)
        trial.demand(ended.status == 2, f"rohctl plan {words}: {ended.end()}; wanted 2", ended.call)
    memory = plan(trial, "--calls", "1000")
    # 326 octets for a context and 314 for its counts: docs/OPERATING.md.
    wanted_memory = "calls 1000 memory at most 326000 octets, with the counts of rohc-gateway 640000 octets\n"
    trial.same("the memory", wanted_memory, memory.text, memory.call)
    shares = plan(trial, "--split", "2", "--links", "examples/two-links.toml")
    wanted_rows = "process 1 calls 16 memory at most 5216 octets, links 1\nprocess 2 calls 16384 memory at most 5341184 octets, links 2\n"
    trial.same("the shares", wanted_rows, shares.text, shares.call)
