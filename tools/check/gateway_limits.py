"""What a link may do in a second: new contexts and feedback above its limits, by the gateway's own clock.

Each sending takes less than a second and begins with one, so that all of it falls into the same second.
"""

import time

from cluster import Arrival
from gateway_run import Gateway, Receivers, samples
from random_script import check8
from trial import Trial

# Links with small CIDs: of each, CIDs from 1 on may begin calls.
FEW, QUIET, FREE = 1, 3, 5
CONTEXTS, ELEMENTS, CALLS = 3, 2, 10
TABLES = f"""[[link]]
number = {FEW}
new_contexts_per_second = {CONTEXTS}
[[link]]
number = {QUIET}
feedback_per_second = {ELEMENTS}
"""
# Each rebuilt packet has two octets, and an IR is acknowledged.
PAYLOAD = b"\x45\xaa"
TRIES = 5


def first_ir(cid: int) -> bytes:
    """An IR of profile 0x0000 for a small CID from 1 on."""
    front = bytes((0xE0 | cid, 0xFC, 0))
    return front + bytes([check8(front)]) + PAYLOAD


def limited(gateway: Gateway) -> dict[tuple[str, str], int]:
    """What the limits of each link did, by the metrics."""
    return {
        (name.removeprefix("polorowan_").removesuffix("_total"), labels["link"]): count
        for name, labels, count in samples(gateway.metrics())
        if name.endswith("_limited_total")
    }


def in_one_second(trial: Trial, gateway: Gateway, links: tuple[int, ...], cids: range) -> None:
    """Sends first IRs for these CIDs on each link, all in one second of the clock."""
    for _ in range(TRIES):
        time.sleep(1.05 - time.time() % 1)
        begun = int(time.time())
        for cid in cids:
            for link in links:
                gateway.send(Arrival(link, 0, first_ir(cid)))
        gateway.wait_taken()
        if int(time.time()) == begun:
            return
        for link in links:
            gateway.ask("POST", f"/reset?link={link}")
    trial.wrong(f"limits: no {len(cids) * len(links)} datagrams were taken within one second")


def contexts_of(gateway: Gateway, link: int) -> list[int]:
    """The CIDs of a link that have a context."""
    return [row["cid"] for row in gateway.ask("GET", f"/contexts?link={link}").rows]


def check_contexts(trial: Trial, gateway: Gateway, receivers: Receivers) -> None:
    """Above its limit a link begins no calls, those that it has continue, and other links are not concerned."""
    in_one_second(trial, gateway, (FEW, FREE), range(1, CALLS + 1))
    found = contexts_of(gateway, FEW), contexts_of(gateway, FREE)
    wanted = list(range(1, CONTEXTS + 1)), list(range(1, CALLS + 1))
    trial.demand(found == wanted, f"limits: contexts {found}; wanted {wanted}")
    counts = limited(gateway)
    above = CALLS - CONTEXTS
    trial.demand(counts["contexts_limited", str(FEW)] == above, f"limits: {counts}; wanted {above} for link {FEW}")
    trial.demand(sum(counts.values()) == above, f"limits: {counts}; wanted only those of link {FEW}")
    told = gateway.ask("GET", "/status").json
    trial.demand((told["contexts_limited"], told["feedback_limited"]) == (above, 0), f"limits: the status {told}")
    trial.demand(receivers.wait({"deliver": CONTEXTS + CALLS}), f"limits: {len(receivers.found['deliver'])} packets delivered")
    # In the next second as many again, and renewed calls count for nothing.
    in_one_second(trial, gateway, (FEW,), range(1, 2 * CONTEXTS + 1))
    found_then, wanted_then = contexts_of(gateway, FEW), list(range(1, 2 * CONTEXTS + 1))
    trial.demand(found_then == wanted_then, f"limits: contexts {found_then} in the next second; wanted {wanted_then}")


def check_feedback(trial: Trial, gateway: Gateway, receivers: Receivers) -> None:
    """Above its limit a link sends no feedback, and delivers all packets."""
    receivers.forget()
    in_one_second(trial, gateway, (QUIET,), range(1, CALLS + 1))
    trial.demand(receivers.wait({"deliver": CALLS, "feedback": ELEMENTS}), "limits: packets or feedback are missing")
    receivers.take()
    sent = len(receivers.found["feedback"])
    withheld = limited(gateway)["feedback_limited", str(QUIET)]
    trial.demand((sent, withheld) == (ELEMENTS, CALLS - ELEMENTS), f"limits: {sent} elements sent, {withheld} withheld")


def check(trial: Trial) -> None:
    """Limits hold for their link and second, and a reload sets them anew."""
    with Receivers() as receivers:
        gateway = Gateway(trial, trial.scratch / "limits", receivers.links([FEW, QUIET, FREE]))
        plain = gateway.file.read_text()
        gateway.file.write_text(plain + TABLES)
        with gateway:
            check_contexts(trial, gateway, receivers)
            check_feedback(trial, gateway, receivers)
            gateway.file.write_text(plain)
            trial.demand(gateway.ask("POST", "/reload").status == 200, "limits: a reload fails")
            gateway.ask("POST", f"/reset?link={FEW}")
            in_one_second(trial, gateway, (FEW,), range(1, CALLS + 1))
            found = contexts_of(gateway, FEW)
            trial.demand(found == list(range(1, CALLS + 1)), f"limits: contexts {found} without limits")
    trial.say(f"limits: {CONTEXTS} of {CALLS} new contexts and {ELEMENTS} of {CALLS} feedback elements in a second")
