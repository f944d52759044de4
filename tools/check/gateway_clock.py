"""A gateway whose system's clock is set while it runs and while it doesn't.

A library loaded before the gateway sets that clock. Calls, saves and the limits of connections must take no notice, the log
must, and after a restart moments go on from the saved one.
"""

import hashlib
import os
import re
import socket
import struct
import time
from dataclasses import dataclass
from pathlib import Path

from cluster import Arrival
from gateway_limits import first_ir
from gateway_run import LOOPBACK, Answered, Gateway, Receivers, read_answer, samples
from trial import Trial

LINK, CALLS = 1, 5
SECOND, HOUR, YEAR = 1000, 3_600_000, 31_556_952_000
# How far the clocks of two gateways are apart.
APART = 5 * SECOND
# Calls expire after so many milliseconds.
IDLE = 60 * SECOND
# How long a connection may take, and how long a wake is awaited, in seconds.
LONGEST_CONNECTION, PATIENCE = 10.0, 5.0
# Two clocks are read in whole milliseconds.
ROUNDED = 2
# The place of the moment in a state file (docs/FORMATS.md), and the octets of its digest.
MOMENT, DIGEST = slice(11, 19), 32


@dataclass
class Clock:
    """The system's clock of a gateway, as far as the gateway sees it."""

    gateway: Gateway
    file: Path

    @classmethod
    def of(cls, trial: Trial, gateway: Gateway) -> "Clock":
        """A clock that is right, for a gateway that starts after this."""
        file = gateway.folder / "clock"
        file.write_text("0")
        gateway.environment = {"LD_PRELOAD": str(trial.compiled("tools/set_clock.c")), "CLOCK_FILE": str(file)}
        return cls(gateway, file)

    def set(self, milliseconds: int) -> None:
        """Sets it ahead by so much, or back."""
        new = self.file.with_suffix(".new")
        new.write_text(str(milliseconds))
        new.rename(self.file)

    def is_told(self, text: str) -> bool:
        """Whether the log soon says this."""
        end = time.monotonic() + PATIENCE
        while text not in self.gateway.said and time.monotonic() < end:
            time.sleep(0.05)
        return text in self.gateway.said


def send(gateway: Gateway, packet: bytes) -> None:
    """Sends a packet to the port at which the gateway's own moments count."""
    gateway.sender.sendto(struct.pack(">H", LINK) + packet, (LOOPBACK, gateway.port))
    gateway.count += 1
    gateway.wait_taken()


def moment_in(state: bytes) -> int:
    """The moment of what was saved."""
    return int.from_bytes(state[MOMENT], "big")


def silences(gateway: Gateway) -> list[int]:
    """For how many milliseconds each call is silent."""
    return [int(str(row["silent_ms"])) for row in gateway.ask("GET", f"/calls?link={LINK}").rows if "silent_ms" in row]


def saves(gateway: Gateway) -> int:
    """How many saves were done since the start."""
    return next(count for name, _, count in samples(gateway.metrics()) if name == "polorowan_saves_total")


def records(gateway: Gateway) -> bytes:
    """The contexts as they are saved, without the moment and the digest."""
    state = gateway.ask("GET", "/state").body
    return state[MOMENT.stop : -DIGEST]


def check_steps(trial: Trial, gateway: Gateway, clock: Clock) -> None:
    """The clock is set while the gateway runs. Each call stands as it stood, and no older than time has passed."""
    begun = time.monotonic()
    for cid in range(1, CALLS + 1):
        send(gateway, first_ir(cid))
    before = records(gateway)
    for shown, text in (
        (-HOUR, "the system's clock was set back by 3600 s"),
        (HOUR, "the system's clock was set ahead by 7200 s"),
        (0, "the system's clock was set back by 3600 s"),
        (10 * YEAR, "the system's clock was set ahead by 315569520 s"),
    ):
        clock.set(shown)
        trial.demand(clock.is_told(text), f"clock at {shown} ms: the log lacks {text!r}: {gateway.said}")
        trial.demand(records(gateway) == before, f"clock at {shown} ms: a context has changed")
        found = silences(gateway)
        passed = (time.monotonic() - begun) * SECOND + ROUNDED
        good = len(found) == CALLS and all(silent <= passed for silent in found)
        trial.demand(good, f"clock at {shown} ms: silent for {found} ms; wanted {CALLS} of at most {passed:.0f}")
    trial.demand(gateway.said.count("clock was set") == 4, f"clock: it was set four times: {gateway.said}")


def check_time(trial: Trial, gateway: Gateway, clock: Clock) -> None:
    """After the clock was set back, saves go on, and a silent connection ends in its time."""
    clock.set(-HOUR)
    with socket.create_connection((LOOPBACK, gateway.metrics_port)) as silent:
        silent.settimeout(2 * LONGEST_CONNECTION)
        begun, done = time.monotonic(), saves(gateway)
        trial.demand(read_answer(silent).status == 0, "clock: a silent connection was answered")
        took = time.monotonic() - begun
    trial.demand(took <= LONGEST_CONNECTION + PATIENCE, f"clock: a silent connection ended after {took:.1f} s")
    found = saves(gateway) - done
    trial.demand(found >= LONGEST_CONNECTION / 2, f"clock: {found} saves in {took:.1f} s; wanted one each second")
    told = gateway.ask("GET", "/status").json
    shown = time.time() * SECOND - HOUR
    saved = int(str(told["saved"]))
    trial.demand(abs(saved - shown) < 30 * SECOND, f"clock: the status says that it saved at {saved}; wanted about {shown:.0f}")


def check_restarts(trial: Trial, gateway: Gateway, clock: Clock) -> None:
    """Moments go on from the saved one by the time since the file was written, and never back."""
    clock.set(0)
    time.sleep(1.0)
    for absent, least, most in ((0, 0, IDLE), (-HOUR, 0, IDLE), (HOUR, HOUR, HOUR + IDLE), (100 * YEAR, 2**32 - 1, 2**32 - 1 + IDLE)):
        trial.demand(gateway.stop() == 0, f"clock: it doesn't stop: {gateway.said}")
        before = moment_in((gateway.folder / "calls").read_bytes())
        clock.set(absent)
        gateway.start()
        passed = moment_in(gateway.ask("GET", "/state").body) - before
        trial.demand(least <= passed <= most, f"clock: absent for {absent} ms, {passed} passed; wanted {least} to {most}")
        # After IDLE they have expired, and are removed.
        wanted = CALLS if least < IDLE else 0
        found = silences(gateway)
        good = len(found) == wanted and all(silent <= most for silent in found)
        trial.demand(good, f"clock: absent for {absent} ms, silent for {found} ms; wanted {wanted} calls of at most {most}")
        for cid in range(1, CALLS + 1):
            send(gateway, first_ir(cid))
        clock.set(0)
    trial.demand(gateway.stop() == 0, f"clock: it doesn't stop: {gateway.said}")


def check_moment(trial: Trial, gateway: Gateway) -> None:
    """A saved moment of 2^63 or more is a fault of the state file, and changes nothing."""
    file = gateway.folder / "calls"
    good = file.read_bytes()
    (gateway.folder / "calls.latest").unlink()
    for moment, is_good in ((2**64 - 1, False), (2**63, False), (2**63 - 1, True)):
        front = good[: MOMENT.start] + struct.pack(">Q", moment) + good[MOMENT.stop : -DIGEST]
        file.write_bytes(front + hashlib.sha256(front).digest())
        os.utime(file)
        before = gateway.said
        try:
            gateway.start()
        except RuntimeError:
            wanted = f"its moment is {moment}; expected one below 2^63 (run --fresh starts without it)"
            trial.demand(not is_good and wanted in gateway.said, f"clock: moment {moment}: {gateway.said}")
        else:
            said = gateway.said.removeprefix(before)
            trial.demand(is_good and f", {CALLS} contexts restored" in said, f"clock: moment {moment} was accepted: {said}")
            gateway.kill()
    file.write_bytes(good)


def imports(gateway: Gateway, body: bytes) -> Answered:
    """The answer to an import of the link."""
    gateway.ask("POST", f"/hold?link={LINK}")
    head = f"POST /import?link={LINK} HTTP/1.1\r\nHost: gateway\r\nContent-Length: {len(body)}\r\n\r\n"
    return gateway.sent(head.encode() + body)


def check_import(trial: Trial, links: str) -> None:
    """A link doesn't move to a gateway whose moments are more than a second from those of its own."""
    with Gateway(trial, trial.scratch / "from", links) as own:
        own.send(Arrival(LINK, 5, first_ir(1)))
        own.wait_taken()
        for ahead, status in ((APART, 409), (-APART, 409), (0, 200)):
            other = Gateway(trial, trial.scratch / f"to{ahead}", links)
            Clock.of(trial, other).set(ahead)
            with other:
                body = own.ask("POST", f"/export?link={LINK}").body
                told = imports(other, body)
                own.ask("POST", f"/export?link={LINK}&off")
            trial.demand(told.status == status, f"import, clocks {ahead} ms apart: {told}; wanted {status}")
            if status == 409:
                text = rf"link {LINK} was exported at moment \d+, and this gateway is at \d+; expected at most 1000 ms between them; "
                fits = re.fullmatch(text + "the link is still held", str(told.json["text"])) and told.json["fault"] == "Moment"
                trial.demand(bool(fits), f"import, clocks {ahead} ms apart: {told}")


def check(trial: Trial) -> None:
    """A gateway without a timed port, since moments there are its senders'."""
    with Receivers() as receivers:
        links = receivers.links([LINK]).replace("version = 1", "version = 2").replace("packet_ms", f"idle_ms = {IDLE}\npacket_ms")
        gateway = Gateway(trial, trial.scratch / "clock", links, save_seconds=1)
        gateway.file.write_text(gateway.file.read_text().replace(f"timed_port = {gateway.timed_port}\n", ""))
        clock = Clock.of(trial, gateway)
        with gateway:
            check_steps(trial, gateway, clock)
            check_time(trial, gateway, clock)
            check_restarts(trial, gateway, clock)
            check_moment(trial, gateway)
        check_import(trial, links)
    print("clock: set by an hour, by ten years and in restarts; calls, saves and connections took no notice")
