"""A gateway in a container: deploy/entrypoint is the first process there, and makes a stop of a signal.

The container is a namespace of processes. The programs are found by their names.
"""

import contextlib
import os
import shutil
import signal
import subprocess
import time
from collections.abc import Iterator
from dataclasses import dataclass
from pathlib import Path

from cluster import Arrival
from gateway_limits import first_ir
from gateway_run import PROGRAM, WAIT_SECONDS, Gateway, Receivers
from trial import Trial

LINK, CALLS = 1, 5


@dataclass
class Container:
    """A namespace with a gateway, whose first process is the entrypoint."""

    gateway: Gateway
    process: subprocess.Popen[bytes]

    @classmethod
    @contextlib.contextmanager
    def of(cls, gateway: Gateway) -> Iterator["Container"]:
        """Starts one for a gateway's files."""
        programs = gateway.folder / "bin"
        programs.mkdir(exist_ok=True)
        top = gateway.trial.top
        for name, program in (("rohc-gateway", PROGRAM), ("rohctl", "crates/rohctl/out/rohctl")):
            (programs / name).unlink(missing_ok=True)
            (programs / name).symlink_to(top / program)
        environment = os.environ | {"PATH": f"{programs}:/usr/bin:/bin", "ROHC_CONTROL": str(gateway.control)}
        words = ["unshare", "--pid", "--fork", "--mount-proc", "--kill-child", top / "deploy/entrypoint", gateway.file]
        with (gateway.folder / "log").open("ab") as log:
            process = subprocess.Popen(words, stdout=log, stderr=log, env=environment)
        try:
            yield cls(gateway, process)
        finally:
            process.kill()
            process.wait(WAIT_SECONDS)

    def wait_ready(self) -> bool:
        """Waits until the gateway answers. Whether it does."""
        end = time.monotonic() + WAIT_SECONDS
        while time.monotonic() < end and self.process.poll() is None:
            with contextlib.suppress(OSError):
                if self.gateway.ask("GET", "/ready").status == 200:
                    return True
            time.sleep(0.02)
        return False

    def signal(self, number: int) -> None:
        """Sends a signal to its first process, as a runtime does."""
        children = Path(f"/proc/{self.process.pid}/task/{self.process.pid}/children")
        end = time.monotonic() + WAIT_SECONDS
        while not children.read_text().split() and time.monotonic() < end:
            time.sleep(0.01)
        os.kill(int(children.read_text().split()[0]), number)

    def status(self) -> int:
        """The status with which it ends, or -1 if it doesn't end in time."""
        with contextlib.suppress(subprocess.TimeoutExpired):
            return self.process.wait(WAIT_SECONDS)
        return -1


def sends_calls(gateway: Gateway) -> None:
    """Begins calls."""
    gateway.count = 0
    for cid in range(1, CALLS + 1):
        gateway.send(Arrival(LINK, 0, first_ir(cid)))
    gateway.wait_taken()


def contexts(gateway: Gateway) -> int:
    """How many contexts the gateway has."""
    return len(gateway.ask("GET", f"/contexts?link={LINK}").rows)


def check_signals(trial: Trial, gateway: Gateway) -> None:
    """Each signal saves all calls, and the next start has them. One that comes before the gateway is ready ends it too."""
    for number in (signal.SIGTERM, signal.SIGINT):
        with Container.of(gateway) as container:
            if not trial.demand(container.wait_ready(), f"container: it isn't ready: {gateway.said}"):
                return
            if number == signal.SIGTERM:
                sends_calls(gateway)
            trial.demand(contexts(gateway) == CALLS, f"container: {contexts(gateway)} contexts; wanted {CALLS}")
            container.signal(number)
            trial.demand(container.status() == 0, f"container: signal {number}: it doesn't end well: {gateway.said}")
    with Container.of(gateway) as container:
        time.sleep(0.2)
        container.signal(signal.SIGTERM)
        trial.demand(container.status() == 0, f"container: a signal at the start: it doesn't end well: {gateway.said}")


def check_unsaved(trial: Trial, gateway: Gateway) -> None:
    """A gateway that can't save continues, and ends once it can."""
    folder = gateway.folder / "saved"
    away = gateway.folder / "away"
    folder.mkdir()
    gateway.file.write_text(gateway.file.read_text().replace('state = "calls"', 'state = "saved/calls"'))
    with Container.of(gateway) as container:
        if not trial.demand(container.wait_ready(), f"container: it isn't ready: {gateway.said}"):
            return
        sends_calls(gateway)
        folder.rename(away)
        container.signal(signal.SIGTERM)
        end = time.monotonic() + WAIT_SECONDS
        while "save failed" not in gateway.said and time.monotonic() < end:
            time.sleep(0.05)
        trial.demand(contexts(gateway) == CALLS, "container: a gateway that can't save has ended")
        away.rename(folder)
        trial.demand(container.status() == 0, f"container: it doesn't end once it can save: {gateway.said}")
    trial.demand((folder / "calls").is_file(), "container: no calls were saved")


def check_refused(trial: Trial, gateway: Gateway) -> None:
    """The status is the gateway's where it refuses its file, and 2 without words."""
    gateway.file.write_text("links = 3\n")
    with Container.of(gateway) as container:
        trial.demand(container.status() == 3, f"container: a wrong gateway file: {gateway.said}")
    ended = trial.ran("deploy/entrypoint")
    trial.demand(ended.status == 2 and "usage: " in ended.said, f"deploy/entrypoint: {ended.end()}", ended.call)


def check(trial: Trial) -> None:
    """Signals, a save that fails, and a file that is refused."""
    if os.getuid() != 0 or not shutil.which("unshare"):
        trial.leave_out("only root can make a namespace of processes by unshare, deploy/entrypoint was not tried")
        return
    with Receivers() as receivers:
        gateway = Gateway(trial, trial.scratch / "container", receivers.links([LINK]))
        check_signals(trial, gateway)
        check_unsaved(trial, gateway)
        check_refused(trial, gateway)
        gateway.sender.close()
    trial.say("container: SIGTERM and SIGINT save all calls; a save that fails is tried again")
