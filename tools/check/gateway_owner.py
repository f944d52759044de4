"""The control socket lets in its owner alone, from its first moment on: somebody else tries all the time, through many starts.

The gateway's mask is 0, so that only what it does itself keeps others out.
"""

import grp
import multiprocessing
import os
import socket
import time
from dataclasses import dataclass, field
from multiprocessing.sharedctypes import Synchronized
from pathlib import Path

from gateway_run import WAIT_SECONDS, Gateway, Receivers
from nobody import NOBODY
from trial import Trial

STARTS = 50
# A group of each system.
GROUP = 1
# Processes of a fork go on with another user's rights where no program could be started with them.
FORKED = multiprocessing.get_context("fork")


@dataclass(frozen=True)
class Intruder:
    """A process of another user that connects to the control socket of a folder over and over."""

    folder: Path
    entered: "Synchronized[int]" = field(default_factory=lambda: FORKED.Value("i", 0))
    refused: "Synchronized[int]" = field(default_factory=lambda: FORKED.Value("i", 0))

    def try_always(self) -> None:
        """Connects until it is ended, and counts how often it was let in, and how often it lacked the permission."""
        # The path may be longer than a socket's name may be.
        os.chdir(self.folder)
        os.setgroups([])
        os.setgid(int(NOBODY))
        os.setuid(int(NOBODY))
        while True:
            with socket.socket(socket.AF_UNIX) as one:
                try:
                    one.connect("control")
                    self.entered.value += 1
                except PermissionError:
                    self.refused.value += 1
                except OSError:
                    pass


def entered(folder: Path, groups: list[int], result: "Synchronized[int]") -> None:
    """Whether another user who is in these groups is let in: 1 or 2, if not."""
    os.chdir(folder)
    os.setgroups(groups)
    os.setgid(int(NOBODY))
    os.setuid(int(NOBODY))
    with socket.socket(socket.AF_UNIX) as one:
        result.value = 1 if one.connect_ex("control") == 0 else 2


def is_entered(folder: Path, groups: list[int]) -> bool:
    """Whether another user who is in these groups is let in."""
    result: "Synchronized[int]" = FORKED.Value("i", 0)
    process = FORKED.Process(target=entered, args=(folder, groups, result))
    process.start()
    process.join(WAIT_SECONDS)
    return result.value == 1


def check_group(trial: Trial) -> None:
    """With control_group its members are let in, and nobody else."""
    group = grp.getgrgid(GROUP).gr_name
    for kind, value in (("name", f'"{group}"'), ("number", str(GROUP))):
        with Receivers() as receivers:
            gateway = Gateway(trial, trial.scratch / f"group-{kind}", receivers.links([1]))
            gateway.file.write_text(gateway.file.read_text() + f"control_group = {value}\n")
            with gateway:
                found = gateway.control.stat()
                good = found.st_gid == GROUP and found.st_mode & 0o777 == 0o660
                trial.demand(good, f"group: {value}: group {found.st_gid}, mode {found.st_mode:o}")
                trial.demand(is_entered(gateway.folder, [GROUP]), f"group: {value}: a member isn't let in")
                trial.demand(not is_entered(gateway.folder, []), f"group: {value}: somebody else is let in")


def check_owner(trial: Trial) -> None:
    """Somebody else gets in at no moment of any start."""
    if os.geteuid() != 0:
        trial.leave_out("the control socket under another user, since only root can become one")
        return
    trial.scratch.chmod(0o755)
    check_group(trial)
    mask = os.umask(0)
    try:
        with Receivers() as receivers:
            gateway = Gateway(trial, trial.scratch / "owner", receivers.links([1]))
            check_starts(trial, gateway)
    finally:
        os.umask(mask)


def check_starts(trial: Trial, gateway: Gateway) -> None:
    """Starts the gateway over and over while an intruder tries."""
    intruder = Intruder(gateway.folder)
    process = FORKED.Process(target=intruder.try_always, daemon=True)
    process.start()
    try:
        for _ in range(STARTS):
            before = intruder.refused.value
            with gateway:
                end = time.monotonic() + WAIT_SECONDS
                while intruder.refused.value == before and time.monotonic() < end:
                    time.sleep(0.001)
            trial.demand(intruder.refused.value > before, "owner: nobody tried a start")
    finally:
        process.kill()
        process.join()
    entered = intruder.entered.value
    trial.demand(entered == 0, f"owner: somebody else was let in {entered} times in {STARTS} starts")
    trial.say(f"owner: {STARTS} starts, and {intruder.refused.value} tries of somebody else, none let in")
