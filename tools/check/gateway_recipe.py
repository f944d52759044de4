"""The recipe of docs/GATEWAY.md, from nothing to a packet in the metrics, as it is typed.

It runs in a network of its own, so that its ports are free.
"""

import contextlib
import os
import re
import shutil
import signal
import subprocess

import networks
from gateway_run import WAIT_SECONDS
from trial import Trial

RECIPE = re.compile(r"## From nothing to a packet in the metrics\n.*?```\n(.*?)```", re.DOTALL)
# What it must print: that the file is good, the delivered packet, what `feed` sent (each packet has 10 octets before it),
# and what the stop saved.
WANTED = (
    "good\n",
    'polorowan_packets_total{link="1",outcome="delivered"} 1\n',
    "sent 5 datagrams, 66 octets, to 127.0.0.1:7001; dropped 0\n",
    '{"stopped":true,',
)


def typed(trial: Trial, commands: str) -> tuple[int, str]:
    """The status of commands in bash, at the top of the tree, and what they printed. Nothing that they started goes on."""
    log = trial.scratch / "recipe.log"
    with log.open("wb") as out:
        words = ["bash", "-ec", commands]
        process = subprocess.Popen(words, cwd=trial.top, stdout=out, stderr=out, start_new_session=True)
        try:
            status = process.wait(WAIT_SECONDS)
        except subprocess.TimeoutExpired:
            status = -1
        with contextlib.suppress(ProcessLookupError):
            os.killpg(process.pid, signal.SIGKILL)
    return status, log.read_text(errors="replace")


def check(trial: Trial) -> None:
    """Runs it, and looks for what it must print."""
    found = RECIPE.search((trial.top / "docs/GATEWAY.md").read_text())
    if not trial.demand(found is not None, "docs/GATEWAY.md: no recipe") or not found:
        return
    if any(trial.ran("bin/sources", "stands", name).status != 0 for name in ("rohctl", "rohc_gateway")):
        trial.leave_out("no proved rohctl and rohc-gateway stand, so the recipe of docs/GATEWAY.md was not run")
        return
    shutil.rmtree(trial.top / "out/gateway", ignore_errors=True)
    with networks.made(1) as own_network:
        if not own_network:
            trial.leave_out("no network of its own can be made here, so the recipe of docs/GATEWAY.md was not run")
            return
        with own_network[0].inside():
            status, printed = typed(trial, found[1])
    for wanted in WANTED:
        trial.demand(wanted in printed, f"docs/GATEWAY.md: the recipe doesn't print {wanted.strip()}:\n{printed}")
    trial.demand(status == 0, f"docs/GATEWAY.md: the recipe ends with status {status}:\n{printed}")
    trial.say("recipe: a packet in the metrics, as docs/GATEWAY.md says")
