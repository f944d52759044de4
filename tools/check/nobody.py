"""Runs a program as a user who owns no file and is in no group."""

import os
import shutil
from pathlib import Path

from program import Word
from trial import Trial

NOBODY = "65534"


def as_nobody(trial: Trial, program: Path) -> tuple[Word, ...]:
    """The words that run a copy of a program as that user, with the program's own behind them; none if it can't be done."""
    if os.geteuid() != 0 or not shutil.which("setpriv"):
        trial.leave_out(f"{program.name} without permissions, since root or setpriv isn't there")
        return ()
    trial.scratch.chmod(0o755)
    copy = trial.write(f"nobody/{program.name}", program.read_bytes())
    copy.chmod(0o755)
    return ("setpriv", "--reuid", NOBODY, "--regid", NOBODY, "--clear-groups", copy)
