"""The saves of a gateway: which one a start takes, when its calls are stale, and what a slow disk costs.

Its moments are its own, since it has no timed port.
"""

import os
import re
import struct
import subprocess
import threading
import time
from collections.abc import Iterator
from contextlib import contextmanager
from pathlib import Path

from gateway_limits import first_ir
from gateway_run import LOOPBACK, PROGRAM, Answered, Gateway, Receivers, samples
from program import Ended
from trial import Trial

LINK = 1
# A call of profile 0x0001: an IR, a UO-0, another one that no Static Context takes, and a UOR-2 behind these.
FIRST = bytes.fromhex("fd012b40110a0000010a0000021388138a00000001004000012000000090000001000000a0000980a0ab")
UO_0, UOR_2 = bytes.fromhex("10ac"), bytes.fromhex("d4c33ead")
# Longer than stale_ms by default, in seconds.
STALE = 1.2
# The slow disk: the delay of each call in milliseconds, the datagrams, how many at a time, and how many in a second.
DELAY, SENT, BURST, RATE = 300, 15_000, 50, 5_000
ROHCTL = "crates/rohctl/out/rohctl"
CHECKED = ("calls", "calls.latest", "calls.kept")


@contextmanager
def running(trial: Trial, name: str, more: str = "", save_seconds: int = 86_400) -> Iterator[tuple[Gateway, Receivers]]:
    """A gateway without a timed port, with these lines more in its file."""
    with Receivers() as receivers:
        gateway = Gateway(trial, trial.scratch / name, receivers.links([LINK]), save_seconds=save_seconds)
        text = gateway.file.read_text().replace(f"timed_port = {gateway.timed_port}\n", "")
        gateway.file.write_text(text + more)
        with gateway:
            yield gateway, receivers


def send(gateway: Gateway, *packets: bytes) -> None:
    """Sends packets of the link, and waits until they were taken."""
    for packet in packets:
        gateway.sender.sendto(struct.pack(">H", LINK) + packet, (LOOPBACK, gateway.port))
        gateway.count += 1
    gateway.wait_taken()


def states(gateway: Gateway) -> dict[int, str]:
    """The state of each context, by its CID."""
    return {int(str(row["cid"])): str(row["state"]) for row in gateway.ask("GET", f"/contexts?link={LINK}").rows}


def count_of(gateway: Gateway, name: str) -> int:
    """A metric of one sample."""
    return next(count for found, _, count in samples(gateway.metrics()) if found == name)


def begin_calls(trial: Trial, gateway: Gateway) -> None:
    """A call of each profile, both in Full Context."""
    send(gateway, FIRST, UO_0, first_ir(2))
    trial.demand(states(gateway) == {0: "full", 2: "full"}, f"saves: {states(gateway)}; wanted two in Full Context")


def check_stale(trial: Trial) -> None:
    """After a kill calls that were saved more than a second ago fall; a UOR-2 brings them back. With 0 none falls."""
    for more, wanted in (("", "static"), ("stale_ms = 0\n", "full"), ("stale_ms = 60000\n", "full")):
        with running(trial, f"stale{wanted}{len(more)}", more) as (gateway, receivers):
            begin_calls(trial, gateway)
            trial.demand(gateway.ask("POST", "/save").status == 200, "stale: not saved")
            gateway.kill()
            time.sleep(STALE)
            gateway.start()
            found = states(gateway)
            trial.demand(found == {0: wanted, 2: "full"}, f"stale: {more!r}: {found}; wanted {wanted} for CID 0")
            told = re.search(r"they are stale, saved (\d+) ms ago", gateway.said)
            trial.demand(bool(told) == (wanted == "static"), f"stale: {more!r}: the log: {gateway.said}")
            if wanted != "static":
                continue
            receivers.forget()
            send(gateway, UO_0)
            trial.demand(states(gateway)[0] == "static" and not receivers.found["deliver"], "stale: a UO-0 was taken")
            send(gateway, UOR_2)
            good = receivers.wait({"deliver": 1}) and states(gateway)[0] == "full"
            trial.demand(good, f"stale: a UOR-2 doesn't bring the call back: {states(gateway)}")


def check_stop(trial: Trial) -> None:
    """A stop and a start within a second change nothing, also for silent calls."""
    with running(trial, "stop", "stale_ms = 5000\n") as (gateway, _):
        begin_calls(trial, gateway)
        time.sleep(STALE)
        trial.demand(gateway.stop() == 0, "stop: it doesn't stop")
        gateway.start()
        trial.demand(states(gateway) == {0: "full", 2: "full"}, f"stop: {states(gateway)}; wanted all as before")


def check_newest(trial: Trial) -> None:
    """A start takes the newest whole save, and says which are damaged. With none that is whole it is refused."""
    with running(trial, "newest", "stale_ms = 0\n") as (gateway, _):
        paths = [gateway.folder / name for name in CHECKED]
        send(gateway, first_ir(1))
        trial.demand(gateway.stop() == 0, "newest: it doesn't stop")
        gateway.start()
        send(gateway, first_ir(2))
        trial.demand(gateway.ask("POST", "/save").status == 200, "newest: not saved")
        (gateway.folder / "calls.kept").write_bytes(paths[1].read_bytes())
        gateway.kill()
        good = {path: path.read_bytes() for path in paths}
        for damaged, wanted in (((), {1, 2}), ((1,), {1, 2}), ((1, 2), {1}), ((0,), {1, 2})):
            for place, path in enumerate(paths):
                path.write_bytes(good[path][:-1] + b"\0" if place in damaged else good[path])
            before = gateway.said
            gateway.start()
            said = gateway.said.removeprefix(before)
            trial.demand(set(states(gateway)) == wanted, f"newest: damaged {damaged}: {states(gateway)}; wanted {wanted}")
            told = [place for place, path in enumerate(paths) if f"{path}: it is damaged" in said]
            # One that is older than the one restored isn't read.
            trial.demand(told == [place for place in damaged if place > 0], f"newest: damaged {damaged}: the log: {said}")
            trial.demand((": restored instead" in said) == bool(told), f"newest: damaged {damaged}: the log: {said}")
            gateway.kill()
        check_aside(trial, gateway, paths)


def check_aside(trial: Trial, gateway: Gateway, paths: list[Path]) -> None:
    """With no whole save a start is refused, and changes nothing; --fresh moves all aside and says where."""
    for path in paths:
        path.write_bytes(b"no calls")
    ended = trial.ran(trial.top / PROGRAM, "run", gateway.file, seconds=20)
    told = all(f"{path}: it is not a state file" in ended.said for path in paths)
    trial.demand(ended.status == 3 and told, f"aside: no whole save: {ended.end()}", ended.call)
    trial.demand(all(path.read_bytes() == b"no calls" for path in paths), "aside: a refused save was changed")
    before = gateway.said
    gateway.start("--fresh")
    said = gateway.said.removeprefix(before)
    moved = all(f"{path}: moved to {path}.old" in said and Path(f"{path}.old").read_bytes() == b"no calls" for path in paths)
    trial.demand(moved and not states(gateway), f"aside: --fresh: {said}")


def asked_at_once(gateway: Gateway, count: int) -> list[Answered]:
    """The answers to so many requests to save at once."""
    told: list[Answered] = []
    threads = [threading.Thread(target=lambda: told.append(gateway.ask("POST", "/save"))) for _ in range(count)]
    for thread in threads:
        thread.start()
    for thread in threads:
        thread.join()
    return told


def check_asked(trial: Trial) -> None:
    """Requests to save at once are all answered; what each of them may rely on was saved."""
    with running(trial, "asked") as (gateway, _):
        send(gateway, first_ir(1))
        told = asked_at_once(gateway, 4)
        trial.demand([one.status for one in told] == [200] * 4, f"asked: {told}")
        octets = {(gateway.folder / "calls.latest").stat().st_size}
        trial.demand({int(str(one.json["saved"])) for one in told} == octets, f"asked: {told}; wanted {octets}")
        trial.demand(not (gateway.folder / "calls.latest.new").exists(), "asked: an unfinished save stays")
        for failed in (False, True):
            told_kept = gateway.ask("POST", "/kept?failed" if failed else "/kept")
            trial.demand(told_kept.json == {"kept": not failed}, f"asked: {told_kept}")
        kept = gateway.ask("GET", "/keep").body.decode()
        wanted = f"{gateway.folder}/calls.latest\n{gateway.folder}/calls.kept\n"
        trial.demand(kept == wanted, f"asked: /keep: {kept!r}; wanted {wanted!r}")
        copied = abs(count_of(gateway, "polorowan_last_copy_timestamp_seconds") - time.time()) < 60
        trial.demand(copied and count_of(gateway, "polorowan_failed_copies_total") == 1, "asked: the metrics of copies")


def kept(trial: Trial, gateway: Gateway, *words: str) -> Ended:
    """What `rohctl keep` says of a gateway."""
    return trial.ran(trial.top / ROHCTL, "keep", "--control", gateway.control, *words, seconds=20)


def check_copied(trial: Trial) -> None:
    """`rohctl keep` copies the newest save with its time, tells the gateway, and goes on each second."""
    with running(trial, "copied") as (gateway, _):
        latest, copy = gateway.folder / "calls.latest", gateway.folder / "calls.kept"
        told = kept(trial, gateway)
        trial.demand(told.is_good and not copy.exists(), f"copied: before the first save: {told.end()}", told.call)
        send(gateway, first_ir(1))
        gateway.ask("POST", "/save")
        told = kept(trial, gateway)
        alike = told.is_good and copy.read_bytes() == latest.read_bytes()
        dates = [path.stat().st_mtime_ns // 1_000_000 for path in (latest, copy)]
        trial.demand(alike and dates[0] == dates[1], f"copied: {told.end()}; dates {dates}", told.call)
        trial.demand(count_of(gateway, "polorowan_last_copy_timestamp_seconds") > 0, "copied: the gateway counts no copy")
        send(gateway, first_ir(2))
        gateway.ask("POST", "/save")
        (gateway.folder / "calls.kept.new").mkdir()
        told = kept(trial, gateway)
        trial.demand(told.status == 4 and "any previous copy stays" in told.said, f"copied: {told.end()}", told.call)
        trial.demand(count_of(gateway, "polorowan_failed_copies_total") == 1, "copied: the gateway counts no failed copy")
        (gateway.folder / "calls.kept.new").rmdir()
        words = (trial.top / ROHCTL, "keep", "--control", gateway.control, "--every", "1")
        with subprocess.Popen(words) as keeps:
            end = time.monotonic() + 20
            while copy.read_bytes() != latest.read_bytes() and time.monotonic() < end:
                time.sleep(0.05)
            trial.demand(copy.read_bytes() == latest.read_bytes(), "copied: no copy each second")
            gateway.kill()
            trial.demand(keeps.wait(20) == 4, f"copied: without its gateway it ends with {keeps.returncode}; wanted 4")


def check_drained(trial: Trial) -> None:
    """After a drain no new call is accepted, and after a resume one is."""
    with running(trial, "drained") as (gateway, _):
        for path, cid, wanted in (("/drain", 1, set[int]()), ("/resume", 2, {2}), ("/drain", 3, {2})):
            trial.demand(gateway.ask("POST", path).json == {"draining": path == "/drain"}, f"drained: {path}")
            send(gateway, first_ir(cid))
            trial.demand(set(states(gateway)) == wanted, f"drained: after {path}: {states(gateway)}; wanted {wanted}")


def check_slow(trial: Trial) -> None:
    """The folder of the state file is slow, the one for saves isn't: no datagram is lost while it saves each second."""
    scratch = trial.scratch / "slow-scratch"
    scratch.mkdir(parents=True, exist_ok=True)
    with running(trial, "slow", f'scratch = "{scratch}"\n', save_seconds=1) as (gateway, _):
        gateway.kill()
        gateway.environment = {"LD_PRELOAD": str(trial.compiled("tools/slow_disk.c"))}
        gateway.environment |= {"SLOW_FOLDER": str(gateway.folder), "SLOW_MILLISECONDS": str(DELAY)}
        gateway.start()
        packet, address = struct.pack(">H", LINK) + first_ir(1), (LOOPBACK, gateway.port)
        begun = time.monotonic()
        for at in range(0, SENT, BURST):
            for _ in range(BURST):
                gateway.sender.sendto(packet, address)
            time.sleep(max(0.0, begun + at / RATE - time.monotonic()))
        gateway.count += SENT
        gateway.wait_taken()
        taken, done = gateway.datagrams(), count_of(gateway, "polorowan_saves_total")
        trial.demand(taken == SENT, f"slow: {taken} of {SENT} datagrams were taken")
        trial.demand(done >= 1, f"slow: {done} saves")
        trial.demand((scratch / "calls.latest").is_file(), "slow: no save in the folder for saves")
        trial.say(f"slow: {taken} datagrams and {done} saves in {time.monotonic() - begun:.1f} s, none lost")
        trial.demand(gateway.stop() == 0 and (gateway.folder / "calls").is_file(), "slow: no save at the stop")
        trial.demand(os.listdir(scratch) and not (scratch / "calls.latest.new").exists(), "slow: an unfinished save stays")


def check(trial: Trial) -> None:
    """All of it."""
    check_stale(trial)
    check_stop(trial)
    check_newest(trial)
    check_asked(trial)
    check_copied(trial)
    check_drained(trial)
    check_slow(trial)
    print("saves: calls fall when they are stale, the newest whole save is taken, requests are answered at its end")
