"""What a running gateway streams: a call that is watched, and a record from which its answers come again; and a dry run of a reload."""

import contextlib
import json
import os
import re
import signal
import socket
import subprocess
import time
from pathlib import Path
from typing import IO

import rohctl_report
from cluster import Arrival, made_arrivals
from gateway_run import LOOPBACK, WAIT_SECONDS, Gateway, Receivers, read_answer, replayed, samples
from program import Ended
from rohctl_survey import WHOLE_IR
from trial import Trial

ROHCTL = "crates/rohctl/out/rohctl"
LINKS = range(1, 21)
# The IR of example *whole IR* of docs/EXAMPLES.md; one of profile 0x0000, and the same for CID 1; one whose check is wrong.
CALL, PLAIN, OTHER, DAMAGED = bytes.fromhex(WHOLE_IR), bytes.fromhex("fc00b745aa"), bytes.fromhex("e1fc003045aa"), bytes.fromhex("fc00b845aa")
# At most so many streams at once, and so many octets wait for a reader who records.
STREAMS, ROOM = 4, 8_388_608
TIME = r"\d\d:\d\d:\d\d\.\d{3}"
WATCHED = (
    rf"{TIME} IR, {len(CALL)} octets: delivered \d+, feedback \d, SN 1",
    rf"{TIME} UO-0, 2 octets: delivered 41, feedback 0, SN 2, attempt 1 of 3",
    rf"{TIME} UO-0, 1 octets: refused Check, feedback \d",
    rf"{TIME} IR, 5 octets: delivered 2, feedback \d",
    rf"{TIME} Normal, 2 octets: delivered 2, feedback \d",
)


def asked(trial: Trial, gateway: Gateway, *words: str | Path) -> Ended:
    """How `rohctl` ends with these words and the control socket."""
    return trial.ran(trial.top / ROHCTL, *words, "--control", gateway.control)


def begun(trial: Trial, gateway: Gateway, *words: str | Path) -> subprocess.Popen[str]:
    """`rohctl` with these words and the control socket, which goes on. Its stream has begun."""
    before = gateway.ask("GET", "/status").json["streams"]
    call = [trial.top / ROHCTL, *words, "--control", gateway.control]
    process = subprocess.Popen(call, stdin=subprocess.DEVNULL, stdout=subprocess.PIPE, stderr=subprocess.STDOUT, encoding="utf-8")
    end = time.monotonic() + WAIT_SECONDS
    while gateway.ask("GET", "/status").json["streams"] == before and process.poll() is None and time.monotonic() < end:
        time.sleep(0.05)
    return process


def send(gateway: Gateway, *datagrams: bytes) -> None:
    """Sends datagrams to the port for all links."""
    for datagram in datagrams:
        gateway.sender.sendto(datagram, (LOOPBACK, gateway.port))
        gateway.count += 1
    gateway.wait_taken()


def opened(gateway: Gateway, path: str) -> socket.socket:
    """A connection on which a stream was asked for, of which nothing was read."""
    one = socket.socket(socket.AF_UNIX)
    one.settimeout(WAIT_SECONDS)
    folder = os.open(gateway.folder, os.O_RDONLY | os.O_DIRECTORY)
    try:
        one.connect(f"/proc/self/fd/{folder}/control")
    finally:
        os.close(folder)
    one.sendall(f"GET {path} HTTP/1.1\r\nHost: gateway\r\n\r\n".encode())
    return one


def lines_of(stream: IO[str] | None, count: int) -> list[str]:
    """So many lines of a stream."""
    assert stream
    return [stream.readline().rstrip("\n") for _ in range(count)]


def check_watch(trial: Trial) -> None:
    """Each packet of the call is shown as it comes, until the reader ends; at most four streams stand at once."""
    with Receivers() as receivers, Gateway(trial, trial.scratch / "watch", receivers.links([1, 3])) as gateway:
        with begun(trial, gateway, "watch", "1/0") as process:
            send(gateway, *(b"\0\1" + packet for packet in (CALL, b"\x10\xac", b"\x01", OTHER, PLAIN, b"\x45\xaa")), b"\0\3" + PLAIN, b"\0")
            found = lines_of(process.stdout, len(WATCHED))
            trial.demand(all(map(re.fullmatch, WATCHED, found)), f"watch: {found}; wanted {WATCHED}")
            gateway.send(Arrival(1, 77, PLAIN))
            found = lines_of(process.stdout, 1)
            trial.demand(found[0].startswith("77 IR, 5 octets: delivered 2, "), f"watch of a timed packet: {found}")
            process.send_signal(signal.SIGINT)
            trial.demand(process.wait(30) == -signal.SIGINT, f"watch ends with {process.returncode}")
        streams = [opened(gateway, "/watch?link=3&cid=0") for _ in range(STREAMS)]
        for one in streams:
            one.recv(64)
        told = gateway.ask("GET", "/watch?link=3&cid=0")
        trial.demand((told.status, told.json.get("fault")) == (409, "Busy"), f"a fifth stream: {told}")
        trial.demand(gateway.ask("GET", "/status").status == 200, "no status beside four streams")
        for one in streams:
            one.close()
        end = time.monotonic() + WAIT_SECONDS
        while gateway.ask("GET", "/status").json["streams"] and time.monotonic() < end:
            time.sleep(0.05)
        told = gateway.ask("HEAD", "/watch?link=3&cid=0")
        trial.demand((told.status, told.body) == (200, b""), f"HEAD of a stream: {told}")
        for path, status in (("/watch?link=9&cid=0", 404), ("/watch?link=1", 400), ("/record", 400), ("/record?seconds=0", 400), ("/record?seconds=1&link=9", 404)):
            told = gateway.ask("GET", path)
            trial.demand(told.status == status, f"{path}: {told}")


def told_by(process: subprocess.Popen[str]) -> tuple[int, dict[str, object]]:
    """How a record ended, and what it said."""
    text = process.communicate(timeout=60)[0]
    with contextlib.suppress(ValueError):
        found = json.loads(text)
        assert isinstance(found, dict)
        return process.returncode, found
    return process.returncode, {"said": text}


def whole(ended: str, recorded: int) -> dict[str, object]:
    """What a record says at its end in which nothing is left out."""
    return {"ended": ended, "recorded": recorded, "left_out": 0, "turned_away": 0, "too_short": 0, "withheld": 0}


def check_again(trial: Trial, gateway: Gateway, name: Path, arrivals: list[Arrival], wanted: list[list[str]]) -> None:
    """A record has these arrivals, and from it their answers come again."""
    lines = name.with_suffix(".script").read_text().splitlines()
    trial.demand(lines == [arrival.line() for arrival in arrivals], f"{name.name}: the script has other arrivals")
    files = ("--state", name.with_suffix(".state"), name.with_suffix(".script"))
    again = trial.ran(trial.top / ROHCTL, "run", "--links", gateway.folder / "links.toml", *files)
    answers = [line for part in wanted for line in part]
    trial.same(f"{name.name}: the answers", "".join(f"{line}\n" for line in answers), again.text, again.call)
    shown = rohctl_report.report(trial, "--links", gateway.folder / "links.toml", *files)
    rohctl_report.check_totals(trial, f"{name.name}: report", rohctl_report.page_in(trial, shown), again.output)


def check_record(trial: Trial) -> None:
    """A record of all links and one of a link, under load: run again, they give the answers that the gateway gave."""
    arrivals = [arrival for arrival in made_arrivals(24_000, 31) if arrival.octets is not None]
    half = len(arrivals) // 2
    with Receivers() as receivers, Gateway(trial, trial.scratch / "record", receivers.links(LINKS)) as gateway:
        wanted = replayed(trial, gateway.folder / "links.toml", arrivals)
        trial.demand(gateway.takes(receivers, arrivals[:half], wanted[:half]), "before a record: other answers")
        names = [gateway.folder / "all", gateway.folder / "one"]
        records = [begun(trial, gateway, "record", "--seconds", "600", *words, "-o", name) for words, name in zip(((), ("--link", "3")), names, strict=True)]
        trial.demand(gateway.takes(receivers, arrivals[half:], wanted[half:]), "in a record: other answers")
        gateway.wait_taken()
        gateway.ask("POST", "/reload")
        for record, recorded in zip(records, (len(arrivals) - half, sum(one.link == 3 for one in arrivals[half:])), strict=True):
            found = told_by(record)
            trial.demand(found == (1, whole("reload", recorded)), f"record: {found}")
        found = told_by(begun(trial, gateway, "record", "--seconds", "1", "-o", gateway.folder / "short"))
        trial.demand(found == (0, whole("time", 0)), f"a record of a second: {found}")
        check_again(trial, gateway, names[0], arrivals[half:], wanted[half:])
        own = [place for place in range(half, len(arrivals)) if arrivals[place].link == 3]
        check_again(trial, gateway, names[1], [arrivals[place] for place in own], [wanted[place] for place in own])
        trial.say(f"record: {len(arrivals) - half} arrivals answered again from a record of all links, {len(own)} from one of a link")


def check_ends(trial: Trial) -> None:
    """What isn't in a record is counted; a reset, a reload and a stop end it."""
    with Receivers() as receivers, Gateway(trial, trial.scratch / "ends", receivers.links([1, 3])) as gateway:
        send(gateway, b"\0\1" + PLAIN)
        for word, path in (("reset", "/reset?link=3"), ("reload", "/reload"), ("stop", "/stop")):
            record = begun(trial, gateway, "record", "--seconds", "600", "-o", gateway.folder / word)
            send(gateway, b"\0\1\x45\xaa", b"\0")
            if word == "reload":
                gateway.ask("POST", "/drain")
                send(gateway, b"\0\3" + PLAIN)
            gateway.ask("POST", path)
            status, told = told_by(record)
            away = int(word == "reload")
            wanted = whole(word, 1) | {"turned_away": away, "too_short": 1}
            trial.demand((status, told) == (1, wanted), f"record until {word}: status {status}, {told}; wanted {wanted}")
        found = asked(trial, gateway, "record", "--seconds", "1", "-o", gateway.folder / "none")
        trial.demand(found.status == 4, f"record without a gateway: {found.all}", found.call)


def check_withheld(trial: Trial) -> None:
    """Feedback that a limit withholds isn't in what the gateway sends, so a record counts it."""
    with Receivers() as receivers:
        gateway = Gateway(trial, trial.scratch / "withheld", receivers.links([1]))
        gateway.file.write_text(gateway.file.read_text() + "[[link]]\nnumber = 1\nfeedback_per_second = 1\n")
        with gateway:
            send(gateway, *(b"\0\1" + PLAIN for _ in range(10)))
            record = begun(trial, gateway, "record", "--seconds", "600", "-o", gateway.folder / "name")
            send(gateway, *(b"\0\1" + PLAIN for _ in range(100)))
            receivers.forget()
            sent = sum(name == "polorowan_feedback_limited_total" and count for name, _, count in samples(gateway.metrics()))
            gateway.ask("POST", "/reset?link=1")
            status, told = told_by(record)
    withheld = told.pop("withheld")
    fits = isinstance(withheld, int) and sent - 10 <= withheld <= min(sent, 100)
    trial.demand(fits and status == 1 and told == {key: value for key, value in whole("reset", 100).items() if key != "withheld"}, f"withheld: {withheld} of {sent}, {told}")


def check_slow(trial: Trial) -> None:
    """A reader who reads nothing holds up nothing: what has no room is left out, and he is told how much."""
    packet = b"\0\1\x45" + bytes(60_000)
    count = ROOM // (2 * len(packet)) * 2
    with Receivers() as receivers, Gateway(trial, trial.scratch / "slow", receivers.links([1])) as gateway:
        send(gateway, b"\0\1" + PLAIN)
        with opened(gateway, "/record?seconds=600") as record, opened(gateway, "/watch?link=1&cid=0"):
            time.sleep(0.5)
            for _ in range(count):
                send(gateway, packet)
            trial.demand(gateway.ask("POST", "/reset?link=1").status == 200, "a slow reader holds up a reset")
            told = read_answer(record)
    front, behind = told.body.split(b"\n", 1)
    *arrived, end = behind[json.loads(front)["state"] :].splitlines()
    last, lines = json.loads(end), sum(line.startswith(b"arrive 1 ") for line in arrived)
    fits = last["ended"] == "reset" and last["left_out"] > 0 and last["recorded"] + last["left_out"] == count and lines == last["recorded"]
    trial.demand(fits, f"a slow reader: {count} packets, {lines} lines, {last}")


def check_preview(trial: Trial) -> None:
    """A dry run of a reload shows what the reload then does, and changes nothing."""
    with Receivers() as receivers, Gateway(trial, trial.scratch / "preview", receivers.links([1, 2, 3])) as gateway:
        send(gateway, b"\0\1" + PLAIN, b"\0\1" + OTHER, b"\0\3" + PLAIN)
        before = [gateway.ask("GET", f"/contexts?link={link}").body for link in (1, 2, 3)]
        gateway.write_links(receivers.links([1, 2, 9]).replace("max_cid = 15", "max_cid = 0", 1))
        told = asked(trial, gateway, "reload", "--dry-run")
        wanted = {"added": [9], "changed": [{"link": 1, "contexts_gone": 1}], "removed": [{"link": 3, "contexts_gone": 1}], "contexts_gone": 2}
        trial.demand(told.is_good and json.loads(told.text) == wanted, f"reload --dry-run: {told.all}; wanted {wanted}", told.call)
        after = [gateway.ask("GET", f"/contexts?link={link}").body for link in (1, 2, 3)]
        trial.demand(after == before and gateway.said.count("reload") == 0, "reload --dry-run changed something")
        done = asked(trial, gateway, "reload")
        counts = {"added": 1, "changed": 1, "removed": 1, "contexts_gone": 2}
        trial.demand(done.is_good and json.loads(done.text) == counts, f"reload: {done.all}; wanted {counts}", done.call)
        told = asked(trial, gateway, "reload", "--dry-run")
        nothing = {"added": [], "changed": [], "removed": [], "contexts_gone": 0}
        trial.demand(told.is_good and json.loads(told.text) == nothing, f"reload --dry-run after a reload: {told.all}", told.call)
        gateway.write_links(gateway.links.replace("k1 = 2", "k_1 = 2"))
        told = asked(trial, gateway, "reload", "--dry-run")
        trial.demand(told.status == 1 and json.loads(told.text)["fault"] == "UnknownKey", f"reload --dry-run of a bad file: {told.all}", told.call)


def check(trial: Trial) -> None:
    """Streams and the dry run."""
    check_watch(trial)
    check_record(trial)
    check_ends(trial)
    check_withheld(trial)
    check_slow(trial)
    check_preview(trial)
