"""What a running gateway shows of its calls: as JSON and as text, and what rohctl prints of them."""

import json
import os
import pty
import re
import select
import signal
import struct
import subprocess
import time

from gateway_run import LOOPBACK, Answered, Gateway, Receivers
from program import Call, Ended, run
from rohctl_survey import WHOLE_IR
from trial import Trial

ROHCTL = "crates/rohctl/out/rohctl"
# The IR of example *whole IR* of docs/EXAMPLES.md, and what it says of its call; an IR of profile 0x0000; a packet of the
# CID 0 whose check is wrong; and one of the CID 1, which has no context.
CALL, PLAIN, DAMAGED, UNKNOWN = bytes.fromhex(WHOLE_IR), bytes.fromhex("fc00b745aa"), b"\x01", b"\xe1\x00"
FIXED: dict[str, object] = {
    "source": "10.0.0.1",
    "source_port": 5000,
    "destination": "10.0.0.2",
    "destination_port": 5002,
    "ssrc": 1,
    "ssrc_text": "0x00000001",
}
COUNTS: dict[str, object] = {"delivered": 1, "repaired": 0, "lost": 0, "late": 0}
COLUMNS = "  Link/CID    State          Silent for     Delivered Repaired   Lost   Late Refused  Last refusal    From                  To                    SSRC"
LINES = (
    COLUMNS,
    r"! 3/0         Full Context   \d+ s +1        0      0      0       0",
    r"! 1/0         Static Context \d+ s +1        0      0      0       2  Check           10.0.0.1:5000         10.0.0.2:5002         0x00000001",
    "  1/1         CID without a context; packets refused: 1 NoContext",
)


def asked(trial: Trial, gateway: Gateway, *words: str) -> Ended:
    """How `rohctl` ends with these words and the control socket."""
    return trial.ran(trial.top / ROHCTL, *words, "--control", gateway.control)


def send(gateway: Gateway, link: int, *packets: bytes) -> None:
    """Sends packets to the port whose moments are those of the gateway's clock."""
    for packet in packets:
        gateway.sender.sendto(struct.pack(">H", link) + packet, (LOOPBACK, gateway.port))
        gateway.count += 1
    gateway.wait_taken()


def begin(gateway: Gateway) -> None:
    """A call on link 3, then one on link 1 that falls by two damaged packets, and a packet of a CID without a context."""
    send(gateway, 3, PLAIN)
    time.sleep(0.02)
    send(gateway, 1, CALL, DAMAGED, DAMAGED, UNKNOWN)


def moments_left_out(rows: list[dict[str, object]]) -> list[dict[str, object]]:
    """Rows without what the clock decides."""
    return [{name: row[name] for name in row if name not in ("accepted", "since", "silent_ms")} for row in rows]


def check_rows(trial: Trial, gateway: Gateway, is_timed: bool) -> None:
    """The calls of all links and of one, as JSON."""
    plain = {"link": 3, "cid": 0, "profile": "0x0000", "state": "full", **COUNTS, "refused": {}, "last_refused": None}
    call = {"link": 1, "cid": 0, "profile": "0x0001", "state": "static", **FIXED, **COUNTS, "refused": {"Check": 2}, "last_refused": "Check"}
    unknown = {"link": 1, "cid": 1, "profile": None, "state": None, "refused": {"NoContext": 1}}
    now = time.time_ns() // 1_000_000
    for path, wanted in (("/calls", [plain, call, unknown]), ("/calls?link=1", [call, unknown]), ("/calls?link=3", [plain])):
        rows = gateway.ask("GET", path).rows
        found = moments_left_out(rows)
        trial.demand(found == wanted, f"{path}: {found}; wanted {wanted}")
        for row in (row for row in rows if row["state"]):
            silent, accepted = row["silent_ms"], row["accepted"]
            fits = silent is None if is_timed else isinstance(silent, int) and abs(silent + int(str(accepted)) - now) < 5_000
            trial.demand(fits, f"{path}: silent for {silent}, accepted at {accepted}, now {now}")
    for words, path in ((("calls",), "/calls"), (("calls", "--link", "1"), "/calls?link=1")):
        told = asked(trial, gateway, *words, "--json")
        rows = [json.loads(line) for line in told.text.splitlines()]
        trial.demand(told.is_good and moments_left_out(rows) == moments_left_out(gateway.ask("GET", path).rows), f"{words}: {told.all}", told.call)


def check_text(trial: Trial, gateway: Gateway) -> None:
    """The calls of all links and of one, as a table; silent ones are marked."""
    time.sleep(2.1)
    lines = [LINES[0], *LINES[1:]]
    for words, wanted in ((("calls",), lines), (("calls", "--link", "1"), [lines[0], *lines[2:]]), (("calls", "--link", "3"), lines[:2])):
        told = asked(trial, gateway, *words)
        found = told.text.splitlines()
        fits = len(found) == len(wanted) and all(map(re.fullmatch, wanted, found))
        trial.demand(told.is_good and fits, f"{words}: {told.all}; wanted {wanted}", told.call)
    send(gateway, 3, PLAIN)
    found = asked(trial, gateway, "calls").text.splitlines()
    trial.demand([line[:5] for line in found[1:3]] == ["! 1/0", "  3/0"], f"another silent call: {found}")


def check_moments(trial: Trial, gateway: Gateway) -> None:
    """Where senders give the moments, no call is known to be silent, and its last moment is shown."""
    told = gateway.ask("GET", "/calls?link=3&as=text")
    lines = told.body.decode().splitlines()
    fits = lines[0] == COLUMNS.replace("Silent for    ", "Last at moment", 1) and re.match(r"  3/0         Full Context   \d{13} ", lines[1])
    trial.demand(bool(fits) and "Content-Type: text/plain; charset=utf-8\r\n" in told.head, f"moments: {told}")


def check_state(trial: Trial, gateway: Gateway) -> None:
    """The contexts as a save writes them, at another moment; `find` reads them, and they are never written to a disk."""
    told = gateway.ask("GET", "/state")
    trial.demand(told.status == 200 and "Content-Type: application/octet-stream\r\n" in told.head, f"/state: {told}")
    trial.demand(not any((gateway.folder / name).exists() for name in ("calls", "calls.latest")), "/state wrote a file")
    gateway.ask("POST", "/save")
    saved = (gateway.folder / "calls.latest").read_bytes()
    # Behind the name and the version stands the moment; the digest ends the file.
    trial.same("/state", saved[19:-32], told.body[19:-32])
    links = ("--links", str(gateway.folder / "links.toml"))
    line = "link 1 CID 0: Static Context, 10.0.0.1:5000 to 10.0.0.2:5002, SSRC 0x00000001, in the running gateway\n"
    for ends in (("10.0.0.1",), ("10.0.0.2:5002", "10.0.0.1:5000")):
        found = asked(trial, gateway, "find", *links, *ends)
        trial.demand((found.status, found.text) == (0, line), f"find {ends}: {found.all}", found.call)
    row = {"link": 1, "cid": 0, "state": "static", **FIXED, "ssrc": "0x00000001"}
    del row["ssrc_text"]
    found = asked(trial, gateway, "find", "--json", *links, "10.0.0.1")
    trial.demand(found.is_good and json.loads(found.text) == row, f"find: {found.all}", found.call)
    found = asked(trial, gateway, "find", *links, "10.0.0.3")
    said = "rohctl: the running gateway: nothing to show: no call has these addresses; expected those of its IP packets, as 'rohctl explain' shows them"
    trial.demand((found.status, found.said) == (6, said), f"find: {found.all}", found.call)
    found = run(Call((trial.top / ROHCTL, "find", *links, "10.0.0.1"), environment={"ROHC_CONTROL": str(gateway.control)}))
    trial.demand((found.status, found.text) == (0, line), f"find by ROHC_CONTROL: {found.all}", found.call)


TOP = (
    r"rohc-gateway [0-9.]+, running for \d+ s",
    "",
    "  Link  Packets/s   Full Static     No  Delivered   Refused  Saved  Name",
    r"  1             [0-9]      0      1      0          1         3   none  B\u00fcro 1",
    r"  3             [0-9]      1      0      0          1         0   none",
    "",
    "  Link/CID    State          Silent for     Delivered Repaired   Lost  Refused",
    r". 1/0         Static Context \d+ s +1        0      0  2 Check",
)


def check_top(trial: Trial, gateway: Gateway) -> None:
    """The links and the worst calls: once into a pipe, and on a terminal redrawn until `rohctl` is interrupted."""
    told = asked(trial, gateway, "top")
    found = told.text.splitlines()
    trial.demand(told.is_good and len(found) == len(TOP) and all(map(re.fullmatch, TOP, found)), f"top: {told.all}", told.call)
    main, end = pty.openpty()
    with subprocess.Popen([trial.top / ROHCTL, "top", "--control", gateway.control], stdin=subprocess.DEVNULL, stdout=end) as process:
        os.close(end)
        drawn = b""
        while drawn.count(b"\x1b[H\x1b[2J") < 2 and select.select([main], [], [], 30)[0]:
            drawn += os.read(main, 65_536)
        process.send_signal(signal.SIGINT)
        trial.demand(process.wait(30) == -signal.SIGINT, f"top on a terminal ends with {process.returncode}")
    os.close(main)
    pieces = drawn.split(b"\x1b[H\x1b[2J")
    trial.demand(pieces[0] == b"" and len(pieces) > 2 and pieces[1].decode().splitlines()[2] == TOP[2], f"top on a terminal: {drawn!r}")


def is_refused(told: Answered, status: int) -> bool:
    """Whether a request was refused with this status."""
    return told.status == status and "fault" in told.json


def check_refused(trial: Trial, gateway: Gateway) -> None:
    """Queries that are none, and a link that isn't there."""
    for query in ("?", "?as=json", "?as=text&link=1", "?link=1&cid=0", "?link=1&as=", "?link=1&as=text&as=text"):
        told = gateway.ask("GET", f"/calls{query}")
        trial.demand(is_refused(told, 400), f"/calls{query}: {told}")
    trial.demand(is_refused(gateway.ask("GET", "/calls?link=999&as=text"), 404), "calls of link 999 are shown")


def check(trial: Trial) -> None:
    """A gateway whose senders give no moments, and one whose senders may."""
    for is_timed in (False, True):
        with Receivers() as receivers:
            gateway = Gateway(trial, trial.scratch / f"calls{is_timed:d}", receivers.links([1, 3]))
            if not is_timed:
                text = re.sub("timed_port.*\n", "", gateway.file.read_text())
                gateway.file.write_text(f'{text}[[link]]\nnumber = 1\nname = "B\u00fcro 1"\n')
            with gateway:
                begin(gateway)
                check_rows(trial, gateway, is_timed)
                check_state(trial, gateway)
                if is_timed:
                    check_moments(trial, gateway)
                    check_refused(trial, gateway)
                else:
                    check_top(trial, gateway)
                    check_text(trial, gateway)
