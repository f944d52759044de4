"""Runs `rohctl feed` against sockets of this host: what they receive, at which pace, and what it says of those that drop or are gone."""

import socket
import struct
import subprocess
import time
from collections.abc import Iterator, Sequence
from contextlib import contextmanager
from pathlib import Path
from threading import Thread

from program import Call, Ended, run
from rohctl_capture import PROGRAM, RAW, ROHC, datagram, ethernet, frames_of, moments, pcap, pcapng
from trial import Trial

HERE = "127.0.0.1"
# A script with a reset and a bad line, which have no datagram.
SCRIPT = b"arrive 1 0 fc00b745aa\nreset 1\narrive 258 200 45ab\nno line\narrive 1 72623859790382856 -\n"
SENT = [bytes.fromhex(text) for text in ("0001 0000000000000000 fc00b745aa", "0102 00000000000000c8 45ab", "0001 0102030405060708")]
PATIENCE = 20.0


@contextmanager
def receiver(room: int = 0) -> Iterator[tuple[socket.socket, int]]:
    """A socket on a free port, with so much room if that is given, and its port."""
    with socket.socket(socket.AF_INET, socket.SOCK_DGRAM) as end:
        if room:
            end.setsockopt(socket.SOL_SOCKET, socket.SO_RCVBUF, room)
        end.bind((HERE, 0))
        end.settimeout(PATIENCE)
        yield end, end.getsockname()[1]


def feed(trial: Trial, port: int, given: bytes, *words: str | Path) -> Ended:
    """How `rohctl feed` to this port ends."""
    return run(Call((trial.top / PROGRAM, "feed", "--to", str(port), *words), given, {}, trial.top))


def take(end: socket.socket, count: int, rest: float = 0.0) -> list[bytes]:
    """So many datagrams, with a rest after each, or those that come in time."""
    taken: list[bytes] = []
    while len(taken) < count:
        try:
            taken.append(end.recv(70_000))
        except TimeoutError:
            break
        time.sleep(rest)
    return taken


def taken_while(end: socket.socket, count: int, rest: float, before: float = 0.0) -> tuple[Thread, list[bytes]]:
    """A thread that takes datagrams, after so many seconds, and those that it took."""
    found: list[bytes] = []

    def go() -> None:
        time.sleep(before)
        found.extend(take(end, count, rest))

    thread = Thread(target=go)
    thread.start()
    return thread, found


def told(sent: Sequence[bytes], port: int, dropped: int = 0) -> str:
    """What is printed of these datagrams."""
    return f"sent {len(sent)} datagrams, {sum(map(len, sent))} octets, to {HERE}:{port}; dropped {dropped}\n"


def fed(trial: Trial, name: str, given: bytes, wanted: Sequence[bytes], *words: str | Path) -> None:
    """An input is sent as these datagrams, and nothing is dropped."""
    with receiver() as (end, port):
        thread, found = taken_while(end, len(wanted), 0.0)
        ended = feed(trial, port, given, *words)
        thread.join()
        good = (ended.status, ended.said, ended.output.decode()) == (0, "", told(wanted, port))
        trial.demand(good, f"{name}: {ended.end()} {ended.all}", ended.call)
        trial.same(name, repr(list(wanted)), repr(found), ended.call)


def check_inputs(trial: Trial) -> None:
    """A script and captures, as files and by a pipe, with the options that select packets."""
    fed(trial, "a script", SCRIPT, SENT)
    fed(trial, "a script in a file", b"", SENT, trial.write("feed.script", SCRIPT))
    fed(trial, "a script without a last newline", b"arrive 1 0 -", [bytes(1) + b"\1" + bytes(8)])
    wanted = [struct.pack(">HQ", 1, at // 10**6) + packet for at, packet in zip(moments(3), ROHC, strict=True)]
    frames = frames_of([ethernet(0x22F1, packet) for packet in ROHC])
    for text in (pcap(frames), pcapng(frames)):
        fed(trial, "a capture", text, wanted, "--link", "1")
        fed(trial, "of a sender", text, wanted, "--link", "1", "--from", "06:07:08:09:0a:0b")
    numbered = frames_of([datagram(5000, b"\0\1\x80" + packet) for packet in ROHC])
    fed(trial, "behind a header", pcap(numbered, RAW), wanted, "--port", "5000", "--offset", "1")


def check_loads(trial: Trial) -> None:
    """A receiver that is slow loses nothing; one that has no room does, and that is said."""
    wanted = [struct.pack(">HQ", 1, number) + bytes(size) for number, size in enumerate([40] * 3000 + [1400] * 500 + [60_000] * 20)]
    script = b"".join(b"arrive 1 %d %s\n" % (number, sent[10:].hex().encode()) for number, sent in enumerate(wanted))
    with receiver() as (end, port):
        thread, found = taken_while(end, len(wanted), 0.0002)
        ended = feed(trial, port, script)
        thread.join()
        trial.demand((ended.status, ended.output.decode()) == (0, told(wanted, port)), f"a slow one: {ended.end()} {ended.all}", ended.call)
        trial.demand(found == wanted, f"a slow one: {len(found)} datagrams of {len(wanted)}, or others", ended.call)
    with receiver(4096) as (end, port):
        thread, found = taken_while(end, 100, 0.0, 1.0)
        end.settimeout(2.0)
        ended = feed(trial, port, b"".join(script.splitlines(keepends=True)[:100]))
        thread.join()
        lost = 100 - len(found)
        said = f"rohctl: {HERE}:{port}: its socket dropped {lost} datagrams; expected none (is another sender using it?)"
        good = (ended.status, ended.said) == (7, said) and ended.output.decode().endswith(f"; dropped {lost}\n")
        trial.demand(good and lost > 0, f"no room: {ended.end()} {ended.all}", ended.call)


def check_times(trial: Trial) -> None:
    """The pace, and the present moment."""
    script = b"arrive 1 1000 45\narrive 1 1300 45\narrive 1 1200 45\narrive 1 1600 45\n"
    for words, least, most in ((("--pace", "1"), 0.6, 1.2), (("--pace", "2.5"), 0.24, 0.6), ((), 0.0, 0.4)):
        with receiver() as (end, port):
            began = time.monotonic()
            thread, _ = taken_while(end, 4, 0.0)
            ended = feed(trial, port, script, *words)
            thread.join()
            took = time.monotonic() - began
            trial.demand(ended.status == 0 and least <= took <= most + 1.0, f"{words}: {took:.2f} s, {ended.end()}", ended.call)
    with receiver() as (end, port):
        began = time.time_ns() // 10**6
        thread, found = taken_while(end, 4, 0.0)
        ended = feed(trial, port, script, "--now")
        thread.join()
        times = [struct.unpack(">Q", sent[2:10])[0] for sent in found]
        good = ended.status == 0 and times == sorted(times) and began <= times[0] and times[-1] <= time.time_ns() // 10**6
        trial.demand(good, f"the present: {times}, {ended.end()}", ended.call)


def check_live(trial: Trial) -> None:
    """What came through a pipe is sent before more comes."""
    text = pcap(frames_of([ethernet(0x22F1, packet) for packet in ROHC]))
    with receiver() as (end, port):
        words = (trial.top / PROGRAM, "feed", "--to", str(port), "--link", "1", "-")
        with subprocess.Popen(words, stdin=subprocess.PIPE, stdout=subprocess.DEVNULL, cwd=trial.top, bufsize=0) as program:
            assert program.stdin
            program.stdin.write(text)
            trial.same("live", repr(ROHC), repr([sent[10:] for sent in take(end, 3)]))
            program.stdin.close()


def check_ends(trial: Trial) -> None:
    """No socket, one that goes away, wrong words, and inputs with nothing to send."""
    nobody = f"rohctl: {HERE}:9: no socket is on it; expected the timed_port of a running gateway"
    factor = "expected a factor from 0.001 to 1000 with at most three decimals, as 1 or 2.5"
    port_word = "expected the timed_port of a gateway on this host, 1 to 65535"
    cases: tuple[tuple[tuple[str, ...], bytes, int, str], ...] = (
        (("--to", "9"), SCRIPT, 4, nobody),
        (("--to", "0"), SCRIPT, 2, f"rohctl: --to 0: {port_word}"),
        (("--to", "65536"), SCRIPT, 2, f"rohctl: --to 65536: {port_word}"),
        (("--to", "9", "--pace", "0"), SCRIPT, 2, f"rohctl: --pace 0: {factor}"),
        (("--to", "9", "--pace", "1.0001"), SCRIPT, 2, f"rohctl: --pace 1.0001: {factor}"),
        (("--to", "9", "nothing"), b"", 4, "rohctl: nothing: cannot read it: no such file or directory"),
        (("--to", "9"), pcap([]), 2, "rohctl: --link, --vlan or --port is missing;"),
    )
    for words, given, status, said in cases:
        ended = run(Call((trial.top / PROGRAM, "feed", *words), given, {}, trial.top))
        trial.demand(ended.status == status and ended.said.startswith(said), f"{words}: {ended.end()} {ended.said}", ended.call)
    with receiver() as (_, port):
        for given, words, said in (
            (b"", (), "rohctl: standard input: nothing to show: it is empty"),
            (b"no line\n", (), "rohctl: standard input: nothing to show: none of 1 lines is an event"),
            (pcap([]), ("--link", "1"), "rohctl: standard input: nothing to show: the capture has no frame"),
        ):
            ended = feed(trial, port, given, *words)
            trial.demand(ended.status == 6 and ended.said.startswith(said), f"{ended.end()} {ended.said}", ended.call)


def check(trial: Trial) -> None:
    """All of it."""
    for part in (check_inputs, check_loads, check_times, check_live, check_ends):
        part(trial)
