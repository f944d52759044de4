#!/usr/bin/env python3
"""Sends the arrivals of a script to `rohcd serve`, and compares what comes back with `rohcd replay`.

usage: tools/serve_script.py PROGRAM LINKS SCRIPT...

Each arrival of a script is a datagram, so a script has no resets. Its moments are not sent, so its answers must not hang
on them: each link gets times that no run is long enough for. Each link's ports are sockets of this program, on free
ports of 127.0.0.1. What each port gets must be what `replay` answers, octet for octet and in its order, and the printed
line must count it. Then it tries a port that is taken, and an output that is full.
"""
import re
import select
import socket
import subprocess
import sys
import tempfile
import time

LOOPBACK = "127.0.0.1"
WAIT = 10
# The settings of a link that are times, in milliseconds: no packet is late, no STATIC-NACK comes again, nothing expires.
TIMES = {"packet_ms": 60_000, "static_nack_ms": 3_600_000, "idle_ms": 0}


def bound():
    """A socket on a free port."""
    sock = socket.socket(socket.AF_INET, socket.SOCK_DGRAM)
    sock.bind((LOOPBACK, 0))
    return sock


def with_own_ports(text):
    """The links file with our times, and a socket's port in place of each port; and these sockets by link and kind."""
    sockets = {}
    lines = []
    link = None
    for line in text.splitlines():
        number = re.match(r"number = (\d+)", line)
        port = re.match(r"(deliver|feedback|relay)_port = ", line)
        time_key = line.split(" ")[0]
        if number:
            link = int(number[1])
        if time_key in TIMES:
            line = f"{time_key} = {TIMES[time_key]}"
        if port:
            sockets[link, port[1]] = bound()
            line = f"{port[1]}_port = {sockets[link, port[1]].getsockname()[1]}"
        lines.append(line)
    return "\n".join(lines) + "\n", sockets


def replayed(program, links, arrivals):
    """The answer lines of each arrival, by `replay`. A bad line after each arrival marks where its answers end."""
    script = "".join(f"arrive {link} 0 {octets}\n-\n" for link, octets in arrivals)
    words = [program, "replay", "--links", links]
    answers = subprocess.run(words, input=script, stdout=subprocess.PIPE, text=True, check=True).stdout
    return [part.splitlines() for part in answers.split("- - refused BadLine\n")][:-1]


def sends_of(lines):
    """What must be sent for these answer lines: link, kind and octets of each datagram."""
    kinds = {"ip": "deliver", "feedback": "feedback", "relay": "relay"}
    words = [line.split(" ") for line in lines]
    return [(int(w[0]), kinds[w[2]], bytes.fromhex(w[3].strip("-"))) for w in words if w[2] in kinds]


def wait_until_bound(port):
    """Waits until the program has bound its port."""
    name = f"0100007F:{port:04X} "
    until = time.monotonic() + WAIT
    while time.monotonic() < until:
        with open("/proc/net/udp", encoding="ascii") as table:
            if name in table.read():
                return
        time.sleep(0.01)
    sys.exit("the program didn't bind its port")


def received(sock):
    """The next datagram at a socket, or None if none comes."""
    if not select.select([sock], [], [], WAIT)[0]:
        return None
    return sock.recv(65_536)


def compare(program, text, script):
    """Serves one script, and returns how the result differs from its replay."""
    with open(script, encoding="latin-1") as lines:
        found = [re.fullmatch(r"arrive (0|[1-9]\d*) \d+ (-|(?:[0-9a-f]{2})+)\n", line) for line in lines]
    arrivals = [(int(line[1]), line[2]) for line in found if line and int(line[1]) < 65_536]
    own, sockets = with_own_ports(text)
    with tempfile.NamedTemporaryFile("w", suffix=".toml") as links:
        links.write(own)
        links.flush()
        answers = replayed(program, links.name, arrivals)
        with bound() as free:
            port = free.getsockname()[1]
        command = [program, "serve", "--links", links.name, "--port", str(port), "--count", str(len(arrivals))]
        server = subprocess.Popen(command, stdout=subprocess.PIPE, text=True)
        try:
            wait_until_bound(port)
            sender = bound()
            for place, ((link, octets), lines) in enumerate(zip(arrivals, answers), 1):
                sender.sendto(link.to_bytes(2, "big") + bytes.fromhex(octets.strip("-")), (LOOPBACK, port))
                for to, kind, wanted in sends_of(lines):
                    got = received(sockets[to, kind])
                    if got != wanted:
                        shown = "nothing" if got is None else got.hex()
                        return f"arrival {place}: {kind} port of link {to} got {shown}, wanted {wanted.hex()}"
            printed = server.communicate(timeout=WAIT)[0]
        finally:
            server.kill()
    for (link, kind), sock in sockets.items():
        if select.select([sock], [], [], 0)[0]:
            return f"{kind} port of link {link} got more than is answered"
    sends = [send for lines in answers for send in sends_of(lines)]
    count = {kind: sum(send[1] == kind for send in sends) for kind in ("deliver", "feedback", "relay")}
    refused = sum(any(" refused " in line for line in lines) for lines in answers)
    wanted = f"datagrams {len(arrivals)} delivered {count['deliver']} feedback {count['feedback']} "
    wanted += f"relayed {count['relay']} refused {refused} failed 0\n"
    if server.returncode != 0 or printed != wanted:
        return f"status {server.returncode}, printed {printed!r}, wanted {wanted!r}"
    return None


def ends(program, links, text, port, output):
    """Serves one datagram. If the program doesn't end with status 4 and this text, returns how it ends."""
    command = [program, "serve", "--links", links, "--port", str(port), "--count", "1"]
    server = subprocess.Popen(command, stdout=output, stderr=subprocess.PIPE, text=True)
    try:
        wait_until_bound(port)
        bound().sendto(b"", (LOOPBACK, port))
        error = server.communicate(timeout=WAIT)[1]
    finally:
        server.kill()
    if server.returncode != 4 or error != text:
        return f"status {server.returncode}, {error!r}; wanted status 4, {text!r}"
    return None


def main():
    if sys.argv[1:] == ["--help"]:
        print(__doc__.strip())
        return
    if len(sys.argv) < 4:
        sys.exit(__doc__)
    program, links, *scripts = sys.argv[1:]
    with open(links, encoding="utf-8") as file:
        text = file.read()
    failed = False
    for script in scripts:
        difference = compare(program, text, script)
        failed |= difference is not None
        print(f"served {script}: {difference or 'as replayed'}")
    taken = bound()
    with bound() as free:
        port = free.getsockname()[1]
    with open("/dev/full", "w", encoding="ascii") as full:
        written = ends(program, links, "rohcd: write\n", port, full)
    for name, difference in (
        ("a port that is taken", ends(program, links, "rohcd: socket\n", taken.getsockname()[1], subprocess.DEVNULL)),
        ("a full output", written),
    ):
        failed |= difference is not None
        print(f"served at {name}: {difference or 'the end as expected'}")
    sys.exit(failed)


if __name__ == "__main__":
    main()
