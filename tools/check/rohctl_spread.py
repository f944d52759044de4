"""Runs `rohctl spread`: its rules by hand, as nftables and nginx read them, and live in a network namespace of its own."""

import contextlib
import json
import os
import shutil
import subprocess
import sys
from collections.abc import Iterator
from pathlib import Path

from program import Call, Ended, run
from trial import Trial

PROGRAM = "crates/rohctl/out/rohctl"
LINKS = "examples/two-links.toml"
HOST = "polorowan-spread"
HOSTS = """port = 7000
[[process]]
name = "a"
port = 7001
links = [1]
[[process]]
name = "b"
port = 7002
links = ["2-9", 12]
"""
TABLE = """# Each datagram to the process of its link: `nft -f FILE`, as root. It replaces the rules that were set before.
table ip polorowan
delete table ip polorowan
table ip polorowan {
    counter unknown_links {}
    chain to_process {
        type filter hook prerouting priority raw;
        udp dport 7000 notrack
        udp dport 7000 @th,64,16 != { 1, 2 } counter name unknown_links drop
        udp dport 7000 udp dport set @th,64,16 map { 1 : 7001, 2 : 7002 }
    }
}
"""
FEEDBACK = """    chain feedback {
        type nat hook output priority -100;
        ip daddr 127.0.0.1 udp dport { 6002, 6005 } dnat to 10.0.0.9:5002
    }
    chain feedback_source {
        type nat hook postrouting priority 100;
        ip daddr 10.0.0.9 udp dport 5002 masquerade
    }
}
"""
ADDRESSES = "        udp dport 7000 ip daddr set @th,64,16 map {{ 1 : 127.0.0.1, 2 : {address} }}\n"

PORT = "expected a number from 1 to 65535"
SHARE = 'expected a number from 0 to 65535, or a range such as "4-9"'
SHARES = 'expected an array of link numbers and ranges, as [1, "4-9"]'
A_NAME = "expected 1 to 32 letters, digits, - and _, in quotes"
ADDRESS = 'expected an IPv4 address in quotes, as "10.0.0.1"'
PROCESSES = "expected at least one table [[process]]"
# A text of HOSTS, what stands in its place, and the line that is told.
FAULTS = (
    ("links = [1]", "links = [3]", "hosts.toml: link 1 is not assigned to any process; add it to the links of one"),
    ('"2-9"', '"1-9"', "hosts.toml:6: process 2: link 1 is already assigned to an earlier process; remove it from one of the two"),
    ("port = 7002", "port = 0", f"hosts.toml:6: process 2: port is 0; {PORT}"),
    ("port = 7001\n", "", f"hosts.toml:2: process 1: port is missing; {PORT}"),
    ("port = 7001", 'port = "7001"', f'hosts.toml:2: process 1: port is "7001"; {PORT}'),
    ("port = 7000", "port = 65536", f"hosts.toml: port is 65536; {PORT}"),
    ('"2-9"', '"9-2"', f'hosts.toml:6: process 2: links has "9-2"; {SHARE}'),
    ('"2-9"', '"9"', f'hosts.toml:6: process 2: links has "9"; {SHARE}'),
    ('"2-9"', "70000", f"hosts.toml:6: process 2: links has 70000; {SHARE}"),
    ('"2-9"', "true", f"hosts.toml:6: process 2: links has true; {SHARE}"),
    ("links = [1]", "links = 1", f"hosts.toml:2: process 1: links is 1; {SHARES}"),
    ("links = [1]\n", "", f"hosts.toml:2: process 1: links is missing; {SHARES}"),
    ('name = "b"', 'name = "../b"', f'hosts.toml:6: process 2: name is "../b"; {A_NAME}'),
    ('name = "b"\n', "", f"hosts.toml:6: process 2: name is missing; {A_NAME}"),
    ('name = "b"', 'name = "a"', 'hosts.toml:6: process 2: name "a" is already used by an earlier process; expected another'),
    ('name = "b"', 'name = "b"\naddress = "10.0.0.256"', f'hosts.toml:6: process 2: address is "10.0.0.256"; {ADDRESS}'),
    ('name = "b"', 'name = "b"\naddress = 10', f"hosts.toml:6: process 2: address is 10; {ADDRESS}"),
    ('name = "b"', 'name = "b"\nhost = "x"', 'hosts.toml:6: process 2: unknown key "host"; did you mean port?'),
    ('name = "b"', 'name = "b"\ncolour = "x"', 'hosts.toml:6: process 2: unknown key "colour"; expected name, address, port and links'),
    ("port = 7000", "prot = 7000", 'hosts.toml: unknown key "prot"; did you mean port?'),
    ("port = 7000", "version = 7000", 'hosts.toml: unknown key "version"; expected port and [[process]]'),
    (HOSTS, "", f"hosts.toml: process is missing; {PROCESSES}"),
    (HOSTS, "process = 1\n", f"hosts.toml: process is 1; {PROCESSES}"),
    (HOSTS, "process = [1]\n", f"hosts.toml: process is an array; {PROCESSES}"),
    (HOSTS, "process = []\n", f"hosts.toml: process is an empty array; {PROCESSES}"),
    (HOSTS, "[process]\n", f"hosts.toml: process is a table; {PROCESSES}"),
    (HOSTS, "port\n", "hosts.toml:1: port has no value; expected = and a value after it"),
    ("[[process]]", "[process]", "hosts.toml:6: process is one table and given again; write [[process]] before each one"),
)

# Sends datagrams in the namespace, and tells what came to each port.
LIVE = """
import socket
ports = {}
for port in (7001, 7002, 7000):
    one = socket.socket(socket.AF_INET, socket.SOCK_DGRAM)
    one.bind(("127.0.0.1", port))
    one.settimeout(0.3)
    ports[port] = one
sender = socket.socket(socket.AF_INET, socket.SOCK_DGRAM)
for datagram in (b"\\0\\1a", b"\\0\\2b", b"\\0\\3c", b"\\1\\2d", b"\\0\\1e"):
    sender.sendto(datagram, ("127.0.0.1", 7000))
for port, one in ports.items():
    got = []
    try:
        while True:
            got.append(one.recv(100).hex())
    except TimeoutError:
        print(port, *got)
"""
FOUND = "7001 000161 000165\n7002 000262\n7000\n"


def spread(trial: Trial, hosts: str, *words: str) -> Ended:
    """How `rohctl spread` ends with a hosts file."""
    trial.write("spread/hosts.toml", hosts)
    call = Call((trial.top / PROGRAM, "spread", trial.top / LINKS, "--hosts", "hosts.toml", *words), folder=trial.scratch / "spread")
    return run(call)


def rows(trial: Trial, file: Path) -> list[dict[str, object]]:
    """The links of a file, as rohctl tells them."""
    told = run(Call((trial.top / PROGRAM, "links", "--json", file)))
    return [json.loads(line) for line in told.text.splitlines()]


@contextlib.contextmanager
def namespace() -> Iterator[list[str]]:
    """A network namespace with loopback alone: the words that run a command in it."""
    subprocess.run(["ip", "netns", "add", HOST], check=True)
    try:
        subprocess.run(["ip", "-n", HOST, "link", "set", "lo", "up"], check=True)
        yield ["ip", "netns", "exec", HOST]
    finally:
        subprocess.run(["ip", "netns", "del", HOST], check=True)


def check_live(trial: Trial, table: Path) -> None:
    """Datagrams reach the process of their link, and no one gets those of unknown links."""
    made = subprocess.run(["ip", "netns", "add", f"{HOST}-try"], capture_output=True)
    if made.returncode != 0:
        trial.leave_out("no network namespace can be made here, the rules of rohctl spread were not tried live")
        return
    subprocess.run(["ip", "netns", "del", f"{HOST}-try"], check=True)
    with namespace() as there:
        trial.must_run(*there, "nft", "-f", table)
        ended = trial.ran(*there, sys.executable, "-c", LIVE)
        trial.same("what each process gets", FOUND, ended.text, ended.call)
        ended = trial.ran(*there, "nft", "list", "counter", "ip", "polorowan", "unknown_links")
        trial.demand("packets 2 " in ended.text, f"unknown links: {ended.text}", ended.call)


def check_tools(trial: Trial, table: Path) -> None:
    """nftables and nginx take what is written as it is."""
    is_root = os.geteuid() == 0
    if is_root and shutil.which("nft"):
        trial.must_run("nft", "-c", "-f", table)
        check_live(trial, table)
    else:
        trial.leave_out("nft is not installed, or root isn't, the rules of rohctl spread were not tried")
    folder = trial.scratch / "spread"
    shutil.copy(trial.top / "deploy/link.js", folder)
    config = trial.write("spread/nginx.conf", spread(trial, HOSTS, "--nginx").text)
    if is_root and shutil.which("nginx"):
        trial.must_run("nginx", "-t", "-p", folder, "-c", config)
    else:
        trial.leave_out("nginx is not installed, or root isn't, the configuration of rohctl spread was not tried")


def check(trial: Trial) -> None:
    """The rules, the faults, and the links files of the processes."""
    told = spread(trial, HOSTS)
    trial.same("the table", TABLE, told.text, told.call)
    check_tools(trial, trial.write("spread/table.nft", told.text))
    # An address that is given is set, even that of this host: datagrams may come from elsewhere.
    for address in ("10.0.0.2", "127.0.0.1"):
        other = spread(trial, HOSTS.replace('name = "b"', f'name = "b"\naddress = "{address}"'))
        wanted = TABLE.replace(" drop\n", f" drop\n{ADDRESSES.format(address=address)}")
        trial.same(f"the table with the address {address}", wanted, other.text, other.call)
    told = spread(trial, HOSTS, "--feedback", "10.0.0.9:5002")
    trial.same("the table with --feedback", TABLE.removesuffix("}\n") + FEEDBACK, told.text, told.call)
    for given in ("10.0.0.9", "10.0.0.9:0", "10.0.0.9:65536", "10.0.0.256:5002", ":5002", "example.org:5002"):
        told = spread(trial, HOSTS, "--feedback", given)
        wanted = f"rohctl: --feedback {given}: expected an IPv4 address and a port, as 10.0.0.1:5002"
        trial.demand((told.status, told.said) == (2, wanted), f"spread --feedback {given}: {told.end()}", told.call)
    for old, new, wanted in FAULTS:
        told = spread(trial, HOSTS.replace(old, new))
        fits = told.status == 1 and told.text == f"{wanted}\n"
        trial.demand(fits, f"spread with {new!r}: status {told.status}, {told.text!r}; wanted {wanted!r}", told.call)
    told = spread(trial, HOSTS, "--out", ".")
    trial.demand(told.is_good, f"spread --out: {told.end()}", told.call)
    parts = [rows(trial, trial.scratch / f"spread/{name}.toml") for name in "ab"]
    trial.demand([len(part) for part in parts] == [1, 1], f"links of the processes: {parts}")
    trial.demand(parts[0] + parts[1] == rows(trial, trial.top / LINKS), "the processes' links aren't those of the file")
    told = spread(trial, HOSTS, "--out", "nowhere")
    trial.demand((told.status, told.said) == (4, "rohctl: nowhere: cannot write to it: no such file or directory"), f"spread into no folder: {told.end()}", told.call)
