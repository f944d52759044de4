"""Networks of a test's own: network namespaces without names, which end with the process that made them."""

import contextlib
import ctypes
import os
import subprocess
from collections.abc import Iterator
from dataclasses import dataclass
from pathlib import Path
from typing import Self

NEW_NETWORK = 0x40000000
LIBRARY = ctypes.CDLL(None, use_errno=True)


def demand_done(status: int, what: str) -> None:
    """Raises what the system said if a call failed."""
    if status != 0:
        raise OSError(ctypes.get_errno(), f"{what}: {os.strerror(ctypes.get_errno())}")


@dataclass(frozen=True)
class Network:
    """A network, by a descriptor that keeps it."""

    descriptor: int

    @classmethod
    def here(cls) -> Self:
        """The network of this thread."""
        return cls(os.open("/proc/thread-self/ns/net", os.O_RDONLY))

    @classmethod
    def new(cls) -> Self:
        """A new network, in which nothing but its loopback stands. OSError, if it can't be made here."""
        before = cls.here()
        demand_done(LIBRARY.unshare(NEW_NETWORK), "unshare")
        made = cls.here()
        before.enter()
        os.close(before.descriptor)
        made.run("ip link set lo up")
        return made

    def enter(self) -> None:
        """Brings this thread into it. What the thread opens and starts from now on is there."""
        demand_done(LIBRARY.setns(self.descriptor, 0), "setns")

    @contextlib.contextmanager
    def inside(self) -> Iterator[None]:
        """Works in it for a while."""
        before = Network.here()
        self.enter()
        try:
            yield
        finally:
            before.enter()
            os.close(before.descriptor)

    def run(self, words: str) -> None:
        """Runs a command in it, which must end well."""
        with self.inside():
            subprocess.run(words.split(), check=True)

    def set(self, name: str, number: int) -> None:
        """Sets one of its numbers, such as ipv4/ip_forward."""
        with self.inside():
            (Path("/proc/sys/net") / name).write_text(str(number))

    def join(self, line: str, own: str, other: "Network", its: str) -> None:
        """Lays a line to another network: `line` here, `eth` there, each with an address and its prefix."""
        self.run(f"ip link add {line} type veth peer name eth netns /proc/{os.getpid()}/fd/{other.descriptor}")
        for network, name, address in ((self, line, own), (other, "eth", its)):
            network.run(f"ip addr add {address} dev {name}")
            network.run(f"ip link set {name} up")


@contextlib.contextmanager
def made(count: int) -> Iterator[list[Network]]:
    """So many networks. None, if they can't be made here."""
    found: list[Network] = []
    try:
        with contextlib.suppress(OSError, subprocess.CalledProcessError):
            for _ in range(count):
                found.append(Network.new())
        yield found if len(found) == count else []
    finally:
        for one in found:
            os.close(one.descriptor)
