"""A Redis of a test's own, on a Unix socket, and a small client for it."""

import contextlib
import shutil
import socket
import subprocess
import time
from pathlib import Path
from typing import Self

START_SECONDS = 20.0
Reply = bytes | int | None | list["Reply"]


class RedisError(Exception):
    """What Redis answered to a command that it refused."""


class Client:
    """A connection."""

    def __init__(self, path: Path) -> None:
        self._socket = socket.socket(socket.AF_UNIX)
        self._socket.settimeout(START_SECONDS)
        self._socket.connect(str(path))
        self._file = self._socket.makefile("rb")

    def __enter__(self) -> Self:
        return self

    def __exit__(self, *_: object) -> None:
        self.close()

    def close(self) -> None:
        """Ends the connection."""
        self._file.close()
        self._socket.close()

    def send(self, *words: bytes | str | int) -> None:
        """Sends a command."""
        octets = [word if isinstance(word, bytes) else str(word).encode() for word in words]
        parts = [b"*%d\r\n" % len(octets)]
        parts += [b"$%d\r\n%s\r\n" % (len(word), word) for word in octets]
        self._socket.sendall(b"".join(parts))

    def reply(self) -> Reply:
        """The next reply."""
        line = self._file.readline()
        if not line.endswith(b"\r\n"):
            raise ConnectionError("the connection broke")
        kind, rest = line[:1], line[1:-2]
        if kind == b"-":
            raise RedisError(rest.decode(errors="replace"))
        if kind == b"+":
            return rest
        if kind == b":":
            return int(rest)
        if kind == b"$":
            return None if rest == b"-1" else self._file.read(int(rest) + 2)[:-2]
        return None if rest == b"-1" else [self.reply() for _ in range(int(rest))]

    def ask(self, *words: bytes | str | int) -> Reply:
        """The reply to a command."""
        self.send(*words)
        return self.reply()

    def entries(self, key: str) -> list[tuple[int, bytes]]:
        """The number and the octets of each entry of a stream."""
        found = self.ask("XRANGE", key, "-", "+")
        assert isinstance(found, list)
        return [(int(entry[0].split(b"-")[0]), entry[1][1]) for entry in found]  # type: ignore[index, union-attr]


class Server:
    """A Redis that can be killed and started again. Its log is written at each command."""

    def __init__(self, folder: Path) -> None:
        self.folder = folder
        self.socket = folder / "redis"
        self._process: subprocess.Popen[bytes] | None = None

    def start(self) -> None:
        """Starts it, and waits until it answers."""
        words = ["redis-server", "--port", "0", "--unixsocket", self.socket, "--dir", self.folder, "--save", ""]
        words += ["--appendonly", "yes", "--appendfsync", "always", "--loglevel", "warning"]
        log = (self.folder / "redis.log").open("ab")
        self._process = subprocess.Popen(words, stdout=log, stderr=log)
        end = time.monotonic() + START_SECONDS
        while time.monotonic() < end:
            with contextlib.suppress(OSError, RedisError), Client(self.socket) as client:
                if client.ask("PING") == b"PONG":
                    return
            time.sleep(0.02)
        raise TimeoutError("Redis doesn't start")

    def kill(self) -> None:
        """Ends it at once."""
        if self._process:
            self._process.kill()
            self._process.wait()
            self._process = None

    def client(self) -> Client:
        """A connection to it."""
        return Client(self.socket)


def is_there() -> bool:
    """Whether Redis is installed."""
    return shutil.which("redis-server") is not None
