"""Octets as lists of bits, and octets that are read from left to right."""

from dataclasses import dataclass

Bits = list[int]


class Refused(Exception):
    """A packet is refused, by this name."""

    def __init__(self, name: str) -> None:
        """Keeps the name."""
        super().__init__(name)
        self.name = name


def refuse_if(holds: bool | int, name: str) -> None:
    """Refuses the packet if something holds."""
    if holds:
        raise Refused(name)


def bits_of(octets: bytes) -> Bits:
    """The bits of octets, the most significant of each first."""
    return [octet >> place & 1 for octet in octets for place in range(7, -1, -1)]


def number_of(bits: Bits) -> int:
    """The number that bits stand for, the most significant first."""
    number = 0
    for bit in bits:
        number = 2 * number + bit
    return number


def word_of(octets: bytes) -> str:
    """Octets as a word of a line."""
    return octets.hex() or "-"


def octets_of(number: int, count: int) -> bytes:
    """A number in so many octets, the most significant first."""
    return number.to_bytes(count, "big")


@dataclass
class Reader:
    """Octets, and how many of them were read. A field that is cut off refuses the packet."""

    octets: bytes
    place: int = 0

    def take(self, count: int) -> bytes:
        """The next octets."""
        refuse_if(self.place + count > len(self.octets), "Truncated")
        self.place += count
        return self.octets[self.place - count : self.place]

    def number(self, count: int) -> int:
        """The next octets as a number."""
        return int.from_bytes(self.take(count), "big")

    def octet(self) -> int:
        """The next octet."""
        return self.number(1)

    def rest(self) -> bytes:
        """All that wasn't read."""
        return self.octets[self.place :]
