"""Self-describing values (RFC 3095 4.5.6)."""

from octets import Bits, Reader, bits_of, number_of, octets_of, refuse_if

# The first bits of a value, by its number of octets.
FIRST_BITS = {1: [0], 2: [1, 0], 3: [1, 1, 0], 4: [1, 1, 1]}


def front_bits(octets: bytes) -> Bits | None:
    """The bits of the value at the start of a buffer, if there is one."""
    for count, first in FIRST_BITS.items():
        bits = bits_of(octets[:count])
        if len(octets) >= count and bits[: len(first)] == first:
            return bits[len(first) :]
    return None


def length_of(bits: Bits) -> int:
    """How many octets a value of so many bits has."""
    return next(count for count, first in FIRST_BITS.items() if 8 * count - len(first) == len(bits))


def front_value(octets: bytes) -> tuple[int, int] | None:
    """The value at the start of a buffer, with its number of octets, if there is one."""
    bits = front_bits(octets)
    return None if bits is None else (number_of(bits), length_of(bits))


def read_bits(reader: Reader) -> Bits:
    """The bits of the value that comes next."""
    bits = front_bits(reader.rest())
    refuse_if(bits is None, "Truncated")
    assert bits is not None
    reader.take(length_of(bits))
    return bits


def read_value(reader: Reader) -> int:
    """The value that comes next."""
    return number_of(read_bits(reader))


def written(value: int) -> bytes | None:
    """A value in the fewest octets, if it can be written."""
    for count, first in FIRST_BITS.items():
        free = 8 * count - len(first)
        if value < 2**free:
            return octets_of(number_of(first) * 2**free + value, count)
    return None
