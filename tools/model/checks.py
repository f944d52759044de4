"""Checks by polynomial division (RFC 3095 5.9), and the header sum."""

from octets import Bits

# The coefficients of 1+x+x^3, 1+x+x^2+x^3+x^6+x^7 and 1+x+x^2+x^8, the highest power first.
POLYNOMIALS = {
    3: [1, 0, 1, 1],
    7: [1, 1, 0, 0, 1, 1, 1, 1],
    8: [1, 0, 0, 0, 0, 0, 1, 1, 1],
}


def least_first(number: int, count: int) -> Bits:
    """A number as bits, the least significant first."""
    return [number >> place & 1 for place in range(count)]


def division(dividend: Bits, divisor: Bits) -> Bits:
    """What is left of a division of polynomials, the highest power first."""
    left = list(dividend)
    degree = len(divisor) - 1
    for first in range(len(left) - degree):
        if left[first]:
            for place in range(degree + 1):
                left[first + place] ^= divisor[place]
    return left[len(left) - degree :]


def check(width: int, register: int, octets: bytes) -> int:
    """The check of octets, from a register."""
    dividend = [bit for octet in octets for bit in least_first(octet, 8)] + [0] * width
    for place, bit in enumerate(least_first(register, width)):
        dividend[place] ^= bit
    left = division(dividend, POLYNOMIALS[width])
    return sum(bit << place for place, bit in enumerate(left))


def from_ones(width: int, octets: bytes) -> int:
    """The check of octets, from all ones."""
    return check(width, 2**width - 1, octets)


def header_sum(octets: bytes) -> int:
    """The complement of the ones' complement sum of 16-bit words."""
    even = octets + bytes(len(octets) % 2)
    total = sum(256 * even[place] + even[place + 1] for place in range(0, len(even), 2))
    if total == 0:
        return 65_535
    return 65_535 - (total % 65_535 or 65_535)
