"""What least significant bits mean against a reference (RFC 3095 4.5)."""

from octets import Bits, number_of


def interval_value(reference: int, count: int, bits: int, p: int) -> int:
    """The one value from reference - p to reference + 2^count - 1 - p with these low bits."""
    first, last = reference - p, reference + 2**count - 1 - p
    # Of the values with these low bits, those around the interval are tried.
    around = range(bits + (first // 2**count - 1) * 2**count, last + 1, 2**count)
    found = [value for value in around if first <= value <= last]
    assert len(found) == 1
    return found[0]


def sn_p(count: int) -> int:
    """How far the interval of a sequence number reaches below its reference."""
    return 1 if count <= 4 else 2 ** (count - 5) - 1


def ts_p(count: int) -> int:
    """How far the interval of a timestamp reaches below its reference."""
    return 2 ** (count - 2) - 1


def sequence_number(reference: int, shift: int, bits: Bits) -> tuple[int, int]:
    """The sequence number, and its steps from the true reference. The reference is moved on by the shift."""
    value = interval_value(reference + shift, len(bits), number_of(bits), sn_p(len(bits)))
    return value % 2**16, value - reference


def scaled(reference: int, stride: int, bits: Bits) -> int:
    """The timestamp of bits of TS_SCALED."""
    value = interval_value(reference // stride, len(bits), number_of(bits), ts_p(len(bits)))
    return (value * stride + reference % stride) % 2**32


def unscaled(reference: int, bits: Bits) -> int:
    """The timestamp of bits of TS."""
    return interval_value(reference, len(bits), number_of(bits), ts_p(len(bits))) % 2**32


def inferred(reference: int, stride: int | None, steps: int) -> int:
    """The timestamp without bits."""
    return (reference + steps * (stride or 0)) % 2**32


def swapped(number: int) -> int:
    """A number of two octets with its octets swapped."""
    return number % 256 * 256 + number // 256


def identification(sn: int, reference_sn: int, reference_id: int, nbo: int, bits: Bits | None) -> int:
    """The Identification of bits of its offset, or without bits."""
    counted = reference_id if nbo else swapped(reference_id)
    offset = (counted - reference_sn) % 2**16
    if bits is not None:
        offset = interval_value(offset, len(bits), number_of(bits), 0)
    counted = (sn + offset) % 2**16
    return counted if nbo else swapped(counted)
