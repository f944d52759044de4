"""Pictures of octets: named fields with their widths.

A picture is words: constant bits such as 110, a field with its width such as SN:4, or a flag such as M. A name that
stands there twice is one field, whose bits follow each other.
"""

from octets import Bits, Reader, bits_of, number_of


def is_constant(name: str) -> bool:
    """Whether a word is constant bits."""
    return set(name) <= {"0", "1"}


def pieces(picture: str) -> list[tuple[str, int]]:
    """The words of a picture, each with its width. Constant bits are named by themselves."""
    found = []
    for word in picture.split():
        name, _, count = word.partition(":")
        found.append((name, len(name) if is_constant(name) else int(count or 1)))
    return found


def width(picture: str) -> int:
    """How many bits a picture has."""
    return sum(count for _, count in pieces(picture))


def in_order(picture: str, bits: Bits) -> list[tuple[str, Bits]] | None:
    """The fields of a picture in their order, or none if its constant bits aren't there."""
    found = []
    for name, count in pieces(picture):
        part, bits = bits[:count], bits[count:]
        if not is_constant(name):
            found.append((name, part))
        elif part != [int(bit) for bit in name]:
            return None
    return found


def fields(picture: str, bits: Bits) -> dict[str, Bits] | None:
    """The fields of a picture by their names, or none if its constant bits aren't there."""
    listed = in_order(picture, bits)
    if listed is None:
        return None
    named: dict[str, Bits] = {}
    for name, part in listed:
        named[name] = named.get(name, []) + part
    return named


def next_octet(reader: Reader, picture: str) -> dict[str, int]:
    """The fields of the next octet, whose constant bits are there, as numbers."""
    named = fields(picture, bits_of(reader.take(1)))
    assert named is not None
    return {name: number_of(bits) for name, bits in named.items()}
