"""Calls that change a concentrator: links come, go and change, and contexts are forgotten and put."""

import re
from collections.abc import Callable, Iterator

from links import Range, Setting, is_good
from record import Record, passed
from replay import Concentrator, lines_of, run_line

FIRST_LINK = Setting(1, True, 15, "O", 2, 3, 2, 3, 20, 1000, 0, ())
MOST_LINKS, MOST_RANGES = 256, 8
# The numbers behind the mode of a setting, with their bits.
NUMBERS = {"k1": 8, "n1": 8, "k2": 8, "n2": 8, "packet_ms": 32, "static_nack_ms": 32, "idle_ms": 32}
RANGE = re.compile(b"([0-9]+)-([0-9]+)-([UO])")
NO_LINK = "NoLink"


class NoCall(Exception):
    """A line that is none of these calls."""


def number(word: bytes, bits: int) -> int:
    """The number of so many bits that a word is."""
    if not re.fullmatch(b"0|[1-9][0-9]*", word) or len(word) > 20 or int(word) >= 2**bits:
        raise NoCall
    return int(word)


def choice(word: bytes, *words: bytes) -> str:
    """A word that is one of some words."""
    if word not in words:
        raise NoCall
    return word.decode()


def range_in(word: bytes) -> Range:
    """The range that a word is."""
    found = RANGE.fullmatch(word)
    if not found:
        raise NoCall
    return Range(number(found[1], 16), number(found[2], 16), found[3].decode())


def setting_in(words: list[bytes]) -> Setting:
    """The setting that words are."""
    count = 4 + len(NUMBERS)
    if not count <= len(words) <= count + MOST_RANGES:
        raise NoCall
    link, size, max_cid, mode, *others = words
    numbers = {key: number(word, bits) for (key, bits), word in zip(NUMBERS.items(), others)}
    return Setting(
        number=number(link, 16),
        is_small=choice(size, b"small", b"large") == "small",
        max_cid=number(max_cid, 16),
        mode=choice(mode, b"U", b"O"),
        ranges=tuple(map(range_in, words[count:])),
        **numbers,
    )


def forgotten(held: Concentrator, link: int, goes: Callable[[int, Record], bool]) -> str:
    """Forgets the contexts of a link that go, and says how many went."""
    if link not in held.links:
        return NO_LINK
    gone = [pair for pair, record in held.records.items() if pair[0] == link and goes(pair[1], record)]
    for pair in gone:
        del held.records[pair]
    return f"done {len(gone)}"


def reset(held: Concentrator, link: int) -> str:
    """Forgets every context of a link."""
    return "done" if forgotten(held, link, lambda cid, record: True) != NO_LINK else NO_LINK


def forget(held: Concentrator, link: int, cid: int) -> str:
    """Forgets the context of a CID."""
    return forgotten(held, link, lambda other, record: other == cid)


def expire(held: Concentrator, link: int, moment: int) -> str:
    """Forgets the contexts of a link that have expired."""
    idle = held.links[link].idle_ms if link in held.links else 0
    return forgotten(held, link, lambda cid, record: idle != 0 and passed(moment, record.last) >= idle)


def remove(held: Concentrator, link: int) -> str:
    """Removes a link with its contexts."""
    told = forgotten(held, link, lambda cid, record: True)
    held.links.pop(link, None)
    return told


def add(held: Concentrator, setting: Setting) -> str:
    """Adds a link."""
    if len(held.links) >= MOST_LINKS:
        return "TooManyLinks"
    if not is_good(setting):
        return "BadSetting"
    if setting.number in held.links:
        return "DuplicateLink"
    held.links[setting.number] = setting
    return "done"


def change(held: Concentrator, setting: Setting) -> str:
    """Changes the setting of a link. Contexts stay if the CID kind does, up to the new greatest CID."""
    before = held.links.get(setting.number)
    if before is None:
        return NO_LINK
    if not is_good(setting):
        return "BadSetting"
    held.links[setting.number] = setting
    is_other = before.is_small != setting.is_small
    return forgotten(held, setting.number, lambda cid, record: is_other or cid > setting.max_cid)


def put(held: Concentrator, link: int, cid: int, from_link: int, from_cid: int) -> str:
    """Puts what another CID holds. A context that is saved comes back as it was."""
    record = held.records.get((from_link, from_cid))
    if record is None:
        return "no such context"
    if link not in held.links:
        return NO_LINK
    if cid > held.links[link].max_cid:
        return "CidRange"
    if (link, cid) in held.records:
        return "HasRecord"
    held.records[link, cid] = record
    return "done"


# The calls with numbers alone, and the bits of these.
PLAIN: dict[bytes, tuple[Callable[..., str], tuple[int, ...]]] = {
    b"reset": (reset, (16,)),
    b"forget": (forget, (16, 16)),
    b"expire": (expire, (16, 64)),
    b"remove": (remove, (16,)),
    b"put": (put, (16, 16, 16, 16)),
}


def made(held: Concentrator, name: bytes, words: list[bytes]) -> tuple[int, str]:
    """Makes a call. Returns its link and what is told of it."""
    if name in (b"add", b"change"):
        setting = setting_in(words)
        return setting.number, (add if name == b"add" else change)(held, setting)
    if name not in PLAIN or len(words) != len(PLAIN[name][1]):
        raise NoCall
    call, bits = PLAIN[name]
    numbers = [number(word, count) for word, count in zip(words, bits)]
    return numbers[0], call(held, *numbers)


def answers(text: bytes) -> Iterator[str]:
    """The answers to the lines of a text. A line `= NAME` begins an example, with one link and no context."""
    held = Concentrator({1: FIRST_LINK})
    for line in lines_of(text):
        if line.startswith(b"= "):
            held = Concentrator({1: FIRST_LINK})
            yield line.decode()
            continue
        name, *words = line.split(b" ")
        try:
            link, told = made(held, name, words)
            yield f"{link} {name.decode()} {told}"
        except NoCall:
            yield from run_line(held, line)
