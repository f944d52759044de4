"""Links files: the settings of each link, or the first fault."""

import tomllib
from collections.abc import Mapping
from dataclasses import dataclass

Table = Mapping[str, object]
# The numbers of an entry in the order in which they are judged, with the least and the greatest that each field holds.
PORT, OCTET, SHORT, LONG = (1, 2**16 - 1), (0, 2**8 - 1), (0, 2**16 - 1), (0, 2**32 - 1)
NUMBERS = {
    "number": SHORT,
    "max_cid": SHORT,
    "k1": OCTET,
    "n1": OCTET,
    "k2": OCTET,
    "n2": OCTET,
    "packet_ms": LONG,
    "static_nack_ms": LONG,
    "deliver_port": PORT,
    "feedback_port": PORT,
    "relay_port": PORT,
    "idle_ms": LONG,
}
CHOICES = {"cid": ("small", "large"), "mode": ("U", "O")}
ORDER = (
    "number cid max_cid mode k1 n1 k2 n2 packet_ms static_nack_ms deliver_port feedback_port relay_port idle_ms range"
).split()
LONGEST_FILE = 1_048_576


class LinksFault(Exception):
    """What is wrong with a links file."""


@dataclass(frozen=True)
class Range:
    """CIDs with a mode of their own, both ends included."""

    first: int
    last: int
    mode: str


@dataclass(frozen=True)
class Setting:
    """The settings of a link, as far as they matter to a replay."""

    number: int
    is_small: bool
    max_cid: int
    mode: str
    k1: int
    n1: int
    k2: int
    n2: int
    packet_ms: int
    static_nack_ms: int
    idle_ms: int
    ranges: tuple[Range, ...]

    def sends_for(self, cid: int) -> bool:
        """Whether feedback is sent for a CID: in O mode alone."""
        modes = [one.mode for one in self.ranges if one.first <= cid <= one.last]
        return (modes or [self.mode])[0] == "O"


def whole(table: Table, key: str, limits: tuple[int, int]) -> int:
    """A whole number between limits."""
    number = table.get(key)
    if isinstance(number, bool) or not isinstance(number, int) or not limits[0] <= number <= limits[1]:
        raise LinksFault("BadKey")
    return number


def choice(table: Table, key: str) -> str:
    """One of some words."""
    word = table.get(key)
    if not isinstance(word, str) or word not in CHOICES[key]:
        raise LinksFault("BadKey")
    return word


def read_range(table: object) -> Range:
    """A range, which has exactly its three keys."""
    if not isinstance(table, dict) or set(table) != {"first", "last", "mode"}:
        raise LinksFault("BadKey")
    return Range(whole(table, "first", SHORT), whole(table, "last", SHORT), choice(table, "mode"))


def read_ranges(table: Table) -> tuple[Range, ...]:
    """The ranges of an entry, if it has some."""
    listed = table.get("range", [])
    if not isinstance(listed, list) or len(listed) > 8:
        raise LinksFault("BadKey")
    return tuple(read_range(one) for one in listed)


def read_entry(table: Table, version: int) -> Setting:
    """The settings of one link."""
    keys = ORDER if version == 2 else ORDER[:-2]
    if set(table) - set(keys):
        raise LinksFault("UnknownKey")
    words: dict[str, str] = {}
    numbers = {"idle_ms": 0}
    for key in keys:
        if key in CHOICES:
            words[key] = choice(table, key)
        elif key in NUMBERS:
            numbers[key] = whole(table, key, NUMBERS[key])
    ranges = read_ranges(table)
    kept = {key: number for key, number in numbers.items() if not key.endswith("_port")}
    return Setting(is_small=words["cid"] == "small", mode=words["mode"], ranges=ranges, **kept)


def is_good(setting: Setting) -> bool:
    """Whether settings are within the limits, and their ranges are in order."""
    low = -1
    for one in setting.ranges:
        if not low < one.first <= one.last <= setting.max_cid:
            return False
        low = one.last
    return (
        setting.max_cid <= (15 if setting.is_small else 16_383)
        and 1 <= setting.k1 <= setting.n1 <= 64
        and 1 <= setting.k2 <= setting.n2 <= 64
        and 1 <= setting.packet_ms <= 60_000
        and setting.static_nack_ms <= 3_600_000
        and setting.idle_ms <= 86_400_000
    )


def judged(settings: list[Setting]) -> dict[int, Setting]:
    """The settings by their numbers, if there is no fault of settings."""
    if not 1 <= len(settings) <= 256:
        raise LinksFault("TooManyLinks" if settings else "NoLinks")
    links: dict[int, Setting] = {}
    for setting in settings:
        if not is_good(setting):
            raise LinksFault("BadSetting")
        if setting.number in links:
            raise LinksFault("DuplicateLink")
        links[setting.number] = setting
    return links


def has_long_number(value: object) -> bool:
    """Whether an integer of a table takes more than 64 bits, which TOML has as a fault and tomllib takes."""
    if isinstance(value, dict):
        return any(map(has_long_number, value.values()))
    if isinstance(value, list):
        return any(map(has_long_number, value))
    return isinstance(value, int) and not -(2**63) <= value < 2**63


def parsed(octets: bytes) -> Table:
    """The table of a links file."""
    if len(octets) > LONGEST_FILE:
        raise LinksFault("Unreadable")
    try:
        table = tomllib.loads(octets.decode())
    except UnicodeDecodeError as fault:
        raise LinksFault("Unreadable") from fault
    except tomllib.TOMLDecodeError as fault:
        raise LinksFault("NotToml") from fault
    if has_long_number(table):
        raise LinksFault("NotToml")
    return table


def read(octets: bytes) -> dict[int, Setting]:
    """The settings of the links of a file, by their numbers."""
    table = parsed(octets)
    version = table.get("version")
    if type(version) is not int or version not in (1, 2):
        raise LinksFault("BadVersion")
    if set(table) - {"version", "link"}:
        raise LinksFault("UnknownKey")
    entries = table.get("link", [])
    if not isinstance(entries, list) or not all(isinstance(entry, dict) for entry in entries):
        raise LinksFault("BadKey")
    return judged([read_entry(entry, version) for entry in entries])
