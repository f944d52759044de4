"""What `rohctl explain --json` says of the packets of a script, by the names that the dissectors' readings have here."""

import json
import subprocess
from collections.abc import Callable, Iterator
from dataclasses import dataclass, field
from ipaddress import IPv4Address
from pathlib import Path
from typing import Any

from wireshark import View

# Formats of chains, whose fields are numbers. Those of the others are bits, which extensions continue.
CHAINS = ("IR", "IR-DYN")
# What stands for the format of a packet without a header, or of one whose context doesn't have what its format depends on.
UNTOLD = ("no header", "unknown")
WHOLE = 16
NAMES = {"source port": "source port", "destination port": "destination port", "Profile": "profile", "CRC": "check"}
NAMES |= {name: name for name in ("SSRC", "TOS", "TTL", "DF", "RND", "NBO", "UDP checksum", "P", "M", "PT", "TS_STRIDE", "Mode")}
IN_CHAINS = {"IP-ID": "Identification", "SN": "SN", "TS": "TS", "X": "X"}
IN_OTHERS = {"Tsc": "Tsc", "R-X": "X"}
BITS = {"SN": "SN bits", "TS": "TS bits", "IP-ID": "IP-ID bits"}
ADDRESSES = {"source address": "source", "destination address": "destination"}


@dataclass(frozen=True)
class Explained:
    """What is said of a packet; and, of one that is rebuilt, the SN and the TS of the try that fits."""

    view: View
    tried: View = field(default_factory=dict)


def fields_of(row: dict[str, Any]) -> Iterator[tuple[str, int, int]]:
    """The name, the value and the number of bits of each field of the header."""
    is_header = False
    for one in row["fields"]:
        # What stands before the header ends with the first field that says its format.
        is_header |= one["name"] in ("format", "type octet")
        if is_header:
            yield one["name"], one["value"], one["bits"]


def add_chain_field(view: View, name: str, value: int, bits: int) -> None:
    """Adds a field of an IR or an IR-DYN."""
    if name in ADDRESSES:
        view[ADDRESSES[name]] = str(IPv4Address(value))
    elif name in NAMES or name in IN_CHAINS:
        view[(NAMES | IN_CHAINS)[name]] = str(value)


def add_other_field(view: View, name: str, value: int, bits: int) -> None:
    """Adds a field of a packet of kind Other. An IP-ID of 16 bits that flag I doesn't announce stands behind the header."""
    if name == "I":
        view["I"] = str(value)
    elif name == "IP-ID" and bits == WHOLE and view.get("I", "0") == "0":
        view["Identification"] = str(value)
    elif name in BITS:
        view[BITS[name]] = view.get(BITS[name], "") + f"{value:0{bits}b}"
    elif name in NAMES or name in IN_OTHERS:
        view[(NAMES | IN_OTHERS)[name]] = str(value)


def view_of(row: dict[str, Any], octets: bytes) -> Explained:
    """What an object says of a packet. Nothing, if not the whole header is told, or not its format."""
    if row["cid"] is None or not row["whole"] or row["format"] in UNTOLD:
        return Explained({})
    view: View = {"CID": str(row["cid"]), "format": row["format"]}
    add: Callable[[View, str, int, int], None] = add_chain_field if row["format"] in CHAINS else add_other_field
    for name, value, bits in fields_of(row):
        add(view, name, value, bits)
    view.pop("I", None)
    length = len(octets) - row["header_bits"] // 8
    if length and row["format"] != "Normal" and view.get("profile") != "0":
        view["payload"] = str(length)
    fitting: dict[str, Any] = next((one for one in row.get("tries", []) if one.get("fits")), {})
    return Explained(view, {name.upper(): str(fitting[name]) for name in ("sn", "ts") if name in fitting})


def explained(rohctl: str, links: Path, script: Path) -> Iterator[Explained]:
    """What is said of each arrival of a script."""
    words = (rohctl, "explain", "--json", "--links", links, script)
    told = subprocess.run(words, capture_output=True, text=True)
    if told.returncode not in (0, 1, 6):
        raise RuntimeError(f"rohctl explain: status {told.returncode}, {told.stderr}")
    lines = script.read_text().splitlines()
    for row in map(json.loads, told.stdout.splitlines()):
        yield view_of(row, bytes.fromhex(lines[row["line"] - 1].split(" ")[3].strip("-")))
