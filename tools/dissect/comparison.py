"""Compares what Wireshark's dissectors say with what tools/model, or `rohctl explain`, says, and counts."""

from collections import Counter
from collections.abc import Callable
from dataclasses import dataclass, field

from said import Said
from wireshark import View


@dataclass
class Seen:
    """What the dissector read before a packet: the CID of the last IR or IR-DYN, and the last Mode of each CID."""

    is_small: bool
    last_ir: str = ""
    modes: dict[str, str] = field(default_factory=dict)


# Known differences of a whole packet: what the dissector does, and when.
WHOLE: dict[str, Callable[[Said, View, Seen], bool]] = {
    "large CIDs: it reads the packet by the last IR, which had another CID": lambda said, theirs, seen: (
        not seen.is_small and said.view["CID"] != seen.last_ir and "profile" not in said.view
    ),
    "it doesn't read a UO-0 after Mode 0, which is reserved": lambda said, theirs, seen: (
        said.view["format"] == "UO-0" and "format" not in theirs and seen.modes.get(said.view["CID"]) == "0"
    ),
    "it reads a UOR-2 that changes RND by the RND before": lambda said, theirs, seen: (
        said.view["format"].startswith("UOR-2")
        and theirs.get("format", "").startswith("UOR-2")
        and said.view.get("RND", said.held_rnd) != said.held_rnd
    ),
}
# Known differences of a field: what the dissector shows, and when.
FIELD: dict[str, Callable[[Said, str, str, str], bool]] = {
    "TS bits of a UOR-2: one more in front, the 0 of 110": lambda said, name, theirs, ours: (
        name == "TS bits" and said.view["format"] == "UOR-2" and theirs == f"0{ours}"
    ),
    "more than 32 TS bits: all, where the low 32 count": lambda said, name, theirs, ours: (
        name == "TS bits" and len(theirs) > len(ours) == 32 and theirs.endswith(ours)
    ),
    "IP-ID bits of flag I: behind the base bits that they replace": lambda said, name, theirs, ours: (
        name == "IP-ID bits" and len(ours) == 16 and theirs.endswith(ours) and len(theirs) == 21
    ),
}


@dataclass
class Counts:
    """What was compared with what one teller says."""

    teller: str = "the model"
    packets: Counter[str] = field(default_factory=Counter)
    agreed: Counter[str] = field(default_factory=Counter)
    known: Counter[str] = field(default_factory=Counter)
    udp_checksums: Counter[str] = field(default_factory=Counter)
    faults: list[str] = field(default_factory=list)

    def add(self, other: "Counts") -> None:
        """Adds the counts of another comparison."""
        self.packets += other.packets
        self.agreed += other.agreed
        self.known += other.known
        self.udp_checksums += other.udp_checksums
        self.faults += other.faults

    def compare_field(self, said: Said, name: str, theirs: str, ours: str) -> None:
        """Compares a field."""
        reasons = [reason for reason, holds in FIELD.items() if holds(said, name, theirs, ours)]
        if theirs == ours:
            self.agreed[name] += 1
        elif reasons:
            self.known[reasons[0]] += 1
        else:
            shown = f"{said.octets[:24].hex()}, {said.view['format']}"
            self.faults.append(f"{shown}: {name}: {theirs or 'none'} by tshark, {ours or 'none'} by {self.teller}")

    def compare(self, said: Said, theirs: View, seen: Seen) -> bool:
        """Compares what is said of a packet. Whether the dissector read it by what the model read it by."""
        kind = said.view["format"]
        self.packets[kind] += 1
        # The model drops a Mode.
        names = {*said.view, *theirs} - ({"Mode"} if "Mode" not in said.view else set())
        differ = any(said.view.get(name) != theirs.get(name) for name in names)
        reasons = [reason for reason, holds in WHOLE.items() if differ and holds(said, theirs, seen)]
        if reasons:
            self.known[reasons[0]] += 1
        else:
            for name in sorted(names):
                self.compare_field(said, name, theirs.get(name, ""), said.view.get(name, ""))
        if kind in ("IR", "IR-DYN"):
            seen.last_ir = said.view["CID"]
        if "Mode" in theirs and kind != "feedback":
            seen.modes[said.view["CID"]] = theirs["Mode"]
        return not reasons

    def compare_delivered(self, said: Said, theirs: View, delivered: View) -> None:
        """Compares what tshark says of a packet with what it says of the IP packet that was delivered for it."""
        self.packets["delivered"] += 1
        self.compare_numbers(said, "header checksum", "1", delivered.get("checksum status", ""))
        if bits := theirs.get("SN bits"):
            low = int(delivered.get("SN", "0")) % 2 ** len(bits)
            self.compare_numbers(said, "delivered SN", str(int(bits, 2)), str(low))
        for name in sorted(theirs.keys() & delivered.keys()):
            self.compare_numbers(said, f"delivered {name}", theirs[name], delivered[name])

    def compare_numbers(self, said: Said, name: str, wanted: str, found: str) -> None:
        """Compares a number of what was delivered."""
        if wanted == found:
            self.agreed[name] += 1
        else:
            self.faults.append(f"{said.octets[:24].hex()}: {name}: {wanted} wanted, {found or 'none'} found by tshark")
