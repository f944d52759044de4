"""Compares others' readings of ROHC packets, and of what was delivered for them, with tools/model's.

usage: python3 tools/dissect [--bend] [--explain ROHCTL] FOLDER..

Each FOLDER has links.toml, with one link; a script of arrivals; and answers, which are what a program said to it.
Wireshark's dissector reads each packet of the script and each element of feedback; the model says what they are. Of each
delivered packet, Wireshark's dissectors and scapy judge the header's checksum and read the fields, and what was said of
the compressed packet must be what is in the delivered one. The status is 1 if anything differs beyond what is known of
the dissector. The answers must be the model's, too. With --bend a bit of each ROHC packet is turned before the dissector
reads it.
"""

import subprocess
import sys
import tempfile
from collections import Counter
from collections.abc import Iterator
from concurrent.futures import ProcessPoolExecutor
from dataclasses import dataclass, replace
from pathlib import Path

# The comparison leaves no compiled modules beside its own.
sys.dont_write_bytecode = True

import capture  # noqa: E402
import said  # noqa: E402
import wireshark  # noqa: E402
from comparison import Counts, Seen  # noqa: E402
from explained import Explained, explained  # noqa: E402
from links import Setting, read  # noqa: E402

HELP = (__doc__ or "").strip()
SHOWN = 8
DESTINATION_PORT = slice(22, 24)
# The Python that Debian's package of scapy is for is not always the first on the path.
PYTHONS = (sys.executable, "/usr/bin/python3")
SCAPY = Path(__file__).resolve().parent / "scapy_view.py"


def python_of_scapy() -> str:
    """A Python that has scapy, or nothing."""
    for python in filter(lambda python: Path(python).exists(), PYTHONS):
        if subprocess.run([python, "-c", "import scapy"], capture_output=True).returncode == 0:
            return python
    return ""


def with_bit_turned(octets: bytes) -> bytes:
    """A packet with another least bit in its first octet."""
    return bytes([octets[0] ^ 1]) + octets[1:]


@dataclass(frozen=True)
class Asked:
    """What is asked for: a Python that has scapy, a rohctl, and whether bits are turned."""

    python: str
    rohctl: str
    bend: bool


@dataclass(frozen=True)
class Run:
    """The packets of a run, with what a teller says of them."""

    setting: Setting
    packets: list[said.Said]
    room: Path
    # What Wireshark's dissectors say of the packet that was delivered for each.
    delivered: dict[int, wireshark.View]


def compare_all(counts: Counts, run: Run, views: list[wireshark.View]) -> list[tuple[said.Said, wireshark.View]]:
    """Compares what Wireshark's dissectors say of the ROHC packets. Those that were delivered, each with what was said."""
    seen = Seen(run.setting.is_small)
    delivered = []
    for one, theirs in zip(run.packets, views, strict=True):
        if not one.view:
            counts.packets["not compared"] += 1
        elif counts.compare(one, theirs, seen) and one.delivered:
            delivered.append((one, theirs))
    return delivered


def views_of_delivered(packets: list[said.Said], room: Path) -> dict[int, wireshark.View]:
    """What Wireshark's dissectors say of what was delivered for these packets."""
    delivered = [one for one in packets if one.delivered]
    capture.write(room / "ip.pcap", capture.RAW_IP, (one.delivered for one in delivered))
    ports = {int.from_bytes(one.delivered[DESTINATION_PORT]) for one in delivered}
    return dict(zip(map(id, delivered), wireshark.delivered_views(room / "ip.pcap", ports), strict=True))


def by_wireshark(counts: Counts, run: Run, views: list[wireshark.View]) -> None:
    """Compares what Wireshark's dissectors say with what the model says."""
    for one, theirs in compare_all(counts, run, views):
        counts.compare_delivered(one, theirs, run.delivered[id(one)])


def with_explained(counts: Counts, run: Run, views: list[wireshark.View], rows: list[Explained]) -> None:
    """Compares what Wireshark's dissectors say with what `rohctl explain` says of the same packets."""
    left, told, theirs, tried = iter(rows), [], [], []
    for one, view in zip(run.packets, views, strict=True):
        # Feedback that is sent isn't explained.
        if one.view.get("format") != "feedback":
            row = next(left)
            told.append(replace(one, view=row.view))
            theirs.append(view)
            if row.tried and one.delivered:
                tried.append((one, row.tried))
    counts.faults += ["packets without a line of rohctl explain, or more lines"] * (next(left, None) is not None)
    compare_all(counts, replace(run, packets=told), theirs)
    for one, ours in tried:
        for name, number in ours.items():
            counts.compare_numbers(one, f"tried {name}", number, run.delivered[id(one)].get(name, ""))


def by_scapy(counts: Counts, python: str, packets: list[said.Said]) -> None:
    """Compares what scapy says of what was delivered."""
    delivered = [one for one in packets if one.delivered]
    lines = "".join(f"{one.delivered.hex()}\n" for one in delivered)
    told = subprocess.run([python, "-B", SCAPY], input=lines, capture_output=True, text=True, check=True).stdout
    for one, line in zip(delivered, told.splitlines(), strict=True):
        header, *numbers, verdict = line.split(" ")
        counts.compare_numbers(one, "header by scapy", "same", header)
        counts.udp_checksums[verdict] += 1
        for name, number in zip(("SN", "TS", "SSRC"), numbers, strict=True):
            if name in one.view:
                counts.compare_numbers(one, f"{name} by scapy", one.view[name], number)


def compared(folder: Path, asked: Asked) -> tuple[Counts, Counts]:
    """What is found of a run: with what the model says, and with what `rohctl explain` says."""
    model, ours = Counts(), Counts("rohctl explain")
    setting = next(iter(read((folder / "links.toml").read_bytes()).values()))
    all_said = list(said.all_said(setting, (folder / "script").read_bytes()))
    packets = [one for one, _ in all_said]
    told = [line for _, lines in all_said for line in lines]
    if told != (folder / "answers").read_text().splitlines():
        model.faults.append("the answers aren't the model's")
    with tempfile.TemporaryDirectory() as room:
        run = Run(setting, packets, Path(room), views_of_delivered(packets, Path(room)))
        shown = (with_bit_turned(one.octets) if asked.bend else one.octets for one in packets)
        capture.write_rohc(run.room / "rohc.pcap", shown, setting.is_small)
        views = wireshark.rohc_views(run.room / "rohc.pcap")
        by_wireshark(model, run, views)
        if asked.rohctl:
            with_explained(ours, run, views, list(explained(asked.rohctl, folder / "links.toml", folder / "script")))
    if asked.python:
        by_scapy(model, asked.python, packets)
    for counts in (model, ours):
        counts.faults = [f"{folder.name}: {fault}" for fault in counts.faults]
    return model, ours


def group(name: str) -> str:
    """What a field is counted among."""
    if name == "header checksum":
        return "header checksums of what was delivered, by Wireshark"
    if name == "header by scapy":
        return "headers of what was delivered, written anew by scapy"
    if name.endswith(" by scapy"):
        return "numbers of SN, TS and SSRC, by scapy"
    if name.startswith("tried "):
        return "SN and TS of the try that fits, in what was delivered, by Wireshark"
    if name.startswith("delivered "):
        return "fields of a compressed packet that are in the delivered one, by Wireshark"
    return "fields of compressed packets and of feedback, by Wireshark"


def rows(counts: Counts) -> Iterator[str]:
    """What was found, in lines."""
    agreed: Counter[str] = Counter()
    for name, number in counts.agreed.items():
        agreed[group(name)] += number
    parts = {"packets": counts.packets, f"as {counts.teller} says": agreed, "known differences": counts.known}
    for title, found in {**parts, "UDP checksums, by scapy": counts.udp_checksums}.items():
        if not found:
            continue
        yield f"{title}: {sum(found.values())}"
        yield from (f"  {number:7} {name}" for name, number in sorted(found.items()))
    yield f"otherwise: {len(counts.faults)}"
    yield from (f"  {fault}" for fault in counts.faults[:SHOWN])


def main(words: list[str]) -> int:
    """Does what the words say."""
    if words == ["--help"]:
        print(HELP)
        return 0
    bend = words[:1] == ["--bend"]
    words = words[bend:]
    rohctl = words[1] if words[:1] == ["--explain"] and len(words) > 1 else ""
    words = words[2 if rohctl else 0 :]
    if not words or not all(Path(word).is_dir() for word in words):
        print(HELP, file=sys.stderr)
        return 2
    asked = Asked(python_of_scapy(), rohctl and str(Path(rohctl).resolve()), bend)
    if not asked.python:
        print("left out: scapy is not installed, delivered headers were read by Wireshark alone")
    model, ours = Counts(), Counts("rohctl explain")
    with ProcessPoolExecutor() as pool:
        for found, other in pool.map(compared, map(Path, words), [asked] * len(words)):
            model.add(found)
            ours.add(other)
    for counts in (model, ours) if rohctl else (model,):
        print("\n".join(rows(counts)))
    return int(bool(model.faults or ours.faults))


if __name__ == "__main__":
    sys.exit(main(sys.argv[1:]))
