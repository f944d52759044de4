"""Runs the program on single lines, long lines, small pieces and hostile lines.

- Each line here has the answer that stands beside it, and so has each long line in pieces of several sizes.
- The time of an arrival is read whole: a record counts as none from its link's idle_ms after its last accepted arrival.
- Scripts have the same answers in pieces of 1, 2, 7 and 131,200 octets.
- Each pair of a link and a CID gets the answers that its own lines alone would get, and 10,000 hostile lines between
  them change none. Among these are the packets of worked example refused-extensions and one that is TooLong, for living
  contexts on both links.

All answers here were computed by hand from the definitions, independently of this program. Words behind `lines` run
these parts alone: single, long, times, pieces, pairs.
"""

from collections.abc import Callable, Sequence
from itertools import cycle, islice
from pathlib import Path

from program import Ended
from trial import Trial

BAD = "- - refused BadLine\n"
LONG = "- - refused LongLine\n"

# Good lines, and their answers. They run without a newline.
GOOD_LINES = [
    ("arrive 1 0 fc00b745aa", "1 0 ip 45aa\n1 0 feedback f100\n"),
    ("arrive 1 999999999999 e110ac", "1 1 refused NoContext\n"),
    ("arrive 65535 18446744073709551615 -", "65535 - refused NoLink\n"),
    ("arrive 9 0 -", "9 - refused NoLink\n"),
    ("reset 0", "0 - refused NoLink\n"),
    ("reset 9", "9 - refused NoLink\n"),
    ("reset 65535", "65535 - refused NoLink\n"),
]

# Lines that are the text of no event.
BAD_LINES = [
    "",
    "oops",
    "reset",
    "reset ",
    "reset 01",
    "reset 00",
    "reset +1",
    "reset -",
    "reset 65536",
    "reset 1 ",
    "reset 1\r",
    "reset\t1",
    "reset  1",
    " reset 1",
    "Reset 1",
    "arrive 1 0 FC",
    "arrive 1 0 fC",
    "arrive 1 0 fc0",
    "arrive 1 0 0g",
    "arrive 1 0",
    "arrive 1 0 ",
    "arrive 1 0 - ",
    "arrive 1  0 fc",
    "arrive 1 00 fc",
    "arrive 1 18446744073709551616 fc",
    "arrive 65536 0 fc",
    "arrive 1 0 fc fc",
    "arrive 1 0 é",
]

# Feedback and framing: scripts that the worked examples have in parts.
SCRIPTS = [
    (
        "arrive 1 0 f00901\narrive 1 0 f0\narrive 1 0 f000\narrive 1 0 e0\n",
        "1 - refused FeedbackShort\n1 - refused FeedbackShort\n1 - relay -\n",
    ),
    (
        "arrive 2 0 fcc0\narrive 2 0 e1fc\narrive 2 0 fc81\narrive 3 0 e410ac\narrive 1 0 e710ac\narrive 9 0 10ac\n",
        "2 - refused LargeCid\n2 - refused AddCidOnLarge\n2 - refused NoHeader\n3 - refused CidRange\n"
        "1 7 refused NoContext\n9 - refused NoLink\n",
    ),
]

# Long lines, and their answers. Behind the eleven characters `arrive 1 0 ` the first packet has 65,535 octets, and the
# second has one more. A line has at most 131,200 octets.
LONG_LINES = [
    ("arrive 1 0 ".ljust(131_081, "f"), "1 - refused Segment\n"),
    ("arrive 1 0 ".ljust(131_083, "f"), BAD),
    ("x" * 131_200, BAD),
    ("x" * 131_201, LONG),
    ("x" * 200_000 + "\nreset 9", LONG + "9 - refused NoLink\n"),
    ("x" * 131_200 + "\nreset 9\n", BAD + "9 - refused NoLink\n"),
]

# The sizes of the pieces in which scripts are read.
PIECES = [1, 2, 7, 131_200]

# Times on link 4, whose idle_ms is 5000: when a record is made, and when a packet comes that finds none. The record is
# still found a millisecond before the first of these times, and has gone at each of the others.
TIMES = [
    (0, [5000, 4_294_967_296, 2**63, 10_000_000_000_000_000_000, 2**64 - 1]),
    (999_999_999_999, [1_000_000_004_999, 9_999_999_999_999]),
    (18_446_744_073_709_546_615, [18_446_744_073_709_551_615]),
]

# The pairs of a link and a CID that the next script has.
PAIRS = ["1 0", "1 1", "1 2", "1 4", "1 5", "1 7", "2 0", "2 5", "2 300"]

# Honest and damaged packets of these pairs, resets, bad lines and a long one, each with whose it is: a pair's, a whole
# link's or nobody's. CID 0 of link 1 has an arrival 5,000 milliseconds after its last accepted one, and then one 4,999
# milliseconds after that same accepted one.
LINES = [
    ("1 0", "arrive 1 0 fc00b745aa"),
    ("1 1", "arrive 1 999999999999 e110ac"),
    ("2 300", "arrive 2 5 fc812c00e6450102"),
    ("", "oops"),
    ("1 2", "arrive 1 7 e2fc008145aa"),
    ("2 0", "arrive 2 8 fc0000b17ad7ed17"),
    ("1 0", "arrive 1 20 45ab"),
    ("1 4", "arrive 1 21 e4fc00229087"),
    ("2 5", "arrive 2 22 fc0500a9eea2"),
    ("", "x" * 131_201),
    ("1 5", "arrive 1 23 f22007e5fc00f276e975"),
    ("1 1", "arrive 1 24 e1fc0030beef"),
    ("1 0", "arrive 1 25 fc00b845aa"),
    ("", "arrive 1 26 ff00"),
    ("2 300", "arrive 2 30 45812c0102"),
    ("1 0", "arrive 1 5020 45ac"),
    ("1 7", "arrive 1 31 e710ac"),
    ("", "arrive 3 32 e410ac"),
    ("", ""),
    ("1 0", "arrive 1 5019 45ad"),
    ("1", "reset 1"),
    ("1 0", "arrive 1 40 45ac"),
    ("1 2", "arrive 1 41 e245ac"),
    ("1 4", "arrive 1 42 e4fc0022"),
    ("2 5", "arrive 2 43 450545"),
    ("2 0", "arrive 2 44 450001"),
    ("1 0", "arrive 1 45 fc00b7"),
    ("2", "reset 2"),
    ("2 300", "arrive 2 50 45812c0102"),
    ("1 5", "arrive 1 51 e545"),
    ("1 1", "arrive 1 52 e1fc0030"),
    ("", "reset 9"),
    ("2 0", "arrive 2 53 fc0000b1"),
    ("", "arrive 2 54 fcc0"),
]

# The answers for CID 0 of link 1. Its record was last accepted at 20.
FIRST_TOLD = """\
1 0 ip 45aa
1 0 feedback f100
1 0 ip 45ab
1 0 refused Check
1 0 refused NoContext
1 0 ip 45ad
1 0 refused NoContext
1 0 stored
1 0 feedback f100
"""

# The chains of worked examples whole-ir and no-stride.
STATIC = "40110a0000010a0000021388138a00000001"
STRIDE = "004000012000000090000001000000a0000980a0ab"
NO_STRIDE = "004000012000000080000001000000a000ab"

# The packets of worked example refused-extensions that come after an IR with a stride, each with its refusal. NoStride
# comes after an IR without one.
EXTENSIONS = {
    "c00380c104": "Csrc",
    "c00380c201": "OuterHeader",
    "c00380c208": "ExtensionList",
    "c00380c1c0": "ReliableMode",
    "c00380c21006": "Protocol",
    "c00380c10200": "ZeroStride",
    "c00380c602": "IpIdTwice",
    "8090c202": "RndInUo1",
    "c003": "Truncated",
    "c00380c2": "Truncated",
}
TOO_LONG = "10" + "00" * 65_496


def under_10(octets: str) -> str:
    """A line for CID 10 of link 1, which stands before the packet's first octet."""
    return f"arrive 1 0 ea{octets}"


def under_302(octets: str) -> str:
    """A line for CID 302 of link 2, which stands behind the packet's first octet."""
    return f"arrive 2 0 {octets[:2]}812e{octets[2:]}"


def for_live_context(under: Callable[[str], str], check: str, other_check: str) -> list[str]:
    """Lines for a CID: an IR, packets that its context refuses, a fall to Static Context, and an IR without a stride."""
    packets = [f"fd01{check}{STATIC}{STRIDE}", *EXTENSIONS, "11ac", "11ac", "11ac"]
    return [under(packet) for packet in [*packets, f"fd01{other_check}{STATIC}{NO_STRIDE}", "c00380c8"]]


# Hostile lines: none has a CID of the script, and none is a reset. They make three records on each link: two at the
# latest time and at the earliest, and one that lives on while it refuses packets.
HOSTILE = [
    *for_live_context(under_10, "9e", "b9"),
    *for_live_context(under_302, "dd", "30"),
    "arrive 1 18446744073709551615 e9fc00758f",
    "arrive 1 0 e945",
    "arrive 1 0 e9ffff",
    "arrive 1 0 e9fc00768f",
    "arrive 1 0 eefc0006de5b386a00",
    "arrive 1 0 ee45",
    "arrive 1 0 f00901",
    "arrive 1 0 f3010203",
    "arrive 1 0 e1e0",
    "arrive 2 18446744073709551615 fc812d008b",
    "arrive 2 0 45812d01",
    "arrive 2 0 fcc0",
    "arrive 2 0 e1fc",
    "arrive 2 0 4580060000",
    "arrive 1 0 -",
    "arrive 9 0 10ac",
    "1 0 ip 45aa",
    "arrive 1 0 FC",
]

# Some of the answers to these lines.
HOSTILE_TOLD = ["1 9 ip 8f", "1 9 ip 45", "2 301 stored", "2 301 ip 4501"]
for refusal in *EXTENSIONS.values(), "NoStride", "TooLong", "Check", "StateTooLow":
    HOSTILE_TOLD += [f"1 10 refused {refusal}", f"2 302 refused {refusal}"]

# How many hostile lines stand behind each line of the script, so that they are 10,000 in all. A packet that is too long
# stands behind each of these floods, on each link.
BETWEEN = 10_000 // len(LINES) + 1


def links_of(trial: Trial, version: int = 1) -> Path:
    """The links of the worked examples."""
    return trial.top / f"examples/worked/links-{version}.toml"


def two_links(trial: Trial) -> Path:
    """Links 1 and 2 of the worked examples. Records count as none from 5,000 ms after their last accepted arrival."""
    entries = links_of(trial).read_text().split("[[link]]\n")[1:3]
    text = "".join(f"[[link]]\n{entry.strip()}\nidle_ms = 5000\n" for entry in entries)
    return trial.write("links.toml", "version = 2\n" + text)


def answered(trial: Trial, links: Path, script: str, piece: int = 0) -> Ended:
    """How a script is answered, which is read in pieces of this size."""
    return trial.program.replay(links, script.encode(), trial.in_pieces(piece) if piece else None, seconds=60)


def told(ended: Ended) -> str:
    """The answers. What goes wrong otherwise is added to them."""
    return ended.text if ended.is_good else f"{ended.text}{ended.end()}"


def runs(trial: Trial, name: str, script: str, wanted: str, piece: int = 0, version: int = 1) -> bool:
    """The script must have these answers."""
    ended = answered(trial, links_of(trial, version), script, piece)
    return trial.same(name, wanted, told(ended), ended.call)


def check_single(trial: Trial) -> None:
    """Good and bad lines, each by itself, and short scripts."""
    for line, wanted in GOOD_LINES:
        runs(trial, f"line {line!r}", line, wanted)
    for line in BAD_LINES:
        runs(trial, f"line {line!r}", line + "\n", BAD)
    for script, wanted in SCRIPTS:
        runs(trial, f"script {script!r}", script, wanted)


def check_long(trial: Trial) -> None:
    """Long lines, in pieces of several sizes."""
    for line, wanted in LONG_LINES:
        for piece in *PIECES, 4096, 200_000:
            runs(trial, f"{len(line)} octets, {line[:12]}.., in pieces of {piece}", line, wanted, piece)


def check_times(trial: Trial) -> None:
    """Records that are idle for long."""
    made = "4 0 ip 45aa\n4 0 feedback f100\n"
    for moment, gone in TIMES:
        lines = [f"arrive 4 {moment} fc00b745aa", *(f"arrive 4 {later} 45ab" for later in [*gone, gone[0] - 1])]
        wanted = made + "4 0 refused NoContext\n" * len(gone) + "4 0 ip 45ab\n"
        runs(trial, f"a record of {moment}", "\n".join(lines), wanted, version=2)


def check_pieces(trial: Trial) -> None:
    """Worked examples, of which the last line has no newline, and the one of a line of 200,000 octets with others behind."""
    worked = trial.top / "examples/worked"
    texts = {}
    for name in "two-calls-and-noise", "empty-script", "script-ends":
        texts[name] = ((worked / f"{name}.script").read_text(), (worked / f"{name}.answers").read_text())
    script, wanted = texts["script-ends"]
    texts["long-line"] = ("0" * 200_000 + "\n" + script, LONG + wanted)
    for name, (script, wanted) in texts.items():
        for piece in PIECES:
            runs(trial, f"{name} in pieces of {piece}", script.removesuffix("\n"), wanted, piece)


def of_pair(answers: str, pair: str) -> str:
    """The answer lines of a pair."""
    return "".join(line + "\n" for line in answers.splitlines() if line.startswith(f"{pair} "))


def those_in(lines: Sequence[str], answers: str) -> str:
    """Those of these lines that stand among the answers."""
    there = set(answers.splitlines())
    return "".join(f"{line}\n" for line in lines if line in there)


def check_pairs(trial: Trial) -> None:
    """Compares each pair's answers in the whole script, quiet and noisy, with those of its own script."""
    links = two_links(trial)
    hostile = list(islice(cycle(HOSTILE), BETWEEN))
    noise = "".join(f"{line}\n" for line in [*hostile, under_10(TOO_LONG), under_302(TOO_LONG)])
    whole = answered(trial, links, "".join(f"{line}\n" for _, line in LINES))
    noisy = answered(trial, links, "".join(f"{line}\n{noise}" for _, line in LINES))
    wanted = "".join(f"{line}\n" for line in HOSTILE_TOLD)
    trial.same("some of the hostile lines' answers", wanted, those_in(HOSTILE_TOLD, told(noisy)), noisy.call)
    count = len(told(noisy).splitlines())
    trial.demand(count > 10_000, f"hostile lines: {count} answers, and not more than 10,000", noisy.call)
    for pair in PAIRS:
        own = "".join(f"{line}\n" for whose, line in LINES if whose in (pair, pair.split()[0]))
        alone = of_pair(told(answered(trial, links, own)), pair) or "no answer\n"
        trial.same(f"{pair} in the whole script", alone, of_pair(told(whole), pair), whole.call)
        trial.same(f"{pair} with hostile lines", alone, of_pair(told(noisy), pair), noisy.call)
    trial.same("1 0 in the whole script, as computed", FIRST_TOLD, of_pair(told(whole), "1 0"), whole.call)
    trial.same("1 0 with hostile lines, as computed", FIRST_TOLD, of_pair(told(noisy), "1 0"), noisy.call)


PARTS = {"single": check_single, "long": check_long, "times": check_times, "pieces": check_pieces, "pairs": check_pairs}


def is_part(top: Path, word: str) -> bool:
    """Whether a word is a part of this check."""
    return word in PARTS


def check(trial: Trial) -> None:
    """Runs the parts that are asked for."""
    for part in trial.chosen(list(PARTS)):
        PARTS[part](trial)
    trial.say(f"lines: {trial.rights} of {trial.tried} texts answered as wanted")
