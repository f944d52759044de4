"""Explains every script of the examples by `rohctl explain`: its answers must be those of `rohcd replay`."""

import json
import re
from collections.abc import Iterator
from pathlib import Path

import examples
from program import Call, Ended, run
from refusals import refusal_names
from trial import Trial

PROGRAM = "crates/rohctl/out/rohctl"
LINKS = "examples/links.toml"
PLAIN = "examples/plain-call.script"
# The words of an answer line, and what `--brief` has in their place.
ANSWERS = {"ip": "delivered", "stored": "stored", "refused": "refused"}
# What examples/plain-call.script gets: an IR, a Normal packet, a damaged IR, and behind the reset a packet without a context.
BRIEF = """1 1 0 IR delivered
2 1 0 Normal delivered
3 1 0 IR refused Check
6 1 0 unknown refused NoContext
7 9 - - refused NoLink
"""
NO_LINK = "NoLink"
NO_MEMORY = "NoMemory"
# A sentence that begins with capital letters.
ABBREVIATION = re.compile(r"[A-Z]{2}")
# A first IR asks for memory less often than this.
MOST_REQUESTS = 1000
# A refusal's sentence, and behind it what usually causes it, with a section of an RFC or a document of this repository.
TELLING = re.compile(r"^answer: refused (\w+): (.*)\nusual cause: .* \((?:RFC \d+ [\d.]+|docs/\w+\.md[^()]*|man [\w.-]+)\)$", re.MULTILINE)
# One packet in the forms in which people have it.
FORMS = (("FC00B745AA",), ("fc00b745aa",), ("fc 00 b7 45 aa",), ("fc", "00", "b7", "45", "aa"), ("0xfc00b745aa",), ("0XFC", "0x00", "b745aa"), ("FC:00:B7:45:AA",))
# What is assumed of a link without a links file: docs/OPERATING.md, Values to start with, and all CIDs of the kind.
ASSUMED = {"mode": "O", "k1": 2, "n1": 3, "k2": 2, "n2": 3, "packet_ms": 20, "static_nack_ms": 1000, "idle_ms": 600_000}
SMALL = {"cid": "small", "max_cid": 15} | ASSUMED
LARGE = {"cid": "large", "max_cid": 16_383} | ASSUMED
SAYS_SMALL = "assumed: small CIDs, max_cid 15, mode O, k1/n1 2/3, k2/n2 2/3, packet_ms 20 (if the link has large CIDs, give --large)\n\n"
SAYS_LARGE = "assumed: large CIDs, max_cid 16383, mode O, k1/n1 2/3, k2/n2 2/3, packet_ms 20 (if the link has small CIDs, leave out --large)\n\n"
# The IR and the UO-0 of docs/EXAMPLES.md's whole-ir and first-uo-0, and of CID 300 on a link of large CIDs, as in
# links-come-and-go.
CHAINS = "40110a0000010a0000021388138a00000001" "004000012000000090000001000000a0000980a0"
FIRST, SECOND = f"fd012b{CHAINS}ab", "10ac"
LARGE_FIRST, LARGE_SECOND = f"fd812c01cb{CHAINS}ab", "10812cac"
TRY_LARGE = "note: with large CIDs this packet is read; give --large\n"
TRY_SMALL = "note: with small CIDs this packet is read; leave out --large\n"
# The fields of an IPv4 header without options (RFC 791 3.1), of UDP (RFC 768) and of RTP without contributing sources
# (RFC 3550 5.1), with how many bits each has.
HEADER = (
    ("Version", 4), ("IHL", 4), ("TOS", 8), ("total length", 16), ("IP-ID", 16), ("reserved", 1), ("DF", 1), ("MF", 1),
    ("fragment offset", 13), ("TTL", 8), ("Protocol", 8), ("header checksum", 16), ("source address", 32),
    ("destination address", 32), ("source port", 16), ("destination port", 16), ("UDP length", 16), ("UDP checksum", 16),
    ("Version", 2), ("P", 1), ("X", 1), ("CC", 4), ("M", 1), ("PT", 7), ("SN", 16), ("TS", 32), ("SSRC", 32),
)
# Those that belong to one packet, or follow from the others.
NOT_KEPT = ("total length", "header checksum", "UDP length", "UDP checksum", "M")
# docs/EXAMPLES.md, second-reference: the headers of SN 1, 2, 13 and 4, each after the one before it. The last is delivered
# by the third attempt. What it has against the reference of SN 13 is marked.
REPAIRED = (FIRST, SECOND, "6cad", "20ae")
REBUILT = (
    ("packet: 45000029000100004011" "66c10a0000010a0000021388138a0015000080000001000000a000000001 ab", ()),
    ("packet: 45000029000200004011" "66c00a0000010a0000021388138a00150000800000020000014000000001 ac",
     ("IP-ID 2 was 1", "SN 2 was 1", "TS 320 was 160")),
    ("packet: 45000029000d00004011" "66b50a0000010a0000021388138a001500008000000d0000082000000001 ad",
     ("IP-ID 13 was 2", "SN 13 was 2", "TS 2080 was 320")),
    ("packet: 45000029000400004011" "66be0a0000010a0000021388138a00150000800000040000028000000001 ae",
     ("IP-ID 4 was 13", "SN 4 was 13", "TS 640 was 2080")),
)
# Of the first header the rows of the fields, without their places.
FIRST_ROWS = (
    "Version 4", "IHL 5", "TOS 0", "total length 41", "IP-ID 1", "reserved 0", "DF 0", "MF 0", "fragment offset 0", "TTL 64",
    "Protocol 17", "header checksum 0x66c1", "source address 10.0.0.1", "destination address 10.0.0.2", "source port 5000",
    "destination port 5002", "UDP length 21", "UDP checksum 0x0000", "Version 2", "P 0", "X 0", "CC 0", "M 0", "PT 0", "SN 1",
    "TS 160", "SSRC 0x00000001",
)
# A call of a worked example that falls twice: k1 = 2 of n1 = 3 failures, then k2 = 2 of n2 = 3, and behind that a
# STATIC-NACK at 70 and one at 1070, static_nack_ms being 1000. The IR has SN 1 and arrives at 0.
FALLING = (
    ("20 11ac", "20 ms after the last accepted packet, SN 2; 2 failed checks in a row lead to Static Context"),
    ("50 11ac", "50 ms after the last accepted packet, SN 2; 1 failed check leads to Static Context"),
    ("60 d4c33fad", "60 ms after the last accepted packet, SN 2; 2 failed checks in a row lead to No Context"),
    ("70 d4c33fad", "70 ms after the last accepted packet, SN 2; 1 failed check leads to No Context"),
    ("80 11ac", "80 ms after the last accepted packet, only an IR; no STATIC-NACK for 990 ms"),
    ("1070 11ac", "1070 ms after the last accepted packet, only an IR; a STATIC-NACK may be sent now"),
    ("2000 11ac", "2000 ms after the last accepted packet, only an IR; no STATIC-NACK for 70 ms"),
)
# The feedback that the packets of this call make due, the IR's first: docs/EXAMPLES.md, whole-ir, fall-to-static and
# fall-to-no-context.
ACK_1 = "5 octets, ACK, SN 1, CID 0, mode O, options CRC (right): f420011139"
STATIC_NACK = "6 octets, STATIC-NACK, CID 0, mode O, options SN-NOT-VALID and CRC (right): f5a00030110c"
FEEDBACK = (ACK_1, "5 octets, NACK, SN 1, CID 0, mode O, options CRC (right): f46001110d", STATIC_NACK, STATIC_NACK)
# Elements in packets, in front of an IR of profile 0x0000 whose own FEEDBACK-1 is f100. Those of large CIDs are of
# links-come-and-go (ACK) and of examples/two-links.answers (FEEDBACK-1). Mode U (RFC 3095 5.7.6.1), a CRC that isn't the one of
# fall-to-static, an element in the form with a Size octet, and FEEDBACK-1 of another octet are not what is written.
UNKNOWN = "unknown: neither FEEDBACK-1 with 00 nor FEEDBACK-2 of O mode with the CRC option"
ELEMENTS = (
    ("f420011139", "", ACK_1),
    ("f46001110e", "", "5 octets, NACK, SN 1, CID 0, mode O, options CRC (wrong; expected 0d): f46001110e"),
    ("f5a00030110c", "", STATIC_NACK),
    ("f2e100", "", "3 octets, FEEDBACK-1, CID 1: f2e100"),
    ("f105", "", f"2 octets, {UNKNOWN}: f105"),
    ("f410011139", "", f"5 octets, {UNKNOWN}: f410011139"),
    ("f00420011139", "", f"6 octets, {UNKNOWN}: f00420011139"),
    ("f6812c2001117f", "--large", "7 octets, ACK, SN 1, CID 300, mode O, options CRC (right): f6812c2001117f"),
    ("f3812c00", "--large", "4 octets, FEEDBACK-1, CID 300: f3812c00"),
)
# A context of profile 0x0000 that has expired as its second packet comes, by the link's idle_ms of 5,000.
EXPIRED = b"arrive 4 0 fc00b745aa\narrive 4 5000 45aa\n"
# A time of a capture of the first day of 1970, an arrival, and how many captures are told.
CLOCK = re.compile(r"(\d+)\.(\d{3}) \(\d\d:\d\d:\d\d\.\2\)")
ARRIVAL = re.compile(r"arrive \d+ \d{1,7} (?:[0-9a-f]{2})+")
CAPTURES = 12
HOSTILE = b"\x1b[2J\narrive 1 0 \x1b[31m\narrive 1 0 fc00b745aa\x07\narrive 1 0 fc00b745aa\n\xff\n"


def explain(trial: Trial, *words: str | Path, given: bytes = b"") -> Ended:
    """How `rohctl explain` ends with these words."""
    return run(Call((trial.top / PROGRAM, "explain", *words), given, folder=trial.top))


def told(rows: list[dict]) -> list[str]:
    """What the objects say of each packet that has a link which is there, and isn't only padding and feedback."""
    return [
        " ".join([str(row["link"]), "-" if row["cid"] is None else str(row["cid"]), row["answer"], row.get("refusal", "")]).rstrip()
        for row in rows
        if row["answer"] != "front" and row.get("refusal") != NO_LINK
    ]


def answered(answers: str) -> list[str]:
    """The same from answer lines: those that tell what became of a packet. A reset of an unknown link has NoLink too."""
    found = []
    for line in answers.splitlines():
        link, cid, word, *rest = line.split()
        if word in ANSWERS and link != "-" and rest[:1] != [NO_LINK]:
            found.append(" ".join([link, cid, ANSWERS[word], rest[0] if word == "refused" else ""]).rstrip())
    return found


def scripts(trial: Trial) -> Iterator[tuple[Path, Path]]:
    """Each script of the examples, and a links file."""
    worked = trial.top / examples.WORKED
    for name in examples.names_in(trial.top, examples.WORKED):
        for example in examples.with_links(name, worked, worked):
            yield example.script, example.links
    for script in sorted((trial.top / "examples/scripts").glob("*.script")):
        yield script, script.with_suffix(".toml")
    yield trial.top / PLAIN, trial.top / LINKS
    yield trial.top / "examples/two-links.script", trial.top / "examples/two-links.toml"


def numbers_stand(row: dict, octets: bytes) -> bool:
    """Each field's number is the one of the bits in its place, and the fields stand one behind the other."""
    bits = "".join(f"{octet:08b}" for octet in octets)
    place = 0
    for field in row.get("fields", []):
        number = int(bits[field["first"] : field["first"] + field["bits"]] or "0", 2)
        if (field["first"], field["value"]) != (place, number):
            return False
        place += field["bits"]
    return place == row.get("header_bits", place)


def check_scripts(trial: Trial) -> None:
    """The answers, the places and what was expected of all packets of all scripts."""
    for script, links in scripts(trial):
        ended = explain(trial, "--json", "--links", links, script)
        rows = [json.loads(line) for line in ended.text.splitlines()]
        trial.same(f"{script.name}: the answers", "\n".join(answered(script.with_suffix(".answers").read_text(encoding="ascii"))), "\n".join(told(rows)), ended.call)
        lines = script.read_bytes().split(b"\n")
        for row in rows:
            digits = lines[row["line"] - 1].split()[-1].decode()
            octets = b"" if digits == "-" else bytes.fromhex(digits)
            trial.demand(numbers_stand(row, octets), f"{script.name}: line {row['line']}: a field in another place", ended.call)
            trial.demand(as_expected(row), f"{script.name}: line {row['line']}: not as was expected", ended.call)


def header_of(head: bytes) -> list[tuple[str, int]]:
    """The fields of a header with their numbers."""
    bits, found = "".join(f"{octet:08b}" for octet in head), []
    for name, count in HEADER:
        found.append((name, int(bits[:count], 2)))
        bits = bits[count:]
    return found


def changed_since(head: bytes, before: bytes | None) -> list[int | None]:
    """What the fields that a context keeps were, where they have changed."""
    if before is None:
        return [None] * len(HEADER)
    pairs = zip(header_of(head), header_of(before))
    return [old if old != new and name not in NOT_KEPT else None for (name, new), (_, old) in pairs]


def check_rebuilt(trial: Trial) -> None:
    """The packets that are delivered in all scripts: their octets, the fields of their headers, and what changed."""
    changes = 0
    for script, links in scripts(trial):
        rows = [json.loads(line) for line in explain(trial, "--json", "--links", links, script).text.splitlines()]
        delivered = [row for row in rows if row["answer"] == "delivered"]
        words = [line.split() for line in script.with_suffix(".answers").read_text(encoding="ascii").splitlines()]
        wanted = ["" if digits == "-" else digits for _, _, kind, *more in words if kind == "ip" for digits in more]
        trial.demand(len(wanted) == len(delivered), f"{script.name}: {len(delivered)} packets; wanted {len(wanted)}")
        last: dict[tuple[int, int], bytes] = {}
        for row, digits in zip(delivered, wanted):
            packet, head = row["packet"], bytes.fromhex(row["packet"]["head"])
            octets = bytes.fromhex(digits)
            whole = (head + bytes.fromhex(packet["payload"]), packet["more"])
            trial.demand(whole == (octets[: len(head) + 16], max(len(octets) - len(head) - 16, 0)), f"{script.name}: line {row['line']}: other octets")
            if row["after"]["profile"] == "0x0000":
                trial.demand(not packet["fields"] and len(head) < 2, f"{script.name}: line {row['line']}: fields of a packet of profile 0x0000")
                continue
            fields = packet["fields"]
            trial.demand(numbers_stand({"fields": fields, "header_bits": 320}, head), f"{script.name}: line {row['line']}: a field in another place")
            named = [(field["name"], field["bits"]) for field in fields]
            trial.demand(named == list(HEADER), f"{script.name}: line {row['line']}: other fields: {named}")
            call, before = (row["link"], row["cid"]), row["before"]
            known = last.get(call)
            if before is None or before["state"] == "no" or (known and before.get("sn") == int.from_bytes(known[30:32])):
                was = [field.get("was") for field in fields]
                counts = row["expected"] and row["expected"]["counts"]
                held = changed_since(head, known if counts and before["state"] != "no" else None)
                trial.demand(was == held, f"{script.name}: line {row['line']}: what changed: {was}; wanted {held}")
                changes += sum(number is not None for number in was)
            # What the extension 3 of a UO-1-ID gives is for one packet, and no part of the reference.
            if row["format"] == "UO-1-ID":
                last.pop(call, None)
            else:
                last[call] = head
    trial.demand(changes > 500, f"{changes} changes; wanted more than 500")


def check_changes(trial: Trial) -> None:
    """The packets of a call and their headers, as a reader sees them."""
    told = explain(trial, ",".join(REPAIRED))
    blocks = [re.sub(" +", " ", block) for block in told.text.split("\n\n")[1:-1]]
    trial.demand(len(blocks) == len(REBUILT), f"{len(blocks)} packets", told.call)
    for block, (packet, changes) in zip(blocks, REBUILT):
        rows = [line for line in block.splitlines() if packet in line]
        trial.same("a rebuilt packet", packet, rows[0] if rows else "none", told.call)
        found = re.findall(r"^ bit \d+ \d+ bits (.* was .*)$", block, re.MULTILINE)
        trial.same("what changed", "\n".join(changes), "\n".join(found), told.call)
    behind = blocks[0].split("\npacket: ")[1]
    trial.same("the rows of a header", "\n".join(FIRST_ROWS), "\n".join(re.findall(r"^ bit \d+ \d+ bits (.*)$", behind, re.MULTILINE)), told.call)
    for payload, wanted in (("45" * 16, "45" * 16), ("45" * 17, f"{'45' * 16} and 1 more octet"), ("45" * 40, f"{'45' * 16} and 24 more octets")):
        told = explain(trial, f"fc00b7{payload}")
        trial.demand(f"\npacket: {wanted}\n" in told.text, f"a packet of profile 0x0000: {told.text}", told.call)


def sentences(top: Path) -> dict[str, str]:
    """The sentence of each refusal in the manual page, without its capital letter and its full stop."""
    text = (top / "man/rohc-script.5").read_text()
    found = {}
    for name, body in re.findall(r"^\.It \d+ Li (\w+)\n(.*?)(?=^\.It|^\.El)", text, re.MULTILINE | re.DOTALL):
        words = " ".join(line.removeprefix(".Li ") for line in body.splitlines()).replace(" .", ".")
        sentence = words.split(". ")[0].rstrip(".")
        found[name] = sentence if ABBREVIATION.match(sentence) else sentence[0].lower() + sentence[1:]
    return found


def without_memory(trial: Trial) -> str:
    """What is told of a first IR for which there is no memory."""
    refuse = trial.compiled("tools/refuse_request.c")
    count = trial.scratch / "made"
    words = (trial.top / PROGRAM, "explain", "--links", LINKS, "--link", "1", "fc00b745aa")
    for request in range(1, MOST_REQUESTS):
        given = {"LD_PRELOAD": str(refuse), "REFUSED_REQUEST": str(request), "REQUEST_COUNT": str(count)}
        ended = run(Call(words, b"", given, trial.top))
        if NO_MEMORY in ended.text or int(count.read_text()) < request:
            return ended.text
    return ""


def too_long(trial: Trial) -> str:
    """What is told of a UO-0 of 65,535 octets behind the IR of a worked example: its header grows from one octet to 40."""
    script = (trial.top / "examples/worked/two-calls-and-noise.script").read_text().splitlines()[0]
    links = trial.top / "examples/worked/links-1.toml"
    return explain(trial, "--links", links, given=f"{script}\narrive 1 20 10{'ac' * 65_534}\n".encode()).text


def check_sentences(trial: Trial) -> None:
    """Each of the thirty refusals is told at least once, with its sentence and the section that defines it."""
    wanted = sentences(trial.top)
    trial.demand(set(wanted) == set(refusal_names(trial.top).values()), f"{len(wanted)} sentences in the manual page")
    told = [explain(trial, "--links", links, script).text for script, links in scripts(trial)]
    told += [too_long(trial), without_memory(trial)]
    found = {match[1]: match[2] for text in told for match in TELLING.finditer(text)}
    for name, sentence in wanted.items():
        trial.same(f"the sentence of {name}", sentence, found.get(name, "isn't told"))


def as_expected(row: dict) -> bool:
    """Whether what became of a packet is what was told before it: when its context falls, when a STATIC-NACK is due."""
    before, after, expected = row["before"], row["after"], row["expected"]
    if expected is None or not expected["counts"]:
        return expected is None or row["format"] == "IR" or row.get("refusal") not in ("Check", "StateTooLow")
    if row.get("refusal") == "Check" and "falls_to" in expected:
        return after["state"] == (expected["falls_to"] if expected["falls_after"] == 1 else before["state"])
    if row.get("refusal") == "StateTooLow" and "static_nack_in" in expected:
        return (expected["static_nack_in"] == 0) == (row["feedback"] > 0)
    return True


def check_expected(trial: Trial) -> None:
    """What is told of the state before a packet, worked out by hand for a call that falls."""
    first = (trial.top / "examples/worked/two-calls-and-noise.script").read_text().splitlines()[0]
    script = "\n".join([first, *(f"arrive 1 {packet}" for packet, _ in FALLING)])
    links = trial.top / "examples/worked/links-1.toml"
    ended = explain(trial, "--links", links, given=script.encode())
    found = re.findall(r"^expected: (.*)$", ended.text, re.MULTILINE)
    trial.same("what is expected", "\n".join(wanted for _, wanted in FALLING), "\n".join(found), ended.call)
    trial.same("what the feedback says", "\n".join(FEEDBACK), "\n".join(re.findall(r"^feedback: (.*)$", ended.text, re.MULTILINE)), ended.call)


def check_forms(trial: Trial) -> None:
    """Packets as words of the command line."""
    for words in FORMS:
        given = explain(trial, "--brief", "--links", LINKS, "--link", "1", *words)
        trial.same(f"the packet {words}", "1 1 0 IR delivered\n", given.text, given.call)
    for words in (("fc00b745aa,45ab",), ("fc", "00", "b7", "45", "aa,", "45", "ab")):
        given = explain(trial, "--brief", "--links", LINKS, "--link", "1", *words)
        trial.same(f"the packets {words}", "1 1 0 IR delivered\n2 1 0 Normal delivered\n", given.text, given.call)


def check_unlinked(trial: Trial) -> None:
    """Packets without a links file: the settings that are assumed, the forms of a packet, and when the other CID kind is proposed."""
    for words in FORMS:
        given = explain(trial, "--brief", *words)
        trial.same(f"the packet {words}", "1 1 0 IR delivered\n", given.text, given.call)
    for words, says, settings, cid in (
        ((f"{FIRST},{SECOND}",), SAYS_SMALL, SMALL, 0),
        (("--large", f"{LARGE_FIRST},", *re.findall("..", LARGE_SECOND)), SAYS_LARGE, LARGE, 300),
    ):
        told = explain(trial, *words)
        trial.demand(told.status == 0 and told.text.startswith(says), f"what is assumed: {told.end()}, {told.text[:200]}", told.call)
        trial.demand("packet 2: link 1 at 20, " in told.text and "note:" not in told.text, "the second packet isn't told of", told.call)
        rows = [json.loads(line) for line in explain(trial, "--json", *words).text.splitlines()]
        trial.same("the settings that are assumed", json.dumps(settings), json.dumps(rows[0]["assumed"]))
        found = [(row["line"], row["cid"], row["format"], row["answer"]) for row in rows[1:]]
        trial.same("the packets", str([(1, cid, "IR", "delivered"), (2, cid, "UO-0", "delivered")]), str(found))
    for words, note in (((LARGE_FIRST,), TRY_LARGE), (("--large", FIRST), TRY_SMALL), (("e0fe",), "")):
        told = explain(trial, *words)
        trial.demand(told.status == 1 and told.text.endswith(f"accepted next: only an IR\n{note}\n"), f"the other CID kind: {told.end()}, {told.text[-200:]}", told.call)
    told = explain(trial, "--brief", f"{LARGE_FIRST},{LARGE_SECOND}")
    trial.same("packets with large CIDs read as small", "1 1 0 IR refused Profile\n2 1 0 unknown refused NoContext\n", told.text, told.call)
    file = trial.write("fc00b745aa", "")
    told = run(Call((trial.top / PROGRAM, "explain", "--brief", file.name), b"", {}, file.parent))
    trial.same("digits that are a file's name too", "1 1 0 IR delivered\n", told.text, told.call)


def as_object(text: str) -> dict:
    """The object for an element of which this is told."""
    told = re.fullmatch(
        r"\d+ octets, (?P<kind>[A-Z0-9-]+)(?:, SN (?P<sn>\d+))?, CID (?P<cid>\d+)(?P<more>, mode O, options (?P<options>.*) \((?P<crc>\w+)(?:; expected (?P<wanted>\w\w))?\))?: (?P<octets>\w+)",
        text,
    )
    if told is None:
        return {"octets": text.split(": ")[-1], "kind": None}
    found: dict = {"octets": told["octets"], "kind": told["kind"], "cid": int(told["cid"])}
    if told["sn"]:
        found["sn"] = int(told["sn"])
    if told["more"]:
        found |= {"mode": "O", "options": told["options"].split(" and "), "crc": told["crc"]}
    if told["wanted"]:
        found["expected_crc"] = int(told["wanted"], 16)
    return found


def check_elements(trial: Trial) -> None:
    """Feedback in packets, by itself, before a header, twice, and behind padding; and the feedback that is sent."""
    for octets, option, wanted in ELEMENTS:
        for packet, count in ((octets, 1), (f"{octets}fc00b745aa", 1), (f"e0{octets}e0{octets}", 2)):
            words = (*option.split(), packet)
            told = explain(trial, *words)
            trial.same(f"the elements of {packet}", "\n".join([wanted] * count), "\n".join(re.findall(r"^feedback in the packet: (.*)$", told.text, re.MULTILINE)), told.call)
            row = json.loads(explain(trial, "--json", *words).text.splitlines()[-1])
            trial.same(f"the objects of {packet}", json.dumps([as_object(wanted)] * count), json.dumps(row["elements"]))
    rows = [json.loads(line) for line in explain(trial, "--json", "fc00b745aa,fc00b745aa,45ab").text.splitlines()]
    sent = {"octets": "f100", "kind": "FEEDBACK-1", "cid": 0}
    trial.same("the feedback that is sent", json.dumps([sent, sent, None]), json.dumps([row.get("sent") for row in rows[1:]]))
    cut = explain(trial, "f42001")
    trial.same("an element that is cut off", f"3 octets, {UNKNOWN}: f42001", "\n".join(re.findall(r"^feedback in the packet: (.*)$", cut.text, re.MULTILINE)), cut.call)


def in_lines(text: str) -> str:
    """What is told of a capture with the words and the times of its script, whose moments are of the first day of 1970."""
    return CLOCK.sub(lambda time: str(int(time[1] + time[2])), text).replace("frame ", "line ").replace('"frame":', '"line":')


def captured(trial: Trial) -> Iterator[tuple[Path, Path, Path]]:
    """The first scripts of the examples whose lines are all arrivals, their links, and a capture of each."""
    count = 0
    for script, links in scripts(trial):
        lines = script.read_text(encoding="ascii", errors="replace").splitlines()
        if lines and all(ARRIVAL.fullmatch(line) for line in lines) and count < CAPTURES:
            count += 1
            capture = trial.scratch / f"{count}.pcap"
            run(Call((trial.top / PROGRAM, "script", "--back", "--port", "7000", script, capture), folder=trial.top))
            yield script, links, capture


def check_captures(trial: Trial) -> None:
    """A capture of a script is told as the script is, whole and in parts, but for the times and where a packet stands."""
    told = 0
    for script, links, capture in captured(trial):
        parts = (((), ()), (("--line", "2"), ("--frame", "2")), (("--lines", "2-4"), ("--frames", "2-4")), (("--call", "1/0"),) * 2, (("--brief",),) * 2, (("--json",),) * 2)
        for ours, theirs in parts:
            one = explain(trial, *ours, "--links", links, script)
            other = explain(trial, *theirs, "--links", links, "--port", "7000", capture)
            trial.same(f"{script.name}: a capture {theirs}", one.text, in_lines(other.text), other.call)
            trial.demand(one.status == other.status, f"{script.name}: {other.end()}; wanted {one.status}", other.call)
            told += other.text.count("\n")
    trial.demand(told > 1000, f"of captures {told} lines are told")
    given = explain(trial, "--brief", "--links", links, "--port", "7000", given=capture.read_bytes())
    trial.same("a capture on standard input", explain(trial, "--brief", "--links", links, script).text, given.text, given.call)
    cut = explain(trial, "--brief", "--links", links, "--port", "7000", given=capture.read_bytes()[:-1])
    trial.demand(cut.status == 4 and given.text.startswith(cut.text) and cut.text != "", f"a cut capture: {cut.end()}", cut.call)


def check_linked(trial: Trial) -> None:
    """With --link a word is a packet if it has only digits, and else a file, if there is one."""
    folder = trial.scratch / "linked"
    folder.mkdir(exist_ok=True)
    script = trial.top / "examples/worked/fall-to-no-context.script"
    words = ("--brief", "--links", trial.top / "examples/worked/links-1.toml", "--link", "1")
    for name, wanted in (("cafe", "1 1 0 unknown refused NoContext\n"), ("./cafe", ""), ("capture", ""), ("call.script", "")):
        (folder / name).write_bytes(script.read_bytes())
        ended = run(Call((trial.top / PROGRAM, "explain", *words, name), b"", {}, folder))
        trial.same(f"the word {name}", wanted or explain(trial, *words, script).text, ended.text, ended.call)


def check(trial: Trial) -> None:
    """All scripts and captures, a brief telling, one line, one call, given packets, and hostile lines."""
    check_scripts(trial)
    check_expected(trial)
    check_sentences(trial)
    brief = explain(trial, "--brief", "--links", LINKS, PLAIN)
    trial.same("the brief telling", BRIEF, brief.text, brief.call)
    trial.demand(brief.status == 1, f"rohctl explain: {brief.end()}; wanted 1", brief.call)
    line = explain(trial, "--links", LINKS, "--line", "3", PLAIN)
    trial.demand("refused Check" in line.text and line.text.count("answer:") == 1, "not line 3 alone", line.call)
    trial.demand(line.text.endswith("accepted next: every packet\n\n"), f"what is taken next in Full Context: {line.text[-60:]!r}", line.call)
    last = explain(trial, "--links", LINKS, "--line", "6", PLAIN)
    trial.demand(last.text.endswith("accepted next: only an IR\n\n"), f"what is taken next without a context: {last.text[-60:]!r}", last.call)
    expired = explain(trial, "--links", trial.top / "examples/worked/links-2.toml", given=EXPIRED)
    trial.demand(expired.text.endswith("accepted next: only an IR\n\n"), f"what is taken next by an expired context: {expired.text[-60:]!r}", expired.call)
    call = explain(trial, "--brief", "--links", LINKS, "--call", "1/0", PLAIN)
    trial.demand(call.text.count("\n") == 4, "not the four packets of the call", call.call)
    check_forms(trial)
    check_unlinked(trial)
    check_elements(trial)
    check_rebuilt(trial)
    check_changes(trial)
    check_captures(trial)
    check_linked(trial)
    for form in ((), ("--json",), ("--brief",)):
        hostile = explain(trial, *form, "--links", LINKS, given=HOSTILE)
        trial.demand(hostile.output.isascii() and b"\x1b" not in hostile.output and b"\x07" not in hostile.output, "an octet of the script is shown", hostile.call)
    for words in (("--links", LINKS, "--line", "x"), ("--links", LINKS, "--call", "1"), ("--links", LINKS, "a", "b"), ("a",)):
        ended = explain(trial, *words)
        trial.demand(ended.status == 2, f"rohctl explain {words}: {ended.end()}; wanted 2", ended.call)
