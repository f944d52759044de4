"""Runs `rohctl survey` and `find`, the falls that `explain` shows, and what narrows `explain` and `report`."""

import json
from pathlib import Path

from program import Call, Ended, run
from random_script import check8
from rohctl_capture import SECOND, ethernet, pcap
from rohctl_run import FULL, STATIC, link, state
from trial import Trial

PROGRAM = "crates/rohctl/out/rohctl"
LINKS = "examples/worked/links-1.toml"
PLAIN = "examples/plain-call.script"
FALLS = "examples/worked/fall-to-no-context.script"
# The IR of docs/EXAMPLES.md's whole-ir, whose check is 2b, and the ends of its call.
WHOLE_IR = "fd012b" + "40" + "11" + STATIC + "004000012000000090000001000000a0000980a0ab"
SOURCE, DESTINATION = "10.0.0.1:5000", "10.0.0.2:5002"
CALL = f"{SOURCE} to {DESTINATION}, SSRC 0x00000001"
ROHC = 0x22F1


def called(trial: Trial, *words: str | Path, given: bytes = b"") -> Ended:
    """How rohctl ends with these words."""
    return run(Call((trial.top / PROGRAM, *words), given, {}, trial.top))


def ir(cid: str = "", profile: str = "00") -> str:
    """An IR of a profile without chains, with the octets of a large CID, and the octet aa behind it."""
    front = bytes.fromhex(f"fc{cid}{profile}")
    return f"{front.hex()}{check8(front):02x}aa"


def surveyed(trial: Trial, *words: str | Path, given: str = "") -> list[dict[str, object]]:
    """What `survey --json` says of each link."""
    ended = called(trial, "survey", "--json", *words, given=given.encode())
    *links, last = map(json.loads, ended.text.splitlines())
    trial.demand(last["links"] == len(links), f"not {len(links)} links: {last}", ended.call)
    return links


def arrivals(*packets: str, number: int = 1) -> str:
    """A script of these packets of a link, 20 ms apart."""
    return "".join(f"arrive {number} {20 * place} {packet}\n" for place, packet in enumerate(packets))


def check_survey(trial: Trial) -> None:
    """Calls whose packets were counted by hand, with CIDs of either kind, and what can't be decompressed."""
    plain = surveyed(trial, PLAIN)
    wanted = [(1, "small", False, 4, 2, {"IR": 2, "Normal": 1, "unknown": 1}, {"0x0000": 1}, ["Check", "NoContext"]),
              (9, "small", True, 1, 0, {"unknown": 1}, {}, ["NoContext"])]
    keys = ("link", "cid", "assumed", "packets", "delivered", "formats", "profiles")
    found = [(*(row[key] for key in keys), [one["refusal"] for one in row["refused"]]) for row in plain]
    trial.same("the survey of the plain call", str(wanted), str(found))
    # The CIDs 5 and 300, in one octet and in two (RFC 5795 5.1.3).
    for cid in ("05", "812c"):
        row, = surveyed(trial, given=arrivals(ir(cid), f"45{cid}ab"))
        trial.demand((row["cid"], row["delivered"], row["irs"]) == ("large", 2, {"small": 0, "large": 1}), f"large CID {cid}: {row}")
    # Profile 0x0002, IP version 6 in a static chain, and mode R: the rtp octet 8c in place of 80 (RFC 3095 5.7.7.6).
    row, = surveyed(trial, given=arrivals(ir(), ir(profile="02"), WHOLE_IR.replace("40110a", "60110a"), WHOLE_IR.replace("0980", "0d80")))
    refused = [one["refusal"] for one in row["refused"]]
    trial.same("what can't be decompressed", str(["Profile", "IpVersion", "ReliableMode"]), str(refused))
    trial.same("the profiles", str({"0x0000": 1, "0x0002": 1, "0x0001": 2}), str(row["profiles"]))
    trial.same("the IP versions", str({"6": 1, "4": 1}), str(row["ip_versions"]))
    trial.demand("R" in row["modes"], f"no mode R: {row}")


def check_links(trial: Trial) -> None:
    """The links file of a survey is good, and `report` works with it at once, also on a capture."""
    frames = [(SECOND * 10**9 + 20_000_000 * place, ethernet(ROHC, bytes.fromhex(packet))) for place, packet in enumerate((WHOLE_IR, "10ac"))]
    capture = trial.write("survey.pcap", pcap(frames))
    for given, name in ((capture, "capture.toml"), (trial.top / PLAIN, "plain.toml")):
        links, page = trial.scratch / name, trial.scratch / "survey.html"
        ended = called(trial, "survey", "--links", links, given)
        following = ended.text.splitlines()[-1]
        trial.demand(following.startswith(f"next: rohctl report --links {links} "), f"what comes next: {following}", ended.call)
        good = called(trial, "links", links)
        trial.demand(good.status == 0, f"the links file: {good.end()}", good.call)
        reported = called(trial, *(str(page) if word == "report.html" else word for word in following.split()[2:]))
        trial.demand(reported.status in (0, 1) and "<article" in page.read_text(), f"its report: {reported.end()}", reported.call)
    many = "".join(f"arrive {number} 0 {ir()}\n" for number in range(300))
    ended = called(trial, "survey", "--links", trial.scratch / "many.toml", given=many.encode())
    trial.demand("44 packets of other links are left out" in ended.text, f"300 links: {ended.text[-200:]}", ended.call)
    good = called(trial, "links", trial.scratch / "many.toml")
    trial.demand(good.status == 0, f"256 links: {good.end()}", good.call)


def check_find(trial: Trial) -> None:
    """A call is found by either end and by both, in a script, in a capture and in a state file."""
    script = arrivals(WHOLE_IR, "10ac").encode()
    line = f"link 1 CID 0: Full Context, {CALL}, lines 1 to 2\n"
    for ends in ([SOURCE], ["10.0.0.2"], [SOURCE, DESTINATION], ["10.0.0.2", "10.0.0.1:5000"]):
        found = called(trial, "find", "--links", LINKS, "--input", "-", *ends, given=script)
        trial.demand((found.status, found.text) == (0, line), f"find {ends}: {found.end()}, {found.text}", found.call)
    for ends in (["10.0.0.1:5002"], ["10.0.0.1", "10.0.0.1"], ["10.0.0.3"]):
        found = called(trial, "find", "--links", LINKS, "--input", "-", *ends, given=script)
        said = ("rohctl: standard input: nothing to show: no call has these addresses; expected those of its IP packets, as 'rohctl explain' shows"
                " them")
        trial.demand((found.status, found.said) == (6, said), f"find {ends}: {found.end()}", found.call)
    saved = trial.write("find.state", state(link(1, [FULL, FULL.replace(STATIC, "0a0000030a0000021388138a00000002")])))
    found = called(trial, "find", "--links", LINKS, "--state", saved, "10.0.0.1")
    trial.demand((found.status, found.text) == (0, f"link 1 CID 0: Full Context, {CALL}, in the state file\n"), f"a saved call: {found.end()}, {found.text}", found.call)
    found = called(trial, "find", "--json", "--links", LINKS, "--state", saved, "--input", "-", "10.0.0.2", given=b"arrive 1 20 10ac\nreset 1\n")
    rows = [json.loads(row) for row in found.text.splitlines()]
    trial.same("saved calls", str([("10.0.0.1", None, 1), ("10.0.0.3", None, None)]), str([(row["source"], row["state"], row.get("first")) for row in rows]), found.call)


def check_falls(trial: Trial) -> None:
    """A packet that is refused for the state of its context names the packet that led to it, in a script and in a capture."""
    words = ("explain", "--links", LINKS, FALLS)
    rows = [json.loads(row) for row in called(trial, *words[:1], "--json", *words[1:]).text.splitlines()]
    fell = [(row["line"], row.get("fell")) for row in rows if row.get("refusal") == "StateTooLow"]
    # By docs/EXAMPLES.md: lines 2 and 3 lead to Static Context, lines 4 and 5 to No Context, and the IR of line 9 ends that.
    wanted = [(line, {"line": 5, "to": "no", "refusal": "Check"}) for line in (6, 7, 8)]
    trial.same("the falls", str(wanted), str(fell))
    text = called(trial, *words[:1], "--line", "6", *words[1:])
    trial.demand("fell: to No Context at line 5, refused Check\n" in text.text, "no line with the fall", text.call)
    packets = [row.split()[-1] for row in (trial.top / FALLS).read_text().splitlines()]
    frames = [(SECOND * 10**9 + place, ethernet(ROHC, bytes.fromhex(packet))) for place, packet in enumerate(packets)]
    page = called(trial, "report", "--links", LINKS, "--link", "1", trial.write("falls.pcap", pcap(frames)))
    trial.demand("fell: to No Context at frame 5, refused Check" in page.text, "no fall on the page", page.call)


def check_times(trial: Trial) -> None:
    """The packets between two times, by each way to give them; their contexts come from the packets before."""
    script = arrivals(WHOLE_IR, *["10ac"] * 3).encode()
    brief = ("explain", "--brief", "--links", LINKS)
    for since, until, lines in (("20", "40", "23"), ("0.02", "0.04", "23"), ("00:00:00.02", "00:00:00.04", "23"), ("41", "", "4"), ("", "0", "1")):
        words = [word for name, time in (("--since", since), ("--until", until)) if time for word in (name, time)]
        ended = called(trial, *brief, *words, given=script)
        trial.same(f"from {since} to {until}", lines, "".join(row.split()[0] for row in ended.text.splitlines()), ended.call)
    late = called(trial, *brief, "--since", "61", given=script)
    said = "rohctl: standard input: nothing to show: no packet matches --since and --until; its packets are at 0 to 60"
    trial.demand((late.status, late.said) == (6, said), f"after the last: {late.end()}", late.call)
    # 1,700,000,000 seconds after 1970 it was 22:13:20 UTC.
    frames = [(SECOND * 10**9 + 10**9 * place, ethernet(ROHC, bytes.fromhex(packet))) for place, packet in enumerate((WHOLE_IR, "10ac", "10ac"))]
    capture = trial.write("times.pcap", pcap(frames))
    report = ("report", "--links", LINKS, "--link", "1", "--call", "1/0")
    for words, count in ((("--since", "22:13:21", "--until", "22:13:21.999"), 1), (("--since", str(SECOND + 1)), 2), (("--until", f"{SECOND}.5"), 1)):
        page = called(trial, *report, *words, capture)
        trial.demand(page.text.count("<pre ") == count, f"{words}: {page.text.count('<pre ')} packets; wanted {count}", page.call)
    page = called(trial, *report, "--since", "22:13:21", capture)
    trial.demand("frame 2: link 1 at 1700000001.000 (22:13:21.000)" in page.text, "no frame at 22:13:21", page.call)
    said = f"rohctl: {capture}: nothing to show: no packet matches --since and --until; its packets are at 1700000000.000 (22:13:20.000) to 1700000002.000 (22:13:22.000)"
    page = called(trial, *report, "--until", "5", capture)
    trial.demand((page.status, page.said) == (6, said), f"before the first: {page.end()}", page.call)
    page = called(trial, *report[:-1], "1/3", capture)
    said = f"rohctl: {capture}: nothing to show: no packet of link 1, CID 3; without --call all packets are shown"
    trial.demand((page.status, page.said) == (6, said), f"another call: {page.end()}", page.call)


def check(trial: Trial) -> None:
    """All of it."""
    for part in (check_survey, check_links, check_find, check_falls, check_times):
        part(trial)
