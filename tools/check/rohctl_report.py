"""Reads the pages of `rohctl report`: totals against `rohctl totals`, texts against `explain`, and nothing from outside."""

import base64
import hashlib
import json
import os
import re
import shutil
import subprocess
from collections import Counter
from dataclasses import dataclass, field
from html.parser import HTMLParser
from pathlib import Path

import browser
import rohctl_explain
from program import Call, Ended, run
from trial import Trial

PROGRAM = "crates/rohctl/out/rohctl"
LINKS = "examples/two-links.toml"
PLAIN = "examples/plain-call.script"
PLAIN_LINKS = "examples/links.toml"
# The elements of a page, and the one without an end.
VOID = {"meta"}
ELEMENTS = VOID | set(
    "html head title style body header h1 h2 h3 p b a nav main section ul li span strong div table thead tbody tr th td article svg path rect"
    " details summary pre footer".split()
)
MOST_DRAWN, WIDTH, HEIGHT = 100, 720, 104
# CIDs of a link of large CIDs. The first ones get so many damaged IRs behind their good one, the very first the most.
CALLS, DAMAGED = 10_000, 150
GOOD_IR, BAD_IR = "fc00b745aa", "fc00b845aa"
# What one call may take more than another that is ten times shorter, in kilobytes.
SLACK = 8192
HOSTILE = b"\x1b[2J\n<script>alert(1)</script>\narrive 1 0 <b>\narrive 1 0 fc00b745aa\narrive 1 20 45ab\n\"'&\xff\xfe\n"
# A time of a capture: seconds, milliseconds, and a clock with the same milliseconds.
CLOCK = re.compile(r"(\d+)\.(\d{3}) \(00:0\d:\d\d\.\2\)")
HOSTILE_NAME = "\"><script>alert('x')</script>&amp;\x1b[31m\u00e9.script"


@dataclass
class Page(HTMLParser):
    """What stands on a page: its elements, its tables, its texts by their names, and where its links lead."""

    elements: list[tuple[str, dict[str, str]]] = field(default_factory=list)
    rows: dict[str, list[list[str]]] = field(default_factory=dict)
    texts: dict[str, str] = field(default_factory=dict)
    style: str = ""
    words: str = ""

    def __post_init__(self) -> None:
        super().__init__()
        self.open: list[str] = []
        self.table = self.text = ""

    def handle_starttag(self, tag: str, attributes: list[tuple[str, str | None]]) -> None:
        found = {name: value or "" for name, value in attributes}
        self.elements.append((tag, found))
        if tag not in VOID:
            self.open.append(tag)
        if tag == "table":
            self.table = found["id"]
            self.rows[self.table] = []
        elif tag == "tr":
            self.rows[self.table].append([])
        elif tag in ("td", "th"):
            self.rows[self.table][-1].append("")
        elif tag == "pre":
            self.text = found["id"]
            self.texts[self.text] = ""

    def handle_startendtag(self, tag: str, attributes: list[tuple[str, str | None]]) -> None:
        self.elements.append((tag, {name: value or "" for name, value in attributes}))

    def handle_endtag(self, tag: str) -> None:
        if not self.open or self.open.pop() != tag:
            raise ValueError(f"</{tag}> ends nothing")

    def handle_data(self, data: str) -> None:
        if "style" in self.open:
            self.style += data
        elif "pre" in self.open:
            self.texts[self.text] += data
        elif "td" in self.open or "th" in self.open:
            self.rows[self.table][-1][-1] += data
        else:
            self.words += data

    def all(self, tag: str, name: str) -> list[str]:
        """The attributes of this name at elements with this tag."""
        return [found[name] for other, found in self.elements if other == tag and name in found]


def report(trial: Trial, *words: str | Path, given: bytes = b"") -> Ended:
    """How `rohctl report` ends with these words."""
    return run(Call((trial.top / PROGRAM, "report", *words), given, folder=trial.top))


def page_in(trial: Trial, ended: Ended) -> Page:
    """The page that was written. It must be whole, and nothing in it comes from elsewhere."""
    page = Page()
    page.feed(ended.text)
    page.close()
    trial.demand(not page.open, f"no end of {page.open}", ended.call)
    trial.demand(all(32 <= octet < 127 or octet == 10 for octet in ended.output), "an octet that is no character of ASCII", ended.call)
    strange = {tag for tag, _ in page.elements} - ELEMENTS
    trial.demand(not strange, f"elements {strange}", ended.call)
    names = [name for _, found in page.elements for name in found]
    trial.demand(not any(name.startswith("on") or name in ("style", "src", "srcset", "action") for name in names), "an attribute that acts", ended.call)
    ids = [found["id"] for _, found in page.elements if "id" in found]
    trial.demand(len(ids) == len(set(ids)), "an id twice", ended.call)
    leads = page.all("a", "href")
    trial.demand(all(lead[0] == "#" and lead[1:] in set(ids) for lead in leads), "a link that leads nowhere", ended.call)
    digest = base64.b64encode(hashlib.sha256(page.style.encode()).digest()).decode()
    policy = f"default-src 'none'; style-src 'sha256-{digest}'; base-uri 'none'; form-action 'none'"
    trial.demand(policy in page.all("meta", "content"), f"no policy {policy}", ended.call)
    check_picture(trial, page, ended)
    return page


def check_picture(trial: Trial, page: Page, ended: Ended) -> None:
    """All that is drawn stands within its picture."""
    for drawn in page.all("path", "d"):
        for x, base, height, width, back in re.findall(r"M(\d+) (\d+)v-(\d+)h(\d+)v(\d+)z", drawn):
            inside = int(x) + int(width) <= WIDTH and int(height) <= int(base) <= HEIGHT and height == back
            trial.demand(inside, f"a mark outside the picture: {x} {base} {height} {width}", ended.call)
    for tag, found in page.elements:
        if tag == "rect" and "x" in found:
            x, y, width, height = (int(found[name]) for name in ("x", "y", "width", "height"))
            trial.demand(x + width <= WIDTH and y + height <= HEIGHT, f"a packet outside the picture: {x} {y}", ended.call)


def numbers(row: list[str]) -> list[int]:
    """The numbers of a row behind its name."""
    return [int(cell.replace(",", "") or "0") for cell in row[1:11]]


def counted(page: Page) -> Counter[str]:
    """What the table says of each call, of packets without one, and of all: delivered, stored, refused, and the feedback."""
    found: Counter[str] = Counter()
    for row in page.rows["calls"][1:]:
        name = row[0].replace("/", " ")
        _, delivered, _, _, stored, refused, ack, nack, static_nack, silent = numbers(row)
        counts = {"delivered": delivered, "stored": stored, "refused": refused, "ack": ack, "nack": nack, "static_nack": static_nack}
        if name != "All" and name != "No call":
            counts["silent"] = silent
        found += Counter({f"{name} {kind}": count for kind, count in counts.items() if name != "No call"})
    return found


def told(text: str) -> Counter[str]:
    """The same as `rohctl totals --json` has it."""
    found: Counter[str] = Counter()
    for row in map(json.loads, text.splitlines()):
        if "cid" in row or "lines" in row:
            name = f"{row['link']} {row['cid']}" if "cid" in row else "All"
            feedback = row["feedback"]
            counts = {"delivered": row["delivered"], "stored": row["stored"], "refused": sum(row["refused"].values()),
                      "ack": feedback["ack"] + feedback["plain"], "nack": feedback["nack"], "static_nack": feedback["static_nack"]}
            if "cid" in row:
                counts["silent"] = row["refused_since_delivery"]
            found += Counter({f"{name} {kind}": count for kind, count in counts.items()})
    return found


def explained(trial: Trial, links: Path, script: Path) -> dict[str, str]:
    """What `rohctl explain` tells of each packet of a script, by its line."""
    text = rohctl_explain.explain(trial, "--links", links, script).text
    return {told.split(":")[0].split()[1]: told + "\n\n" for told in text.split("\n\n") if told}


def check_totals(trial: Trial, name: str, page: Page, answers: bytes) -> None:
    """The totals of a page are those of these answers."""
    totals = run(Call((trial.top / PROGRAM, "totals", "--json", "-"), answers, {}, trial.top))
    differ = (counted(page) - told(totals.text), told(totals.text) - counted(page))
    trial.demand(not any(differ), f"{name}: has more {differ[0]}, lacks {differ[1]}", totals.call)


def check_scripts(trial: Trial) -> None:
    """Each script of the examples: the totals are those of its answers, and each text is what is explained of its line."""
    for script, links in rohctl_explain.scripts(trial):
        ended = report(trial, "--links", links, script)
        if not script.read_bytes():
            trial.demand(ended.status == 6 and not ended.output, f"{script.name}: {ended.end()}; wanted 6", ended.call)
            continue
        page = page_in(trial, ended)
        check_totals(trial, script.name, page, script.with_suffix(".answers").read_bytes())
        texts = explained(trial, links, script)
        wrong = [name for name, text in page.texts.items() if text != texts.get(name.split("-")[3])]
        trial.demand(not wrong, f"{script.name}: another text at {wrong}", ended.call)


def many(trial: Trial, count: int) -> bytes:
    """The first packet of a plain call on each of so many CIDs of link 2, and damaged ones behind those of the first."""
    lines = trial.ran("tools/limit_scripts.py", "calls", "2", str(count)).text.splitlines()
    firsts = [line for line in lines if line.startswith("arrive 2 ")][:count]
    damaged = [f"{line[:-1]}{int(line[-1], 16) ^ 1:x}" for line in firsts]
    return "\n".join(line for cid, first in enumerate(firsts) for line in [first, *damaged[cid : cid + 1] * (DAMAGED - cid)]).encode()


def check_many(trial: Trial) -> None:
    """Ten calls, all of them drawn, and 10,000: the worst hundred are drawn, the table has all, and the page says so."""
    for count in (10, CALLS):
        ended = report(trial, "--links", LINKS, given=many(trial, count))
        page = page_in(trial, ended)
        rows = page.rows["calls"][1:-2]
        worst = [f"2/{cid}" for cid in range(min(count, DAMAGED))]
        trial.demand(len(rows) == count, f"{len(rows)} rows of {count}", ended.call)
        trial.demand([row[0] for row in rows[: len(worst)]] == worst, "the worst calls don't come first", ended.call)
        titles = re.findall(r"Link 2, CID (\d+)", page.words)
        trial.demand(titles == [str(cid) for cid in range(min(count, MOST_DRAWN))], f"{len(titles)} calls are drawn", ended.call)
        said = "All calls are drawn." if count <= MOST_DRAWN else f"The {MOST_DRAWN} worst of {count:,} calls are drawn"
        trial.demand(said in " ".join(page.words.split()), f"the page doesn't say '{said}'", ended.call)
        told = re.findall(r"(\d+) packets explained, (\d+) in the middle left out", page.words)
        # The IR that is stored is notable, as the refusals are: twelve of the first and twelve of the last are told.
        trial.demand(told[:1] == [("24", str(1 + DAMAGED - 24))], f"of the worst call is told: {told[:1]}", ended.call)
        check_valid(trial, ended)


def check_valid(trial: Trial, ended: Ended) -> None:
    """The page has no warning of tidy, if that is there."""
    if not shutil.which("tidy"):
        trial.leave_out("tidy is not installed, the pages of rohctl report were not validated")
        return
    page = trial.write("page.html", ended.output)
    found = run(Call(("tidy", "-e", "-q", page), folder=trial.top))
    # It doesn't know that an `a` of SVG 2 has an href, as one of HTML has.
    warnings = [line for line in found.all.splitlines() if not line.endswith('<a> proprietary attribute "href"')]
    trial.demand(not warnings, f"tidy: {warnings[:5]}", ended.call)


def check_hostile(trial: Trial) -> None:
    """Names and lines with tags, quotes and control characters stay text."""
    script = trial.write(HOSTILE_NAME.replace("/", "_"), HOSTILE)
    links = trial.write("<b>links</b>.toml", (trial.top / PLAIN_LINKS).read_bytes())
    ended = report(trial, "--links", links, script)
    trial.demand(ended.status == 1, f"hostile: {ended.end()}; wanted 1", ended.call)
    page = page_in(trial, ended)
    trial.demand("<script>alert('x')<_script>" in page.words and "<b>links<" in page.words, "the names aren't shown", ended.call)
    trial.demand("\\x1b[31m\\xc3\\xa9" in page.words, "octets of a name aren't shown as digits", ended.call)
    check_valid(trial, ended)
    browser.check(trial, ended.text, "the page of rohctl report")


def in_millis(text: str) -> str:
    """A text of a capture with the times of a script: seconds and a clock, of the first day of 1970, as milliseconds."""
    return CLOCK.sub(lambda time: str(int(time[1] + time[2])), text)


def check_capture(trial: Trial) -> None:
    """A capture of a script gives the page of that script, but for the names, the times and where a packet stands."""
    capture = trial.scratch / "call.pcap"
    script = trial.write("call.script", "".join(f"arrive 1 {20 * at} {GOOD_IR if at % 7 else BAD_IR}\n" for at in range(30)))
    run(Call((trial.top / PROGRAM, "script", "--back", "--port", "7000", script, capture), b"", {}, trial.top))
    one = page_in(trial, report(trial, "--links", PLAIN_LINKS, script))
    ended = report(trial, "--links", PLAIN_LINKS, "--port", "7000", capture)
    other = page_in(trial, ended)
    trial.demand(one.rows == other.rows, "a capture has other rows than its script", ended.call)
    texts = {name: in_millis(text.replace("frame ", "line ", 1)) for name, text in other.texts.items()}
    trial.demand(one.texts == texts, "a capture has other texts than its script", ended.call)
    cut = capture.read_bytes()[:-5]
    ended = report(trial, "--links", PLAIN_LINKS, "--port", "7000", given=cut)
    trial.demand(ended.status == 4 and "capture" in ended.said, f"a cut capture: {ended.end()}", ended.call)
    trial.demand(len(page_in(trial, ended).rows["calls"]) == 4, "what was good of a cut capture isn't told", ended.call)
    ended = report(trial, "--links", PLAIN_LINKS, capture)
    trial.demand(ended.status == 2, f"a capture without rules: {ended.end()}; wanted 2", ended.call)


def memory_of(trial: Trial, given: Path) -> int:
    """The most memory of a report, in kilobytes."""
    words: list[str | Path] = [trial.top / PROGRAM, "report", "--links", trial.top / PLAIN_LINKS, given, "-o", os.devnull]
    with subprocess.Popen(words) as process:
        _, _, used = os.wait4(process.pid, 0)
        process.returncode = 0
    return used.ru_maxrss


def check_memory(trial: Trial) -> None:
    """Ten times as many packets of one call take no more memory."""
    lines = f"arrive 1 0 {GOOD_IR}\n" + f"arrive 1 20 45ab\narrive 1 40 {BAD_IR}\n" * 500
    short, long = (memory_of(trial, trial.write(f"{times}.script", lines * times)) for times in (1, 10))
    trial.demand(long < short + SLACK, f"memory: {short} kB, and {long} kB for ten times as many packets")


def check_pipe(trial: Trial) -> None:
    """A pipe that is longer than what is kept in memory gives the page of a file, and its copy is gone at the end."""
    folder = trial.scratch / "copies"
    folder.mkdir()
    lines = "".join(f"arrive 1 {20 * at} 45{'ab' * 9_000}\n" for at in range(100))
    script = trial.write("long.script", f"arrive 1 0 {GOOD_IR}\n{lines}")
    wanted = report(trial, "--links", PLAIN_LINKS, script)
    given = run(Call((trial.top / PROGRAM, "report", "--links", PLAIN_LINKS), script.read_bytes(), {"TMPDIR": str(folder)}, trial.top))
    trial.same("a long pipe", wanted.output.replace(str(script).encode(), b"-"), given.output, given.call)
    trial.demand(not list(folder.iterdir()), "the copy of a pipe was left", given.call)
    (folder / "no").write_bytes(b"")
    lost = run(Call((trial.top / PROGRAM, "report", "--links", PLAIN_LINKS), script.read_bytes(), {"TMPDIR": str(folder / "no")}, trial.top))
    trial.demand(lost.status == 4 and "temporary file" in lost.said, f"no room for a copy: {lost.end()}", lost.call)


def check_ends(trial: Trial) -> None:
    """Where the page goes, what is read, and the statuses."""
    script = trial.top / PLAIN
    page = trial.scratch / "plain.html"
    file = report(trial, "--links", PLAIN_LINKS, PLAIN, "-o", page)
    trial.demand(file.status == 1 and not file.output, f"a page in a file: {file.end()}", file.call)
    shown = report(trial, "--links", PLAIN_LINKS, PLAIN)
    trial.same("the page on standard output", page.read_bytes(), shown.output, shown.call)
    given = report(trial, "--links", PLAIN_LINKS, "-", "-o", "-", given=script.read_bytes())
    trial.same("the page of standard input", shown.output.replace(PLAIN.encode(), b"-"), given.output, given.call)
    good = report(trial, "--links", PLAIN_LINKS, given=f"arrive 1 0 {GOOD_IR}\n".encode())
    trial.demand(good.status == 0, f"a good call: {good.end()}; wanted 0", good.call)
    for words, status in ((("--links", "nothing.toml", PLAIN), 3), (("--links", PLAIN_LINKS, "nothing"), 4), ((PLAIN,), 2),
                          (("--links", PLAIN_LINKS, PLAIN, "-o", "nothing/page.html"), 4)):
        ended = report(trial, *words)
        trial.demand(ended.status == status, f"rohctl report {words}: {ended.end()}; wanted {status}", ended.call)


def check(trial: Trial) -> None:
    """All of it."""
    for part in (check_scripts, check_many, check_hostile, check_capture, check_memory, check_pipe, check_ends):
        part(trial)
