"""Runs the program on the examples, and to each of its exit statuses.

The command line and the links file with each fault; a device that is full, a pipe that stays open, a reader that closes
early; whole calls over sockets.
"""

import re
import subprocess
from dataclasses import dataclass
from pathlib import Path

from program import Call, Ended, Live, run
from trial import Trial

WAIT = 10
# Lines that are sent on an open pipe, each with the answers that must come before the next is sent.
EXCHANGES = (
    ("arrive 1 0 fc00b745aa", ("1 0 ip 45aa", "1 0 feedback f100")),
    ("oops", ("- - refused BadLine",)),
    ("arrive 1 1 45ab", ("1 0 ip 45ab",)),
)
# Keys that each entry must have, and values that are wrong.
KEYS = (
    "number cid max_cid mode k1 n1 k2 n2 packet_ms static_nack_ms deliver_port feedback_port relay_port idle_ms"
).split()
WRONG_LINES = (
    "number = 65536",
    "number = 1.0",
    'number = "1"',
    'cid = "Small"',
    'mode = "R"',
    "k1 = 256",
    "packet_ms = 4294967296",
    "deliver_port = 0",
    "relay_port = 65536",
    "range = [{ first = 4, last = 7 }]",
    'range = [{ first = 4, last = 7, mode = "U", cid = 5 }]',
)
LONGEST_LINKS = 1_048_576
# Wrong words that are tried at least.
FEWEST = 50


def ends(trial: Trial, call: Call, status: int, text: str) -> Ended:
    """A call must end with this status, and write this text and nothing else to standard error."""
    ended = run(call)
    words = " ".join(str(word) for word in call.words[1:])
    trial.demand((ended.status, ended.said) == (status, text), f"rohcd {words}: {ended.end()}; wanted {status}, {text}", call)
    return ended


def is_live(trial: Trial, call: Call, seconds: float) -> None:
    """Each line must be answered while the pipe is open."""
    live = Live(call)
    heard = [answer for line, answers in EXCHANGES for answer in hear_one(live, line, len(answers), seconds)]
    wanted = [answer for _, answers in EXCHANGES for answer in answers]
    trial.same("an open pipe", "\n".join(wanted), "\n".join(heard), call)
    status = live.end()
    trial.demand(status == 0, f"an open pipe: status {status}", call)


def hear_one(live: Live, line: str, count: int, seconds: float) -> list[str]:
    """So many answers to a line, or those before one that doesn't come."""
    live.tell(line)
    answers = []
    for _ in range(count):
        answers.append(live.hear(seconds))
        if not answers[-1]:
            break
    return answers


@dataclass(frozen=True)
class LinksFiles:
    """Links files of many kinds, and what the program must say to them."""

    trial: Trial

    def read(self, name: str) -> str:
        """A file of the examples."""
        return (self.trial.top / "examples" / name).read_text()

    def replay(self, text: bytes | str) -> Call:
        """A call with a links file of this text, and an empty script."""
        name = f"links/{self.trial.tried}.toml"
        return self.trial.program.call("replay", "--links", self.trial.write(name, text))

    def fault(self, name: str, text: bytes | str) -> None:
        """A links file with this text must lead to this fault."""
        ends(self.trial, self.replay(text), 3, f"rohcd: links file: {name}")

    def good(self, text: str) -> None:
        """A links file with this text must have no fault."""
        ends(self.trial, self.replay(text), 0, "")

    def changed(self, key: str, line: str) -> str:
        """Link 4 of version 2, with another line in the place of the one that sets a key."""
        lines = self.read("worked/links-2.toml").splitlines()
        entry = lines[lines.index("number = 4") :]
        changed = [re.sub(f"^{key} = .*", lambda _: line, old) for old in entry]
        return "".join(f"{line}\n" for line in [lines[0], "[[link]]", *changed])


def check_examples(trial: Trial) -> None:
    """The examples of the folder itself."""
    folder = trial.top / "examples"
    for script in sorted(folder.glob("*.script")):
        links = script.with_suffix(".toml")
        call = trial.program.call("replay", "--links", links if links.exists() else folder / "links.toml", given=script)
        ended = ends(trial, call, 0, "")
        if trial.same(f"example {script.stem}", script.with_suffix(".answers").read_bytes(), ended.output, call):
            trial.say(f"example {script.stem}: as expected")


def check_words(trial: Trial) -> None:
    """Words that are no command."""
    links = trial.top / "examples/links.toml"
    serve = ("serve", "--links", links)
    port, count = ("--port", "7000"), ("--count", "1")
    cases: list[tuple[str | bytes | Path, ...]] = [
        (),
        ("--help",),
        ("rebuild",),
        ("serve",),
        ("serve", *port, *count),
        (*serve, *count),
        (*serve, *port),
        *((*serve, "--port", word, *count) for word in ("0", "65536", "-1", "x")),
        *((*serve, *port, "--count", word) for word in ("0", "1000001", "-1", "x")),
        ("replay",),
        (b"\xff",),
        ("",),
        ("-h",),
        ("help",),
        ("--version",),
        ("-V",),
        ("version",),
        ("Replay", "--links", links),
        ("replay ", "--links", links),
        ("replay", "--help"),
        ("replay", "--links"),
        ("replay", "--links", links, "--links", links),
        ("replay", "--link", links),
        ("replay", "--Links", links),
        ("replay", "-l", links),
        ("replay", links),
        ("replay", ""),
        ("replay", "--links", links, ""),
        ("replay", "--links", links, "--", "more"),
        ("replay", "--links", links, "--json"),
        ("replay", "--links", links, *count),
        ("--links", links, "replay"),
        (*serve, "--port", "--count", "1"),
        (*serve, *port, *port, *count),
        (*serve, *port, *count, "more"),
        *((*serve, "--port", word, *count) for word in ("", " 7000", "7000.5", "0x1b58")),
        *((*serve, *port, "--count", word) for word in ("", "1e3", "1 000")),
        ("replay", "--links", links, "more"),
        # A word that isn't UTF-8.
        ("replay", "--links", b"\xff"),
    ]
    trial.demand(len(cases) >= FEWEST, f"{len(cases)} wrong calls; wanted at least {FEWEST}")
    for words in cases:
        ends(trial, trial.program.call(*words), 2, "rohcd: command line")


def check_faults(trial: Trial, files: LinksFiles) -> None:
    """Each fault of a links file."""
    links, entry = files.read("links.toml"), files.read("links.toml").partition("\n")[2]
    absent = trial.scratch / "absent.toml"
    for path in (absent, trial.scratch, trial.top / "VERSION/links.toml", "", "a" * 300):
        for words in ("replay", "--links", path), ("serve", "--count", "1", "--port", "7000", "--links", path):
            ends(trial, trial.program.call(*words), 3, "rohcd: links file: Unreadable")
    files.fault("Unreadable", b"\xff")
    files.fault("NotToml", "x")
    files.fault("BadVersion", "version = 3")
    files.fault("UnknownKey", "version = 1\nlinks = 1")
    files.fault("BadKey", "version = 1\nlink = 1")
    files.fault("NoLinks", "version = 1")
    files.fault("NoLinks", "version = 1\nlink = []")
    files.fault("TooManyLinks", "version = 1\n" + entry * 257)
    files.fault("BadSetting", re.sub("^k1 = .*", "k1 = 4", links, flags=re.MULTILINE))
    range_more = re.sub('mode = "U" }', r'\g<0>, { first = 7, last = 9, mode = "U" }', files.read("two-links.toml"))
    files.fault("BadSetting", range_more)
    files.fault("DuplicateLink", links + entry)


def check_keys(files: LinksFiles) -> None:
    """Each key of an entry is wanted, except the ranges, and its value is of one kind."""
    ranges = re.findall("^range.*", files.read("worked/links-2.toml"), re.MULTILINE)
    files.good(files.changed("range", "\n".join(ranges)))
    for key in KEYS:
        files.fault("BadKey", files.changed(key, ""))
        files.fault("BadKey", files.changed(key, f"{key} = true"))
    files.good(files.changed("range", ""))
    files.fault("BadKey", files.changed("range", "range = true"))
    for line in WRONG_LINES:
        files.fault("BadKey", files.changed(line.partition(" =")[0], line))


def check_unknown(files: LinksFiles) -> None:
    """Keys that version 1 doesn't know, in the first entry and in the second, and a version and links that are wrong."""
    links = files.read("links.toml")
    files.fault("UnknownKey", re.sub("^number = .*", "other = 1", links, flags=re.MULTILINE))
    files.fault("UnknownKey", f"{links}idle_ms = 0\n")
    files.fault("UnknownKey", f"{links}[[link]]\nother = 1")
    files.fault("UnknownKey", "version = 1\nother = 1\nlink = 1")
    files.fault("BadKey", "version = 1\nlink = [1, {}]")
    files.fault("BadVersion", "other = 1")
    files.fault("BadVersion", 'version = "1"')
    files.fault("NoLinks", "version = 2\nlink = []")


def check_ranges(files: LinksFiles) -> None:
    """Eight ranges are taken, and not nine. Ranges may touch, and may not overlap."""

    def ranges(*pairs: tuple[int, int]) -> str:
        """The links file with these ranges."""
        text = "".join(f'{{ first = {first}, last = {last}, mode = "U" }}, ' for first, last in pairs)
        return files.changed("range", f"range = [{text}]")

    files.good(ranges(*((at, at) for at in range(8))))
    files.fault("BadKey", ranges(*((at, at) for at in range(9))))
    files.good(ranges((4, 7), (8, 9)))
    files.fault("BadSetting", ranges((4, 7), (7, 9)))


def check_longest(files: LinksFiles) -> None:
    """A links file of the greatest length must be read, and a longer one must not."""
    files.fault("BadVersion", "#" * LONGEST_LINKS)
    files.fault("Unreadable", "#" * (LONGEST_LINKS + 1))


def check_streams(trial: Trial) -> None:
    """A folder as input, a device that takes no octet, an open pipe, and a reader that closes early."""
    links = trial.top / "examples/links.toml"
    ends(trial, trial.program.call("replay", "--links", links, given=trial.top), 4, "rohcd: read")
    call = trial.program.call("replay", "--links", links, given=trial.top / "examples/plain-call.script")
    with call.given.open("rb") as given, open("/dev/full", "wb") as full:  # type: ignore[union-attr]
        done = subprocess.run(call.words, stdin=given, stdout=full, stderr=subprocess.PIPE, timeout=60)
    said = done.stderr.decode(errors="replace").rstrip("\n")
    trial.demand((done.returncode, said) == (4, "rohcd: write"), f"a full device: status {done.returncode}, {said}")
    is_live(trial, trial.program.call("replay", "--links", links), WAIT)
    closes_early(trial, links)


def closes_early(trial: Trial, links: Path) -> None:
    """A reader that closes after one line."""
    yes = subprocess.Popen(["yes", "arrive 1 0 10ac"], stdout=subprocess.PIPE)
    words = [trial.file, "replay", "--links", links]
    with subprocess.Popen(words, stdin=yes.stdout, stdout=subprocess.PIPE, stderr=subprocess.PIPE) as program:
        assert yes.stdout and program.stdout and program.stderr
        yes.stdout.close()
        program.stdout.readline()
        program.stdout.close()
        said = program.stderr.read().decode(errors="replace").rstrip("\n")
    yes.wait()
    status = program.returncode
    trial.demand((status, said) == (4, "rohcd: write"), f"a reader that closes early: status {status}, {said}")


def check_sockets(trial: Trial) -> None:
    """Whole calls over sockets, and the exit statuses of a server."""
    folder, serve = trial.top / "examples", trial.top / "tools/serve_script.py"
    names = ("two-calls-and-noise", "relayed-feedback", "first-uo-0")
    calls = [[folder / "worked/links-1.toml", *(folder / f"worked/{name}.script" for name in names)]]
    calls += [[folder / f"scripts/{name}.toml", folder / f"scripts/{name}.script"] for name in ("middle-08", "middle-09")]
    for files in calls:
        ended = trial.ran(serve, trial.file, *files)
        trial.say(ended.all)
        trial.demand(ended.status == 0, f"tools/serve_script.py: status {ended.status}", ended.call)


def check(trial: Trial) -> None:
    """Runs all of it."""
    files = LinksFiles(trial)
    check_examples(trial)
    check_words(trial)
    check_faults(trial, files)
    check_keys(files)
    check_unknown(files)
    check_ranges(files)
    check_longest(files)
    check_streams(trial)
    check_sockets(trial)
    if not trial.wrongs:
        trial.say("program: each end as expected")
