"""Shows damaged links files to rohctl and to rohcd: rohctl tells a fault exactly where rohcd refuses, and rohcd's name."""

import json
import random
import tomllib
from collections.abc import Iterator

from program import Call, Ended, run
from trial import Trial

PROGRAM = "crates/rohctl/out/rohctl"
FILES = ("examples/links.toml", "examples/two-links.toml", "examples/worked/links-2.toml")
NAME = "rohcd: links file: "
DAMAGED = 2_000
SEED = 43

# What is put in place of a value.
VALUES = ("0", "1", "-1", "15", "64", "65", "256", "65535", "65536", "99999999999", '"U"', '"small"', '"x"', "1.5", "true")
VALUES += ("[]", "[1]", "{}", "[{ first = 9, last = 2, mode = \"U\" }]", "1979-05-27", '"\\u001b[31m"')
# A line more.
LINES = ("[[link]]", "k3 = 1", "[links]", "version = 1", "number = 1", "# a comment", "x", "idle_ms = 5", '"a\\nb" = 1')

# A file of three links. The second has a misspelled key, and a k1 above its n1; the third has the number of the first.
ENTRY = """[[link]]
number = {number}
cid = "small"
max_cid = 15
mode = "O"
k1 = {k1}
n1 = 3
k2 = 2
n2 = 3
packet_ms = 20
static_nack_ms = 1000
deliver_port = 6001
feedback_port = 6002
relay_port = 6003
{idle} = 0
"""
THREE = "version = 2\n" + "".join(
    ENTRY.format(number=number, k1=k1, idle=idle) for number, k1, idle in ((1, 2, "idle_ms"), (300, 5, "idel_ms"), (1, 2, "idle_ms"))
)
# The faults of that file: the line, the entry, the link, the key, what stands there, and the nearest key. The entries
# begin at the lines 2, 17 and 32, and have 15 lines each.
FAULTS = (
    (31, 2, 300, "idel_ms", "unknown", 0, "idle_ms"),
    (17, 2, 300, "idle_ms", "unfit", None, None),
    (22, 2, 300, "k1", "beyond", 5, None),
    (33, 3, 1, "number", "twice", 1, None),
)
TOLD = (
    'FILE:31: link 300: unknown key "idel_ms"; did you mean idle_ms?',
    "FILE:17: link 300: idle_ms is missing; expected a number from 0 to 86400000",
    "FILE:22: link 300: k1 is 5; expected a number from 1 to n1",
    "FILE:33: entry 3: link number 1 is already used by entry 1; 2 is free",
    "rohcd: links file: UnknownKey",
)


def links(trial: Trial, *words: str) -> Ended:
    """How `rohctl links` ends with these words."""
    return run(Call((trial.top / PROGRAM, "links", *words), folder=trial.top))


def damaged(texts: list[str], count: int) -> Iterator[str]:
    """Damaged files, each by one to three changes of a line."""
    chance = random.Random(SEED)
    for _ in range(count):
        lines = chance.choice(texts).splitlines()
        for _ in range(chance.randint(1, 3)):
            place = chance.randrange(len(lines))
            key, _, value = lines[place].partition(" = ")
            match chance.randrange(5):
                case 0:
                    del lines[place]
                case 1:
                    lines.insert(place, chance.choice([*LINES, *lines]))
                case 2 if value:
                    lines[place] = f"{key} = {chance.choice(VALUES)}"
                case 3 if value:
                    at = chance.randrange(len(key))
                    lines[place] = f"{key[:at]}{chance.choice('aekm_1')}{key[at + 1:]} = {value}"
                case _:
                    lines[place] = lines[place][: chance.randrange(len(lines[place]) + 1)]
            lines = lines or ["x"]
        yield "\n".join(lines) + "\n"


def agrees(trial: Trial, text: str) -> None:
    """rohctl must tell a fault exactly if rohcd refuses the text, and last the name that rohcd tells."""
    file = trial.write("damaged.toml", text)
    refused = trial.program.replay(file, b"")
    told = links(trial, "--json", str(file))
    objects = [json.loads(line) for line in told.text.splitlines()]
    if refused.status == 0:
        holds = told.status == 0 and bool(objects) and all("memory" in row for row in objects)
    else:
        holds = refused.status == 3 and told.status == 1 and len(objects) > 1
        holds = holds and refused.said == NAME + objects[-1].get("name", "")
    holds = holds and told.output.isascii() and b"\x1b" not in told.output
    kept = trial.write(f"damaged-{trial.tried}.toml", text) if not holds else file
    trial.demand(holds, f"{kept.name}: rohcd {refused.end()}, rohctl {told.end()}: {told.text[-200:]}", told.call)


def check_three(trial: Trial) -> None:
    """All faults of a file of three links, with their lines."""
    file = trial.write("three.toml", THREE)
    told = links(trial, str(file))
    trial.same("the faults", "\n".join(TOLD), told.text.rstrip("\n").replace(str(file), "FILE"), told.call)
    trial.demand(told.status == 1, f"rohctl links: {told.end()}; wanted 1", told.call)
    objects = [json.loads(line) for line in links(trial, "--json", str(file)).text.splitlines()]
    keys = ("line", "entry", "link", "key", "fault", "stands", "nearest")
    found = [tuple(row[key] for key in keys) for row in objects[:-1]]
    trial.same("the objects", "\n".join(map(str, FAULTS)), "\n".join(map(str, found)), told.call)


def check_good(trial: Trial) -> None:
    """What a good file sets, and the file to start from."""
    told = links(trial, "examples/two-links.toml")
    row = " ".join(told.text.splitlines()[1].split())
    trial.same("the first link", "1 small 15 O 2/3 2/3 20 1000 5000 5216 4-7:U", row, told.call)
    trial.demand("links 2 calls at most 16400 memory at most 5346400 octets" in told.text, "no sum of the links", told.call)
    trial.demand("unusual: link 2: no idle_ms: a silent call keeps its context" in told.text, "idle_ms = 0 isn't told", told.call)
    new = links(trial, "--new")
    file = trial.write("new.toml", new.text)
    shown = links(trial, str(file))
    trial.demand(new.status == 0 and shown.status == 0, "links --new writes no good file", new.call)
    trial.demand("unusual" not in shown.text, "links finds the file of links --new unusual", shown.call)
    trial.demand(trial.program.replay(file, b"").status == 0, "rohcd refuses what links --new writes", new.call)
    alike = trial.write("alike.toml", THREE.replace("idel_ms", "idle_ms").replace("k1 = 5", "k1 = 2").replace("number = 1\n", "number = 7\n", 1).replace("n1 = 3", "n1 = 20", 1))
    text = links(trial, str(alike)).text
    for line in ("unusual: link 7: n1 20 is above 16", "unusual: link 300: deliver_port 6001 is deliver_port of link 7 too"):
        trial.demand(line in text, f"no line '{line}'", told.call)


def check_new(trial: Trial) -> None:
    """Files to start from: each link has the settings of the first, and its number and ports follow those of the one before it."""
    first = {"cid": "small", "max_cid": 15, "mode": "O", "k1": 2, "n1": 3, "k2": 2, "n2": 3, "packet_ms": 20, "static_nack_ms": 1000, "idle_ms": 600_000}
    one = links(trial, "--new")
    trial.same("a file of one link", one.text, links(trial, "--new", "1").text, one.call)
    for count in (1, 2, 256):
        new = links(trial, "--new", str(count))
        document = tomllib.loads(new.text)
        wanted = [
            {"number": number, **first, "deliver_port": 5_998 + 3 * number, "feedback_port": 5_999 + 3 * number, "relay_port": 6_000 + 3 * number}
            for number in range(1, count + 1)
        ]
        trial.demand(document == {"version": 2, "link": wanted}, f"links --new {count}: other links", new.call)
        shown = links(trial, str(trial.write(f"new-{count}.toml", new.text)))
        trial.demand(shown.status == 0 and "unusual" not in shown.text, f"links --new {count}: {shown.end()}", shown.call)
    trial.demand(new.text.startswith(one.text), "the first link of a file isn't the one of a file of one", new.call)


def check_several(trial: Trial) -> None:
    """Several files: each is good, or its errors are listed as if it stood by itself."""
    bad, good = str(trial.write("three.toml", THREE)), FILES[0]
    alone = links(trial, bad)
    for files, wanted, status in (
        ((good, *FILES[1:]), "".join(f"{file}: good\n" for file in FILES), 0),
        ((good, bad), f"{good}: good\n{alone.text}", 1),
        ((bad, good, bad), f"{alone.text}{good}: good\n{alone.text}", 1),
    ):
        told = links(trial, *files)
        trial.same(f"the files {files}", wanted, told.text, told.call)
        trial.demand(told.status == status and not told.said, f"the files {files}: {told.end()}", told.call)
    objects = [json.loads(line) for line in links(trial, "--json", good, bad).text.splitlines()]
    trial.demand(objects[:2] == [{"file": good, "good": True}, {"file": bad, "good": False}], f"the objects of two files: {objects[:2]}")
    trial.demand(objects[2:] == [json.loads(line) for line in links(trial, "--json", bad).text.splitlines()], "other objects of a file among others")
    told = links(trial, "nothing", good, "none")
    unread = "".join(f"rohctl: links file {name}: cannot read it: no such file or directory\n" for name in ("nothing", "none"))
    trial.demand((told.status, told.text, f"{told.said}\n") == (3, f"{good}: good\n", unread), f"files that are not there: {told.end()}, {told.text}", told.call)


def check(trial: Trial) -> None:
    """All of it."""
    check_three(trial)
    check_good(trial)
    check_new(trial)
    check_several(trial)
    texts = [(trial.top / file).read_text() for file in FILES]
    for text in damaged([*texts, THREE], DAMAGED):
        agrees(trial, text)
