"""Wrong calls of rohc-gateway, and of what rohctl asks of one: each answer names what is wrong, and what to do.

In the tables FILE is the gateway file, DIR the folder of all files, and DATE the date with which a line begins. What is
wrong with a file is told by `check` with status 1, and by `run` with status 3 on standard error.
"""

import json
import os
import re
import socket
import subprocess
import threading
import time
from collections import Counter
from collections.abc import Callable, Iterator, Sequence
from concurrent.futures import Future, ThreadPoolExecutor
from contextlib import contextmanager
from pathlib import Path

from gateway_run import LOOPBACK, PROGRAM, Gateway, Receivers, bound, dated, told_room
from nobody import as_nobody
from program import Call, Ended, Word, run
from trial import Trial

ROHCTL = "crates/rohctl/out/rohctl"
LINE = "DATE rohc-gateway: "
LONGEST = 1_048_576
# A good links file of 15 lines, and a good gateway file.
LINKS = """version = 1
[[link]]
number = 1
cid = "small"
max_cid = 15
mode = "O"
k1 = 2
n1 = 3
k2 = 2
n2 = 3
packet_ms = 20
static_nack_ms = 1000
deliver_port = 6001
feedback_port = 6002
relay_port = 6003
"""
NEWER = LINKS.replace("version = 1", "version = 2") + "idle_ms = 0\n"
GOOD = 'links = "links.toml"\nport = 4000\n'
PORT = "expected a number from 1 to 65535"
NUMBER = "expected a number from 0 to 65535"
NAME = "expected a text of 1 to 64 characters, without control characters"
LIMIT = "expected a number from 0 to 4294967295 (0 is no limit)"
READABLE = "expected a links file that this user can read (rohctl links --new writes one)"
MISSING = "no such file or directory"
NO_DIRECTORY = "a part of the path is not a directory"
NO_LINKS_FILE = f"{MISSING}; {READABLE}"
A_GATEWAY_FILE = "expected a gateway file that this user can read (man rohc-gateway)"
KEYS = "links, port, timed_port, state, save_seconds, scratch, stale_ms, control, control_group, metrics_port, log_format, numbered_feedback, receive_buffer, link"
OWN = "expected a path of its own"
A_GROUP = "expected the name of a group in quotes, or its number"
WRITABLE = "expected a path in a directory that this user may write"
WHOLE = "expected a complete state file of this version (run --fresh starts without it)"
LONG = "/" + "a" * 103
TOO_MANY = "Too many open files (os error 24); expected free file descriptors (ulimit -n)"
A_DOCUMENT = "expected a TOML document (toml.io)"
A_FOLDER = "expected a directory that this user may write"

# A gateway file, and what is wrong with it.
GATEWAY_FILES: tuple[tuple[bytes | str, tuple[str, ...]], ...] = (
    ("port = 4000\n", ('FILE: links is missing; expected links = "FILE"',)),
    ('links = "links.toml"\n', (f"FILE: port is missing; expected port or timed_port, {PORT.removeprefix('expected ')}",)),
    ('links = "links.toml"\nport = 0\n', (f"FILE:2: port is 0; {PORT}",)),
    ('links = "links.toml"\nport = 65536\n', (f"FILE:2: port is 65536; {PORT}",)),
    ('links = "links.toml"\nport = "7000"\n', (f'FILE:2: port is "7000"; {PORT}',)),
    (GOOD + "prot = 4001\n", ('FILE:3: unknown key "prot"; did you mean port?',)),
    (GOOD + "contol = 4001\n", ('FILE:3: unknown key "contol"; did you mean control?',)),
    (GOOD + "colour = 1\n", (f'FILE:3: unknown key "colour"; expected one of {KEYS}',)),
    (GOOD + "timed_port = 4000\n", ("FILE:3: timed_port is the same as port; expected another port",)),
    (GOOD + "metrics_port = 4000\n", ("FILE:3: metrics_port is the same as port; expected another port",)),
    ('links = "links.toml"\ntimed_port = 4000\nmetrics_port = 4000\n', ("FILE:3: metrics_port is the same as timed_port; expected another port",)),
    ('links = "links.toml"\nport = -1\n', (f"FILE:2: port is -1; {PORT}",)),
    ('links = "links.toml"\nport = [4000]\n', (f"FILE:2: port is an array; {PORT}",)),
    ('links = "links.toml"\nport = []\n', (f"FILE:2: port is an empty array; {PORT}",)),
    ('links = "links.toml"\nport = 2026-11-29\n', (f"FILE:2: port is a date; {PORT}",)),
    ('links = "links.toml"\n[port]\n', (f"FILE: port is a table; {PORT}",)),
    (GOOD + 'state = "calls"\nsave_seconds = 86401\n', ("FILE:4: save_seconds is 86401; expected a number from 1 to 86400",)),
    (GOOD + "control = 5\n", ("FILE:3: control is 5; expected a path in quotes",)),
    (GOOD + 'log_format = "xml"\n', ('FILE:3: log_format is "xml"; expected "text" or "json"',)),
    (GOOD + "log_format = 1\n", ('FILE:3: log_format is 1; expected "text" or "json"',)),
    (GOOD + "numbered_feedback = 1\n", ("FILE:3: numbered_feedback is 1; expected true or false",)),
    (GOOD + 'control = "c"\ncontrol_group = true\n', (f"FILE:4: control_group is true; {A_GROUP}",)),
    (GOOD + 'control = "c"\ncontrol_group = ""\n', (f'FILE:4: control_group is ""; {A_GROUP}',)),
    (GOOD + 'control = "c"\ncontrol_group = 4294967295\n', (f"FILE:4: control_group is 4294967295; {A_GROUP}",)),
    (GOOD + 'control = "c"\ncontrol_group = "no such"\n', ('FILE:4: control_group is "no such"; expected a group in /etc/group, or its number',)),
    (GOOD + "control_group = 1\n", ('FILE:3: control_group needs control; expected control = "PATH"',)),
    (GOOD + 'state = "none/calls"\n', (f"FILE:3: state: DIR/none is missing; {A_FOLDER}",)),
    (GOOD + 'state = "calls"\nscratch = "none"\n', (f"FILE:4: scratch: DIR/none is missing; {A_FOLDER}",)),
    (GOOD + 'control = "links.toml/control"\n', (f"FILE:3: control: DIR/links.toml is not a directory; {A_FOLDER}",)),
    (GOOD + "receive_buffer = 0\n", ("FILE:3: receive_buffer is 0; expected a number of octets from 1 to 1073741824",)),
    (GOOD + 'log_fromat = "json"\n', ('FILE:3: unknown key "log_fromat"; did you mean log_format?',)),
    (GOOD + "[[link]]\n", (f"FILE:3: link table 1: number is missing; {NUMBER}",)),
    (GOOD + '[[link]]\nnumber = 65536\n', (f"FILE:4: link table 1: number is 65536; {NUMBER}",)),
    (GOOD + '[[link]]\nnumber = 0\n[[ link ]] # two\nname = "a"\nnumber = "1"\n', (f'FILE:7: link table 2: number is "1"; {NUMBER}',)),
    (GOOD + '[[link]]\nnumber = 1\nnam = "a"\n', ('FILE:5: link table 1: unknown key "nam"; did you mean name?',)),
    (GOOD + "[[link]]\nnumber = 1\ncolour = 1\n", ('FILE:5: link table 1: unknown key "colour"; expected one of number, name, port, payload, new_contexts_per_second, feedback_per_second',)),
    (GOOD + "[[link]]\nnumber = 1\nport = 0\n", (f"FILE:5: link table 1: port is 0; {PORT}",)),
    (GOOD + "[[link]]\nnumber = 1\nport = 4000\n", ("FILE:5: link table 1: port is the same as port; expected another port",)),
    (GOOD + "[[link]]\nnumber = 1\nport = 4001\n[[link]]\nnumber = 2\nport = 4001\n", (
        "FILE:8: link table 2: port 4001 is already used by link table 1; expected another number",
    )),
    ('links = "links.toml"\n[[link]]\nnumber = 1\nport = 4000\n', (
        f"FILE: port is missing; expected port or timed_port, {PORT.removeprefix('expected ')}",
    )),
    (GOOD + '[[link]]\nnumber = 1\nname = ""\n', (f'FILE:5: link table 1: name is ""; {NAME}',)),
    (GOOD + "[[link]]\nnumber = 1\nnew_contexts_per_second = -1\n", (f"FILE:5: link table 1: new_contexts_per_second is -1; {LIMIT}",)),
    (GOOD + '[[link]]\nnumber = 1\nfeedback_per_second = "9"\n', (f'FILE:5: link table 1: feedback_per_second is "9"; {LIMIT}',)),
    (GOOD + "[[link]]\nnumber = 1\nfeedback_per_second = 4294967296\n", (
        f"FILE:5: link table 1: feedback_per_second is 4294967296; {LIMIT}",
    )),
    (GOOD + "[[link]]\nnumber = 1\nfedback_per_second = 1\n", (
        'FILE:5: link table 1: unknown key "fedback_per_second"; did you mean feedback_per_second?',
    )),
    (GOOD + '[[link]]\nnumber = 1\nname = 7\n', (f"FILE:5: link table 1: name is 7; {NAME}",)),
    (GOOD + '[[link]]\nnumber = 1\nname = "a\\u0007"\n', (f'FILE:5: link table 1: name is "a\\u0007"; {NAME}',)),
    (GOOD + f'[[link]]\nnumber = 1\nname = "{"a" * 65}"\n', (f'FILE:5: link table 1: name is "{"a" * 60}.."; {NAME}',)),
    (GOOD + "[[link]]\nnumber = 1\n[[link]]\nnumber = 2\n[[link]]\nnumber = 1\n", (
        "FILE:8: link table 3: number 1 is already used by link table 1; expected another number",
    )),
    (GOOD + "link = 5\n", ("FILE:3: link is 5; expected tables [[link]]",)),
    (GOOD + "link = [5]\n", ("FILE:3: link is an array; expected tables [[link]]",)),
    (GOOD + "[link]\nnumber = 1\n", ("FILE: link is a table; expected tables [[link]]",)),
    (GOOD + "[[lnk]]\nnumber = 1\n", ('FILE: unknown key "lnk"; did you mean link?',)),
    ("= 4000\n", ("FILE:1: not TOML: invalid key; expected letters, numbers, `-`, `_` or a quoted key",)),
    ("[links\n", ("FILE:1: not TOML: unclosed table; expected `]`",)),
    ("[[links]\n", ("FILE:1: not TOML: unclosed array table; expected `]]`",)),
    ("port = [1 2]\n", ('FILE:1: port is "[1 2]"; expected a number, or a text in quotes',)),
    ("port = { a = 1 b = 2 }\n", ("FILE:1: not TOML: missing comma between key-value pairs; expected `,` or `}`",)),
    ('links = "\\q"\n', (f"FILE:1: not TOML: invalid escape sequence; {A_DOCUMENT}",)),
    ("port = 4__0\n", (f"FILE:1: not TOML: `_` may only go between digits; {A_DOCUMENT}",)),
    ("port = 2026-13-29\n", (f"FILE:1: not TOML: invalid date-time; {A_DOCUMENT}",)),
    ("port = 4000\nport.x = 1\n", (f"FILE:2: not TOML: cannot extend a value with a dotted key; {A_DOCUMENT}",)),
    ("port = " + 200 * "[" + "\n", (f"FILE:1: not TOML: cannot recurse further; max recursion depth met; {A_DOCUMENT}",)),
    (GOOD + "save_seconds = 5\n", ('FILE:3: save_seconds needs state; expected state = "FILE" for the saved calls',)),
    (GOOD + 'scratch = "run"\n', ('FILE:3: scratch needs state; expected state = "FILE" for the saved calls',)),
    (GOOD + 'state = "calls"\nstale_ms = -1\n', ("FILE:4: stale_ms is -1; expected a number of milliseconds from 0 to 4294967295",)),
    (
        GOOD + "timed_port = 4001\nstale_ms = 0\n",
        ("FILE:4: stale_ms needs the gateway's moments; expected no timed_port, whose moments are the sender's",),
    ),
    (GOOD + 'state = "calls"\nsave_seconds = 0\n', ("FILE:4: save_seconds is 0; expected a number from 1 to 86400",)),
    (GOOD + 'state = "calls"\nsave_seconds = 1.5\n', ("FILE:4: save_seconds is a floating-point number; expected a number from 1 to 86400",)),
    ("links =\n", ("FILE:1: links has no value; expected a number, or a text in quotes",)),
    ("links = links.toml\nport = 4000\n", ('FILE:1: links.toml needs quotes; write "links.toml"',)),
    ("links = /etc/links.toml\n", ('FILE:1: /etc/links.toml needs quotes; write "/etc/links.toml"',)),
    ('links = "links.toml\nport = 4000\n', ("FILE:1: a quote is missing; expected one before and one after the text",)),
    (GOOD + 'links = "links.toml"\n', ("FILE:3: links is given twice; remove one of the two",)),
    ("links\n", ("FILE:1: links has no value; expected = and a value after it",)),
    ('links = "links.toml"\nport: 4000\n', ("FILE:2: port has no value; expected = and a value after it",)),
    ("port = 4000 timed_port = 4001\n", ("FILE:1: more text follows the value; expected the end of the line",)),
    ("port = 4000;\n", ("FILE:1: more text follows the value; expected the end of the line",)),
    ("port = 08\n", ('FILE:1: port is "08"; expected a number, or a text in quotes',)),
    ("port = 99999999999999999999\n", (f"FILE:1: not TOML: number out of range; {A_DOCUMENT}",)),
    ('links = 5\nport = "x"\nmetrics_port = 70000\n', (
        "FILE:1: links is 5; expected a path in quotes",
        f'FILE:2: port is "x"; {PORT}',
        f"FILE:3: metrics_port is 70000; {PORT}",
    )),
    ('links = ""\nport = 4000\n', ('FILE:1: links is ""; expected a path in quotes',)),
    (GOOD + "state = true\n", ("FILE:3: state is true; expected a path in quotes",)),
    (GOOD + f'control = "{LONG}"\n', (f"FILE:3: control is a path of {len(LONG)} octets; expected at most 103",)),
    ('links = "none.toml"\nport = 4000\n', (f"DIR/none.toml: {NO_LINKS_FILE}",)),
    ('links = "folder"\nport = 4000\n', (f"DIR/folder: it is a directory; {READABLE}",)),
    ('links = "links.toml/x"\nport = 4000\n', (f"DIR/links.toml/x: {NO_DIRECTORY}; {READABLE}",)),
    ('links = "latin.toml"\nport = 4000\n', (f"DIR/latin.toml: it is not UTF-8; {READABLE}",)),
    ('links = "long.toml"\nport = 4000\n', (f"DIR/long.toml: it is longer than {LONGEST} octets; {READABLE}",)),
    (GOOD + 'state = "links.toml"\n', (f"FILE:3: state would overwrite the links file DIR/links.toml; {OWN}",)),
    (GOOD + 'state = "./links.toml"\n', (f"FILE:3: state would overwrite the links file DIR/links.toml; {OWN}",)),
    (GOOD + 'state = "to_links"\n', (f"FILE:3: state would overwrite the links file DIR/links.toml; {OWN}",)),
    (GOOD + 'state = "gateway.toml"\n', (f"FILE:3: state would overwrite the gateway file FILE; {OWN}",)),
    ('links = "calls.latest"\nport = 4000\nstate = "calls"\n', (f"FILE:3: state would overwrite the links file DIR/calls.latest; {OWN}",)),
    ('links = "calls.new"\nport = 4000\nstate = "calls"\n', (f"FILE:3: state would overwrite the links file DIR/calls.new; {OWN}",)),
    (GOOD + 'control = "links.toml"\n', (f"FILE:3: control would overwrite the links file DIR/links.toml; {OWN}",)),
    (GOOD + 'state = "calls"\ncontrol = "calls"\n', (f"FILE:4: control would overwrite the state file DIR/calls; {OWN}",)),
    (GOOD + 'state = "calls"\ncontrol = "calls.new"\n', (f"FILE:4: control would overwrite the new state file DIR/calls.new; {OWN}",)),
    (GOOD + 'control = "notes"\n', ("FILE:3: control would overwrite DIR/notes, which is not a socket; expected the path of a new socket",)),
    (GOOD + 'state = "folder"\n', ("DIR/folder: it is a directory; expected a state file that this user can read, or none",)),
    (GOOD + 'state = "notes"\n', (f"DIR/notes: it is not a state file; {WHOLE}",)),
    (b"links = \xff", (f"FILE: it is not UTF-8; {A_GATEWAY_FILE}",)),
    ("#" * (LONGEST + 1), (f"FILE: it is longer than {LONGEST} octets; {A_GATEWAY_FILE}",)),
)  # fmt: skip

# A links file, and what is wrong with it.
IN = "DIR/links.toml"
TABLES = "expected 1 to 256 tables [[link]]"
RANGES = "expected at most 8 tables of first, last and mode, in rising order, up to max_cid"
LINKS_FILES: tuple[tuple[str, tuple[str, ...]], ...] = (
    (LINKS.replace("k1 =", "k_1 ="), (
        f'{IN}:7: link 1: unknown key "k_1"; did you mean k1?',
        f"{IN}:2: link 1: k1 is missing; expected a number from 1 to n1",
    )),
    (LINKS + "colour = 1\n", (f'{IN}:16: link 1: unknown key "colour"; expected a key of man rohc-links',)),
    (LINKS.replace("max_cid = 15", "max_cid = 16"), (
        f"{IN}:5: link 1: max_cid is 16; expected a number from 0 to 15 for small CIDs, 0 to 16383 for large ones",
    )),
    (LINKS.replace("k1 = 2", "k1 = 4"), (f"{IN}:7: link 1: k1 is 4; expected a number from 1 to n1",)),
    (LINKS.replace("n2 = 3", "n2 = 65"), (f"{IN}:10: link 1: n2 is 65; expected a number from 1 to 64",)),
    (LINKS.replace('"small"', '"tiny"'), (f'{IN}:4: link 1: cid is "tiny"; expected "small" or "large"',)),
    (LINKS.replace('"small"', "small"), (f'{IN}:4: small needs quotes; write "small"',)),
    (LINKS.replace('"O"', '"R"'), (f'{IN}:6: link 1: mode is "R"; expected "U" or "O"',)),
    (LINKS.replace("deliver_port = 6001", "deliver_port = 0"), (f"{IN}:13: link 1: deliver_port is 0; {PORT}",)),
    (LINKS.replace("number = 1\n", ""), (f"{IN}:2: entry 1: number is missing; expected a number from 0 to 65535",)),
    (LINKS.replace("[[link]]", "[link]"), (f"{IN}:2: [link] is one table; write [[link]] before each link",)),
    (2 * LINKS.replace("[[link]]", "[link]").replace("version = 1\n", ""), (
        f"{IN}:15: link is one table and given again; write [[link]] before each one",
    )),
    (LINKS + LINKS.removeprefix("version = 1\n"), (f"{IN}:17: entry 2: link number 1 is already used by entry 1; 2 is free",)),
    (LINKS.replace("n1 =", "k1 ="), (f"{IN}:8: k1 is given twice; remove one of the two",)),
    (LINKS.replace("version = 1\n", ""), (
        f"{IN}: version is missing; expected 1 or 2",
        f"{IN}:1: link 1: idle_ms is missing; expected a number from 0 to 86400000",
    )),
    (LINKS.replace("version = 1", "version = 3"), (
        f"{IN}:1: version is 3; expected 1 or 2",
        f"{IN}:2: link 1: idle_ms is missing; expected a number from 0 to 86400000",
    )),
    (LINKS + "idle_ms = 0\n", (f"{IN}:16: link 1: version 1 has no key idle_ms; expected version = 2",)),
    ("version = 1\n", (f"{IN}: link is missing; expected 1 to 256 tables [[link]]",)),
    (LINKS.replace("[[link]]", "[[links]]"), (
        f'{IN}:2: unknown key "links"; did you mean link?',
        f"{IN}: link is missing; expected 1 to 256 tables [[link]]",
    )),
    (LINKS.replace("k1 = 2", "k1 2"), (f"{IN}:7: k1 has no value; expected = and a value after it",)),
    (LINKS.replace("n1 = 3", "n1 = 65"), (f"{IN}:8: link 1: n1 is 65; expected a number from 1 to 64",)),
    (LINKS.replace("k2 = 2", "k2 = 0"), (f"{IN}:9: link 1: k2 is 0; expected a number from 1 to n2",)),
    (LINKS.replace("packet_ms = 20", "packet_ms = 60001"), (f"{IN}:11: link 1: packet_ms is 60001; expected a number from 1 to 60000",)),
    (LINKS.replace("packet_ms = 20", "packet_ms = 2.5"), (f"{IN}:11: link 1: packet_ms is a floating-point number; expected a number from 1 to 60000",)),
    (LINKS.replace("static_nack_ms = 1000", "static_nack_ms = 3600001"), (
        f"{IN}:12: link 1: static_nack_ms is 3600001; expected a number from 0 to 3600000",
    )),
    (LINKS.replace("feedback_port = 6002", 'feedback_port = "6002"'), (f'{IN}:14: link 1: feedback_port is "6002"; {PORT}',)),
    (LINKS.replace("relay_port = 6003", "relay_port = 65536"), (f"{IN}:15: link 1: relay_port is 65536; {PORT}",)),
    (LINKS.replace("version = 1", "version = 2") + "idle_ms = 86400001\n", (
        f"{IN}:16: link 1: idle_ms is 86400001; expected a number from 0 to 86400000",
    )),
    (LINKS + "range = 5\n", (f"{IN}:16: link 1: version 1 has no key range; expected version = 2",)),
    (NEWER + "range = 5\n", (f"{IN}:17: link 1: range is 5; {RANGES}",)),
    (NEWER + '[[link.range]]\nfirst = 9\nlast = 2\nmode = "U"\n', (f"{IN}:17: link 1: range is an array; {RANGES}",)),
    (LINKS.replace("number = 1\n", "number = 65536\n"), (f"{IN}:3: entry 1: number is 65536; expected a number from 0 to 65535",)),
    (2 * LINKS.replace("version = 1\n", "").replace("number = 1\n", "number = 65535\n"), (
        f"{IN}: version is missing; expected 1 or 2",
        f"{IN}:1: link 65535: idle_ms is missing; expected a number from 0 to 86400000",
        f"{IN}:15: link 65535: idle_ms is missing; expected a number from 0 to 86400000",
        f"{IN}:16: entry 2: link number 65535 is already used by entry 1; expected a number of its own",
    )),
    ("version = 1\nlink = 1\n", (f"{IN}:2: link is 1; {TABLES}",)),
    ("version = 1\nlink = [1]\n", (f"{IN}:2: link is an array; {TABLES}",)),
    ("version = 1\nlink = []\n", (f"{IN}:2: link has 0 tables; {TABLES}",)),
    (LINKS + 'mod = "x"\n', (f'{IN}:16: link 1: unknown key "mod"; did you mean mode?',)),
    ("version = 1\ncolour = 1\n" + LINKS.removeprefix("version = 1\n"), (f'{IN}:2: unknown key "colour"; expected version or link',)),
)  # fmt: skip

# Words that are no command, and what the answer has.
WORDS: tuple[tuple[tuple[Word, ...], tuple[str, ...]], ...] = (
    ((), ("requires a subcommand", "run, check")),
    (("run",), ("required arguments were not provided", "<FILE>")),
    (("check",), ("required arguments were not provided", "<FILE>")),
    (("stop",), ("unrecognized subcommand 'stop'", "Usage:")),
    (("chek", "x"), ("unrecognized subcommand 'chek'", "'check'")),
    (("check", "a", "b"), ("unexpected argument 'b'", "Usage:")),
    (("run", "--colour", "x"), ("unexpected argument '--colour'", "Usage:")),
    (("run", "--port", "x", "f"), ("invalid value 'x' for '--port <PORT>'",)),
    (("run", "--port", "0", "f"), ("0 is not in 1..=65535", "--port <PORT>")),
    (("run", "--timed-port", "65536", "f"), ("65536 is not in 1..=65535", "--timed-port <PORT>")),
    (("run", "--save-seconds", "0", "f"), ("0 is not in 1..=86400", "--save-seconds <SECONDS>")),
    (("run", "--metrics-port"), ("a value is required for '--metrics-port <PORT>'",)),
    (("check", "--fresh", "f"), ("unexpected argument '--fresh'", "Usage:")),
    (("--frob",), ("unexpected argument '--frob'", "Usage:")),
    (("-x",), ("unexpected argument '-x'", "Usage:")),
    (("help", "frob"), ("unrecognized subcommand 'frob'", "Usage:")),
    (("start", "f"), ("unrecognized subcommand 'start'", "Usage:")),
    (("runn", "f"), ("unrecognized subcommand 'runn'", "a similar subcommand exists: 'run'")),
    (("status",), ("unrecognized subcommand 'status'", "Usage:")),
    (("--", "check", "f"), ("unexpected argument 'check'", "to use it, remove the '--' before it")),
    (("check", "--"), ("required arguments were not provided", "<FILE>")),
    (("check", "--port"), ("a value is required for '--port <PORT>'",)),
    (("check", "--links"), ("a value is required for '--links <PATH>'",)),
    (("check", "--color", "never", "f"), ("unexpected argument '--color'", "a similar argument exists: '--control'")),
    (("run", "--fresh"), ("required arguments were not provided", "<FILE>")),
    (("run", "--fresh=yes", "f"), ("unexpected value 'yes' for '--fresh'", "Usage:")),
    (("run", "--links", "a", "--links", "b", "f"), ("the argument '--links <PATH>' cannot be used multiple times",)),
    (("run", "--save-seconds", "86401", "f"), ("86401 is not in 1..=86400", "--save-seconds <SECONDS>")),
    (("run", "--save-seconds", "x", "f"), ("invalid value 'x' for '--save-seconds <SECONDS>'",)),
    (("run", "--metrics-port", "70000", "f"), ("70000 is not in 1..=65535", "--metrics-port <PORT>")),
    (("run", "--port", "-1", "f"), ("unexpected argument '-1'", "Usage:")),
    (("run", "--port=", "f"), ("invalid value '' for '--port <PORT>'",)),
    (("run", "--timed-port", "4000.5", "f"), ("invalid value '4000.5' for '--timed-port <PORT>'",)),
    (("run", "--log-format", "xml", "f"), ("invalid value 'xml' for '--log-format <FORMAT>'", "[possible values: text, json]")),
    (("run", "--log-format"), ("a value is required for '--log-format <FORMAT>'",)),
    (("run", b"\xff"), ("error: a word of the command line is not UTF-8; expected UTF-8, also in file names",)),
)

# Options that win over a good gateway file and are wrong, and what is wrong.
OPTIONS: tuple[tuple[tuple[str, ...], str], ...] = (
    (("--links", ""), "command line: links is empty; expected a path"),
    (("--state", ""), "command line: state is empty; expected a path"),
    (("--control", ""), "command line: control is empty; expected a path"),
    (("--control", "DIR"), "command line: control would overwrite DIR, which is not a socket; expected the path of a new socket"),
    (("--control", LONG), f"command line: control is a path of {len(LONG)} octets; expected at most 103"),
    (("--metrics-port", "4000"), "command line: metrics_port is the same as port; expected another port"),
    (("--state", "DIR/folder"), "DIR/folder: it is a directory; expected a state file that this user can read, or none"),
    (("--links", "DIR/folder"), f"DIR/folder: it is a directory; {READABLE}"),
    (("--timed-port", "4000"), "command line: timed_port is the same as port; expected another port"),
    (("--save-seconds", "5"), 'command line: save_seconds needs state; expected state = "FILE" for the saved calls'),
    (("--state", "DIR/links.toml"), f"command line: state would overwrite the links file DIR/links.toml; {OWN}"),
    (("--links", "none.toml"), f"none.toml: {NO_LINKS_FILE}"),
)

# What another user may not read or write: shut.toml and calls have the mode 000, the folder shut 555.
FORBIDDEN: tuple[tuple[tuple[str, ...], int, str], ...] = (
    (("check", "DIR/shut.toml"), 1, f"DIR/shut.toml: permission denied; {A_GATEWAY_FILE}"),
    (("check", "--links", "DIR/shut.toml", "FILE"), 1, f"DIR/shut.toml: permission denied; {READABLE}"),
    (("check", "--state", "DIR/calls", "FILE"), 1, "DIR/calls: permission denied; expected a state file that this user can read, or none"),
    (("run", "DIR/shut.toml"), 3, f"{LINE}DIR/shut.toml: permission denied; {A_GATEWAY_FILE}"),
    (("run", "--links", "DIR/shut.toml", "FILE"), 3, f"{LINE}DIR/shut.toml: permission denied; {READABLE}"),
    (("run", "--control", "DIR/shut/control", "FILE"), 4, f"{LINE}control: DIR/shut/control: permission denied; {WRITABLE}"),
)  # fmt: skip

# A port that most systems keep for root, and the file that says which is the first that isn't.
LOW_PORT = 80
FIRST_PORT = Path("/proc/sys/net/ipv4/ip_unprivileged_port_start")
A_SOCKET = "expected the control socket of a running gateway"
RUNS = f"{A_SOCKET} (systemctl status rohc-gateway@NAME)"
INCOMPLETE = "no complete answer; expected the control socket of a running rohc-gateway"
# What stands at a control socket's path, and what rohctl says of it.
CONTROLS: tuple[tuple[str, str], ...] = (
    ("nothing", f"{MISSING}; {RUNS}"),
    ("notes/control", f"{NO_DIRECTORY}; {A_SOCKET}"),
    ("folder", "it is a directory; expected the control socket in it"),
    ("notes", "it is not a socket; expected the path that the gateway file sets as control"),
    ("stale", "nothing listens there; the gateway that made this socket has ended (systemctl start rohc-gateway@NAME)"),
    ("a" * 108, "the path is too long for a socket; expected at most 107 octets (give a shorter or a relative path)"),
    ("other", INCOMPLETE),
    ("silent", INCOMPLETE),
)
NO_LINK = "link 999 is not in the links file"
NO_MEMORY = "out of memory; new links may be missing until a reload succeeds"
# More than a reload and its answer ask for.
MOST_REQUESTS = 200
NO_STATE = "there is no state file; expected the key state in the gateway file"
# Requests that a gateway refuses, and the text of its answer.
REFUSED: tuple[tuple[tuple[str, ...], str], ...] = (
    (("reset", "--link", "999"), NO_LINK),
    (("calls", "--link", "999"), NO_LINK),
    (("contexts", "--link", "999"), NO_LINK),
    (("watch", "999/0"), NO_LINK),
)
# Changes of a good state file without a context, which has 61 octets, and what is said then. Behind its name stands a
# version, at octet 23 the kind of CIDs, and its last 32 octets are a digest.
STATES: tuple[tuple[Callable[[bytes], bytes], str], ...] = (
    (lambda good: b"", "it is not a state file"),
    (lambda good: b"x" + good[1:], "it is not a state file"),
    (lambda good: good[:9] + b"\1" + good[10:], "it has an unknown version, at octet 9"),
    (lambda good: good[:20], "it is cut off, at octet 20"),
    (lambda good: good[:-1], "it is cut off, at octet 60"),
    (lambda good: good[:23] + b"\2" + good[24:], "it has a bad value, at octet 23"),
    (lambda good: good[:-1] + bytes([good[-1] ^ 1]), "it is damaged: its digest does not match"),
    (lambda good: good + b"x", "octets follow its end, at octet 61"),
)
UNSAVED = "the gateway continues, and the file of the last save stays"
CONTINUES = "the gateway continues with the old links; its next start will refuse this file"


def placed(text: str, folder: Path) -> str:
    """A text of a table with the paths in place of their words."""
    return text.replace('= "FILE"', "= \0").replace("FILE", f"{folder}/gateway.toml").replace("\0", '"FILE"').replace("DIR", str(folder))


def prepare(trial: Trial, name: str) -> Path:
    """A folder with what the tables name."""
    folder = trial.write(f"{name}/links.toml", LINKS).parent
    trial.write(f"{name}/gateway.toml", GOOD)
    trial.write(f"{name}/latin.toml", b"# \xff\n")
    trial.write(f"{name}/long.toml", "#" * (LONGEST + 1))
    trial.write(f"{name}/notes", "no calls")
    trial.write(f"{name}/calls.new", LINKS)
    trial.write(f"{name}/calls.latest", LINKS)
    (folder / "folder").mkdir(exist_ok=True)
    (folder / "to_links").unlink(missing_ok=True)
    (folder / "to_links").symlink_to("links.toml")
    return folder


def same_files(folder: Path) -> dict[str, bytes]:
    """What each file of the folder holds, but for locks, which stay where they are."""
    return {one.name: one.read_bytes() for one in sorted(folder.iterdir()) if one.is_file() and one.suffix != ".lock"}


def refuses(trial: Trial, folder: Path, words: Sequence[str], wanted: Sequence[str]) -> None:
    """`check` and `run` must say these lines of the folder's gateway file, and change no file."""
    program, file = trial.top / PROGRAM, folder / "gateway.toml"
    lines = [placed(line, folder) for line in wanted]
    options = [placed(word, folder) for word in words]
    before = same_files(folder)
    told = trial.ran(program, "check", *options, file)
    trial.same(f"check {words} of {file.read_bytes()[:60]!r}", "\n".join(lines), told.text.rstrip("\n"), told.call)
    trial.demand((told.status, told.said) == (1, ""), f"check: {told.end()}; wanted 1, nothing said", told.call)
    told = trial.ran(program, "run", *options, file, seconds=20)
    trial.same(f"run {words} of {file.read_bytes()[:60]!r}", "\n".join(LINE + line for line in lines), dated(told.said), told.call)
    trial.demand(told.status == 3, f"run: {told.end()}; wanted 3", told.call)
    trial.demand(same_files(folder) == before, f"{lines}: a file was changed")


def check_files(trial: Trial) -> None:
    """Gateway files, links files and options with faults."""
    folder = prepare(trial, "wrong")
    for text, wanted in GATEWAY_FILES:
        trial.write("wrong/gateway.toml", text)
        refuses(trial, folder, (), wanted)
    trial.write("wrong/gateway.toml", GOOD)
    for options, line in OPTIONS:
        refuses(trial, folder, options, (line,))
    for links, wanted in LINKS_FILES:
        trial.write("wrong/links.toml", links)
        refuses(trial, folder, (), wanted)
    program = trial.top / PROGRAM
    long = f"{folder}/{'a' * 300}"
    for file, shown, why in (
        (folder / "absent.toml", folder / "absent.toml", MISSING),
        (folder, folder, "it is a directory"),
        (folder / "notes/x", folder / "notes/x", NO_DIRECTORY),
        (long, long, "the name is too long"),
        ("", "''", MISSING),
    ):
        line = f"{shown}: {why}; {A_GATEWAY_FILE}"
        told = trial.ran(program, "run", file)
        trial.demand((told.status, dated(told.said)) == (3, LINE + line), f"{told.end()}; wanted {line}", told.call)
        told = trial.ran(program, "check", file)
        trial.demand((told.status, told.text) == (1, f"{line}\n"), f"{told.end()}; wanted {line}", told.call)


def check_forbidden(trial: Trial) -> None:
    """Files that another user may not read, and a folder that it may not write."""
    words_before = as_nobody(trial, trial.top / PROGRAM)
    if not words_before:
        return
    folder = prepare(trial, "forbidden")
    for name in ("shut.toml", "calls"):
        trial.write(f"forbidden/{name}", LINKS).chmod(0)
    # Without it there is one save, which may not be read.
    (folder / "calls.latest").unlink()
    (folder / "shut").mkdir(mode=0o555, exist_ok=True)
    for place, mode in (folder, 0o755), (folder / "links.toml", 0o644), (folder / "gateway.toml", 0o644):
        place.chmod(mode)
    for words, status, line in FORBIDDEN:
        told = trial.ran(*words_before, *(placed(word, folder) for word in words), seconds=20)
        wanted = placed(line, folder)
        trial.demand((told.status, dated(told.all.rstrip("\n"))) == (status, wanted), f"{told.end()}; wanted {status}, {wanted}", told.call)
    if int(FIRST_PORT.read_text()) > LOW_PORT:
        told = trial.ran(*words_before, "run", "--port", str(LOW_PORT), folder / "gateway.toml", seconds=20)
        wanted = f"{LINE}port: UDP {LOOPBACK}:{LOW_PORT}: permission denied; expected a port above 1023"
        trial.demand((told.status, dated(told.said)) == (4, wanted), f"{told.end()}; wanted 4, {wanted}", told.call)
    else:
        trial.leave_out(f"port {LOW_PORT}, since any user may bind it here")
    check_unsaved(trial, folder, words_before)
    trial.demand(not list((folder / "shut").iterdir()), "a file in a folder of mode 555")


def check_unsaved(trial: Trial, folder: Path, words_before: Sequence[Word]) -> None:
    """A gateway whose calls can't be saved says so, and continues."""
    with bound() as free:
        port = str(free.getsockname()[1])
    (folder / "open").mkdir(exist_ok=True)
    (folder / "open").chmod(0o777)
    words = ("run", "--port", port, "--state", "shut/calls", "--control", "open/control", "gateway.toml")
    with subprocess.Popen((*words_before, *words), cwd=folder, stderr=subprocess.DEVNULL) as gateway:
        end = time.monotonic() + 20
        while not (folder / "open/control").exists() and time.monotonic() < end:
            time.sleep(0.05)
        for _ in range(2):
            told = asked(trial, folder, "save", "--control", "open/control")
            text = f"shut/calls.latest.new: permission denied; {UNSAVED}"
            wanted = f'{{"fault":"Save","text":"{text}"}}\n'
            trial.demand((told.status, told.text) == (1, wanted), f"save: {told.all}; wanted {wanted}", told.call)
        gateway.terminate()


def check_words(trial: Trial) -> None:
    """Words that are no command: status 2, what is wrong, and what is expected."""
    for words, texts in WORDS:
        told = trial.ran(trial.top / PROGRAM, *words)
        for text in texts:
            trial.demand(told.status == 2 and text in told.said, f"{words}: {told.end()}; wanted '{text}'", told.call)


@contextmanager
def taken(kind: int) -> Iterator[int]:
    """A port that is taken."""
    with bound(kind) as one:
        if kind == socket.SOCK_STREAM:
            one.listen()
        yield int(one.getsockname()[1])


def check_sockets(trial: Trial) -> None:
    """Ports that are taken, paths at which no socket can be bound, and a full standard output: status 4."""
    folder = prepare(trial, "sockets")
    busy = "address already in use; expected a free port (ss -anp shows who uses it)"
    program, file = trial.top / PROGRAM, folder / "gateway.toml"

    def ends(words: Sequence[Word], line: str, status: int = 4) -> None:
        told = trial.ran(program, "run", *words, file, seconds=20)
        wanted = placed(LINE + line, folder)
        trial.demand((told.status, dated(told.said)) == (status, wanted), f"{told.end()}; wanted {status}, {wanted}", told.call)

    with taken(socket.SOCK_DGRAM) as port:
        ends(("--port", str(port)), f"port: UDP {LOOPBACK}:{port}: {busy}")
        file.write_text(f'links = "links.toml"\ntimed_port = {port}\n')
        ends((), f"timed_port: UDP {LOOPBACK}:{port}: {busy}")
    with bound() as free, taken(socket.SOCK_STREAM) as port:
        plain = int(free.getsockname()[1])
        free.close()
        file.write_text(f'links = "links.toml"\nport = {plain}\n')
        ends(("--metrics-port", str(port)), f"metrics_port: TCP {LOOPBACK}:{port}: {busy}")
        for name, why in ("none", "is missing"), ("notes", "is not a directory"):
            line = f"command line: control: DIR/{name} {why}; {A_FOLDER}"
            ends(("--control", str(folder / name / "control")), line, 3)
    check_descriptors(trial, folder)


def check_descriptors(trial: Trial, folder: Path) -> None:
    """Too few file descriptors: each socket needs one more."""
    file = folder / "gateway.toml"
    with bound() as free, bound(socket.SOCK_STREAM) as other:
        port, metrics_port = int(free.getsockname()[1]), int(other.getsockname()[1])
    file.write_text(f'links = "links.toml"\nport = {port}\nmetrics_port = {metrics_port}\ncontrol = "control"\n')
    for count, place in (
        (5, f"port: UDP {LOOPBACK}:{port}"),
        (6, f"metrics_port: TCP {LOOPBACK}:{metrics_port}"),
        (7, f"control: {folder}/control"),
    ):
        told = trial.ran("bash", "-c", f'ulimit -n {count} && exec "$0" run "$1"', trial.top / PROGRAM, file, seconds=20)
        wanted = f"{LINE}{place}: {TOO_MANY}"
        trial.demand((told.status, dated(told.said)) == (4, wanted), f"{count} descriptors: {told.end()}; wanted 4, {wanted}", told.call)


def check_full(trial: Trial) -> None:
    """A standard output that is full."""
    file = trial.write("full/gateway.toml", GOOD)
    trial.write("full/links.toml", LINKS)
    told = trial.ran("bash", "-c", '"$0" check "$1" > /dev/full', trial.top / PROGRAM, file)
    wanted = f"{LINE}standard output: no space left on the device"
    trial.demand((told.status, dated(told.said)) == (4, wanted), f"{told.end()}; wanted 4, {wanted}", told.call)


def listen(path: Path, answer: bytes | None) -> Callable[[], None]:
    """Listens at a path and gives each connection this answer. Without one nothing listens there any more."""
    one = socket.socket(socket.AF_UNIX)
    path.unlink(missing_ok=True)
    one.bind(str(path))
    if answer is None:
        one.close()
        return lambda: None
    one.listen()

    def serve() -> None:
        try:
            while True:
                peer, _ = one.accept()
                with peer:
                    peer.recv(4096)
                    peer.sendall(answer)
        except OSError:
            pass

    threading.Thread(target=serve, daemon=True).start()
    return one.close


def asked(trial: Trial, folder: Path, *words: str) -> Ended:
    """How rohctl ends in a folder."""
    return run(Call((trial.top / ROHCTL, *words), folder=folder), 90)


def check_controls(trial: Trial) -> None:
    """Control sockets that are none, and what rohctl says of each."""
    folder = prepare(trial, "c")
    os.chdir(folder)
    ends = [listen(Path(name), answer) for name, answer in (("stale", None), ("other", b"SSH-2.0-x\r\n\r\n"), ("silent", b""))]
    os.chdir(trial.top)
    for path, why in CONTROLS:
        for words in (("status",), ("reload",), ("calls", "--link", "1")):
            told = asked(trial, folder, *words, "--control", path)
            wanted = (4, "", f"rohctl: {path}: {why}")
            trial.demand((told.status, told.text, told.said) == wanted, f"{words}: {told.all}; wanted {wanted}", told.call)
    for end in ends:
        end()


@contextmanager
def hung(trial: Trial) -> Iterator[Future[Ended]]:
    """How rohctl ends at a control socket whose gateway never answers. That takes it a minute."""
    folder = prepare(trial, "h")
    place = os.open(folder, os.O_RDONLY)
    with socket.socket(socket.AF_UNIX) as one, ThreadPoolExecutor(1) as pool:
        one.bind(f"/proc/self/fd/{place}/hung")
        os.close(place)
        one.listen()
        yield pool.submit(asked, trial, folder, "status", "--control", "hung")


def check_hung(trial: Trial, told: Ended) -> None:
    """A control socket whose gateway never answers."""
    wanted = (4, "", "rohctl: hung: timed out; the gateway is too busy or was stopped (try again)")
    trial.demand((told.status, told.text, told.said) == wanted, f"hung: {told.all}; wanted {wanted}", told.call)


def check_reloads(trial: Trial) -> None:
    """A links file that a running gateway refuses: its faults in the answer and in the log, and what follows."""
    with Receivers() as receivers, Gateway(trial, trial.scratch / "r", receivers.links([1])) as gateway:
        folder = gateway.folder
        for words, text in REFUSED:
            told = asked(trial, folder, *words, "--control", "control")
            wanted = f'{{"fault":"NoLink","text":"{text}"}}\n'
            trial.demand((told.status, told.text) == (1, wanted), f"{words}: {told.all}; wanted {wanted}", told.call)
        for links, lines in LINKS_FILES:
            gateway.write_links(links)
            before = len(gateway.said)
            told = gateway.ask("POST", "/reload")
            wanted_lines = [placed(line, folder) for line in lines]
            trial.demand(told.status == 409 and told.json["text"] == wanted_lines, f"reload: {told}; wanted {wanted_lines}")
            trial.demand(told.json["note"] == CONTINUES and told.json["file"] == f"{folder}/links.toml", f"reload: {told}")
            log = gateway.said[before:].splitlines()
            trial.same("the log", "\n".join(f"<4>rohc-gateway: {line}" for line in wanted_lines), "\n".join(log[:-1]))
            last = f"<4>rohc-gateway: reload refused: {told.json['fault']}; {CONTINUES}"
            trial.demand(log[-1:] == [last], f"reload: {log[-1:]}; wanted {last}")
        many = receivers.links(range(1, 31)).replace("k1 =", "k_1 =")
        gateway.write_links(many)
        told = gateway.ask("POST", "/reload")
        shown = told.json["text"]
        trial.demand(isinstance(shown, list) and len(shown) == 20 and told.json["more"] == 40, f"reload: {told}")
        trial.demand(f"<4>rohc-gateway: rohctl links {folder}/links.toml shows more\n" in gateway.said, f"reload: {gateway.said[-400:]}")
        (folder / "links.toml").unlink()
        told = gateway.ask("POST", "/reload")
        line = f"{folder}/links.toml: {NO_LINKS_FILE}"
        trial.demand((told.status, told.json["fault"], told.json["text"]) == (409, "Unreadable", [line]), f"reload: {told}")


def check_poor_reload(trial: Trial) -> None:
    """A reload for which there is no memory: each of its requests is refused in turn. The gateway continues."""
    number = trial.scratch / "number"
    environment = {"LD_PRELOAD": str(trial.compiled("tools/refuse_request.c")), "REFUSED_FROM": str(number)}
    answers: Counter[str] = Counter()
    with Receivers() as receivers:
        gateway = Gateway(trial, trial.scratch / "m", receivers.links([1]), environment=environment)
        with gateway:
            for request in range(1, MOST_REQUESTS):
                gateway.write_links(receivers.links([1, 2 + request % 2]))
                number.write_text(f"{request}\n")
                told = gateway.ask("POST", "/reload")
                text = told.json.get("text", "") if told.status == 500 else ""
                answers["no memory" if text == NO_MEMORY else str(told.status)] += 1
                if number.exists():
                    trial.demand(False, "REFUSED_FROM isn't read")
                    return
            trial.demand(gateway.ask("POST", "/reload").status == 200, f"a reload after them all: {gateway.said[-400:]}")
            trial.demand(f"reload refused: {NO_MEMORY}\n" in gateway.said, f"the log: {gateway.said[-400:]}")
    good = answers["no memory"] > 0 and answers["200"] > 0 and set(answers) <= {"no memory", "200", "0", "500"}
    trial.demand(good, f"reloads without memory: {dict(answers)}")


def check_waiting(trial: Trial) -> None:
    """A system that lets no one wait: the gateway ends, and says why."""
    folder = prepare(trial, "waiting")
    with bound() as free:
        port = int(free.getsockname()[1])
    (folder / "gateway.toml").write_text(f'links = "links.toml"\nport = {port}\n')
    environment = {"LD_PRELOAD": str(trial.compiled("tools/failing_calls.c")), "FAILED_WAIT": "1"}
    told = trial.ran(trial.top / PROGRAM, "run", folder / "gateway.toml", environment=environment, seconds=20)
    wanted = f"{LINE}waiting for datagrams failed: Input/output error (os error 5)"
    trial.demand(told.status == 4 and dated(told.said).endswith(wanted), f"{told.end()}; wanted 4, {wanted}", told.call)


def check_states(trial: Trial) -> None:
    """State files that are damaged."""
    with Receivers() as receivers, Gateway(trial, trial.scratch / "d", receivers.links([1])) as gateway:
        trial.demand(gateway.ask("POST", "/save").status == 200, "no state file")
        file = gateway.folder / "calls.latest"
        good = file.read_bytes()
        for damage, why in STATES:
            file.write_bytes(damage(good))
            told = trial.ran(trial.top / PROGRAM, "check", gateway.file)
            wanted = f"{file}: {why}; {WHOLE}\n"
            trial.demand((told.status, told.text) == (1, wanted), f"{damage(good)!r}: {told.end()}, {told.text}; wanted {wanted}", told.call)


def check_objects(trial: Trial) -> None:
    """With log_format = "json" each line is an object, also of what is wrong at the start."""
    folder = prepare(trial, "objects")
    program, file = trial.top / PROGRAM, folder / "gateway.toml"
    name = 'a"\\\x1b\u00e9.toml'
    for words, text, wanted in (
        (("--log-format", "json"), "port = 4000\n", (f'{file}: links is missing; expected links = "FILE"',)),
        (("--log-format", "json"), "= 4000\n", (f"{file}:1: not TOML: invalid key; expected letters, numbers, `-`, `_` or a quoted key",)),
        ((), GOOD + 'log_format = "json"\nprot = 1\nstate = ""\n', (
            f'{file}:4: unknown key "prot"; did you mean port?',
            f'{file}:5: state is ""; expected a path in quotes',
        )),
        (("--links", name), GOOD + 'log_format = "json"\n', (f"{name}: {NO_LINKS_FILE}",)),
        (("--log-format", "text"), GOOD + 'log_format = "json"\nprot = 1\n', ()),
    ):  # fmt: skip
        file.write_text(text)
        told = trial.ran(program, "run", *words, file, seconds=20)
        if not wanted:
            line = f'{LINE}{file}:4: unknown key "prot"; did you mean port?'
            trial.demand((told.status, dated(told.said)) == (3, line), f"{words}: {told.end()}", told.call)
            continue
        rows = [json.loads(line) for line in told.said.splitlines()]
        fits = told.said.isascii() and [(row["level"], row["text"]) for row in rows] == [("error", line) for line in wanted]
        trial.demand(told.status == 3 and fits, f"{words}: {told.end()}; wanted {wanted}", told.call)
        trial.demand(all(dated(row["time"] + " ") == "DATE " for row in rows), f"{words}: {told.said}", told.call)


def check_stateless(trial: Trial) -> None:
    """A gateway without a state file can't save."""
    with Receivers() as receivers:
        gateway = Gateway(trial, trial.scratch / "s", receivers.links([1]))
        gateway.file.write_text(re.sub(r"^(state|save_seconds) = .*\n", "", gateway.file.read_text(), flags=re.MULTILINE))
        with gateway:
            told = asked(trial, gateway.folder, "save", "--control", "control")
            wanted = f'{{"fault":"NoState","text":"{NO_STATE}"}}\n'
            trial.demand((told.status, told.text) == (1, wanted), f"save: {told.all}; wanted {wanted}", told.call)


def check_locks(trial: Trial) -> None:
    """A second gateway over a state file or a control socket doesn't start, and says who has it. After a kill one does."""
    with Receivers() as receivers:
        first = Gateway(trial, trial.scratch / "l", receivers.links([1]))
        other = Gateway(trial, trial.scratch / "l2", receivers.links([1]))
        own = other.file.read_text()
        with first:
            before = first.ask("POST", "/save").status, same_files(first.folder)
            for key, name in (("state", "calls"), ("control", "control")):
                path = first.folder / name
                other.file.write_text(own.replace(f'{key} = "{name}"', f'{key} = "{path}"'))
                told = trial.ran(trial.top / PROGRAM, "run", other.file, seconds=20)
                held = f"{LINE}{key}: {path}.lock: locked by another gateway ({first.file}); "
                wanted = f"{held}expected a {key} that no other gateway uses"
                trial.demand((told.status, dated(told.said)) == (3, wanted), f"{key}: {told.end()}; wanted 3, {wanted}", told.call)
                told = trial.ran(trial.top / PROGRAM, "check", other.file)
                trial.demand((told.status, told.text) == (0, "good\n"), f"check takes no lock: {told.end()}", told.call)
            after = first.ask("GET", "/ready").status, same_files(first.folder)
            trial.demand(after == before, "a refused gateway changed the files of another one")
            first.kill()
            other.file.write_text(own.replace('state = "calls"', f'state = "{first.folder}/calls"'))
            with other:
                trial.demand(other.ask("POST", "/save").status == 200, f"after a kill: {other.said}")


def check_buffers(trial: Trial) -> None:
    """What the sockets got for datagrams that wait, and what to do if that is less than was asked for."""
    with Receivers() as receivers:
        for wanted, words in ((4 << 20, ""), (1 << 16, "receive_buffer = 65536\n"), (1 << 30, "receive_buffer = 1073741824\n")):
            gateway = Gateway(trial, trial.scratch / f"b{wanted}", receivers.links([1]))
            gateway.file.write_text(gateway.file.read_text() + words)
            level, text = told_room(wanted)
            line = f"<{4 if level == 'warning' else 6}>rohc-gateway: {text}\n"
            with gateway:
                trial.demand(line in gateway.said, f"{words}{gateway.said}; wanted {line}")


def check(trial: Trial) -> None:
    """All of it."""
    with hung(trial) as told:
        check_words(trial)
        check_files(trial)
        check_forbidden(trial)
        check_sockets(trial)
        check_full(trial)
        check_controls(trial)
        check_reloads(trial)
        check_poor_reload(trial)
        check_waiting(trial)
        check_states(trial)
        check_stateless(trial)
        check_locks(trial)
        check_buffers(trial)
        check_objects(trial)
        check_hung(trial, told.result())
    calls = sum(map(len, (GATEWAY_FILES, LINKS_FILES, WORDS, OPTIONS, FORBIDDEN, CONTROLS, REFUSED)))
    trial.say(f"wrong: {calls} wrong calls, each answered by what is wrong and what to do")
