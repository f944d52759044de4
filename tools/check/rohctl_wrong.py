"""Calls rohctl wrongly in many ways: each answer must name what is wrong and what to do, and no file may change."""

import os
import pty
import re
import socket
import struct
import subprocess
import threading
from collections.abc import Iterator
from contextlib import contextmanager
from pathlib import Path

from nobody import as_nobody
from program import Call, run
from rohctl_capture import pcapng
from trial import Trial

PROGRAM = "crates/rohctl/out/rohctl"
LINKS = "examples/links.toml"
PLAIN = "examples/plain-call.script"
TWO_LINKS = "examples/two-links.toml"
TWO_HOSTS = "examples/two-hosts.toml"

# A word with control characters, of C0 and of C1, and how it is shown.
HOSTILE, ESCAPED = "\x1b[31m\x07\x9b", "\\u{1b}[31m\\u{7}\\u{9b}"
# A head of pcap for Ethernet frames, a frame of ROHC and one of ARP (RFC 826).
HEAD = struct.pack(">IHHiIII", 0xA1B2C3D4, 2, 4, 0, 0, 262_144, 1)
ROHC_FRAME = bytes.fromhex("020000000001" "020000000002" "22f1" "fc00b745aa")
ARP_FRAME = bytes.fromhex("020000000001" "020000000002" "0806") + bytes(28)
DATAGRAM = bytes.fromhex("020000000001" "020000000002" "0800" "4500002000004000401100007f0000017f000001" "13881388000c0000" "45aa0000")

RULES = "rohctl: --link, --vlan or --port is missing; expected the link of the capture's frames, as --link 1, --vlan 5=1 or --port 5000=1"
PACKET = "expected two hexadecimal digits for each octet, as fc00b745aa or fc 00 b7 45 aa"
CALL_WORD = "expected LINK/CID, as 1/0: each from 0 to 65535"
VLAN_WORD = "expected VLAN=LINK, as 5=1: a VLAN from 0 to 4095, a link from 0 to 65535"
PORT_WORD = "expected PORT or PORT=LINK, as 5000=1: each from 0 to 65535"
NEW_WORD = "expected a number of links, 1 to 256"
WINDOW_WORD = "expected K/N, with K from 1 to N and N from 1 to 16"
MISSING = "no such file or directory"
CARRIAGE = "none of 7 lines is an event; they end with a carriage return (remove it: tr -d '\\r')"
ETHER_TYPE = "expected a number from 0x0600 to 0xffff, as 0x88b5, and not that of IPv4 or of a VLAN tag"
OWN_LINK = "expected the link of the packets that --ethertype or --linktype finds, as --link 1"
NO_FRAME = "nothing to show: no frame matches; the capture has"
EXPLAIN = ("explain", "--links", "links.toml")
FIND = ("find", "--links", "links.toml", "--input", "call.script")
DECOMPRESS = ("decompress", "--links", "links.toml")
LINK_1 = ("--link", "1")
OVER_LINKS = "refusing to overwrite the input links.toml; choose another output"
OVER_CAPTURE = "refusing to overwrite the input rohc.pcap; choose another output"
OVER_SCRIPT = "refusing to overwrite the input call.script; choose another output"
TWICE = "two outputs would be written to it; choose another for one of them"
EVENTS = "expected a script, with lines such as 'arrive 1 0 fc00b745aa'"
NO_ARRIVAL = "nothing to show: it has resets but no arrival; expected lines such as 'arrive 1 0 fc00b745aa'"
BEYOND = "a packet is too long for a capture, or its time too late (try --pcapng)"
A_CAPTURE = "it is a capture; expected a script ('rohctl script' converts a capture into one)"
NO_CAPTURE = "not a capture; expected pcap or pcapng"
NO_LINK = "; 'rohctl links' lists those it has"
NEEDS_LINKS = "a script or a capture needs --links; without it packets in hexadecimal digits are expected, as fc00b745aa"
SCRIPT_LINKS = "the links file of a script or a capture"
SINCE_LINKS = "expected the links file, since --link, --line, --frame or --call is given"
ONLY_ONE = "expected only one of --line, --lines, --frame, --frames and --call"
OF_A_LINK = "expected a frame that --link, --vlan or --port matches"
TIME_WORD = "expected milliseconds of a script, seconds of a capture, or a time of day, as 1200, 1700000000.25 or 22:13:20.25"
TIMELESS = "nothing to show: no packet matches --since and --until; its packets are at"
ADDRESS_WORD = "expected an IPv4 address, with or without a port, as 10.0.0.1 or 10.0.0.1:5000"
NO_DIGEST = "not a digest and a path; expected a line as sha256sum writes it"
BOTH_INPUTS = "expected a file, since the links file is standard input"
A_GATEWAY = "expected the control socket of the gateway, or --name NAME, or the variable ROHC_CONTROL"
A_NAME = "expected the name of a gateway, without /"
RUNNING = "expected the control socket of a running gateway (systemctl status rohc-gateway@NAME)"
ABSENT = "error: the following required arguments were not provided:\n  "

# The words, the status, and what stands on standard error or, for the parser's own faults, begins it.
WRONG: tuple[tuple[tuple[str | bytes, ...], int, str], ...] = (
    ((), 2, "Diagnose ROHC links"),
    ((b"\xff",), 2, "rohctl: a word of the command line is not UTF-8; expected UTF-8, also in file names"),
    (("help", "frob"), 2, "error: unrecognized subcommand 'frob'"),
    (("frob",), 2, "error: unrecognized subcommand 'frob'"),
    (("totals", "--frob"), 2, "error: unexpected argument '--frob' found"),
    (("totals", "--json", "--prometheus"), 2, "error: the argument '--json' cannot be used with '--prometheus'"),
    (("totals", "a", "b"), 2, "error: unexpected argument 'b' found"),
    (("trace",), 2, "error: the following required arguments were not provided:\n  --links <FILE>"),
    (("links",), 2, "error: the following required arguments were not provided:\n  <FILE>"),
    (("diff", "a"), 2, "error: the following required arguments were not provided:\n  <B>"),
    (("stop",), 2, f"rohctl: --control is missing; {A_GATEWAY}"),
    (("reset",), 2, f"{ABSENT}--link <NUMBER>"),
    (("watch", "1/0"), 2, f"rohctl: --control is missing; {A_GATEWAY}"),
    (("top",), 2, f"rohctl: --control is missing; {A_GATEWAY}"),
    (("calls", "--link", "1", "--name", ""), 2, f"rohctl: --name '': {A_NAME}"),
    (("status", "--name", "a/b"), 2, f"rohctl: --name a/b: {A_NAME}"),
    (("status", "--name", ".."), 2, f"rohctl: --name ..: {A_NAME}"),
    (("status", "--name", "nothing"), 4, f"rohctl: /run/rohc-gateway/nothing/control: {MISSING}; {RUNNING}"),
    (("status", "--control", "nothing", "--name", "a/b"), 4, f"rohctl: nothing: {MISSING}; {RUNNING}"),
    (("status", "--control"), 2, "error: a value is required for '--control <SOCKET>' but none was supplied"),
    (("totals", "--color", "red"), 2, "rohctl: --color red: expected auto, always or never"),
    (("--color", "red", "totals"), 2, "rohctl: --color red: expected auto, always or never"),
    (("totals", "--color", ""), 2, "rohctl: --color '': expected auto, always or never"),
    (("--color",), 2, "error: a value is required for '--color <WHEN>' but none was supplied"),
    (("totals", "--json=yes"), 2, "error: unexpected value 'yes' for '--json' found"),
    (("totals", "nothing"), 4, f"rohctl: nothing: cannot read it: {MISSING}"),
    (("totals", ""), 4, f"rohctl: '': cannot read it: {MISSING}"),
    (("totals", "a" * 300), 4, f"rohctl: {'a' * 300}: cannot read it: the name is too long"),
    (("links", "--new", "links.toml"), 2, f"rohctl: --new links.toml: {NEW_WORD}"),
    (("links", "--new", "0"), 2, f"rohctl: --new 0: {NEW_WORD}"),
    (("links", "--new", "257"), 2, f"rohctl: --new 257: {NEW_WORD}"),
    (("links", "--new", ""), 2, f"rohctl: --new '': {NEW_WORD}"),
    (("links", "links.toml", "--new"), 2, "error: the argument '[FILE]...' cannot be used with '--new"),
    (("links", "nothing", "links.toml"), 3, f"rohctl: links file nothing: cannot read it: {MISSING}"),
    (("links", ""), 3, f"rohctl: links file '': cannot read it: {MISSING}"),
    (("links", "nothing"), 3, f"rohctl: links file nothing: cannot read it: {MISSING}"),
    (("totals", "."), 4, "rohctl: .: cannot read it: it is a directory"),
    (("totals", "links.toml/x"), 4, "rohctl: links.toml/x: cannot read it: a part of the path is not a directory"),
    (("run",), 2, f"{ABSENT}--links <FILE>"),
    (("run", "--links", "nothing", "call.script"), 3, f"rohctl: links file nothing: cannot read it: {MISSING}"),
    (("run", "--links", "links.toml", "nothing"), 4, f"rohctl: nothing: cannot read it: {MISSING}"),
    (("run", "--links", "links.toml", "--state", "nothing", "call.script"), 4, f"rohctl: nothing: cannot read it: {MISSING}"),
    (("run", "--links", "links.toml", "--state", ".", "call.script"), 4, "rohctl: .: cannot read it: it is a directory"),
    (("run", "--links", "links.toml", "--state", "-", "call.script"), 2, "rohctl: --state -: expected a file, as rohc-gateway writes it"),
    (("run", "--links", "links.toml", "--state", "call.script", "call.script"), 4,
     "rohctl: call.script: it is not a state file; expected a complete state file of this version"),
    (("run", "--links", "links.toml", "rohc.pcap"), 6, f"rohctl: rohc.pcap: nothing to show: {A_CAPTURE}"),
    (("run", "--links", "-"), 2, f"rohctl: SCRIPT -: {BOTH_INPUTS}"),
    ((*EXPLAIN, "--state", "nothing", "call.script"), 4, f"rohctl: nothing: cannot read it: {MISSING}"),
    (("explain", "--state", "nothing", "45"), 2, f"{ABSENT}--links <FILE>"),
    (("report", "--links", "links.toml", "--state", "nothing", "call.script"), 4, f"rohctl: nothing: cannot read it: {MISSING}"),
    (("report", "--links", "links.toml", "--state", "-", "call.script"), 2, "rohctl: --state -: expected a file, as rohc-gateway writes it"),
    (("report", "--links", "links.toml", "--state", "call.script", "call.script"), 4,
     "rohctl: call.script: it is not a state file; expected a complete state file of this version"),
    (("trace", "--links", "nothing", "call.script"), 3, f"rohctl: links file nothing: cannot read it: {MISSING}"),
    (("trace", "--links", ".", "call.script"), 3, "rohctl: links file .: cannot read it: it is a directory"),
    (("trace", "--links", "latin.toml", "call.script"), 3, "rohctl: links file latin.toml: cannot read it: it is not UTF-8"),
    (("trace", "--links", "long.toml", "call.script"), 3, "rohctl: links file long.toml: cannot read it: it is longer than 1048576 octets"),
    (("trace", "--links", "twice.toml", "call.script"), 3, "rohctl: twice.toml:16: k1 is given twice; remove one of the two"),
    (("trace", "--links", "one.toml", "call.script"), 3, "rohctl: one.toml:2: [link] is one table; write [[link]] before each link"),
    (("trace", "--links", "bare.toml", "call.script"), 3, "rohctl: bare.toml:6: O needs quotes; write \"O\""),
    (("trace", "--links", "near.toml", "call.script"), 3,
     "rohctl: near.toml:7: link 1: unknown key \"k_1\"; did you mean k1?\nrohctl: near.toml:2: link 1: k1 is missing; expected a number from 1 to n1"),
    (("trace", "--links", "empty", "call.script"), 3,
     "rohctl: empty: version is missing; expected 1 or 2\nrohctl: empty: link is missing; expected 1 to 256 tables [[link]]"),
    (("trace", "--links", "faults.toml", "call.script"), 3,
     "rohctl: faults.toml:7: link 1: k1 is 0; expected a number from 1 to n1\n"
     "rohctl: faults.toml:8: link 1: n1 is 0; expected a number from 1 to 64\n"
     "rohctl: faults.toml:9: link 1: k2 is 0; expected a number from 1 to n2\n"
     "rohctl: faults.toml: 1 more; 'rohctl links' shows all"),
    (("trace", "--links", "links.toml", "nothing"), 4, f"rohctl: nothing: cannot read it: {MISSING}"),
    (("trace", "--links", "links.toml", "rohc.pcap"), 1, f"rohctl: rohc.pcap: {A_CAPTURE}"),
    (("trace", "--links", "-"), 2, f"rohctl: SCRIPT -: {BOTH_INPUTS}"),
    (("diff", "nothing", "call.script"), 4, f"rohctl: nothing: cannot read it: {MISSING}"),
    (("diff", "call.script", "."), 4, "rohctl: .: cannot read it: it is a directory"),
    (("spread", "links.toml"), 2, f"{ABSENT}--hosts <FILE>"),
    (("spread", "-", "--hosts", "-"), 2, f"rohctl: --hosts -: {BOTH_INPUTS}"),
    (("spread", "links.toml", "--hosts", "latin.toml"), 4, "rohctl: latin.toml: cannot read it: it is not UTF-8"),
    (("spread", "links.toml", "--hosts", "long.toml"), 4, "rohctl: long.toml: cannot read it: it is longer than 1048576 octets"),
    (("spread", "two-links.toml", "--hosts", "two-hosts.toml", "--out", "."), 2,
     "rohctl: .: refusing to overwrite the input two-hosts.toml; choose another output"),
    (("spread", "two-links.toml", "--hosts", "two-hosts.toml", "--out", "nothing"), 4, f"rohctl: nothing: cannot write to it: {MISSING}"),
    (("spread", "links.toml", "--hosts", "nothing"), 4, f"rohctl: nothing: cannot read it: {MISSING}"),
    (("plan", "--damage", "200"), 2, "rohctl: --damage 200: expected a percentage from 0 to 100, as 2"),
    (("plan", "--damage", "nan"), 2, "rohctl: --damage nan: expected a percentage from 0 to 100, as 2"),
    (("plan", "--damage", "-1"), 2, "error: unexpected argument '-1' found"),
    (("plan", "--packet-ms", "60001"), 2, "rohctl: --packet-ms 60001: expected milliseconds, 0 to 60000"),
    (("plan", "--split", "2"), 2, f"{ABSENT}--links <FILE>"),
    (("plan", "--links", "links.toml"), 2, f"{ABSENT}--split <COUNT>"),
    (("plan", "--links", "nothing", "--split", "2"), 3, f"rohctl: links file nothing: cannot read it: {MISSING}"),
    (("plan", "--links", "links.toml", "--split", "257"), 2, "rohctl: --split 257: expected a number of processes, 1 to 256"),
    (("plan", "--packet-ms", "x"), 2, "rohctl: --packet-ms x: expected milliseconds, 0 to 60000"),
    (("plan", "--window", "4/3"), 2, f"rohctl: --window 4/3: {WINDOW_WORD}"),
    (("plan", "--window", "4"), 2, f"rohctl: --window 4: {WINDOW_WORD}"),
    (("plan", "--window", "0/0"), 2, f"rohctl: --window 0/0: {WINDOW_WORD}"),
    (("plan", "--window", "1/17"), 2, f"rohctl: --window 1/17: {WINDOW_WORD}"),
    (("plan", "--calls", "many"), 2, "rohctl: --calls many: expected a number of calls, as 10000"),
    (("plan", "--links", "links.toml", "--split", "0"), 2, "rohctl: --split 0: expected a number of processes, 1 to 256"),
    (("watch", "--control", "nothing", "2"), 2, f"rohctl: CALL 2: {CALL_WORD}"),
    (("reset", "--control", "nothing", "--link", "70000"), 2, "rohctl: --link 70000: expected a number from 0 to 65535"),
    (("reset", "--control", "nothing", "--link", "1", "--cid", "x"), 2, "rohctl: --cid x: expected a number from 0 to 65535"),
    (("reset", "--control", "nothing"), 2, f"{ABSENT}--link <NUMBER>"),
    (("contexts", "--control", "nothing", "--link", "x"), 2, "rohctl: --link x: expected a number from 0 to 65535"),
    (("calls", "--control", "nothing", "--link", ""), 2, "rohctl: --link '': expected a number from 0 to 65535"),
    (("watch", "--control", "nothing"), 2, f"{ABSENT}<CALL>"),
    (("watch", "--control", "nothing", "1/70000"), 2, f"rohctl: CALL 1/70000: {CALL_WORD}"),
    (("status", "--control", ""), 4, "rohctl: '': invalid argument; expected the control socket of a running gateway"),
    (("verify",), 2, f"{ABSENT}<LIST>"),
    (("verify", "nothing"), 4, f"rohctl: nothing: cannot read it: {MISSING}"),
    (("verify", "."), 4, "rohctl: .: cannot read it: it is a directory"),
    (("verify", "latin.toml"), 4, "rohctl: latin.toml: cannot read it: it is not UTF-8"),
    (("verify", "long.toml"), 4, "rohctl: long.toml: cannot read it: it is longer than 1048576 octets"),
    (("verify", "empty"), 6, "rohctl: empty: nothing to show: it has no digest; expected a list as sha256sum writes it"),
    (("diff", "-", "-"), 2, "rohctl: B -: expected a file, since A is standard input"),
    ((*EXPLAIN, "--line", "x", "call.script"), 2, "rohctl: --line x: expected the number of a line, from 1"),
    ((*EXPLAIN, "--line", "0", "call.script"), 2, "rohctl: --line 0: expected the number of a line, from 1"),
    ((*EXPLAIN, "--lines", "3", "call.script", "--frame", "1"), 2, f"rohctl: --frame 1: {ONLY_ONE}"),
    ((*EXPLAIN, "--line", "1", "--call", "1/0", "call.script"), 2, f"rohctl: --line 1: {ONLY_ONE}"),
    ((*EXPLAIN, "--lines", "3-2", "call.script"), 2, "rohctl: --lines 3-2: expected the first and the last line, as 3-7"),
    ((*EXPLAIN, "--lines", "0-2", "call.script"), 2, "rohctl: --lines 0-2: expected the first and the last line, as 3-7"),
    ((*EXPLAIN, *LINK_1, "--frame", "1-2", "rohc.pcap"), 2, "rohctl: --frame 1-2: expected the number of a frame, from 1"),
    ((*EXPLAIN, *LINK_1, "--frames", "x", "rohc.pcap"), 2, "rohctl: --frames x: expected the first and the last frame, as 3-7"),
    ((*EXPLAIN, *LINK_1, "--line", "1", "rohc.pcap"), 2, "rohctl: --frame or --frames is missing; expected frames, since the input is a capture"),
    ((*EXPLAIN, "--frame", "1", "call.script"), 2, "rohctl: --line or --lines is missing; expected lines, since the input is a script"),
    ((*EXPLAIN, *LINK_1, "--line", "1", "45"), 2, "rohctl: INPUT is missing; expected a script or a capture, since lines or frames of it are asked for"),
    ((*EXPLAIN, "--brief", "--json", "call.script"), 2, "error: the argument '--brief' cannot be used with '--json'"),
    ((*EXPLAIN, "nothing"), 4, f"rohctl: nothing: cannot read it: {MISSING}"),
    (("explain", "--links", "-"), 2, f"rohctl: INPUT -: {BOTH_INPUTS}"),
    (("explain", "--links", "-", *LINK_1, "-"), 2, f"rohctl: INPUT -: {BOTH_INPUTS}"),
    ((*EXPLAIN, "--call", "7", "call.script"), 2, f"rohctl: --call 7: {CALL_WORD}"),
    ((*EXPLAIN, "--call", "70000/0", "call.script"), 2, f"rohctl: --call 70000/0: {CALL_WORD}"),
    ((*EXPLAIN, "--link", "x", "45"), 2, "rohctl: --link x: expected a number from 0 to 65535"),
    ((*EXPLAIN, *LINK_1), 6, f"rohctl: standard input: nothing to show: it is empty; {EVENTS}"),
    ((*EXPLAIN, *LINK_1, "nothing.pcap"), 4, f"rohctl: nothing.pcap: cannot read it: {MISSING}"),
    ((*EXPLAIN, *LINK_1, "fc0"), 2, f"rohctl: the packet has 3 digits; {PACKET}"),
    ((*EXPLAIN, *LINK_1, "hello"), 2, f"rohctl: the packet has 'h'; {PACKET}"),
    ((*EXPLAIN, *LINK_1, "fc", "00", "b"), 2, f"rohctl: the packet has 5 digits; {PACKET}"),
    ((*EXPLAIN, *LINK_1, "fc", "00", "call.script"), 2, f"rohctl: the packet has 'l'; {PACKET}"),
    ((*EXPLAIN, "fc", "00"), 2, "rohctl: INPUT 00: expected one script or capture; packets in hexadecimal digits need --link"),
    (("explain",), 2, f"rohctl: --links is missing; expected {SCRIPT_LINKS}, or a packet in hexadecimal digits, as fc00b745aa"),
    (("explain", "-"), 2, f"rohctl: standard input: {NEEDS_LINKS}"),
    (("explain", "call.script"), 2, f"rohctl: call.script: {NEEDS_LINKS}"),
    (("explain", "fc", "call.script"), 2, f"rohctl: call.script: {NEEDS_LINKS}"),
    (("explain", "rohc.pcap"), 2, f"rohctl: rohc.pcap: {NEEDS_LINKS}"),
    (("explain", "nothing"), 2, f"rohctl: the packet has 'n'; {PACKET}"),
    (("explain", "\x1b[2J"), 2, f"rohctl: the packet has '\\u{{1b}}'; {PACKET}"),
    (("explain", "fc0"), 2, f"rohctl: the packet has 3 digits; {PACKET}"),
    (("explain", "--large", ""), 2, f"rohctl: the packet has no digits; {PACKET}"),
    (("explain", "--line", "1", "45"), 2, f"rohctl: --links is missing; {SINCE_LINKS}"),
    (("explain", "--call", "1/0", "45"), 2, f"rohctl: --links is missing; {SINCE_LINKS}"),
    (("explain", *LINK_1, "45"), 2, f"rohctl: --links is missing; {SINCE_LINKS}"),
    ((*EXPLAIN, "--large", "45"), 2, "error: the argument '--links <FILE>' cannot be used with '--large'"),
    ((*EXPLAIN, *LINK_1, ""), 2, f"rohctl: the packet has no digits; {PACKET}"),
    ((*EXPLAIN, "--link", "7", "45ab"), 6, f"rohctl: links.toml: nothing to show: it has no link 7{NO_LINK}"),
    ((*EXPLAIN, "--call", "7/99", "call.script"), 6, f"rohctl: links.toml: nothing to show: it has no link 7{NO_LINK}"),
    ((*EXPLAIN, "--call", "1/9", "call.script"), 6,
     "rohctl: call.script: nothing to show: no packet of link 1, CID 9; without --call all packets are shown"),
    ((*EXPLAIN, "--line", "999999", "call.script"), 6, "rohctl: call.script: nothing to show: there is no line 999999; the last line is 7"),
    ((*EXPLAIN, "--line", "5", "call.script"), 6,
     "rohctl: call.script: nothing to show: line 5 is not an arrival; expected the number of a line such as 'arrive 1 0 fc00b745aa'"),
    ((*EXPLAIN, "links.toml"), 6, f"rohctl: links.toml: nothing to show: none of 15 lines is an event; {EVENTS}"),
    ((*EXPLAIN, "rohc.pcap"), 2, RULES),
    ((*EXPLAIN, "--link", "7", "rohc.pcap"), 6, f"rohctl: links.toml: nothing to show: it has no link 7{NO_LINK}"),
    ((*EXPLAIN, *LINK_1, "--frame", "2", "rohc.pcap"), 6, "rohctl: rohc.pcap: nothing to show: there is no frame 2; the last frame is 1"),
    ((*EXPLAIN, *LINK_1, "--frame", "2", "mixed.pcap"), 6, f"rohctl: mixed.pcap: nothing to show: frame 2 has no packet of a link; {OF_A_LINK}"),
    ((*EXPLAIN, *LINK_1, "--frames", "2-3", "mixed.pcap"), 6, f"rohctl: mixed.pcap: nothing to show: frames 2 to 3 have no packet of a link; {OF_A_LINK}"),
    ((*EXPLAIN, "--lines", "4-5", "call.script"), 6,
     "rohctl: call.script: nothing to show: lines 4 to 5 are not arrivals; expected the number of a line such as 'arrive 1 0 fc00b745aa'"),
    ((*EXPLAIN, *LINK_1, "--call", "1/9", "rohc.pcap"), 6,
     "rohctl: rohc.pcap: nothing to show: no packet of link 1, CID 9; without --call all packets are shown"),
    ((*EXPLAIN, *LINK_1, "--since", "2", "rohc.pcap"), 6, f"rohctl: rohc.pcap: {TIMELESS} 1.000 (00:00:01.000) to 1.000 (00:00:01.000)"),
    ((*EXPLAIN, *LINK_1, "arp.pcap"), 6, f"rohctl: arp.pcap: {NO_FRAME} EtherType 0x0806 in 1 frame (pass --ethertype 0x0806 --link LINK if it carries ROHC)"),
    ((*EXPLAIN, *LINK_1, "none.pcap"), 6, "rohctl: none.pcap: nothing to show: the capture has no frame"),
    ((*EXPLAIN, *LINK_1, "cut.pcap"), 4, "rohctl: cut.pcap: the capture is cut off in the record at octet 24; the frames before it were read"),
    ((*EXPLAIN, "empty"), 6, f"rohctl: empty: nothing to show: it is empty; {EVENTS}"),
    (EXPLAIN, 6, f"rohctl: standard input: nothing to show: it is empty; {EVENTS}"),
    ((*EXPLAIN, "resets.script"), 6, f"rohctl: resets.script: {NO_ARRIVAL}"),
    ((*EXPLAIN, "carriage.script"), 6, f"rohctl: carriage.script: nothing to show: {CARRIAGE}"),
    (("trace", "--links", "links.toml", "carriage.script"), 1, "rohctl: carriage.script: lines end with a carriage return; remove it: tr -d '\\r'"),
    (("report", "--links", "links.toml", "-o", "new", "carriage.script"), 6, f"rohctl: carriage.script: nothing to show: {CARRIAGE}"),
    (("report", "--links", "links.toml", "rohc.pcap"), 2, RULES),
    (("report", "--links", "links.toml", "empty"), 6, f"rohctl: empty: nothing to show: it is empty; {EVENTS}"),
    (("report", "--links", "links.toml", "links.toml"), 6, f"rohctl: links.toml: nothing to show: none of 15 lines is an event; {EVENTS}"),
    (("report", "--links", "links.toml", "nothing"), 4, f"rohctl: nothing: cannot read it: {MISSING}"),
    (("report", "--links", "-"), 2, f"rohctl: INPUT -: {BOTH_INPUTS}"),
    (("report", "--links", "links.toml", "--link", "9", "rohc.pcap"), 6, f"rohctl: links.toml: nothing to show: it has no link 9{NO_LINK}"),
    (("report", "--links", "links.toml", *LINK_1, "cut.pcap", "-o", "new"), 4, "rohctl: cut.pcap: the capture is cut off in the record at octet 24; the frames before it were read"),
    (("report", "--links", "links.toml", "-o", "links.toml", "call.script"), 2, f"rohctl: links.toml: {OVER_LINKS}"),
    (("report", "--links", "links.toml", "-o", "hard", "call.script"), 2, f"rohctl: hard: {OVER_SCRIPT}"),
    (("report", "--links", "links.toml", "-o", "nothing/page", "call.script"), 4, f"rohctl: nothing/page: cannot write to it: {MISSING}"),
    (("report", "--links", "links.toml", "--call", "1", "call.script"), 2, f"rohctl: --call 1: {CALL_WORD}"),
    (("report", "--links", "links.toml", "--since", "noon", "call.script"), 2, f"rohctl: --since noon: {TIME_WORD}"),
    ((*EXPLAIN, "--until", "24:00:00", "call.script"), 2, f"rohctl: --until 24:00:00: {TIME_WORD}"),
    ((*EXPLAIN, "--since", "1.2345", "call.script"), 2, f"rohctl: --since 1.2345: {TIME_WORD}"),
    (("explain", "--since", "1", "45"), 2, f"{ABSENT}--links <FILE>"),
    ((*EXPLAIN, "--since", "81", "call.script"), 6, f"rohctl: call.script: {TIMELESS} 0 to 80"),
    (("report", "--links", "links.toml", "-o", "new", "--since", "61", "--until", "79", "call.script"), 6, f"rohctl: call.script: {TIMELESS} 0 to 80"),
    (("survey", "--links", "-", "call.script"), 2, "rohctl: --links -: expected a file, since the survey goes to standard output"),
    (("survey", "--links", "call.script", "call.script"), 2, f"rohctl: call.script: {OVER_SCRIPT}"),
    (("survey", "--links", "nothing/new", "call.script"), 4, f"rohctl: nothing/new: cannot write to it: {MISSING}"),
    (("survey", "nothing"), 4, f"rohctl: nothing: cannot read it: {MISSING}"),
    (("survey", "empty"), 6, f"rohctl: empty: nothing to show: it is empty; {EVENTS}"),
    (("survey",), 6, f"rohctl: standard input: nothing to show: it is empty; {EVENTS}"),
    (("survey", "resets.script"), 6, f"rohctl: resets.script: {NO_ARRIVAL}"),
    (("survey", "links.toml"), 6, f"rohctl: links.toml: nothing to show: none of 15 lines is an event; {EVENTS}"),
    (("survey", "--vlan", "5", "rohc.pcap"), 2, f"rohctl: --vlan 5: {VLAN_WORD}"),
    (("survey", "udp.pcap"), 6, f"rohctl: udp.pcap: {NO_FRAME} UDP to port 5000 in 1 frame (pass --port 5000=LINK if it carries ROHC)"),
    (("survey", "cut.pcap"), 4, "rohctl: cut.pcap: the capture is cut off in the record at octet 24; the frames before it were read"),
    (("find", "10.0.0.1"), 2, f"{ABSENT}--links <FILE>"),
    (("find", "--links", "links.toml"), 2, f"{ABSENT}<ADDRESS>"),
    ((*FIND, "host"), 2, f"rohctl: ADDRESS host: {ADDRESS_WORD}"),
    ((*FIND, "10.0.0.1:70000"), 2, f"rohctl: ADDRESS 10.0.0.1:70000: {ADDRESS_WORD}"),
    ((*FIND, "10.0.0.1", "10.0.0"), 2, f"rohctl: ADDRESS 10.0.0: {ADDRESS_WORD}"),
    ((*FIND, "10.0.0.1", "10.0.0.2", "call.script"), 2,
     "rohctl: ADDRESS call.script: expected at most the two ends of a call; --input names the file to search"),
    (("find", "--links", "links.toml", "10.0.0.1"), 2, "rohctl: --input is missing; expected the script or the capture to search, --state FILE or --control SOCKET"),
    (("find", "--links", "links.toml", "--control", "nothing", "10.0.0.1"), 4, f"rohctl: nothing: {MISSING}; {RUNNING}"),
    (("find", "--links", "links.toml", "--name", "a/b", "10.0.0.1"), 2, f"rohctl: --name a/b: {A_NAME}"),
    (("find", "--links", "links.toml", "--control", "x", "--state", "y", "10.0.0.1"), 2, "error: the argument '--control <SOCKET>' cannot be used with '--state <FILE>'"),
    (("find", "--links", "links.toml", "--state", "-", "10.0.0.1"), 2, "rohctl: --state -: expected a file, as rohc-gateway writes it"),
    (("find", "--links", "-", "--input", "-", "10.0.0.1"), 2, f"rohctl: --input -: {BOTH_INPUTS}"),
    (("find", "--links", "links.toml", "--input", "nothing", "10.0.0.1"), 4, f"rohctl: nothing: cannot read it: {MISSING}"),
    (("find", "--links", "links.toml", "--input", "rohc.pcap", "10.0.0.1"), 2, RULES),
    (("find", "--links", "links.toml", "--input", "rohc.pcap", "--link", "9", "10.0.0.1"), 6, f"rohctl: links.toml: nothing to show: it has no link 9{NO_LINK}"),
    (("find", "--links", "links.toml", "--input", "empty", "10.0.0.1"), 6, f"rohctl: empty: nothing to show: it is empty; {EVENTS}"),
    ((*FIND, "10.0.0.1"), 6, "rohctl: call.script: nothing to show: no call has these addresses; expected those of its IP packets, as 'rohctl explain' shows them"),
    (("script",), 2, RULES),
    (("script", "--port", "x", "rohc.pcap"), 2, f"rohctl: --port x: {PORT_WORD}"),
    (("script", "--back", "call.script", "new"), 2, "rohctl: --port is missing; expected with --back the port of the datagrams, 0 to 65535, or --ethertype for Ethernet frames"),
    (("script", "--back", "--port", "1", "call.script", "soft"), 2, f"rohctl: soft: {OVER_SCRIPT}"),
    (("script", *LINK_1, "--from", "me", "rohc.pcap", "new"), 2,
     "rohctl: --from me: expected an Ethernet address, as 02:00:00:00:00:01, or an IPv4 address, as 10.0.0.1"),
    (("script", *LINK_1, "--lines", "rohc.pcap", "rohc.pcap", "new"), 2, f"rohctl: rohc.pcap: {OVER_CAPTURE}"),
    (("script", *LINK_1, "call.script", "new"), 4, f"rohctl: call.script: {NO_CAPTURE}"),
    (("script", *LINK_1, "empty", "new"), 4, f"rohctl: empty: {NO_CAPTURE}"),
    (("script", *LINK_1), 4, f"rohctl: standard input: {NO_CAPTURE}"),
    (("script", *LINK_1, "--other", "new", "rohc.pcap"), 2, f"{ABSENT}--from <ADDRESS>"),
    (("script", *LINK_1, "--from", "10.0.0.1", "--other", "new", "rohc.pcap", "new"), 2, f"rohctl: new: {TWICE}"),
    (("script", *LINK_1, "--lines", "-", "rohc.pcap"), 2, f"rohctl: standard output: {TWICE}"),
    (("script", *LINK_1, "--lines", "nothing/new", "rohc.pcap", "new"), 4, f"rohctl: nothing/new: cannot write to it: {MISSING}"),
    (("script", *LINK_1, "rohc.pcap", "."), 4, "rohctl: .: cannot write to it: it is a directory"),
    (("script", "--back", "--port", "1=1", "call.script", "new"), 2, "rohctl: --port 1=1: expected with --back the port of the datagrams, 0 to 65535, or --ethertype for Ethernet frames"),
    (("script", "--back", "--port", "1", "empty", "new"), 6, f"rohctl: empty: nothing to show: it is empty; {EVENTS}"),
    (("script", "--back", "--port", "1", "rohc.pcap", "new"), 6, f"rohctl: rohc.pcap: nothing to show: {A_CAPTURE}"),
    (("script", "--back", "--port", "1", "links.toml", "new"), 6, f"rohctl: links.toml: nothing to show: none of 15 lines is an event; {EVENTS}"),
    (("script", "--back", "--port", "1", "carriage.script", "new"), 6, f"rohctl: carriage.script: nothing to show: {CARRIAGE}"),
    (("script", "--back", "--port", "1", "resets.script", "new"), 6, f"rohctl: resets.script: {NO_ARRIVAL}"),
    (("script", "--back", "--port", "1", "late.script", "new"), 6,
     f"rohctl: late.script: nothing to show: {BEYOND}"),
    (("script", "--back", "--port", "1", "call.script", "new"), 0, "skipped 2 lines (not arrivals, or too long for a capture)"),
    (("script", "--back", "--port", "1", "bad.script", "new"), 0, "skipped 1 line (not arrivals, or too long for a capture)"),
    (DECOMPRESS, 2, RULES),
    ((*DECOMPRESS, "--port", "70000"), 2, f"rohctl: --port 70000: {PORT_WORD}"),
    ((*DECOMPRESS, "--vlan", "5"), 2, f"rohctl: --vlan 5: {VLAN_WORD}"),
    ((*DECOMPRESS, *LINK_1, "rohc.pcap", "rohc.pcap"), 2, f"rohctl: rohc.pcap: {OVER_CAPTURE}"),
    ((*DECOMPRESS, *LINK_1, "rohc.pcap", "links.toml"), 2, f"rohctl: links.toml: {OVER_LINKS}"),
    ((*DECOMPRESS, *LINK_1, "--feedback", "./rohc.pcap", "rohc.pcap", "new"), 2, f"rohctl: ./rohc.pcap: {OVER_CAPTURE}"),
    ((*DECOMPRESS, "--link", "65536"), 2, "rohctl: --link 65536: expected the number of a link, 0 to 65535"),
    ((*DECOMPRESS, "--vlan", "4096=1"), 2, f"rohctl: --vlan 4096=1: {VLAN_WORD}"),
    ((*DECOMPRESS, *LINK_1, "--ethertype", "0x0800"), 2, f"rohctl: --ethertype 0x0800: {ETHER_TYPE}"),
    ((*DECOMPRESS, *LINK_1, "--ethertype", "1535"), 2, f"rohctl: --ethertype 1535: {ETHER_TYPE}"),
    ((*DECOMPRESS, *LINK_1, "--ethertype", "0x"), 2, f"rohctl: --ethertype 0x: {ETHER_TYPE}"),
    ((*DECOMPRESS, "--port", "5000", "--ethertype", "0x88b5"), 2, f"rohctl: --link or --vlan is missing; {OWN_LINK}"),
    ((*DECOMPRESS, *LINK_1, "--linktype", "65536"), 2, "rohctl: --linktype 65536: expected the number of a link type, 0 to 65535, as 147"),
    ((*DECOMPRESS, *LINK_1, "--offset", "two"), 2, "rohctl: --offset two: expected a number of octets, 0 to 65535"),
    (("decompress", "--links", "-", *LINK_1), 2, f"rohctl: IN -: {BOTH_INPUTS}"),
    ((*DECOMPRESS, *LINK_1, "nothing", "new"), 4, f"rohctl: nothing: cannot read it: {MISSING}"),
    ((*DECOMPRESS, *LINK_1, ".", "new"), 4, "rohctl: .: cannot read it: it is a directory"),
    ((*DECOMPRESS, *LINK_1, "empty", "new"), 4, f"rohctl: empty: {NO_CAPTURE}"),
    ((*DECOMPRESS, *LINK_1, "call.script", "new"), 4, f"rohctl: call.script: {NO_CAPTURE}"),
    ((*DECOMPRESS, *LINK_1, "rohc.pcap", "nothing/new"), 4, f"rohctl: nothing/new: cannot write to it: {MISSING}"),
    ((*DECOMPRESS, *LINK_1, "rohc.pcap", "call.script/new"), 4, "rohctl: call.script/new: cannot write to it: a part of the path is not a directory"),
    ((*DECOMPRESS, *LINK_1, "--feedback", "nothing/new", "rohc.pcap", "new"), 4, f"rohctl: nothing/new: cannot write to it: {MISSING}"),
    ((*DECOMPRESS, *LINK_1, "--feedback", "new", "rohc.pcap", "new"), 2, f"rohctl: new: {TWICE}"),
    ((*DECOMPRESS, *LINK_1, "--feedback", "-", "rohc.pcap"), 2, f"rohctl: standard output: {TWICE}"),
    ((*DECOMPRESS, "--link", "9", "rohc.pcap", "new"), 6, f"rohctl: links.toml: nothing to show: it has no link 9{NO_LINK}"),
    ((*DECOMPRESS, "--port", "5000=9", "udp.pcap", "new"), 6, f"rohctl: links.toml: nothing to show: it has no link 9{NO_LINK}"),
    ((*DECOMPRESS, *LINK_1, "late.pcapng", "new"), 4, f"rohctl: new: cannot write to it: {BEYOND}"),
    ((*DECOMPRESS, *LINK_1, "none.pcap", "new"), 6, "rohctl: none.pcap: nothing to show: the capture has no frame"),
    ((*DECOMPRESS, "--vlan", "6=1", "vlan.pcap", "new"), 6,
     f"rohctl: vlan.pcap: {NO_FRAME} ROHC under VLAN 5 in 1 frame (pass --vlan 5=LINK, or --link LINK)"),
    ((*DECOMPRESS, *LINK_1, "tcp.pcap", "new"), 6,
     f"rohctl: tcp.pcap: {NO_FRAME} neither ROHC nor UDP over IPv4 in 1 frame"),
    ((*DECOMPRESS, "--vlan", "5=1", "rohc.pcap", "new"), 6, f"rohctl: rohc.pcap: {NO_FRAME} ROHC in 1 frame (pass --link LINK)"),
    ((*DECOMPRESS, *LINK_1, "arp.pcap", "new"), 6,
     f"rohctl: arp.pcap: {NO_FRAME} EtherType 0x0806 in 1 frame (pass --ethertype 0x0806 --link LINK if it carries ROHC)"),
    ((*DECOMPRESS, *LINK_1, "udp.pcap", "new"), 6,
     f"rohctl: udp.pcap: {NO_FRAME} UDP to port 5000 in 1 frame (pass --port 5000=LINK if it carries ROHC)"),
)
FEWEST = 150

# The digest of no octets (FIPS 180-4).
DIGEST = "e3b0c44298fc1c149afbf4c8996fb92427ae41e4649b934ca495991b7852b855"
# Words, what ROHC_CONTROL is, and how the call ends. At `answering` something answers as a gateway does.
ANSWER = b"{\"live\":true}\n"
NAMED: tuple[tuple[tuple[str, ...], bytes | str, tuple[int, str, str]], ...] = (
    (("status",), "answering", (0, ANSWER.decode(), "")),
    (("drain", "--control", "answering"), "nothing", (0, ANSWER.decode(), "")),
    (("status", "--control", "nothing"), "answering", (4, "", f"rohctl: nothing: {MISSING}; {RUNNING}")),
    (("status", "--name", "nothing"), "answering", (4, "", f"rohctl: /run/rohc-gateway/nothing/control: {MISSING}; {RUNNING}")),
    (("status",), "nothing", (4, "", f"rohctl: nothing: {MISSING}; {RUNNING}")),
    (("status",), "", (2, "", f"rohctl: --control is missing; {A_GATEWAY}")),
    (("status",), b"\xff", (2, "", "rohctl: ROHC_CONTROL (not UTF-8): expected a path in UTF-8")),
)
OK, NOT_FOUND = b"HTTP/1.1 200 OK\r\n", b"HTTP/1.1 404 Not Found\r\n"
LONG = b"".join(b'{"cid":%d}\n' % cid for cid in range(2_000))
HALF = LONG[: len(LONG) // 2]
KEEPS_RUNNING = "expected a gateway that keeps running (systemctl status rohc-gateway@NAME)"
NO_ANSWER = "rohctl: answering: no complete answer; expected the control socket of a running rohc-gateway"


def sized(body: bytes, size: int, status: bytes = OK, name: bytes = b"Content-Length") -> bytes:
    """An answer whose head gives this length."""
    return status + b"Content-Type: text/plain\r\n%b: %d\r\nConnection: close\r\n\r\n" % (name, size) + body


def short(read: int, size: int) -> str:
    """What is said of an answer that ends early."""
    return f"rohctl: answering: the answer ended after {read} of {size} octets; {KEEPS_RUNNING}"


# What a gateway sends before its connection ends, and how rohctl ends: its status, what it prints, and what it says.
Ends = tuple[int, bytes, str]
ANSWERS: tuple[tuple[bytes, Ends], ...] = (
    (sized(LONG, len(LONG)), (0, LONG, "")),
    (sized(b"", 0), (0, b"", "")),
    (sized(ANSWER, len(ANSWER), NOT_FOUND), (1, ANSWER, "")),
    # The body of a stream ends with the connection.
    (OK + b"\r\n" + HALF, (0, HALF, "")),
    (sized(HALF, len(LONG)), (4, HALF, short(len(HALF), len(LONG)))),
    (sized(HALF, len(LONG), name=b"content-length"), (4, HALF, short(len(HALF), len(LONG)))),
    (sized(LONG[:-1], len(LONG)), (4, LONG[:-1], short(len(LONG) - 1, len(LONG)))),
    (sized(b"", 10), (4, b"", short(0, 10))),
    (sized(ANSWER, 100, NOT_FOUND), (4, ANSWER, short(len(ANSWER), 100))),
    (sized(ANSWER, 2**64), (4, b"", NO_ANSWER)),
    # These end within the head.
    (sized(b"", 5)[:-2], (4, b"", NO_ANSWER)),
    (OK, (4, b"", NO_ANSWER)),
    (OK[:10], (4, b"", NO_ANSWER)),
    (b"", (4, b"", NO_ANSWER)),
)
# Commands that print an answer as it comes, and those that print nothing of one that isn't whole.
PRINTING: tuple[tuple[str, ...], ...] = (
    ("contexts", "--link", "1"),
    ("calls",),
    ("calls", "--json"),
    ("status",),
    ("top",),
    ("export", "--link", "1"),
    ("import", "--link", "1", "empty"),
)
HOLDING: tuple[tuple[str, ...], ...] = (("keep",), ("find", "--links", "links.toml", "10.0.0.1"))
# Lists of digests, and what is told of them on standard output.
LISTS: tuple[tuple[str, int, str], ...] = (
    (f"# a comment\n\n{DIGEST}  empty\n", 0, "1 file is as packaged\n"),
    (2 * f"{DIGEST}  empty\n", 0, "2 files are as packaged\n"),
    (f"{DIGEST}  call.script\n{DIGEST}  empty\n", 1, "call.script: it differs from the package; install it again\n"),
    (f"{DIGEST}  nothing\n", 1, f"nothing: cannot read it: {MISSING}\n"),
    (f"{DIGEST}  .\n", 1, ".: cannot read it: it is a directory\n"),
    (f"{DIGEST} empty\n{DIGEST}  \n{DIGEST[1:]}  empty\noops\n", 1, "".join(f"list:{line}: {NO_DIGEST}\n" for line in range(1, 5))),
)

# What another user may not read or write, and what is said then. The files shut.* have the mode 000, the folder shut 555.
DENIED = "permission denied"
UNREAD, UNWRITTEN = f"cannot read it: {DENIED}", f"cannot write to it: {DENIED}"
FORBIDDEN: tuple[tuple[tuple[str, ...], int, str], ...] = (
    (("links", "shut.toml"), 3, f"rohctl: links file shut.toml: {UNREAD}"),
    (("trace", "--links", "shut.toml", "call.script"), 3, f"rohctl: links file shut.toml: {UNREAD}"),
    (("plan", "--links", "shut.toml", "--split", "2"), 3, f"rohctl: links file shut.toml: {UNREAD}"),
    (("totals", "shut.script"), 4, f"rohctl: shut.script: {UNREAD}"),
    (("diff", "shut.script", "call.script"), 4, f"rohctl: shut.script: {UNREAD}"),
    ((*EXPLAIN, "shut.script"), 4, f"rohctl: shut.script: {UNREAD}"),
    ((*DECOMPRESS, *LINK_1, "shut.pcap", "new"), 4, f"rohctl: shut.pcap: {UNREAD}"),
    (("spread", "two-links.toml", "--hosts", "shut.script"), 4, f"rohctl: shut.script: {UNREAD}"),
    (("spread", "two-links.toml", "--hosts", "two-hosts.toml", "--out", "shut"), 4, f"rohctl: shut: {UNWRITTEN}"),
    (("report", "--links", "links.toml", "-o", "shut/page", "call.script"), 4, f"rohctl: shut/page: {UNWRITTEN}"),
    (("script", "--back", "--port", "1", "call.script", "shut/new"), 4, f"rohctl: shut/new: {UNWRITTEN}"),
    ((*DECOMPRESS, *LINK_1, "rohc.pcap", "shut/new"), 4, f"rohctl: shut/new: {UNWRITTEN}"),
    (("status", "--control", "shut.socket"), 4, f"rohctl: shut.socket: {DENIED}; expected the gateway's user or root (sudo -u USER rohctl ..)"),
)

# What waits for words on a terminal says what is missing.
WAITING = (
    (("totals",), "ANSWERS"),
    (("trace", "--links", "links.toml"), "SCRIPT"),
    (("run", "--links", "links.toml"), "SCRIPT"),
    (("explain", "--links", "links.toml"), "INPUT"),
    (("report", "--links", "links.toml"), "INPUT"),
    (("survey",), "INPUT"),
    (("script", *LINK_1), "IN"),
    ((*DECOMPRESS, *LINK_1), "IN"),
)


def capture(frame: bytes) -> bytes:
    """A capture of one frame."""
    return HEAD + struct.pack(">IIII", 1, 0, len(frame), len(frame)) + frame


def prepared(trial: Trial) -> Path:
    """A folder with the files that the calls name."""
    folder = trial.scratch / "wrong"
    links, script = (trial.top / LINKS).read_text(), (trial.top / PLAIN).read_bytes()
    for name, text in (
        ("links.toml", links),
        ("near.toml", links.replace("k1 =", "k_1 =")),
        ("one.toml", links.replace("[[link]]", "[link]")),
        ("bare.toml", links.replace('"O"', "O")),
        ("twice.toml", links + "k1 = 2\n"),
        ("long.toml", "#" * 1_048_577),
        ("latin.toml", b"# \xe9\n"),
        ("empty", b""),
        ("faults.toml", re.sub(r"^([kn]\d) = .*", r"\1 = 0", links, flags=re.MULTILINE)),
        ("two-links.toml", (trial.top / TWO_LINKS).read_text()),
        ("two-hosts.toml", (trial.top / TWO_HOSTS).read_text().replace('name = "a"', 'name = "two-hosts"')),
        ("call.script", script),
        ("resets.script", b"reset 1\n"),
        ("late.script", b"arrive 1 4294967296000 fc00b745aa\n"),
        ("bad.script", b"oops\narrive 1 0 fc00b745aa\n"),
        ("carriage.script", script.replace(b"\n", b"\r\n")),
        ("rohc.pcap", capture(ROHC_FRAME)),
        ("arp.pcap", capture(ARP_FRAME)),
        ("udp.pcap", capture(DATAGRAM)),
        ("tcp.pcap", capture(DATAGRAM[:23] + b"\x06" + DATAGRAM[24:])),
        ("vlan.pcap", capture(ROHC_FRAME[:12] + bytes.fromhex("81000005") + ROHC_FRAME[12:])),
        ("mixed.pcap", capture(ROHC_FRAME) + 2 * capture(ARP_FRAME)[len(HEAD) :]),
        ("none.pcap", HEAD),
        ("cut.pcap", capture(ROHC_FRAME)[:-1]),
        ("late.pcapng", pcapng([(2**32 * 10**9, ROHC_FRAME)])),
    ):
        trial.write(f"wrong/{name}", text)
    for name, link in (("hard", os.link), ("soft", os.symlink)):
        if not (folder / name).exists():
            link(folder / "call.script", folder / name)
    return folder


def texts(folder: Path) -> dict[str, bytes]:
    """The files that the calls may not change."""
    return {file.name: file.read_bytes() for file in sorted(folder.iterdir()) if file.name != "new" and file.is_file()}


# How what the parser of the command line says begins. It goes on with how the command is called.
OF_PARSER = ("error: ", "Diagnose ")


def check_table(trial: Trial, folder: Path) -> None:
    """Each wrong call, and that no input changed."""
    trial.demand(len(WRONG) >= FEWEST, f"{len(WRONG)} wrong calls; wanted at least {FEWEST}")
    before = texts(folder)
    for words, status, said in WRONG:
        ended = run(Call((trial.top / PROGRAM, *words), b"", {}, folder))
        fits = ended.said == said or (ended.said.startswith(said) and said.startswith(OF_PARSER))
        trial.demand(ended.status == status and fits, f"rohctl {words}: {ended.end()}; wanted {status}, {said}", ended.call)
    after = texts(folder)
    changed = {name for name in before if after.get(name) != before[name]}
    trial.demand(not changed, f"inputs that changed: {changed}")


def answer(listener: socket.socket, octets: bytes) -> None:
    """Answers each request with these octets and ends the connection, until the socket is shut."""
    while True:
        try:
            asked, _ = listener.accept()
        except OSError:
            return
        with asked:
            asked.recv(4096)
            asked.sendall(octets)


@contextmanager
def answering(folder: Path, octets: bytes) -> Iterator[None]:
    """A socket `answering` in a folder that answers each request with these octets."""
    with socket.socket(socket.AF_UNIX) as listener:
        place = os.open(folder, os.O_RDONLY)
        (folder / "answering").unlink(missing_ok=True)
        listener.bind(f"/proc/self/fd/{place}/answering")
        os.close(place)
        listener.listen()
        thread = threading.Thread(target=answer, args=(listener, octets))
        thread.start()
        try:
            yield
        finally:
            listener.shutdown(socket.SHUT_RDWR)
            thread.join()
    (folder / "answering").unlink()


def check_named(trial: Trial, folder: Path) -> None:
    """Which of --control, --name and ROHC_CONTROL decides."""
    with answering(folder, OK + b"\r\n" + ANSWER):
        for words, control, wanted in NAMED:
            environment = os.environb | {b"ROHC_CONTROL": os.fsencode(control)}
            done = subprocess.run([trial.top / PROGRAM, *words], stdin=subprocess.DEVNULL, capture_output=True, cwd=folder, env=environment, timeout=60)
            found = (done.returncode, done.stdout.decode(), done.stderr.decode().rstrip("\n"))
            trial.demand(found == wanted, f"rohctl {words} with ROHC_CONTROL={control!r}: {found}; wanted {wanted}")


def check_answers(trial: Trial, folder: Path) -> None:
    """Answers that are whole, and those that end early."""

    def demand(words: tuple[str, ...], octets: bytes, wanted: Ends) -> None:
        ended = run(Call((trial.top / PROGRAM, *words, "--control", "answering"), b"", {}, folder))
        found = (ended.status, ended.output, ended.said)
        told = f"{ended.end()}, {len(ended.output)} octets; wanted {wanted[0]}, {wanted[2]}, {len(wanted[1])} octets"
        trial.demand(found == wanted, f"rohctl {words} at {octets[:90]!r}: {told}", ended.call)

    for octets, wanted in ANSWERS:
        with answering(folder, octets):
            demand(PRINTING[0], octets, wanted)
    for octets, wanted in ((sized(HALF, len(LONG)), (4, HALF, short(len(HALF), len(LONG)))), (OK, (4, b"", NO_ANSWER))):
        with answering(folder, octets):
            for words in PRINTING:
                demand(words, octets, wanted)
            for words in HOLDING:
                demand(words, octets, (4, b"", wanted[2]))


def check_systems(trial: Trial, folder: Path) -> None:
    """No room for a copy of standard input, and a file system that can't be written."""
    (folder / "sealed").mkdir(exist_ok=True)
    mounted = "mount -t tmpfs -o {} none sealed && exec "
    there = ("unshare", "--mount", "sh", "-c", mounted.format("ro") + '"$@"', "sh")
    if run(Call((*there, "true"), b"", {}, folder)).status != 0:
        trial.leave_out("a full and a read-only file system, since none can be mounted here")
        return
    small = ("unshare", "--mount", "sh", "-c", mounted.format("size=8m") + 'env TMPDIR=sealed "$@"', "sh")
    call = Call((*small, trial.top / PROGRAM, "report", "--links", "links.toml"), Path("/dev/zero"), {}, folder)
    ended = run(call)
    said = "rohctl: a temporary file in TMPDIR, or else in /tmp: cannot write to it: no space left on the device"
    trial.demand((ended.status, ended.said) == (4, said), f"a long input: {ended.end()}; wanted 4, {said}", call)
    call = Call((*there, trial.top / PROGRAM, *DECOMPRESS, *LINK_1, "rohc.pcap", "sealed/new"), b"", {}, folder)
    ended = run(call)
    said = "rohctl: sealed/new: cannot write to it: the file system is read-only"
    trial.demand((ended.status, ended.said) == (4, said), f"a sealed folder: {ended.end()}; wanted 4, {said}", call)


def check_changed(trial: Trial, folder: Path) -> None:
    """A capture that loses its last octet while `report` reads it: the page would tell of two captures."""
    whole = (folder / "rohc.pcap").read_bytes()
    failing = str(trial.compiled("tools/failing_calls.c"))
    ends = set()
    for place in range(2, 6):
        (folder / "changing.pcap").write_bytes(whole)
        environment = {"LD_PRELOAD": failing, "CHANGED_FILE": "changing.pcap", "CHANGED_OPEN": str(place)}
        words = ("report", "--links", "links.toml", *LINK_1, "changing.pcap", "-o", "changed.html")
        ended = run(Call((trial.top / PROGRAM, *words), b"", environment, folder))
        ends.add((ended.status, ended.said))
    wanted = (4, "rohctl: changing.pcap: cannot read it: it changed while it was read")
    trial.demand(wanted in ends, f"a capture that changes: {ends}; wanted {wanted}")


def check_lists(trial: Trial, folder: Path) -> None:
    """Lists of digests that are wrong, or of files that are."""
    for text, status, told in LISTS:
        trial.write("wrong/list", text)
        ended = run(Call((trial.top / PROGRAM, "verify", "list", "--root", "."), b"", {}, folder))
        trial.demand((ended.status, ended.text, ended.said) == (status, told, ""), f"verify {text!r}: {ended.end()}, {ended.text}; wanted {told}", ended.call)


def check_hostile(trial: Trial, folder: Path) -> None:
    """Names of files and words with control characters, and a script with some: no output has one, and errors name them by their escapes."""
    links, bad, script, capture = (f"{HOSTILE}{name}" for name in ("links.toml", "bad.toml", "call.script", "rohc.pcap"))
    for name, octets in ((links, b""), (bad, b"version = 3\n"), (script, b"# \x1b[2J\narrive 1 0 \x1b[1m\narrive 1 0 fc00b745aa\n"), (capture, b"")):
        (folder / name).write_bytes(octets or (folder / name.removeprefix(HOSTILE)).read_bytes())
    linked = ("--links", links)
    named = [("links", bad), ("links", links, bad), ("links", HOSTILE), ("run", "--links", bad, script), ("run", *linked, "--state", script, script)]
    named += [("trace", *linked, capture), ("explain", *linked, "--call", HOSTILE, script), ("explain", *linked, capture, "--vlan", "5=1"), ("report", *linked, script, "-o", script)]
    named += [("find", *linked, "--input", script, "10.0.0.1"), ("find", *linked, "--input", script, HOSTILE), ("script", *LINK_1, *linked, "--since", "99", capture)]
    named += [("totals", HOSTILE), ("spread", links, "--hosts", bad), ("verify", script), ("plan", "--window", HOSTILE), ("status", "--control", HOSTILE)]
    shown = [("trace", *linked, script), ("explain", *linked, script), ("explain", HOSTILE), ("survey", script), ("diff", script, script)]
    for words in (*named, *shown):
        ended = run(Call((trial.top / PROGRAM, *words), b"", {}, folder))
        found = [one for one in ended.all if one not in "\n\t" and (one < " " or "\x7f" <= one < "\xa0")]
        trial.demand(not found, f"{words}: shows {found}", ended.call)
        trial.demand(words in shown or ESCAPED in ended.all, f"{words}: doesn't name it: {ended.all}", ended.call)
    for name in (links, bad, script, capture):
        (folder / name).unlink()


def check_terminals(trial: Trial, folder: Path) -> None:
    """On a terminal a missing word is asked for, and a capture isn't written."""
    ours, theirs = pty.openpty()
    for words, word in WAITING:
        done = subprocess.run([trial.top / PROGRAM, *words], stdin=theirs, capture_output=True, cwd=folder, timeout=60)
        said = f"rohctl: {word} is missing; expected a file, - to type it here, or a pipe on standard input\n"
        trial.demand((done.returncode, done.stderr.decode()) == (2, said), f"on a terminal: {words}: {done}")
    for words in ((*DECOMPRESS, *LINK_1, "rohc.pcap"), ("script", "--back", "--port", "1", "call.script")):
        done = subprocess.run([trial.top / PROGRAM, *words], stdin=subprocess.DEVNULL, stdout=theirs, stderr=subprocess.PIPE, cwd=folder)
        said = b"rohctl: refusing to write a capture to a terminal; name a file, or pipe it into another program\n"
        trial.demand((done.returncode, done.stderr) == (2, said), f"a capture to a terminal: {words}: {done}")
    os.close(theirs)
    os.close(ours)


def check_reader(trial: Trial, folder: Path) -> None:
    """A reader that goes away ends the program silently; a full device does not."""
    lines = "".join(f"arrive 1 {20 * place} fc00b745aa\n" for place in range(2_000))
    trial.write("wrong/many.script", lines)
    for words in (("trace", "--links", "links.toml", "many.script"), ("explain", "--links", "links.toml", "many.script"), ("run", "--links", "links.toml", "many.script"), ("report", "--links", "links.toml", "many.script"), ("survey", "many.script"),
                  ("script", "--back", "--port", "1", "many.script"), ("--help",)):
        shut, out = os.pipe()
        os.close(shut)
        done = subprocess.run([trial.top / PROGRAM, *words], stdout=out, stderr=subprocess.PIPE, cwd=folder)
        os.close(out)
        trial.demand((done.returncode, done.stderr) == (0, b""), f"a closed pipe: {words}: {done}")
        with open("/dev/full", "wb") as full:
            done = subprocess.run([trial.top / PROGRAM, *words], stdout=full, stderr=subprocess.PIPE, cwd=folder)
        said = b"rohctl: standard output: cannot write to it: no space left on the device\n"
        trial.demand((done.returncode, done.stderr) == (4, said), f"a full device: {words}: {done}")


def forbidden(trial: Trial) -> Path:
    """A folder in which another user may do little."""
    rohc = capture(ROHC_FRAME)
    for name, text in (
        ("links.toml", (trial.top / LINKS).read_bytes()),
        ("two-links.toml", (trial.top / TWO_LINKS).read_bytes()),
        ("two-hosts.toml", (trial.top / TWO_HOSTS).read_bytes()),
        ("call.script", (trial.top / PLAIN).read_bytes()),
        ("rohc.pcap", rohc),
    ):
        trial.write(f"forbidden/{name}", text).chmod(0o644)
    for name in ("shut.toml", "shut.script", "shut.pcap"):
        trial.write(f"forbidden/{name}", rohc).chmod(0)
    folder = trial.scratch / "forbidden"
    (folder / "shut").mkdir(mode=0o555, exist_ok=True)
    folder.chmod(0o755)
    return folder


def check_forbidden(trial: Trial) -> None:
    """Files and folders that another user may not read or write."""
    words_before = as_nobody(trial, trial.top / PROGRAM)
    if not words_before:
        return
    folder = forbidden(trial)
    with socket.socket(socket.AF_UNIX) as gateway:
        place = os.open(folder, os.O_RDONLY)
        gateway.bind(f"/proc/self/fd/{place}/shut.socket")
        os.close(place)
        (folder / "shut.socket").chmod(0)
        gateway.listen()
        for words, status, said in FORBIDDEN:
            ended = run(Call((*words_before, *words), b"", {}, folder))
            trial.demand((ended.status, ended.said) == (status, said), f"rohctl {words} as nobody: {ended.end()}; wanted {status}, {said}", ended.call)
    trial.demand(not list((folder / "shut").iterdir()), "a file in a folder of mode 555")


def check(trial: Trial) -> None:
    """All of it."""
    folder = prepared(trial)
    check_table(trial, folder)
    check_lists(trial, folder)
    check_named(trial, folder)
    check_answers(trial, folder)
    check_systems(trial, folder)
    check_changed(trial, folder)
    check_hostile(trial, folder)
    check_terminals(trial, folder)
    check_reader(trial, folder)
    check_forbidden(trial)
