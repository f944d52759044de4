#!/usr/bin/env python3
"""Draws the pictures of docs/pictures.

usage: tools/draw_pictures.py            writes them
       tools/draw_pictures.py --check    says which of them aren't what would be written

Python's standard library is enough.
"""

import sys
from pathlib import Path

from draw_canvas import BadPicture, Canvas
from draw_results import lossy_link
from draw_windows import windows

# What each picture shows, in words, for readers who can't see it.
SHOWS = {
    "packet": "The flow of a packet, from a line or a datagram to the packet that is rebuilt",
    "states": "The states of a context, what leads from one to the next, and the feedback that is sent in O mode",
    "tries": "The three tries to explain a packet; the first header with the packet's check is delivered",
    "isolation": "The lines of one call among hostile calls are the lines of a machine that serves this call alone",
    "call": "A call's life: what the compressor sends, the feedback it gets, the state after it, and the answer line",
    "windows": "After how long a good call falls, for the windows 2/3, 2/5, 3/5 and 4/8, by the share of damaged headers",
    "lossy-link": "What comes out of a lossy link, for shares of lost packets and of damaged bits, in U and in O mode",
}
FOLDER = Path(__file__).resolve().parent.parent / "docs" / "pictures"


def packet():
    """The flow of a packet."""
    c = Canvas("packet", 900, 610)
    c.box(60, 20, 300, 52, "a line of a script\narrive 1 0 10ac", fonts=",mono")
    c.box(400, 20, 300, 52, "a datagram\n00 01 10 ac", fonts=",mono")
    c.arrow((210, 72), (210, 112))
    c.arrow((550, 72), (550, 112))
    c.box(60, 112, 640, 44, "link 1, arrival time 0 ms, octets 10 ac")
    c.arrow((380, 156), (380, 190))
    c.box(60, 190, 640, 52, "framing\none reading of the whole packet, or one refusal", fonts="bold")
    c.arrow((700, 216), (740, 216))
    c.box(740, 190, 140, 52, "feedback for this\nside is relayed", kind="plain")
    c.arrow((380, 242), (380, 276))
    c.box(60, 276, 640, 52, "the record of this link and this CID\nno other record is read or written", "alone", "bold")
    c.arrow((380, 328), (380, 362))
    c.frame(40, 362, 680, 146)
    c.text(60, 382, "one step", "bold", "start")
    c.box(60, 402, 190, 88, "read the packet\nIR, IR-DYN: chains\nUO-0, UO-1, UOR-2", fonts="bold")
    c.box(285, 402, 190, 88, "decode its fields\nSN, TS, IP-ID\nagainst the reference", fonts="bold")
    c.box(510, 402, 190, 88, "build the header\nits check must be\nthe packet's", fonts="bold")
    c.arrow((250, 446), (285, 446))
    c.arrow((475, 446), (510, 446))
    c.arrow((155, 508), (155, 540))
    c.arrow((380, 508), (380, 540))
    c.arrow((605, 508), (605, 540))
    c.box(60, 540, 190, 52, "the IP packet\n1 0 ip 45..", fonts=",mono")
    c.box(285, 540, 190, 52, "feedback\n1 0 feedback f4..", fonts=",mono")
    c.box(510, 540, 190, 52, "or a refusal\n1 0 refused Check", fonts=",mono")
    return c


def states():
    """The states of a context, what leads from one to another, and the feedback that is sent."""
    c = Canvas("states", 900, 500)
    c.box(40, 60, 160, 60, "no record", "plain", "bold")
    c.box(600, 60, 200, 60, "Full Context\ntakes every packet", "alone", "bold,small")
    c.box(600, 240, 200, 60, "Static Context\nIR, IR-DYN, UOR-2", "box", "bold,small")
    c.box(40, 240, 200, 60, "No Context\ntakes an IR alone", "hostile", "bold,small")
    state_changes(c)
    c.box(
        40,
        410,
        410,
        70,
        "From every state, and from no record:\nan IR with a static chain alone\nleads to Static Context, no reference.",
        "plain",
    )
    c.box(
        470,
        410,
        410,
        70,
        "From every state, and from no record:\nan IR of profile 0x0000 leads to that profile,\nwith FEEDBACK-1.",
        "plain",
    )
    return c


def state_changes(c):
    """The arrows between the states."""
    c.arrow((200, 80), (600, 80))
    c.text(400, 48, "IR with a dynamic chain")
    c.text(400, 66, "ACK", "mono")
    c.arrow((640, 120), (640, 240))
    c.text(630, 160, "k1 of the last n1 checks failed", anchor="end")
    c.text(630, 180, "NACK", "mono", "end")
    c.arrow((760, 240), (760, 120))
    c.text(770, 148, "IR, IR-DYN", anchor="start")
    c.text(770, 168, "or UOR-2", anchor="start")
    c.text(770, 188, "ACK", "mono", "start")
    c.arrow((600, 284), (240, 284))
    c.text(420, 252, "k2 of the last n2 checks failed")
    c.text(420, 270, "STATIC-NACK", "mono")
    c.arrow((220, 240), (220, 104), (600, 104))
    c.text(250, 210, "IR with a dynamic chain", anchor="start")
    c.text(250, 228, "ACK", "mono", "start")
    c.arrow((660, 300), (660, 340), (740, 340), (740, 300))
    c.text(700, 358, "k1 of the last n1 packets failed")
    c.text(700, 376, "NACK", "mono")
    c.arrow((80, 300), (80, 340), (200, 340), (200, 300))
    c.text(180, 358, "no IR, static_nack_ms since the last")
    c.text(140, 376, "STATIC-NACK", "mono")


def tries():
    """The three tries of a packet."""
    c = Canvas("tries", 900, 390)
    c.box(30, 40, 130, 60, "a packet\nof kind Other")
    c.arrow((160, 70), (200, 70))
    c.box(200, 30, 380, 80, "1. against the reference\nthe last header that was accepted", "box", "bold")
    c.box(200, 160, 380, 80, "2. its SN moved on by 2^k\nif packet_ms * 2^k milliseconds passed", "box", "bold")
    c.box(200, 290, 380, 80, "3. against the previous reference\nif there is one", "box", "bold")
    c.box(720, 140, 150, 120, "delivered\nas the first\nheader that has\nthe packet's check", "alone", "bold")
    c.arrow((580, 70), (795, 70), (795, 140))
    c.arrow((580, 200), (720, 200))
    c.arrow((580, 305), (795, 305), (795, 260))
    for y in (56, 186, 291):
        c.text(600, y, "check fits", "small", "start")
    c.arrow((390, 110), (390, 160))
    c.text(402, 135, "check fails: UO-0 or UO-1, in Full Context", "small", "start")
    c.arrow((390, 240), (390, 290))
    c.text(402, 265, "not tried, or check fails", "small", "start")
    c.box(720, 325, 150, 50, "refused Check\none failure", "hostile", "mono")
    c.arrow((580, 350), (720, 350))
    c.text(600, 364, "check fails", "small", "start")
    return c


# Lines of a script, their answers, and the calls that they belong to.
EVENTS = [
    ("arrive 1 0  IR", "1 0 ip 45..", "alone"),
    ("arrive 1 3  noise", "1 7 refused NoContext", "hostile"),
    ("oops", "- - refused BadLine", "hostile"),
    ("arrive 1 20 UO-0", "1 0 ip 45..", "alone"),
    ("arrive 2 20 flood", "2 9 refused Check", "hostile"),
    ("arrive 1 40 UO-0", "1 0 ip 45..", "alone"),
]


def isolation():
    """The lines of one call, among others and alone."""
    c = Canvas("isolation", 900, 400)
    for place, (line, answer, kind) in enumerate(EVENTS):
        c.box(30, 50 + place * 30, 190, 26, line, kind, "mono")
        c.box(510, 50 + place * 30, 210, 26, answer, kind, "mono")
    c.text(125, 30, "a script with all calls", "bold")
    c.arrow((220, 140), (270, 140))
    c.box(270, 80, 190, 120, "the concentrator\nall links and CIDs", "box", "bold")
    c.arrow((460, 140), (510, 140))
    c.text(615, 30, "its answer lines", "bold")
    c.box(30, 290, 190, 80, "its own events alone\nIR, UO-0, UO-0", "alone")
    c.arrow((220, 330), (270, 330))
    c.box(270, 290, 190, 80, "one context\nrun alone", "alone", "bold")
    c.arrow((460, 330), (510, 330))
    c.box(510, 290, 210, 80, "1 0 ip 45..\n1 0 ip 45..\n1 0 ip 45..", "alone", "mono,mono,mono")
    c.arrow((615, 230), (615, 290))
    c.text(627, 262, "only the lines that begin with 1 0", "small", "start")
    c.box(750, 290, 130, 80, "equal,\noctet for octet:\nproved", "plain", "bold")
    c.arrow((750, 330), (720, 330))
    return c


# What comes from the compressor, what goes back to it, the answer line, and the state that it leads to.
CALL = [
    ("IR", "ACK", "1 0 ip 45..", "Full"),
    ("UO-0, UO-1, UOR-2", "", "1 0 ip 45..", "Full"),
    ("one damaged packet", "", "1 0 refused Check", "Full"),
    ("k1 of the last n1 damaged", "NACK", "1 0 refused Check", "Static"),
    ("UO-0, as before", "", "1 0 refused StateTooLow", "Static"),
    ("UOR-2, IR-DYN or IR", "ACK", "1 0 ip 45..", "Full"),
    ("damage, until k2 of n2 fail", "STATIC-NACK", "1 0 refused Check", "No"),
    ("anything but an IR", "STATIC-NACK", "1 0 refused StateTooLow", "No"),
    ("IR", "ACK", "1 0 ip 45..", "Full"),
    ("silence for idle_ms, then UO-0", "", "1 0 refused NoContext", "expired"),
    ("IR", "ACK", "1 0 ip 45..", "Full"),
]
KINDS = {"Full": "alone", "Static": "box", "No": "hostile", "expired": "plain"}


def call():
    """A call's life, from top to bottom."""
    c = Canvas("call", 900, 64 + 44 * len(CALL))
    c.text(150, 26, "the compressor sends", "bold")
    c.text(375, 26, "feedback in O mode", "bold")
    c.text(545, 26, "state after it", "bold")
    c.text(760, 26, "answer line", "bold")
    for place, (sent, back, line, state) in enumerate(CALL):
        y = 62 + 44 * place
        c.text(30, y, sent, anchor="start")
        c.arrow((270, y - 8), (480, y - 8))
        if back:
            c.arrow((480, y + 14), (270, y + 14))
            c.text(375, y + 3, back, "mono small")
        c.box(480, y - 16, 130, 34, state + ("" if state == "expired" else " Context"), KINDS[state])
        c.text(640, y, line, "mono", "start")
    return c


def main():
    if sys.argv[1:] == ["--help"]:
        print(__doc__.strip())
        return
    words = sys.argv[1:]
    if words not in ([], ["--check"]):
        sys.exit(__doc__)
    stale = []
    try:
        pictures = [picture() for picture in (packet, states, tries, isolation, call, lossy_link, windows)]
        drawn = {f"{picture.name}.svg": picture.svg(SHOWS) for picture in pictures}
    except BadPicture as fault:
        sys.exit(f"tools/draw_pictures.py: {fault}")
    for name, text in drawn.items():
        file = FOLDER / name
        if words and (not file.exists() or file.read_text() != text):
            stale.append(name)
        elif not words:
            FOLDER.mkdir(exist_ok=True)
            file.write_text(text)
    if stale:
        sys.exit(f"not what tools/draw_pictures.py draws: {', '.join(stale)}")


if __name__ == "__main__":
    main()
