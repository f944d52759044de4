#!/usr/bin/env python3
"""Writes the settings of a links file as lines, which the examples in C read (examples/link_lines.h).

usage: tools/link_lines.py LINKS
       tools/link_lines.py --ports LINKS

For each link `link NUMBER SIZE MAX_CID MODE K1 N1 K2 N2 PACKET_MS STATIC_NACK_MS IDLE_MS`, and behind it for each of its
ranges `range FIRST LAST MODE`. With --ports, for each link `ports NUMBER DELIVER FEEDBACK RELAY`. If the file can't be read as such, one line says what is wrong and where, and the status
is 1. The limits of the values are for the reader of the lines to check.
"""

import sys
import tomllib

# The keys of a link and of a range, in the order of a line, each with the kind of its value.
LINK_KEYS = {"number": int, "cid": str, "max_cid": int, "mode": str, "k1": int, "n1": int, "k2": int, "n2": int}
LINK_KEYS |= {"packet_ms": int, "static_nack_ms": int, "idle_ms": int}
PORT_KEYS = {"number": int, "deliver_port": int, "feedback_port": int, "relay_port": int}
RANGE_KEYS = {"first": int, "last": int, "mode": str}
KINDS = {int: "a whole number", str: "a text", dict: "a table", list: "an array of tables"}


class BadLinks(Exception):
    """What is wrong with a links file, and where."""


def of_kind(kind, value, what):
    """A value that must be of this kind."""
    if type(value) is not kind:
        raise BadLinks(f"{what} isn't {KINDS[kind]}")
    return value


def line(word, table, keys, place):
    """The line of a table that must have these keys."""
    for key in keys:
        if key not in table:
            raise BadLinks(f"{place} has no {key}")
    return " ".join([word, *(str(of_kind(kind, table[key], f"{key} of {place}")) for key, kind in keys.items())])


def tables(text):
    """The tables of the links of a links file, each with its place."""
    whole = tomllib.loads(text)
    if "link" not in whole:
        raise BadLinks("there is no table [[link]]")
    for number, link in enumerate(of_kind(list, whole["link"], "link"), 1):
        yield f"link table {number}", of_kind(dict, link, f"link table {number}")


def port_lines(text):
    """The lines of the ports of a links file."""
    for place, link in tables(text):
        yield line("ports", link, PORT_KEYS, place)


def lines(text):
    """The lines of the text of a links file."""
    for place, link in tables(text):
        yield line("link", {"idle_ms": 0} | link, LINK_KEYS, place)
        for at, part in enumerate(of_kind(list, link.get("range", []), f"range of {place}"), 1):
            yield line("range", of_kind(dict, part, f"range {at} of {place}"), RANGE_KEYS, f"range {at} of {place}")


def main():
    if sys.argv[1:] == ["--help"]:
        print(__doc__.strip())
        return
    make, words = (port_lines, sys.argv[2:]) if sys.argv[1:2] == ["--ports"] else (lines, sys.argv[1:])
    if len(words) != 1:
        sys.exit(__doc__)
    name = words[0]
    try:
        with open(name, "rb") as file:
            written = list(make(file.read().decode()))
    except OSError as fault:
        sys.exit(f"link_lines.py: {name}: {fault.strerror}")
    except UnicodeDecodeError as fault:
        sys.exit(f"link_lines.py: {name}: isn't UTF-8 at octet {fault.start + 1}")
    except (tomllib.TOMLDecodeError, BadLinks) as fault:
        sys.exit(f"link_lines.py: {name}: {fault}")
    for text in written:
        print(text)


if __name__ == "__main__":
    main()
