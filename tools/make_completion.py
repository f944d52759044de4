#!/usr/bin/env python3
"""Writes what bash, zsh and fish complete of a program, from the program's own help texts.

usage: tools/make_completion.py PROGRAM [FOLDER]

PROGRAM is a built rohctl or rohc-gateway. Its files are written to FOLDER, completion/ if none is named. bin/check
completion fails where they are not what this writes.
"""

import re
import subprocess
import sys
from collections.abc import Iterable, Iterator
from dataclasses import dataclass
from pathlib import Path

TOP = Path(__file__).resolve().parent.parent
# The shells that know a program, and the name of its file there.
FILES = {
    "rohctl": {"bash": "rohctl.bash", "zsh": "_rohctl", "fish": "rohctl.fish"},
    "rohc-gateway": {"bash": "rohc-gateway.bash", "zsh": "_rohc-gateway", "fish": "rohc-gateway.fish"},
}
# What isn't a file, of the arguments; and what is one, of the values of options.
NO_FILES, FILE_VALUES = {"ADDRESS", "CALL"}, {"FILE", "PATH", "SOCKET", "DIR"}
OPTION = re.compile(r"^ {2,6}(?:(-\w), )?(--[\w-]+)(?: (\[)?<([^>]+)>\]?)?(?: {2,}(.*))?$", re.MULTILINE)
ARGUMENT = re.compile(r"^  [\[<]([^\]>]+)[\]>](?:\.\.\.)?  ", re.MULTILINE)
COMMAND = re.compile(r"^  ([\w-]+) +(\S.*)$", re.MULTILINE)
VALUES = re.compile(r"\[possible values: ([^\]]+)\]|: (\w+(?:, \w+)* or \w+)(?: \[|$)")


@dataclass(frozen=True)
class Option:
    """An option of a command."""

    short: str
    long: str
    value: str
    is_optional: bool
    about: str

    @property
    def choices(self) -> list[str]:
        """The values, if the help lists them."""
        found = VALUES.search(self.about) if self.value else None
        return re.split(r", | or ", found[1] or found[2]) if found else []

    @property
    def is_file(self) -> bool:
        """Whether the value is a file."""
        return self.value in FILE_VALUES

    @property
    def text(self) -> str:
        """What it does, in short."""
        return in_short(self.about)


@dataclass(frozen=True)
class Command:
    """A command of a program."""

    name: str
    about: str
    options: tuple[Option, ...]
    takes_files: bool


@dataclass(frozen=True)
class Program:
    """A program as its help texts tell of it."""

    name: str
    options: tuple[Option, ...]
    commands: tuple[Command, ...]

    @property
    def function(self) -> str:
        """The name of its function in a shell."""
        return "_" + self.name.replace("-", "_")


def in_short(text: str) -> str:
    """The first clause of a text."""
    return re.split(r"; |: |, as | \[|, an? ", text)[0].rstrip(".")


def said_by(program: Path, *words: str) -> str:
    """What the program prints."""
    return subprocess.run([program, *words], check=True, capture_output=True, text=True).stdout


def part_of(text: str, title: str) -> str:
    """The part of a help text behind a title, to the next empty line."""
    found = re.search(rf"^{title}:\n(.*?)(?:\n\n|\Z)", text, re.MULTILINE | re.DOTALL)
    return found[1] if found else ""


def options_in(text: str) -> tuple[Option, ...]:
    """The options of a help text."""
    rows = OPTION.findall(part_of(text, "Options"))
    return tuple(Option(short, long, value, bool(optional), about) for short, long, optional, value, about in rows)


def read(program: Path) -> Program:
    """Reads the help texts of a program."""
    name, whole = said_by(program, "--version").split(" ")[0], said_by(program, "--help")
    commands = []
    for command, about in COMMAND.findall(part_of(whole, "Commands")):
        if command != "help":
            text = said_by(program, command, "--help")
            takes_files = any(each not in NO_FILES for each in ARGUMENT.findall(part_of(text, "Arguments") + "\n"))
            commands.append(Command(command, about, options_in(text), takes_files))
    return Program(name, options_in(whole), tuple(commands))


def longs(options: Iterable[Option]) -> str:
    """The long names of options."""
    return " ".join(option.long for option in options)


def names(options: Iterable[Option]) -> str:
    """All names of options."""
    return " ".join(name for option in options for name in (option.short, option.long) if name)


def choices_in(program: Program) -> dict[str, list[str]]:
    """The options of a program whose values are listed."""
    every = [*program.options, *(option for command in program.commands for option in command.options)]
    return {option.long: option.choices for option in every if option.choices}


def in_bash(program: Program) -> Iterator[str]:
    """The lines for bash."""
    before = "|".join(option.long for option in program.options if option.value)
    yield f"# Completion of {program.name} in bash. tools/make_completion.py writes this from the help of {program.name}."
    yield "# shellcheck shell=bash"
    yield ""
    yield f"{program.function}() {{"
    yield "    local word=${COMP_WORDS[COMP_CWORD]} before=${COMP_WORDS[COMP_CWORD - 1]} at=1"
    yield f"    local options='{longs(program.options)}' plain='' files='' takes_files=''"
    yield "    COMPREPLY=()"
    yield "    case $before in"
    for option, values in choices_in(program).items():
        yield f"    {option})"
        yield f"""        mapfile -t COMPREPLY < <(compgen -W '{" ".join(values)}' -- "$word")"""
        yield "        return"
        yield "        ;;"
    yield "    esac"
    if before:
        yield "    # The command comes behind the program's own options."
        yield f"    while [[ ${{COMP_WORDS[at]}} == @({before}) && $at -lt $COMP_CWORD ]]; do at=$((at + 2)); done"
    yield '    if [[ $at -eq $COMP_CWORD && $word != -* ]]; then'
    yield f"""        mapfile -t COMPREPLY < <(compgen -W '{" ".join(command.name for command in program.commands)}' -- "$word")"""
    yield "        return"
    yield "    fi"
    yield "    case ${COMP_WORDS[at]} in"
    for command in program.commands:
        valued = [option for option in command.options if option.value and not option.is_optional]
        plain = names(option for option in valued if not option.is_file and not option.choices)
        files = names(option for option in command.options if option.is_file)
        yield f"    {command.name})"
        yield f"        options='{longs(command.options)}'"
        yield f"        plain='{plain}' files='{files}' takes_files='{'yes' if command.takes_files else ''}'"
        yield "        ;;"
    yield "    esac"
    yield '    if [[ " $plain " == *" $before "* ]]; then'
    yield "        return"
    yield '    elif [[ $word == -* ]]; then'
    yield '        mapfile -t COMPREPLY < <(compgen -W "$options" -- "$word")'
    yield '    elif [[ -n $takes_files || " $files " == *" $before "* ]]; then'
    yield "        compopt -o filenames 2>/dev/null"
    yield '        mapfile -t COMPREPLY < <(compgen -f -- "$word")'
    yield "    fi"
    yield "}"
    yield ""
    yield f"complete -F {program.function} {program.name}"


def for_zsh(option: Option) -> str:
    """An option as a word of `_arguments`."""
    text = re.sub(r"([\[\]:\\])", r"\\\1", option.text).replace("'", "'\\''")
    action = "_files" if option.is_file else f"({' '.join(option.choices)})" if option.choices else ""
    value = f"{':' * (1 + option.is_optional)}{option.value.lower().partition('=')[0]}:{action}" if option.value else ""
    if option.short:
        return f"'({option.short} {option.long})'{{{option.short},{option.long}}}'[{text}]{value}'"
    return f"'{option.long}[{text}]{value}'"


def in_zsh(program: Program) -> Iterator[str]:
    """The lines for zsh."""
    yield f"#compdef {program.name}"
    yield f"# Completion of {program.name} in zsh. tools/make_completion.py writes this from the help of {program.name}."
    yield ""
    yield f"{program.function}() {{"
    yield "    local context state state_descr line"
    yield "    local -a commands"
    yield "    typeset -A opt_args"
    yield "    commands=("
    for command in program.commands:
        yield "        '{}:{}'".format(command.name, in_short(command.about).replace("'", "'\\''"))
    yield "    )"
    own = " ".join(for_zsh(option) for option in program.options)
    yield f"    _arguments -C {own} '1: :->command' '*:: :->words'"
    yield "    case $state in"
    yield "    command) _describe command commands ;;"
    yield "    words)"
    yield "        case $line[1] in"
    for command in program.commands:
        yield f"        {command.name})"
        words = [*map(for_zsh, command.options), *(["'*:file:_files'"] if command.takes_files else [])]
        for place, word in enumerate(words):
            yield f"            {'_arguments ' if place == 0 else '    '}{word}{' ' + chr(92) if place + 1 < len(words) else ''}"
        yield "            ;;"
    yield "        esac"
    yield "        ;;"
    yield "    esac"
    yield "}"
    yield ""
    yield f'{program.function} "$@"'


def for_fish(program: Program, option: Option, where: str) -> str:
    """An option as a call of `complete`."""
    short = f" -s {option.short[1:]}" if option.short else ""
    value = " -r -F" if option.is_file else f" -x -a '{' '.join(option.choices)}'" if option.choices else " -x" if option.value else ""
    about = option.text.replace("'", "\\'")
    return f"complete -c {program.name}{short} -l {option.long[2:]}{'' if option.is_optional else value}{where} -d '{about}'"


def in_fish(program: Program) -> Iterator[str]:
    """The lines for fish."""
    yield f"# Completion of {program.name} in fish. tools/make_completion.py writes this from the help of {program.name}."
    yield f"set -l commands {' '.join(command.name for command in program.commands)}"
    yield f"complete -c {program.name} -f"
    for command in program.commands:
        about = in_short(command.about).replace("'", "\\'")
        yield f"""complete -c {program.name} -n "not __fish_seen_subcommand_from $commands" -a {command.name} -d '{about}'"""
    with_files = " ".join(command.name for command in program.commands if command.takes_files)
    yield f'complete -c {program.name} -F -n "__fish_seen_subcommand_from {with_files}"'
    of_option: dict[Option, list[str]] = {}
    for command in program.commands:
        for option in command.options:
            of_option.setdefault(option, []).append(command.name)
    for option in program.options:
        yield for_fish(program, option, ' -n "not __fish_seen_subcommand_from $commands"')
    for option, commands in of_option.items():
        yield for_fish(program, option, f' -n "__fish_seen_subcommand_from {" ".join(commands)}"')


WRITERS = {"bash": in_bash, "zsh": in_zsh, "fish": in_fish}


def made(path: Path) -> dict[str, str]:
    """The files of a program, by their names."""
    program = read(path)
    return {file: "\n".join(WRITERS[shell](program)) + "\n" for shell, file in FILES[program.name].items()}


def main(words: list[str]) -> int:
    """Writes the files."""
    if len(words) not in (1, 2) or words[0].startswith("-"):
        print(__doc__.strip() if words in (["--help"], ["-h"]) else "usage: tools/make_completion.py PROGRAM [FOLDER]")
        return 0 if words in (["--help"], ["-h"]) else 2
    folder = Path(words[1]) if len(words) == 2 else TOP / "completion"
    for name, text in made(Path(words[0])).items():
        (folder / name).write_text(text)
    return 0


if __name__ == "__main__":
    sys.exit(main(sys.argv[1:]))
