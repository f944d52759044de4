"""What bash, zsh and fish complete: each shell loads its files of completion/, and must offer the same words.

A shell that isn't installed is left out. The files are made from the help texts of the programs.
"""

import re
import shutil
from collections.abc import Callable
from concurrent.futures import ThreadPoolExecutor
from pathlib import Path

import make_completion
from program import Call, Ended, Word, run
from trial import Trial

Row = tuple[str, tuple[str, ...]]
ZSH = Path(__file__).with_suffix(".zsh")
MARKED = re.compile(r"<mark>\r?\n(.*?)<mark>", re.DOTALL)
# Prints the completion of its words in bash; the last is being typed.
BASH = '. "$0" && COMP_WORDS=("$@") COMP_CWORD=$(($# - 1)) && "_${1/-/_}" && printf "%s\\n" "${COMPREPLY[@]}"'
FISH = "source $argv[1]; complete -C $argv[2]"
COMMANDS = (
    "calls contexts decompress diff drain explain export feed find hold import keep links plan record reload report reset resume run save script spread status stop survey top totals trace"
    " verify watch"
)

# What each shell completes of rohctl, and behind which words. The folder has the files links.toml and answers.
ROHCTL: tuple[Row, ...] = (
    (COMMANDS, ("",)),
    ("top totals", ("to",)),
    ("--color --help --json --new", ("links", "--")),
    ("--calls --color --damage --help --json --links --packet-ms --split --window", ("plan", "--")),
    ("--color --follow --help --json --prometheus", ("totals", "--")),
    ("--back --call --color --ethertype --from --help --lines --link --links --linktype --offset --other --payload --pcapng --port --since --until --vlan", ("script", "--")),
    ("--call --color --ethertype --feedback --help --link --links --linktype --offset --padded --payload --pcapng --port --since --stats --until --vlan", ("decompress", "--")),
    ("--call --color --ethertype --help --link --links --linktype --offset --output --payload --port --since --state --until --vlan", ("report", "--")),
    ("--color --ethertype --from --help --link --linktype --now --offset --pace --port --to --vlan", ("feed", "--")),
    ("--color --ethertype --help --json --link --links --linktype --offset --port --vlan", ("survey", "--")),
    ("--color --control --ethertype --help --input --json --link --links --linktype --name --offset --port --state --vlan", ("find", "--")),
    ("--brief --call --color --ethertype --frame --frames --help --json --large --line --lines --link --links --linktype --offset --payload --port --since --state --until --vlan", ("explain", "--")),
    ("--color --help --json", ("diff", "--")),
    ("--color --help --links", ("trace", "--")),
    ("--color --help --links --state", ("run", "--")),
    ("--color --feedback --help --hosts --nginx --out", ("spread", "--")),
    ("--color --help --root", ("verify", "--")),
    ("--color --control --help --name", ("drain", "--")),
    ("--color --control --every --help --name", ("keep", "--")),
    ("--color --control --help --name", ("watch", "--")),
    ("--color --control --dry-run --help --name", ("reload", "--")),
    ("--color --control --help --link --name --output --seconds", ("record", "--")),
    ("--cid --color --control --help --link --name", ("reset", "--")),
    ("--color --control --help --json --link --name", ("calls", "--")),
    ("always auto never", ("status", "--color", "")),
    ("always auto never", ("--color", "")),
    ("--color --help --version", ("--",)),
    ("top totals", ("--color", "never", "to")),
    ("--color --help --json --new", ("--color", "never", "links", "--")),
    ("--links", ("trace", "--l")),
    ("--line --lines --link --links --linktype", ("explain", "--li")),
    ("links.toml", ("trace", "--links", "li")),
    ("answers links.toml", ("totals", "")),
)
# What each shell completes of rohc-gateway.
GATEWAY: tuple[Row, ...] = (
    ("check run", ("",)),
    ("run", ("r",)),
    ("--control --help --links --log-format --metrics-port --port --save-seconds --state --timed-port", ("check", "--")),
    ("--control --fresh --help --links --log-format --metrics-port --port --save-seconds --state --timed-port", ("run", "--")),
    ("--save-seconds --state", ("run", "--s")),
    ("links.toml", ("check", "--links", "li")),
    ("", ("run", "--port", "")),
    ("json text", ("run", "--log-format", "")),
)


def in_bash(folder: Path, words: tuple[str, ...]) -> tuple[Word, ...]:
    """The call of bash that prints a match per line."""
    return ("bash", "-c", BASH, folder / f"{words[0]}.bash", *words)


def in_zsh(folder: Path, words: tuple[str, ...]) -> tuple[Word, ...]:
    """The call of zsh that prints a match per line between two marks."""
    return ("zsh", "-f", ZSH, folder, " ".join(words))


def in_fish(folder: Path, words: tuple[str, ...]) -> tuple[Word, ...]:
    """The call of fish that prints a match per line, with what is said of it behind a tab."""
    return ("fish", "--no-config", "-c", FISH, folder / f"{words[0]}.fish", " ".join(words))


Asks = Callable[[Path, tuple[str, ...]], tuple[Word, ...]]
SHELLS: tuple[tuple[str, Asks, str, tuple[Row, ...]], ...] = (
    ("bash", in_bash, "rohctl", ROHCTL),
    ("bash", in_bash, "rohc-gateway", GATEWAY),
    ("zsh", in_zsh, "rohctl", ROHCTL),
    ("zsh", in_zsh, "rohc-gateway", GATEWAY),
    ("fish", in_fish, "rohctl", ROHCTL),
    ("fish", in_fish, "rohc-gateway", GATEWAY),
)


def matches(ended: Ended) -> str:
    """The matches that a shell printed, in the order of their letters."""
    marked = MARKED.search(ended.text)
    lines = (marked[1] if marked else ended.text).splitlines()
    return " ".join(sorted(line.split("\t")[0] for line in lines)).strip()


def check_made(trial: Trial, program: Path) -> None:
    """The files of a program in completion/ are what tools/make_completion.py makes of its help texts."""
    for name, text in make_completion.made(program).items():
        trial.same(f"completion/{name}", text, (trial.top / "completion" / name).read_text())


def check(trial: Trial) -> None:
    """What each shell completes."""
    typing = trial.write("typing/links.toml", "").parent
    trial.write("typing/answers", "")
    home = {"HOME": str(trial.scratch), "TERM": "xterm"}
    for shell, asks, program, rows in SHELLS:
        if not shutil.which(shell):
            trial.leave_out(f"{shell} is not installed, its completion was not tried")
            continue
        calls = [Call(asks(trial.top / "completion", (program, *words)), b"", home, typing) for _, words in rows]
        with ThreadPoolExecutor(4) as pool:
            all_found = list(map(matches, pool.map(run, calls)))
        for (wanted, words), call, found in zip(rows, calls, all_found, strict=True):
            trial.demand(found == wanted, f"{shell} completes '{program} {' '.join(words)}': '{found}'; wanted '{wanted}'", call)
    if not trial.wrongs:
        trial.say("completion: as expected")
