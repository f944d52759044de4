"""Checks that what the documents say is true.

- A code block after a line `<!-- run -->` is a command in bash. Its output must be the code block that follows with
  nothing but empty lines between, or nothing if none does. It runs in a folder in which `bin/rohcd` and `rohcd` are the
  program, `bin/rohctl` and `rohctl` are rohctl, and `examples` is the repository's. The commands of one document share
  that folder.
- A code block after a line `<!-- beside LINKS SCRIPT -->` has each line of that script beside the answers that the
  program gives to it with those links, and how many octets stand at the end of each. `..` stands for octets that are
  cut out.
- README.md has at most 900 words, and each document that it names is a link. Its table of speed has the least and the
  greatest ratios of docs/PERFORMANCE.md, and its package has the version.
- Each link, each anchor, and each file or folder of the repository that a document names is there.
- Each function and each clause of docs/PROOFS.md stands in the sources. So does each name of code there and in six other
  documents.
- The examples of docs/EXAMPLES.md are those of tools/worked_examples.txt and tools/worked_calls.txt, each of which says
  what it shows; examples/worked, crates/worked and crates/calls have what tools/expand_examples.py writes of them.
- The manual pages have each key, each fault of the links file, each status's text and each refusal with its number.
- The causes of refusals stand in the order of the refusals' numbers.
- What documents say of the number of scripts, of test data and of refusals is true.
- The pictures are those that tools/draw_pictures.py draws.
- docs/TESTED.md is what `bin/check --table` writes, and that table lacks nothing.
- Each script of bin, bench and tools says by `--help` how it is called, and starts nothing then.

`words` checks all but the first two points, which need the program. Names of documents behind `documents` check those
two points of these alone. `documents_test` shows that it fails if one of these doesn't hold.
"""

import os
import re
import shutil
import tempfile
from collections.abc import Iterator, Sequence
from concurrent.futures import ThreadPoolExecutor
from functools import partial
from pathlib import Path

from documents_commands import check_beside, check_commands
from documents_text import FENCE, block_at, documents, manual_items
from program import Call, run
import proofs_table
from refusals import refusal_names
from trial import Trial

README_WORDS = 900
# The longest line of a definition.
DEFINITION_WIDTH = 110
# Documents in which each name between back quotes must stand in the sources, except paths and octets.
NAMING = [f"docs/{name}.md" for name in "PROOFS PROMISES THREATS DEFINITIONS ARCHITECTURE DECISIONS".split()]
EDITS = ("must-fail*/*.edit", "statements/*.edit")
# The examples in short form, and what tools/expand_examples.py writes of them.
SHORT_EXAMPLES = ("worked_examples.txt", "worked_calls.txt")
WRITTEN = ("*/worked/**/*", "crates/calls/**/*")
FOLDERS = "docs|bin|tools|examples|crates|man|bench|completion|python|include|library"
PLACE = re.compile(rf"(?<![\w/.-])(?:{FOLDERS})/[\w./*-]*\w")


def check_readme(top: Path) -> Iterator[str]:
    """Finds names of documents in README.md that aren't links, and words too many."""
    text = documents(top)["README.md"]
    if len(text.split()) > README_WORDS:
        yield f"README.md: has {len(text.split())} words, more than {README_WORDS}"
    link = re.compile(r"\[([^\]]*)\]\(([^)\s]*)\)")
    for shown, target in link.findall(text):
        if shown.endswith(".md") and shown != target:
            yield f"README.md: the link {shown} leads to {target}"
    for name in re.findall(r"[\w/]+\.md\b", link.sub("", text)):
        yield f"README.md: names {name}, and it isn't a link"


def range_of(ratios: Sequence[str]) -> str:
    """The least and the greatest of these numbers, or the one that there is."""
    ends = sorted({min(ratios, key=float), max(ratios, key=float)}, key=float)
    return " to ".join(ends)


def check_speed(top: Path) -> Iterator[str]:
    """Finds ratios in README.md that aren't those of docs/PERFORMANCE.md, and packages of another version."""
    text = documents(top)["README.md"]
    rows = re.findall(r"^\| ([\w, ]+)((?: \| \d+){4})((?: \| \d\.\d\d){3}) \|$", documents(top)["docs/PERFORMANCE.md"], re.MULTILINE)
    ratios = {load: ratios.split(" | ")[1:] for load, _, ratios in rows}
    hostile = ratios.pop("hostile", [])
    if not ratios or not hostile:
        yield "docs/PERFORMANCE.md: there are no ratios"
        return
    names = ("from Rattle", "through C", "through C, 32 packets in a call")
    for name, honest, worst in zip(names, zip(*ratios.values()), hostile):
        row = f"| {name} | {range_of(honest)} | {worst} |"
        if row not in text:
            yield f"README.md lacks the row {row}"
    version = (top / "VERSION").read_text().strip()
    if f"/polorowan_{version}_amd64.deb" not in text:
        yield f"README.md installs no package of version {version}"


def fault_of_help(top: Path, script: Path) -> str | None:
    """What is wrong with a script's `--help`, if anything is. The toolchain that it finds then marks that it was started."""
    name = str(script.relative_to(top))
    with tempfile.TemporaryDirectory() as folder:
        for tool in "rt", "rattle":
            Path(f"{folder}/{tool}").write_text(f"#!/bin/sh\necho started >{folder}/started\n")
            os.chmod(f"{folder}/{tool}", 0o755)
        given = {"PATH": f"{folder}:{os.environ['PATH']}", "TMPDIR": folder}
        ended = run(Call((script, "--help"), environment=given, folder=Path(folder)), 20)
        helps = ended.is_good and re.search(rf"^usage: {name}\b", ended.text, re.MULTILINE)
        if os.path.exists(f"{folder}/started"):
            return f"{name}: --help starts the toolchain"
        return None if helps else f"{name}: --help doesn't say how it is called, {ended.end()}"


def check_help(top: Path) -> Iterator[str]:
    """Finds scripts that don't say by `--help` how they are called, or that start the toolchain for it."""
    files = [file for folder in ("bin", "bench", "tools") for file in (top / folder).iterdir() if file.is_file()]
    with ThreadPoolExecutor() as pool:
        yield from filter(None, pool.map(partial(fault_of_help, top), sorted(file for file in files if os.access(file, os.X_OK))))


def anchors(text: str) -> set[str]:
    """The anchors of a document's headings."""
    heads = re.findall(r"^#+ (.*)$", text, re.MULTILINE)
    return {re.sub(r"[^\w -]", "", head.lower()).replace(" ", "-") for head in heads}


def check_links(top: Path) -> Iterator[str]:
    """Finds links, anchors and named files that don't exist."""
    texts = documents(top)
    for name, text in texts.items():
        for target in re.findall(r"\]\(([^)\s]+)\)", text):
            path, _, anchor = target.partition("#")
            file = (top / name).parent / path if path else top / name
            if not file.exists():
                yield f"{name}: leads to {target}, which isn't there"
            elif anchor and anchor not in anchors(file.read_text()):
                yield f"{name}: leads to {target}, and there is no such heading"
        for place in set(PLACE.findall(text)):
            if re.search(r"NAME|/out/|/out$", place):
                continue
            if not list(top.glob(place)):
                yield f"{name}: names {place}, which isn't there"


def contracts(top: Path, crate: str) -> Iterator[tuple[str, str, str]]:
    """Each function of a crate with its contract, and the text before it in its file."""
    for file in sorted((top / "crates" / crate / "src").rglob("*.rt")):
        text = file.read_text()
        for found in re.finditer(r"\bfn (\w+)", text):
            head = re.search(r"\n\s*(?:ensures|requires)\b| \{\n|;\n", text[found.end() :])
            if head and head[0].startswith("\n"):
                start = found.end() + head.start()
                end = re.search(r"\n *\{\}?\n|\};\n", text[start:])
                yield found[1], text[start : start + end.start()], text[: found.start()]


def has_clauses(top: Path, crate: str, kind: str, function: str, labels: Sequence[str]) -> bool:
    """Whether a function has a contract with each of these labels. If a type is given, the function is one of its own."""
    for name, contract, before in contracts(top, crate):
        if name != function or "ensures" not in contract:
            continue
        owner = re.findall(r"^impl\b[^{]*?\b(\w+)(?:<[^{]*>)? \{", before, re.MULTILINE)
        if kind[:1].isupper() and owner[-1:] != [kind]:
            continue
        if all(re.search(rf"ensures {label} \{{", contract) for label in labels):
            return True
    return False


def named_contracts(text: str) -> Iterator[tuple[str, Sequence[str]]]:
    """Each function that docs/PROOFS.md names, by its path, with the labels between parentheses behind it. In the part by crate
    an item begins with a crate and names its functions."""
    by_hand, _, by_crate = re.sub(r"\n +", " ", text).partition(proofs_table.BY_CRATE)
    for path, labels in re.findall(r"`(rohc_\w+::[\w:]+)`(?: \(((?:`\w+`(?:, )?)+)\))?", by_hand):
        yield path, re.findall(r"`(\w+)`", labels)
    for crate, functions in re.findall(r"^- `(rohc\w+)` [0-9a-f]{8}: (.*)$", by_crate, re.MULTILINE):
        yield from ((f"{crate}::{function}", ()) for function in re.findall(r"`([\w:]+)`", functions))


def check_proofs(top: Path) -> Iterator[str]:
    """Finds functions and clauses of docs/PROOFS.md that aren't in the sources, and what it lacks of them."""
    text = documents(top)["docs/PROOFS.md"]
    named = list(named_contracts(text))
    for path, labels in named:
        crate, *middle, function = path.split("::")
        if not has_clauses(top, crate, middle[-1] if middle else "", function, labels):
            yield f"docs/PROOFS.md: {path} has no contract with {', '.join(labels) or 'a clause'}"
    if not named:
        yield "docs/PROOFS.md names no function"
    wanted, found = (page.splitlines() for page in (proofs_table.page(top), text))
    for line in wanted:
        if line not in found:
            yield f"docs/PROOFS.md lacks {line} (bin/check --proofs writes it)"
            return
    if wanted != found:
        yield "docs/PROOFS.md isn't what bin/check --proofs writes"


def check_names(top: Path) -> Iterator[str]:
    """Finds names of code in the documents that don't stand in the sources."""
    files = [*top.glob("crates/*/src/**/*.rt"), *top.glob("crates/*/specs/**/*.antt"), top / "crates.txt", *top.glob("include/*.h")]
    words = set(re.findall(r"[\w-]+", " ".join(file.read_text() for file in files)))
    stems = {file.stem for kind in (*EDITS, "proofs/**/*.antt") for file in top.glob(f"crates/*/{kind}")}
    words |= {word for stem in stems for word in stem.split(".")}
    whats = {stem.partition(".")[2] for stem in stems} - {""}
    words |= {"NAME", "crate", "Type", "function", "rustc"}
    for name in NAMING:
        for span in sorted(set(re.findall(r"`([^`\n]+)`", documents(top)[name]))):
            if "/" in span or re.fullmatch(r"(?:[0-9a-f]{2} ?)+", span):
                continue
            first = span.split()[0]
            if first.partition(".")[2] in whats and first not in stems:
                yield f"{name}: {first} is no edit"
            for word in re.findall(r"[A-Za-z_]\w*", first):
                if word not in words:
                    yield f"{name}: {word} stands nowhere in the sources"


def sections(text: str, begin: str) -> dict[str, list[str]]:
    """The lines below each heading, by the heading's name."""
    found: dict[str, list[str]] = {}
    lines: list[str] = []
    for line in text.splitlines():
        head = re.match(begin, line)
        if head:
            lines = found[head[1]] = []
        elif found:
            lines.append(line)
    return found


def plain_words(text: str) -> list[str]:
    """The words of a text without its marks."""
    return re.sub("[`*]", "", text).split()


def check_examples(top: Path) -> Iterator[str]:
    """Compares docs/EXAMPLES.md, the examples in short form, examples/worked, crates/worked and crates/calls. Each example has
    a comment below its name. What the document shows of an example, its text and its block, is the same."""
    text = documents(top)["docs/EXAMPLES.md"]
    scripts, calls = (sections((top / "tools" / name).read_text(), r"= (\S+)$") for name in SHORT_EXAMPLES)
    kept = scripts | calls
    told = {name: plain_words(" ".join(line[1:] for line in lines if line.startswith("#"))) for name, lines in kept.items()}
    yield from (f"tools/{' or '.join(SHORT_EXAMPLES)}: says nothing of {name}" for name, words in told.items() if not words)
    shown = sections(text, r"### (\S+)$")
    if not shown:
        yield "docs/EXAMPLES.md shows no example"
    for name, lines in shown.items():
        start = next((i for i, line in enumerate(lines) if FENCE.match(line)), len(lines))
        block = (block_at(lines, start)[0] or "").splitlines()
        if block != [line for line in kept.get(name, ["#"]) if line and line[0] != "#"]:
            yield f"docs/EXAMPLES.md: {name} isn't the example in short form"
        if plain_words(" ".join(lines[:start])) != told.get(name):
            yield f"docs/EXAMPLES.md: {name} isn't told as in short form"
    count = re.search(r"has all (\d+)", text)
    if not count or int(count[1]) != len(scripts):
        yield f"docs/EXAMPLES.md doesn't count {len(scripts)} examples"
    with tempfile.TemporaryDirectory() as room:
        folder = Path(room)
        (folder / "tools").mkdir()
        (folder / "examples/worked").mkdir(parents=True)
        given = [top / "tools" / name for name in ("expand_examples.py", *SHORT_EXAMPLES)]
        for file in [*given, *top.glob("examples/worked/links-*.toml")]:
            shutil.copy(file, folder / file.relative_to(top))
        ended = run(Call((folder / "tools/expand_examples.py",)))
        if ended.status != 0:
            yield f"tools/expand_examples.py: {ended.end()}"
        written = (file for pattern in WRITTEN for file in folder.glob(pattern) if file.is_file())
        for file in sorted(file.relative_to(folder) for file in written):
            there = top / file
            if not there.exists() or there.read_text() != (folder / file).read_text():
                yield f"{file} isn't what tools/expand_examples.py writes"


def check_manual(top: Path) -> Iterator[str]:
    """Finds keys, faults, statuses' texts and refusals that the manual pages lack."""
    keys = re.findall(r"^(\w+) = ", (top / "examples/two-links.toml").read_text(), re.MULTILINE)
    ends = re.findall(r"f\.write_str\(\"(rohcd: [\w ]+?):? ?\"\)", (top / "crates/rohc_end/src/lib.rt").read_text())
    faults: list[str] = []
    for place in "rohc_links/src/fault", "rohc_concentrator/src/setup":
        files = [top / f"crates/{place}.rt", *top.glob(f"crates/{place}/*.rt")]
        source = "".join(file.read_text() for file in files if file.exists())
        faults += re.findall(r"(?:Links|Setup)Fault::\w+(?: \{ \.\. \})? => \"(\w+)\"", source)
    wanted = (
        ("rohc-links.5", "DESCRIPTION", set(keys) - {"version"}),
        ("rohc-links.5", "FAULTS", set(faults) - {"NoMemory"}),
        ("rohc-script.5", "REFUSALS", {f"{number} {name}" for number, name in refusal_names(top).items()}),
        ("rohcd.1", "EXIT STATUS", set(ends)),
    )
    for page, section, words in wanted:
        items = manual_items(top, page, section)
        named = {re.sub(r"^\d (?=rohcd: )|: NAME$", "", word) for item in items for word in item.split(", ")}
        if not words:
            yield f"nothing was found in the sources for {section} of man/{page}"
        yield from (f"man/{page} lacks an item of {word}" for word in sorted(words - named))


def check_counts(top: Path) -> Iterator[str]:
    """Finds counts in documents that aren't true."""
    names = len(refusal_names(top))
    questions = (top / "crates/vectors/stdin").read_text().splitlines()
    counts = {
        r"(\d+) whole\s+scripts": str(len([*top.glob("examples/scripts/*.script")])),
        r"([\d,]+) (?:questions|lines\s+of\s+test\s+data)": f"{sum(line[:1] != '#' for line in questions):,}",
        r"one of (\w+) (?:names|refusals)": "thirty" if names == 30 else str(names),
    }
    for pattern, true in counts.items():
        found = [(name, count) for name, text in documents(top).items() for count in re.findall(pattern, text)]
        if not found:
            yield f"no document says '{pattern}'"
        for name, count in found:
            if count != true:
                yield f"{name}: counts {count} where {true} is true"


def check_causes(top: Path) -> Iterator[str]:
    """Finds whether the causes of the refusals stand in the order of their numbers."""
    text = (top / "crates/rohc_explain/src/cause.rt").read_text()
    causes = re.findall(r"^        refusal: Refusal::(\w+),$", text, re.MULTILINE)
    if causes != list(refusal_names(top).values()):
        yield "crates/rohc_explain/src/cause.rt: the causes aren't in the order of the refusals' numbers"


def check_pictures(top: Path) -> Iterator[str]:
    """Compares the pictures with what is drawn."""
    ended = run(Call((top / "tools/draw_pictures.py", "--check")))
    if ended.status != 0:
        yield f"docs/pictures: {ended.said}"


def check_tested(top: Path) -> Iterator[str]:
    """Compares docs/TESTED.md with the table that bin/check writes, and finds what that table lacks."""
    ended = run(Call((top / "bin/check", "--table")))
    yield from ended.said.splitlines()
    if documents(top).get("docs/TESTED.md") != ended.text:
        yield "docs/TESTED.md isn't what bin/check --table writes"


def check_definitions(top: Path) -> Iterator[str]:
    """Finds lines of definitions that are too long to be read aloud. Imports may be longer."""
    for file in sorted(top.glob("crates/*/specs/**/*.antt")):
        for number, line in enumerate(file.read_text().splitlines(), 1):
            if len(line) > DEFINITION_WIDTH and not line.startswith("use "):
                yield f"{file.relative_to(top)}:{number}: has {len(line)} characters, more than {DEFINITION_WIDTH}"


def check_tasks(top: Path) -> Iterator[str]:
    """Finds commands of rohctl in docs/TASKS.md that don't exist, and options that they don't have."""
    completed = (top / "completion/rohctl.bash").read_text()
    options = {name: words.split() for name, words in re.findall(r"^    (\w+)\)\n        options='([^']*)'", completed, re.MULTILINE)}
    for call in re.findall(r"`rohctl ([^`]*)`", documents(top)["docs/TASKS.md"]):
        name, *words = call.split()
        if name not in options:
            yield f"docs/TASKS.md: there is no rohctl {name}"
            continue
        for word in words:
            if word.startswith("--") and word not in options[name]:
                yield f"docs/TASKS.md: rohctl {name} has no {word}"


CHECKS = (
    check_readme,
    check_definitions,
    check_tasks,
    check_speed,
    check_help,
    check_links,
    check_proofs,
    check_names,
    check_examples,
    check_manual,
    check_causes,
    check_counts,
    check_pictures,
    check_tested,
)


def is_document(top: Path, word: str) -> bool:
    """Whether a word is the path of a document."""
    return word in documents(top)


def check_words(trial: Trial) -> None:
    """Tells what isn't true, as far as no program is needed."""
    for one in CHECKS:
        for fault in one(trial.top):
            trial.wrong(fault)
    trial.say("documents: as they say" if not trial.wrongs else f"documents: {trial.wrongs} faults")


def check_shown(trial: Trial) -> None:
    """Tells what of the commands and answers isn't as it is shown in all documents, or in those that are asked for."""
    names = trial.chosen(list(documents(trial.top)))
    check_commands(trial, names)
    check_beside(trial, names)


def check(trial: Trial) -> None:
    """Tells what isn't true. Of the documents that are asked for it looks at what they show alone."""
    check_shown(trial)
    if not trial.words:
        check_words(trial)
    elif not trial.wrongs:
        trial.say("documents: as they show")
