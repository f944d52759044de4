"""Puts one fault after another into a copy of the tree. `documents` must find each, and nothing in the unchanged copy."""

import shutil
from collections.abc import Callable
from pathlib import Path

import documents
from program import Call, run
from trial import Trial

Plant = tuple[str, str, str, str]

BESIDE = "examples/README.md: isn't what examples/worked/two-calls-and-noise.script is answered: "

# What must be said, the file, and the text that is replaced there by another. These faults need the program.
ON_PROGRAM: tuple[Plant, ...] = (
    ("README.md:", "README.md", "29000300004011", "29000300004012"),
    ("README.md:", "README.md", "answer: delivered, 2", "answer: delivered, 3"),
    ("docs/ROHCTL.md:", "docs/ROHCTL.md", "head -n 2", "head -n 3"),
    ("docs/ROHCTL.md:", "docs/ROHCTL.md", "s/NoContext/Check/", "s/NoContext/Empty/"),
    ("status 4", "docs/OPERATING.md", "< examples/worked/two-calls-and-noise.script > all", "< . > all"),
    ("a mark without a command", "docs/FORMATS.md", "Octets are hexadecimal.", "<!-- run -->\nOctets are hexadecimal."),
    (BESIDE, "examples/README.md", "2 300 ip 450102 ", "2 300 ip 450103 "),
    (BESIDE, "examples/README.md", "arrive 1 20 10ac ", "arrive 1 20 10ad "),
    (BESIDE, "examples/README.md", "fd012b40..0980a0ab      42", "fd012b40..0980a0ab      43"),
    (BESIDE, "examples/README.md", "fd012b40..", "fd012b41.."),
    (BESIDE, "examples/README.md", "..00000001ac", "..00000001ad"),
    (BESIDE, "examples/README.md", "..00000001ac          41", "..00000001ac          40"),
    (BESIDE, "examples/README.md", "e2fc008145aa ", ".. "),
    ("examples/README.md: shows 0 rows", "examples/README.md", "noise.script -->\n", "noise.script -->\nText.\n"),
    ("examples/README.md: shows 9 rows", "examples/README.md", "\noops                                     - - refused BadLine", ""),
)

# The same without the program.
IN_WORDS: tuple[Plant, ...] = (
    ("names docs/PROVED.md", "README.md", "(docs/PROOFS.md)", "(docs/PROVED.md)"),
    ("words, more than 900", "README.md", "## Versions", "word " * 900),
    ("lacks the row | through C | 1.10 to 1.23 | 1.32 |", "README.md", "1.10 to 1.23", "1.10 to 1.22"),
    ("lacks the row | from Rattle | 0.96 to 1.03 | 1.06 |", "docs/PERFORMANCE.md", "| 0.97 |", "| 0.96 |"),
    ("installs no package of version 1.0.0", "README.md", "polorowan_1.0.0", "polorowan_1.0.1"),
    (
        "names docs/THREATS.md, and it isn't a link",
        "README.md",
        "[docs/THREATS.md](docs/THREATS.md)",
        "docs/THREATS.md",
    ),
    (
        "the link docs/THREATS.md leads to docs/PROOFS.md",
        "README.md",
        "[docs/THREATS.md](docs/THREATS.md)",
        "[docs/THREATS.md](docs/PROOFS.md)",
    ),
    (
        "crates/rohc_gateway_file/specs/Civil.antt:5: has 115 characters, more than 110",
        "crates/rohc_gateway_file/specs/Civil.antt",
        "only each fourth\n",
        "only each fourth, as in the calendar of Gregory the XIIIth\n",
    ),
    ("docs/TASKS.md: rohctl plan has no --damages", "docs/TASKS.md", "plan --damage ", "plan --damages "),
    ("docs/TASKS.md: there is no rohctl plans", "docs/TASKS.md", "`rohctl plan --calls", "`rohctl plans --calls"),
    ("tools/soak.py: --help doesn't say", "tools/soak.py", "\"--help\"", "\"--helps\""),
    ("bin/sources: --help doesn't say", "bin/sources", "# usage: bin/sources", "# bin/sources"),
    ("bin/rohc-gateway: --help starts the toolchain", "bin/launch.sh", "= --help ]", "= --helps ]"),
    ("leads to pictures/calls.svg", "docs/OPERATING.md", "pictures/call.svg", "pictures/calls.svg"),
    ("no such heading", "docs/OPERATING.md", "#how-a-call-comes-back", "#how-a-call-returns"),
    ("names docs/PROVED.md", "README.md", "(docs/PROOFS.md)", "(docs/PROVED.md)"),
    ("names tools/draw.py", "CONTRIBUTING.md", "tools/draw_pictures.py", "tools/draw.py"),
    ("names docs/CHOICES.md", "man/rohcd.1", "docs/DECISIONS.md", "docs/CHOICES.md"),
    ("rohc_replay::laws::equal_lines has no contract", "docs/PROOFS.md", "laws::same_lines", "laws::equal_lines"),
    ("rohc_replay::replay has no contract with isolation", "docs/PROOFS.md", "(`isolated`)", "(`isolation`)"),
    ("IsIsolatedAlways stands nowhere", "docs/PROOFS.md", "`IsIsolated`", "`IsIsolatedAlways`"),
    ("rohc_lsb::Header::build has no contract", "docs/PROOFS.md", "- `rohc_header` ", "- `rohc_lsb` "),
    ("rohc_frame::Header::build has no contract", "docs/PROOFS.md", "- `rohc_header` ", "- `rohc_frame` "),
    ("has no contract with event", "crates/rohc_concentrator/src/arrival.rt", "ensures event", "ensures reply"),
    ("LonelyRun stands nowhere", "docs/DEFINITIONS.md", "`LoneRun`", "`LonelyRun`"),
    ("trace_free stands nowhere", "docs/THREATS.md", "`no_trace`", "`trace_free`"),
    ("lacks   `laws::one_timestamp`", "docs/PROOFS.md", "`sn_shift`, ", ""),
    ("rohc_lsb::sn_shifts has no contract", "docs/PROOFS.md", "`sn_shift`", "`sn_shifts`"),
    ("lacks - `rohc_lsb` ", "crates/rohc_lsb/src/sequence.rt", "pub fn sn_shift", "fn sn_shift"),
    ("rohc_lsb::sn_shift has no contract", "crates/rohc_lsb/src/sequence.rt", "pub fn sn_shift", "pub fn sn_offset"),
    ("lacks - `rohc_lsb` ", "crates/rohc_lsb/src/sequence.rt", "ensures", "ensures steady { true == true };\n    ensures"),
    ("rohc_bits::reading::values has no contract", "docs/PROOFS.md", "`reading::value`", "`reading::values`"),
    ("rohc_serve::serve has no contract with rich", "docs/PROOFS.md", "(`poor`)", "(`rich`)"),
    ("plain-call isn", "docs/EXAMPLES.md", "1 0 feedback f100", "1 0 feedback f101"),
    ("first-uo-1 isn't the example", "docs/EXAMPLES.md", "### first-uo-0", "### first-uo-1"),
    ("first-uo-0 isn't told as", "docs/EXAMPLES.md", "A UO-0: SN 2 in four bits", "A UO-0: SN 2 in five bits"),
    ("says nothing of late-packet", "tools/worked_examples.txt", "# A UO-0 that is late by one:", "> reset 1\n= x\n#"),
    ("doesn't count 51 examples", "tools/worked_examples.txt", "= late-packet", "= another\n# A copy.\n\n= late-packet"),
    ("examples/worked/plain-call.answers", "examples/worked/plain-call.answers", "f100", "f101"),
    ("examples/worked/plain-call.answers", "tools/worked_examples.txt", "1 0 feedback f100", "1 0 feedback f101"),
    ("crates/worked/stdout", "crates/worked/stdout", "6003 2007", "6003 2008"),
    ("crates/worked/data/examples.txt", "crates/worked/data/examples.txt", "? contexts 1", "? contexts 2"),
    ("crates/calls/stdout", "crates/calls/stdout", "1 forget done 1", "1 forget done 2"),
    ("crates/calls/data/calls.txt", "tools/worked_calls.txt", "> expire 1 5999", "> expire 1 5998"),
    ("links-come-and-go isn't the example", "docs/EXAMPLES.md", "2 remove done 1", "2 remove done 0"),
    ("crates/worked/data/links-2.toml", "crates/worked/data/links-2.toml", "idle_ms = 5000", "idle_ms = 5001"),
    ("lacks an item of idle_ms", "man/rohc-links.5", ".It Li idle_ms", ".It Li idle"),
    ("lacks an item of 27 StateTooLow", "man/rohc-script.5", ".It 27 Li StateTooLow", ".It 26 Li StateTooLow"),
    (
        "lacks an item of DuplicateLinks",
        "crates/rohc_concentrator/src/setup.rt",
        "=> \"DuplicateLink\"",
        "=> \"DuplicateLinks\"",
    ),
    ("lacks an item of BadKey", "man/rohc-links.5", ".It Li BadKey", ".It Li BadKeys"),
    ("lacks an item of rohcd: sockets", "crates/rohc_end/src/lib.rt", "\"rohcd: socket\"", "\"rohcd: sockets\""),
    ("counts 35 where 36", "README.md", "36 whole", "35 whole"),
    ("counts 2,514 where 2,777", "README.md", "2,777 lines", "2,514 lines"),
    (
        "where 31 is true",
        "crates/rohc_context/specs/Refusal.antt",
        "row_of NoMemory",
        "row_of NoRoom = row 31 (codes \"NoRoom\") (Tables ∷ [])\nrow_of NoMemory",
    ),
    (
        "the causes aren't in the order",
        "crates/rohc_explain/src/cause.rt",
        "        refusal: Refusal::Check,",
        "        refusal: Refusal::NoLink,",
    ),
    ("docs/TESTED.md isn't", "docs/TESTED.md", "- `idle_ms`:", "- `idle`:"),
    ("there is no row of the key idle_s", "man/rohc-links.5", ".It Li idle_ms", ".It Li idle_s"),
    ("no document names the key idle_ms", "man/rohc-links.5", ".It Li idle_ms", ".It Li idle_s"),
    (
        "there is no row of the promise 3. Parts",
        "docs/PROMISES.md",
        "## 3. Each part is right",
        "## 3. Parts are right",
    ),
    ("there is no row of the fault NoLink", "man/rohc-links.5", ".It Li NoLinks ,", ".It Li NoLink ,"),
    ("there is no row of the status 4 closed", "man/rohcd.1", "rohcd: write", "rohcd: closed"),
    ("there is no row of the refusal NoCheck", "man/rohc-script.5", ".It 28 Li Check", ".It 28 Li NoCheck"),
    ("there is no check serves", "tools/check/registry.py", "\"gate program launcher\")", "\"gate serves\")"),
    ("there is no row of the check bodies", "tools/check/registry.py", "\"gate bodies bites bites_test\"", "\"gate bites bites_test\""),
    ("states.svg", "docs/pictures/states.svg", "Full Context", "Whole Context"),
    ("lossy-link.svg", "docs/RESULTS.md", "   1%       0    19741", "   1%       0    18741"),
    ("leaves its frame", "tools/draw_pictures.py", "\"no record\"", "\"no record of this link and this CID\""),
    ("overlaps", "tools/draw_pictures.py", "c.text(400, 66,", "c.text(400, 54,"),
    ("runs through", "tools/draw_pictures.py", "c.arrow((200, 80), (600, 80))", "c.arrow((200, 66), (600, 66))"),
)


class Copy:
    """A copy of the tree."""

    def __init__(self, trial: Trial) -> None:
        """Copies the tree of a trial."""
        self.trial = trial
        self.top = trial.scratch / "tree"
        self.count = 0
        shutil.copytree(trial.top, self.top, ignore=shutil.ignore_patterns("out", ".git", "__pycache__"))
        (self.top / "crates/rohctl/out").symlink_to(trial.top / "crates/rohctl/out")

    def judged(self, check: Callable[[Trial], None]) -> Trial:
        """What a check says of the copy."""
        self.count += 1
        scratch = self.trial.scratch / f"run-{self.count}"
        scratch.mkdir()
        inner = Trial(self.top, self.trial.file, scratch)
        check(inner)
        shutil.rmtree(scratch)
        return inner

    def is_good(self, check: Callable[[Trial], None]) -> None:
        """Nothing must be found in the copy as it is."""
        inner = self.judged(check)
        said = "\n".join(inner.lines)
        self.trial.demand(inner.wrongs == 0, f"the copy as it is: {said}")

    def finds(self, check: Callable[[Trial], None], plant: Plant) -> None:
        """A fault must be found in the copy."""
        text, name, old, new = plant
        file = self.top / name
        before = file.read_text()
        if not self.trial.demand(old in before, f"no such text in {name}: {old}"):
            return
        file.write_text(before.replace(old, new, 1))
        inner = self.judged(check)
        said = "\n".join(inner.lines)
        self.trial.demand(inner.wrongs > 0 and text in said, f"not found: {name}: {old}; it said: {said}")
        file.write_text(before)

    def ends(self, status: int, *words: str | Path) -> None:
        """`bin/check` of the copy must end with this status."""
        ended = run(Call((self.top / "bin/check", *words)), 600)
        self.trial.demand(ended.status == status, f"{words}: status {ended.status}, not {status}: {ended.all}", ended.call)


def check(trial: Trial) -> None:
    """Puts all of them in."""
    copy = Copy(trial)
    copy.is_good(documents.check)
    for plant in ON_PROGRAM:
        copy.finds(documents.check_shown, plant)
    for plant in IN_WORDS:
        copy.finds(documents.check_words, plant)
    # The whole command, with a fault and without.
    copy.ends(0, "--program", trial.file, "documents", "README.md")
    text, name, old, new = ON_PROGRAM[0]
    (copy.top / name).write_text((copy.top / name).read_text().replace(old, new, 1))
    copy.ends(1, "--program", trial.file, "documents", "README.md")
    copy.ends(1, "--program", trial.file, "documents", "words")
    trial.say(f"documents: {len(ON_PROGRAM) + len(IN_WORDS)} faults were put in")
