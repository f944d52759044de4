"""The table of checks, and the table of what they test."""

import os
import re
from collections.abc import Callable
from dataclasses import dataclass
from enum import Enum
from pathlib import Path

import bites
import bites_test
import bodies
import call
import calls
import calls_alike
import closed
import closed_test
import cluster
import completion
import documents
import documents_test
import ends
import evidence
import examples
import gateway
import installation
import launcher
import library
import limits
import lines
import lint
import model
import moving
import packages
import poverty
import proving
import random_scripts
import rohctl
import simulation
import spreading
import standby
from trial import Trial

TOP = Path(__file__).resolve().parent.parent.parent
PROGRAM = "crates/rohcd/out/rohcd"
# The most memory that the proof of a crate takes, in KiB.
MOST_KIB = 5 << 20
# If proving fails, the gate and what runs after it aren't run.
PROVING, GATE = "proving", "gate"


class Needs(Enum):
    """What a check needs. The checks run in this order."""

    NOTHING = "nothing"
    TOOLCHAIN = "toolchain"
    PROGRAM = "program"


def knows_none(top: Path, word: str) -> bool:
    """Whether a check without parts takes a word: no."""
    return False


def lanes() -> dict[str, str]:
    """How many proofs of the gate run side by side, for its environment: as many as there are processors and memory for.

    Without it the toolchain reserves about three times the memory that a proof takes, and leaves processors idle.
    """
    available = re.search(r"MemAvailable: +(\d+) kB", Path("/proc/meminfo").read_text())
    room = int(available[1]) // MOST_KIB if available else 1
    return {"RT_JOBS": str(max(1, min(len(os.sched_getaffinity(0)), room)))}


def gate(trial: Trial) -> None:
    """Runs `rt ci`. What it says is shown as it says it, and the programs are recorded as proved from these sources."""
    digest = trial.ran("bin/sources", "digest").text.strip()
    status = trial.shown_live("rt", "ci", environment=lanes())
    if trial.demand(status == 0, f"gate: status {status}"):
        recorded = all(trial.ran("bin/sources", "record", digest, name).status == 0 for name in ("rohcd", "rohctl", "rohc_gateway"))
        trial.demand(recorded, "gate: a source changed during the gate, or it left no program")


@dataclass(frozen=True)
class Check:
    """A check, its function, and what it shows. Words behind its name are names of its parts, which it must know.

    Without the tool that it names it is left out. One that can do without the program runs without it if it is asked for.
    One that isn't in all is run only if it is asked for, since another check shows the same. One that is timed by what the
    machine lets through runs apart: alone, behind the others.
    """

    name: str
    needs: Needs
    function: Callable[[Trial], None]
    shows: str
    tool: str = ""
    without_tool: str = ""
    knows: Callable[[Path, str], bool] = knows_none
    can_do_without: bool = False
    is_in_all: bool = True
    is_apart: bool = False


NOTHING, TOOLCHAIN, ON_PROGRAM = Needs

# In the order in which they are told.
CHECKS = (
    # The step of one context is a closed box: no crate above rohc_context may open it.
    Check("closed", NOTHING, closed.check, "no crate above rohc_context looks inside the step of a context"),
    Check("closed_test", NOTHING, closed_test.check, "closed refuses each known way round it"),
    Check("bites_test", NOTHING, bites_test.check, "bites tells a refusal of a wrong body from a fault, as the prover tells both"),
    # The laws over calls speak only of functions that say which call they are.
    Check("calls", NOTHING, calls.check, "each public function that changes a concentrator says which call it is"),
    # The wrong bodies that the gate does not try must fit their files, so that they can be tried at any time.
    Check(
        "bodies",
        NOTHING,
        bodies.check,
        "each wrong body fits its file and is named by its function; nothing is proved",
        knows=bodies.is_crate,
    ),
    Check(
        "shell",
        NOTHING,
        lint.check_shell,
        "the scripts in bash have no warning of shellcheck",
        "shellcheck",
        "the scripts were not linted",
    ),
    Check(
        "manual",
        NOTHING,
        lint.check_manual,
        "the manual pages have no warning of mandoc",
        "mandoc",
        "the manual pages were not linted",
    ),
    Check("completion", NOTHING, completion.check, "bash, zsh and fish each load their completion, and offer the same words"),
    Check("python", NOTHING, lint.check_python, "the scripts in Python compile without a warning"),
    Check(
        "words",
        NOTHING,
        documents.check_words,
        "links, paths, names, counts, examples and pictures of the documents; each script's --help",
    ),
    Check(
        "model",
        NOTHING,
        model.check,
        "tools/model, written from the documents alone, answers the vectors and the examples as is kept",
        knows=model.is_part,
    ),
    Check(
        PROVING,
        TOOLCHAIN,
        proving.check,
        "crates are proved by rt check, over what earlier checks kept; part of gate",
        knows=proving.is_crate,
        is_in_all=False,
    ),
    Check(
        GATE,
        TOOLCHAIN,
        gate,
        "all proofs, the tests in the crates, the worked examples, the wrong bodies of must-fail; it leaves the program",
    ),
    Check(
        "bites",
        TOOLCHAIN,
        bites.check,
        "at most 24 wrong bodies and wrong definitions are refused for their meaning, and their twins proved",
        knows=bodies.is_crate,
    ),
    Check(
        "library",
        ON_PROGRAM,
        library.check,
        "the library from C, Python, Rust and Go, and under stress; proves rohc_c once more, unless the gate ran just before",
        can_do_without=True,
    ),
    Check(
        "callers",
        ON_PROGRAM,
        library.check_callers,
        "the header, the callers in C and the package in Python, with the library in out; part of library",
        can_do_without=True,
        is_in_all=False,
    ),
    Check(
        "program", ON_PROGRAM, ends.check, "the statuses, the faults of the links file, an open pipe, calls over sockets"
    ),
    Check(
        "examples",
        ON_PROGRAM,
        examples.check,
        "the worked examples, whole and with each packet cut at every octet, and the whole scripts",
        knows=examples.is_example,
    ),
    Check(
        "lines",
        ON_PROGRAM,
        lines.check,
        "good, bad and long lines, pieces of any size, times, each call among hostile lines",
        knows=lines.is_part,
    ),
    Check(
        "random",
        ON_PROGRAM,
        random_scripts.check,
        "random scripts, in pieces of any size, each call by itself, and against tools/model",
        knows=random_scripts.is_number,
    ),
    Check(
        "simulation",
        ON_PROGRAM,
        simulation.check,
        "a gateway's service in a simulated outside: faults, kills, power failures, clocks that jump",
        knows=simulation.is_number,
    ),
    Check(
        "calls_alike",
        ON_PROGRAM,
        calls_alike.check,
        "each call that changes a concentrator, by crates/calls, tools/model and the library for C; worked scripts among calls",
        knows=calls_alike.is_count,
    ),
    Check(
        "limits",
        ON_PROGRAM,
        limits.check,
        "256 links, all CIDs, 2^20 reads, 2^32 octets; a call and an honest sender in a flood",
        knows=limits.is_part,
    ),
    Check("rohctl", ON_PROGRAM, rohctl.check, "all that rohctl tells, and its statuses"),
    Check(
        "evidence",
        ON_PROGRAM,
        evidence.check,
        "made and real calls, a lossy link, Wireshark's and scapy's readings, a fuzzer, bench/run's loads",
        knows=evidence.is_part,
    ),
    Check(
        "gateway",
        ON_PROGRAM,
        gateway.check,
        "rohc-gateway: wrong calls, whole calls, twenty kills, reloads under load, hostile requests, its metrics, page and units",
        knows=gateway.is_part,
    ),
    Check(
        "spread",
        ON_PROGRAM,
        spreading.check,
        "eight links over four gateways, on one host and on four, by nftables and by nginx, as one replay answers",
    ),
    Check(
        "cluster",
        ON_PROGRAM,
        cluster.check,
        "front, workers and outlet over Redis and two hosts: killed, stopped, from a base; broken promises found out",
        knows=cluster.is_part,
    ),
    Check("call", ON_PROGRAM, call.check, "sipp's calls over ROHC between two namespaces, with a reload, a restart and a kill"),
    Check(
        "standby",
        ON_PROGRAM,
        standby.check,
        "a standby takes over ten times from a killed gateway, under 1,000 packets per second",
        is_apart=True,
    ),
    Check(
        "moving",
        ON_PROGRAM,
        moving.check,
        "a link moves between two gateways under 1,000 packets per second; each step fails",
        is_apart=True,
    ),
    Check(
        "packages",
        ON_PROGRAM,
        packages.check,
        "Debian's packages, the tarball and the wheel: made twice alike, unpacked, run, and verified",
        knows=packages.is_part,
    ),
    Check("poverty", ON_PROGRAM, poverty.check, "each request for memory refused in turn"),
    Check("launcher", ON_PROGRAM, launcher.check, "bin/rohcd, bin/rohctl and bin/rohc-gateway with a proved program and without one"),
    Check("install", ON_PROGRAM, installation.check, "bin/install, the completion, tools/link_lines.py on faulty files"),
    Check(
        "documents",
        ON_PROGRAM,
        documents.check,
        "the commands and answers that documents show, and what words shows",
        knows=documents.is_document,
    ),
    Check("documents_test", ON_PROGRAM, documents_test.check, "documents finds each fault that is put into a copy"),
)


@dataclass(frozen=True)
class Tested:
    """What some checks test: names of one kind, with commas between them."""

    kind: str
    names: str
    checks: str


# The kinds up to Refusal are whole lists of docs/PROMISES.md and the manual pages.
TESTED = (
    Tested("Promise", "1. Isolation", "closed calls gate simulation lines random calls_alike limits evidence"),
    Tested("Promise", "2. Safe and total", "gate library examples lines random limits poverty evidence"),
    Tested("Promise", "3. Each part is right", "gate proving library examples evidence"),
    Tested("Promise", "4. One event is one step of one context", "closed gate examples lines calls_alike"),
    Tested("Promise", "5. What is delivered was sent", "gate limits evidence"),
    Tested("Promise", "6. A cluster answers as one replay", "gate library cluster"),
    Tested("Key", "number, cid, max_cid", "gate program examples lines"),
    Tested("Key", "mode, range, k1, n1, k2, n2, packet_ms, static_nack_ms", "gate program examples"),
    Tested("Key", "deliver_port, feedback_port, relay_port", "gate program"),
    Tested("Key", "idle_ms", "gate program examples lines"),
    Tested(
        "Fault",
        "Unreadable, NotToml, BadVersion, UnknownKey, BadKey, NoLinks, TooManyLinks, BadSetting, DuplicateLink",
        "gate program",
    ),
    Tested("Status", "0 nothing, 2 command line, 3 links file", "gate program launcher"),
    Tested("Status", "4 read, 4 write, 4 socket", "gate program launcher"),
    Tested("Status", "5 memory", "gate poverty"),
    Tested(
        "Refusal",
        "Empty, FeedbackShort, AfterAddCid, Segment, ReservedType, AddCidOnLarge, LargeCid, CidRange, NoHeader",
        "gate library examples",
    ),
    Tested(
        "Refusal",
        "Profile, ProfileChange, Truncated, IpVersion, Protocol, ExtensionList, RtpVersion, Csrc, ZeroStride, "
        "ReliableMode, OuterHeader, NoStride, RndInUo1, IpIdTwice, Trailing",
        "gate library examples",
    ),
    Tested("Refusal", "NoContext, NoLink, BadLine, LongLine", "gate library examples lines"),
    Tested("Refusal", "TooLong, StateTooLow, Check", "gate library examples lines limits"),
    Tested("Refusal", "NoMemory", "gate library poverty"),
    Tested("Command", "replay", "gate program examples lines random limits poverty"),
    Tested("Command", "serve", "gate program launcher"),
    Tested("Command", "rohctl totals, links, run, trace, diff, plan, script, decompress, report, survey, find", "gate rohctl"),
    Tested("Command", "rohctl explain", "gate rohctl evidence"),
    Tested("Command", "rohctl spread", "gate rohctl spread"),
    Tested("Command", "rohctl status, stop, save, keep, reload, drain, resume, top, reset, contexts, calls, watch, record", "gate gateway"),
    Tested("Command", "rohctl hold, export, import, deploy/move-link", "moving"),
    Tested("Command", "rohc-gateway run, check", "gate gateway call"),
    Tested("Command", "deploy/entrypoint", "gateway"),
    Tested("Command", "bin/rohcd, bin/rohctl, bin/rohc-gateway", "launcher"),
    Tested("Command", "deploy/standby", "standby"),
    Tested("Command", "bin/lib", "library callers"),
    Tested("Command", "cluster/up, cluster/down", "cluster"),
    Tested("Command", "bin/install, completion", "library install completion"),
    Tested("Command", "bin/package, rohctl verify", "packages"),
    Tested("Text", "documents", "words documents documents_test"),
    Tested("Text", "manual pages", "manual words"),
    Tested("Text", "scripts", "shell python words"),
    Tested("Text", "worked examples of calls", "gate words calls_alike"),
    Tested("Text", "wrong bodies", "gate bodies bites bites_test"),
    Tested("Text", "vectors, worked examples", "gate model words"),
    Tested("Text", "answers of whole scripts", "examples model"),
    Tested("Text", "the closed step", "closed closed_test"),
)
