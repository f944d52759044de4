"""A call from phone to phone over ROHC, in both directions, by examples/call.

sipp's own calls go through the kernels of two network namespaces, which a line joins that loses 5 % and delays. Meanwhile a
gateway reloads its links, is stopped and started, and is killed. With losses alone no packet may arrive that wasn't sent.
"""

import json
import os
import re
import shutil
import subprocess
import time
from pathlib import Path

import evidence
from program import Call, run
from trial import Trial

GATEWAY, ROHCTL = "crates/rohc_gateway/out/rohc_gateway", "crates/rohctl/out/rohctl"
TOOLS = ("ip", "socat", "tcpdump", "sipp")
PCAPS = Path("/usr/share/sip-tester")
COUNTS = re.compile(r"^(a to b|b to a): (\d+) sent, (\d+) arrived, (\d+) wrong, (\d+) missing$", re.MULTILINE)
# How many calls of sipp are made, of nine seconds each, and what happens in between, in seconds after the first begins.
CALLS, RELOADED, STOPPED = 3, 4.0, 13.0
LOSS = ("--lose", "5", "--delay", "20")


def inside(side: str, *words: str | Path) -> list[str]:
    """A command in the namespace of a side."""
    return ["ip", "netns", "exec", f"rohc-{side}", *map(str, words)]


def phone(trial: Trial, side: str, calls: int, *words: str) -> subprocess.Popen[bytes]:
    """A phone of sipp that makes or takes so many calls, one after the other."""
    own = "10.8.0.1" if side == "a" else "10.8.0.2"
    call = inside(side, "sipp", *words, "-i", own, "-mi", own, "-m", str(calls), "-l", "1", "-nostdin")
    folder = trial.scratch / "sipp"
    folder.mkdir(exist_ok=True)
    if not (folder / "pcap").exists():
        (folder / "pcap").symlink_to(PCAPS)
    nothing = subprocess.DEVNULL
    return subprocess.Popen(call, cwd=folder, stdin=nothing, stdout=nothing, stderr=nothing)


def ends_well(phone: subprocess.Popen[bytes]) -> bool:
    """Whether a phone ends its calls, and all of them were good."""
    try:
        return phone.wait(90) == 0
    except subprocess.TimeoutExpired:
        phone.kill()
        return False


def start_gateway(trial: Trial, folder: Path) -> None:
    """Starts the gateway of side b, which examples/call/down ends with the others."""
    with (folder / "b/log").open("ab") as log:
        call = inside("b", trial.top / GATEWAY, "run", folder / "b/gateway.toml")
        process = subprocess.Popen(call, stdin=subprocess.DEVNULL, stdout=log, stderr=log)
    with (folder / "processes").open("a") as processes:
        print(process.pid, file=processes)


def ask(trial: Trial, folder: Path, word: str) -> dict[str, object]:
    """What the gateway of side b answers to a request."""
    ended = run(Call((trial.top / ROHCTL, word, "--control", folder / "b/control")))
    trial.demand(ended.is_good, f"call: rohctl {word}: {ended.all.strip()}", ended.call)
    found = json.loads(ended.text or "{}")
    return found if isinstance(found, dict) else {}


def check_steady(trial: Trial, folder: Path) -> None:
    """Calls during a reload and a restart. With losses alone nothing wrong arrives."""
    answering = phone(trial, "b", CALLS, "-sn", "uas", "-rtp_echo")
    time.sleep(0.5)
    calling = phone(trial, "a", CALLS, "-sn", "uac_pcap", "10.8.0.2")
    time.sleep(RELOADED)
    links = folder / "b/links.toml"
    links.write_text(links.read_text().replace("packet_ms = 20", "packet_ms = 30"))
    told = ask(trial, folder, "reload")
    trial.demand(told.get("changed") == 1 and told.get("contexts_gone") == 0, f"call: reload: {told}")
    time.sleep(STOPPED - RELOADED)
    told = ask(trial, folder, "stop")
    trial.demand(told.get("stopped") is True, f"call: stop: {told}")
    start_gateway(trial, folder)
    trial.demand(ends_well(calling) and ends_well(answering), "call: sipp's calls were not all good")
    time.sleep(0.5)
    ended = run(Call((trial.top / "examples/call/compare", folder)))
    trial.say(ended.text.strip())
    counts = COUNTS.findall(ended.text)
    trial.demand(len(counts) == 2 and ended.status == 0, f"call: {ended.all.strip()}", ended.call)
    for way, sent, arrived, wrong, _ in counts:
        trial.demand(int(wrong) == 0, f"call: {way}: {wrong} packets arrived that weren't sent")
        trial.demand(int(sent) > 600 and int(arrived) * 10 > int(sent) * 8, f"call: {way}: {arrived} of {sent} arrived")


def check_killed(trial: Trial, folder: Path) -> None:
    """A gateway is killed during a call, and the call ends well."""
    answering = phone(trial, "b", 1, "-sn", "uas", "-rtp_echo")
    time.sleep(0.5)
    calling = phone(trial, "a", 1, "-sn", "uac_pcap", "10.8.0.2")
    time.sleep(3)
    pids = subprocess.run(["ip", "netns", "pids", "rohc-b"], capture_output=True, text=True, check=True).stdout.split()
    for pid in pids:
        if Path(f"/proc/{pid}/exe").resolve() == (trial.top / GATEWAY).resolve():
            os.kill(int(pid), 9)
    time.sleep(0.2)
    start_gateway(trial, folder)
    trial.demand(ends_well(calling) and ends_well(answering), "call: sipp's call wasn't good after the kill")
    trial.say("call: it goes on after the gateway was killed")


def missing() -> str:
    """What a call needs and this machine doesn't have, if anything."""
    tools = [tool for tool in TOOLS if not shutil.which(tool)] + ([] if PCAPS.exists() else [str(PCAPS)])
    if tools:
        return f"{', '.join(tools)} is not installed"
    if os.geteuid() != 0 or not os.access("/dev/net/tun", os.R_OK | os.W_OK):
        return "root or a TUN device isn't there"
    name = f"rohc-{os.getpid()}"
    if subprocess.run(["ip", "netns", "add", name], capture_output=True, check=False).returncode != 0:
        return "network namespaces can't be made here"
    subprocess.run(["ip", "netns", "delete", name], capture_output=True, check=False)
    return ""


def check(trial: Trial) -> None:
    """Makes the calls, if all that they need is there."""
    if why := missing():
        trial.leave_out(f"{why}, so no call went from phone to phone")
        return
    compressor = evidence.build_compressor(trial)
    if not compressor:
        trial.leave_out("cargo isn't installed, so no call went from phone to phone")
        return
    folder = trial.scratch / "call"
    os.environ["COMPRESSOR"], os.environ["GATEWAY"] = str(compressor), str(trial.top / GATEWAY)
    try:
        trial.must_run("examples/call/up", folder, *LOSS)
        check_steady(trial, folder)
        check_killed(trial, folder)
    finally:
        trial.must_run("examples/call/down", folder)
