"""A page as Chromium shows it: how wide it is, what reaches beyond the screen, and what it loads."""

import http.server
import json
import re
import shutil
import threading
from collections.abc import Mapping
from dataclasses import dataclass
from html import unescape

from program import Call, run
from trial import Trial

# The widths in pixels of a phone and of a desk, and the height of the screen.
PHONE, DESK, HEIGHT = 360, 1280, 800
# The smallest text that people read with ease, in pixels.
SMALLEST = 11
# The page stands in a frame as wide as the screen. A region of class `wide` scrolls by itself, so what is in it may be wider.
FRAME = """<!DOCTYPE html>
<meta charset="utf-8">
<iframe id="frame" src="/page" style="border: 0; width: {width}px; height: {height}px"></iframe>
<pre id="found"></pre>
<script>
document.getElementById("frame").onload = (event) => {{
    const seen = event.target.contentDocument, wide = seen.documentElement.clientWidth;
    const is_beyond = (one) => one.getBoundingClientRect().right > wide + 1 && !one.parentElement.closest(".wide");
    const shown = (one) => one.tagName + " " + one.textContent.trim().slice(0, 30);
    const size = (one) => parseFloat(getComputedStyle(one).fontSize);
    document.getElementById("found").textContent = JSON.stringify({{
        width: seen.documentElement.scrollWidth,
        beyond: [...seen.body.querySelectorAll("*")].filter(is_beyond).map(shown),
        titles: [...seen.querySelectorAll("h1, h2")].map((one) => one.textContent),
        smallest: Math.min(...[...seen.querySelectorAll("p, td, th, li")].map(size)),
    }});
}};
</script>
"""


@dataclass(frozen=True)
class Seen:
    """What Chromium made of a page at a width."""

    width: int
    beyond: list[str]
    titles: list[str]
    # The smallest text, in pixels.
    smallest: float
    # The paths that it asked for.
    asked: list[str]


class Server(http.server.ThreadingHTTPServer):
    """Serves the page and the frame around it, and notes what is asked for."""

    def __init__(self, texts: Mapping[str, str]) -> None:
        super().__init__(("127.0.0.1", 0), Handler)
        self.texts = texts
        self.asked: list[str] = []

    def __enter__(self) -> "Server":
        threading.Thread(target=self.serve_forever, daemon=True).start()
        return self

    def __exit__(self, *_: object) -> None:
        self.shutdown()
        self.server_close()


class Handler(http.server.BaseHTTPRequestHandler):
    """Answers one request."""

    server: Server

    def do_GET(self) -> None:  # noqa: N802
        """Gives the text at a path."""
        self.server.asked.append(self.path)
        text = self.server.texts.get(self.path)
        self.send_response(404 if text is None else 200)
        self.send_header("Content-Type", "text/html; charset=utf-8")
        self.end_headers()
        self.wfile.write((text or "").encode())

    def log_message(self, format: str, *words: object) -> None:  # noqa: A002
        """Logs nothing."""


def seen_at(trial: Trial, page: str, width: int) -> Seen | None:
    """What Chromium makes of a page at a width, or nothing if it shows none."""
    with Server({"/page": page, "/": FRAME.format(width=width, height=HEIGHT)}) as server:
        address = f"http://127.0.0.1:{server.server_address[1]}/"
        words = ["--headless", "--no-sandbox", "--disable-gpu", "--disable-dev-shm-usage", "--no-first-run", "--dump-dom"]
        profile = trial.scratch / f"chromium-{width}"
        ended = run(Call(("chromium", *words, f"--user-data-dir={profile}", address)), seconds=120)
        shutil.rmtree(profile, ignore_errors=True)
        found = re.search(r'<pre id="found">(.*?)</pre>', ended.text, re.DOTALL)
        if not trial.demand(bool(found and found[1]), f"Chromium shows no page: {ended.all[-500:]}", ended.call) or not found:
            return None
        return Seen(**json.loads(unescape(found[1])), asked=[path for path in server.asked if path not in ("/", "/favicon.ico")])


def titles_in(page: str) -> list[str]:
    """The titles in the text of a page."""
    return [unescape(re.sub(r"<[^>]*>", "", title)) for title in re.findall(r"<h[12]\b[^>]*>(.*?)</h[12]>", page, re.DOTALL)]


def check(trial: Trial, page: str, name: str) -> None:
    """A page shows its titles, loads nothing, and fits onto a phone and a desk, as Chromium shows it."""
    if not shutil.which("chromium"):
        trial.leave_out(f"chromium is not installed, {name} was not shown by it")
        return
    for width in (PHONE, DESK):
        seen = seen_at(trial, page, width)
        if not seen:
            return
        at = f"{name} at {width} pixels"
        trial.demand(seen.titles == titles_in(page) != [], f"{at}: titles {seen.titles}; wanted {titles_in(page)}")
        trial.demand(seen.width <= width and not seen.beyond, f"{at}: {seen.width} pixels wide, beyond the screen {seen.beyond[:5]}")
        trial.demand(seen.smallest >= SMALLEST, f"{at}: a text of {seen.smallest} pixels")
        trial.demand(seen.asked == ["/page"], f"{at}: it loads {seen.asked}")
    trial.say(f"{name}: fits a phone and a desk in Chromium")
