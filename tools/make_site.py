#!/usr/bin/env python3
"""Writes the page of docs/site from the documents, the pictures, and what rohctl explains of an example.

usage: tools/make_site.py ROHCTL FOLDER

FOLDER gets index.html, which needs nothing else: no other file, and no network. With scripts one steps through the run, by
the buttons or the arrow keys; without them all packets stand one below the other.
"""

import base64
import html
import re
import shutil
import subprocess
import sys
from pathlib import Path

TOP = Path(__file__).resolve().parent.parent
EXAMPLE = TOP / "examples/worked/two-calls-and-noise.script"
LINKS = TOP / "examples/worked/links-1.toml"
PICTURES = {
    "packet": "How a packet goes, from a line or a datagram to the packet that is rebuilt",
    "states": "The states of a context",
    "isolation": "What isolation says",
    "lossy-link": "What comes through a lossy link",
}

STYLE = """
:root { color-scheme: light dark; --page: #ffffff; --text: #1f2328; --quiet: #59636e; --line: #d1d9e0; --own: #2f6db5; --box: #f6f8fa; }
@media (prefers-color-scheme: dark) {
  :root { --page: #0d1117; --text: #e6edf3; --quiet: #9198a1; --line: #3d444d; --own: #6cb0ff; --box: #151b23; }
}
* { box-sizing: border-box; }
body { margin: 0 auto; max-width: 62rem; padding: 1.5rem 1rem 4rem; background: var(--page); color: var(--text);
  font: 1rem/1.55 system-ui, sans-serif; }
h1 { margin: 0 0 .25rem; } h2 { margin: 2.5rem 0 .5rem; } h3 { margin: 1rem 0 .5rem; font-size: 1rem; }
p.lead { color: var(--quiet); margin-top: 0; }
pre { background: var(--box); border: 1px solid var(--line); border-radius: 6px; padding: .75rem; overflow-x: auto;
  font: .8125rem/1.5 ui-monospace, monospace; margin: .5rem 0; }
.step { border-top: 1px solid var(--line); padding-top: .25rem; }
nav.steps { display: none; gap: .5rem; align-items: center; margin-bottom: .75rem; }
.live nav.steps { display: flex; } .live .step { display: none; } .live .step.now { display: block; }
button { font: inherit; color: var(--own); background: var(--box); border: 1px solid var(--line); border-radius: 6px; padding: .3rem .9rem; }
button:disabled { color: var(--quiet); } button:focus-visible, a:focus-visible, pre:focus-visible { outline: 2px solid var(--own); outline-offset: 2px; }
figure { margin: 1rem 0; } figure img { width: 100%; height: auto; border: 1px solid var(--line); border-radius: 6px; }
figcaption { color: var(--quiet); font-size: .875rem; } a { color: var(--own); } li { margin: .25rem 0; }
"""

SCRIPT = """
const run = document.getElementById('run'), steps = [...run.querySelectorAll('.step')];
const back = document.getElementById('back'), on = document.getElementById('on'), place = document.getElementById('place');
let now = 0;
function show(next) {
  now = Math.max(0, Math.min(steps.length - 1, next));
  steps.forEach((step, at) => step.classList.toggle('now', at === now));
  back.disabled = now === 0;
  on.disabled = now === steps.length - 1;
  place.textContent = `packet ${now + 1} of ${steps.length}`;
}
back.addEventListener('click', () => show(now - 1));
on.addEventListener('click', () => show(now + 1));
document.addEventListener('keydown', (event) => {
  if (event.target.closest('pre')) return; // there the arrows scroll
  if (event.key === 'ArrowLeft') show(now - 1);
  if (event.key === 'ArrowRight') show(now + 1);
});
run.classList.add('live');
show(0);
"""


def told(rohctl: Path, *words: str | Path) -> str:
    """What rohctl writes. Status 1 means findings."""
    ended = subprocess.run([rohctl, *words], stdout=subprocess.PIPE, text=True)
    if ended.returncode > 1:
        raise RuntimeError(f"rohctl {words[0]} ended with {ended.returncode}")
    return ended.stdout


def answers(rohctl: Path) -> dict[int, list[str]]:
    """The answers of each line of the script."""
    found: dict[int, list[str]] = {}
    number = 0
    for line in told(rohctl, "trace", "--links", LINKS, EXAMPLE).splitlines():
        first = re.match(r"(\d+) (arrive|reset|oops)", line)
        if first:
            number = int(first[1])
        else:
            found.setdefault(number, []).append(line)
    return found


def steps(rohctl: Path) -> str:
    """A step for each packet of the script."""
    lines, all_answers = EXAMPLE.read_text().splitlines(), answers(rohctl)
    parts = []
    for text in told(rohctl, "explain", "--links", LINKS, EXAMPLE).split("\n\n"):
        found = re.match(r"line (\d+): ", text)
        if not found:
            continue
        number = int(found[1])
        answer = "\n".join(all_answers.get(number, []))
        parts.append(
            f'<section class="step"><h3>Line {number} of the script</h3><pre tabindex=0>{html.escape(lines[number - 1])}</pre>'
            f"<h3>Its answers</h3><pre tabindex=0>{html.escape(answer)}</pre>"
            f"<h3>What rohctl explains</h3><pre tabindex=0>{html.escape(text.strip())}</pre></section>"
        )
    return "\n".join(parts)


def inline(text: str) -> str:
    """A line of Markdown as HTML: bold, code, and links to the repository as their names."""
    text = re.sub(r"\[([^\]]*)\]\([^)]*\)", r"\1", html.escape(text, quote=False))
    return re.sub(r"`([^`]*)`", r"<code>\1</code>", re.sub(r"\*\*([^*]*)\*\*", r"<strong>\1</strong>", text))


def section(name: str) -> str:
    """A section of README.md."""
    text = (TOP / "README.md").read_text()
    return text.split(f"\n## {name}\n", 1)[1].split("\n## ", 1)[0].strip()


def items(name: str, mark: str) -> str:
    """The items of a list in a section of README.md."""
    found = re.split(rf"(?m)^{mark} ", section(name))[1:]
    return "".join(f"<li>{inline(' '.join(item.split(chr(10) + chr(10))[0].split()))}</li>\n" for item in found)


def paragraph(name: str, head: str) -> str:
    """The paragraph of a section of README.md that begins with these bold words, without them."""
    found = section(name).split(f"**{head}** ", 1)[1].split("\n\n", 1)[0]
    return f"<p>{inline(' '.join(found.split()))}</p>"


def picture(name: str, caption: str) -> str:
    """A picture, in the page itself."""
    octets = base64.b64encode((TOP / f"docs/pictures/{name}.svg").read_bytes()).decode()
    alt = html.escape(caption)
    return f'<figure><img alt="{alt}" src="data:image/svg+xml;base64,{octets}"><figcaption>{alt}</figcaption></figure>\n'


def page(rohctl: Path) -> str:
    """The page."""
    lead = " ".join((TOP / "README.md").read_text().split("\n\n")[1].split())
    proved = "What is proved, and what is not"
    return f"""<!doctype html>
<html lang="en">
<head>
<meta charset="utf-8">
<meta name="viewport" content="width=device-width, initial-scale=1">
<title>Polorowan: a ROHC decompressor, proved correct</title>
<style>{STYLE}</style>
</head>
<body>
<h1>Polorowan</h1>
<p class="lead">{inline(lead)}</p>
<h2>A run, packet by packet</h2>
<p>Two calls on two links, and noise: examples/worked/two-calls-and-noise.script.</p>
<div id="run">
<nav class="steps" aria-label="Packets"><button id="back" type="button">Back</button><button id="on" type="button">Forward</button>
<span id="place" aria-live="polite"></span></nav>
{steps(rohctl)}
</div>
<h2>What is proved</h2>
<ol>
{items(proved, r"[0-9][.]")}</ol>
<h2>What is not proved</h2>
{paragraph(proved, "Not proved.")}
<h2>What is in it</h2>
<ul>
{items("What is in it", "-")}</ul>
<h2>Pictures</h2>
{"".join(picture(name, caption) for name, caption in PICTURES.items())}<script>{SCRIPT}</script>
</body>
</html>
"""


def main(words: list[str]) -> int:
    """Does what the words say, and returns the status."""
    if words == ["--help"]:
        print((__doc__ or "").strip())
        return 0
    if len(words) != 2 or words[0].startswith("-"):
        print("usage: tools/make_site.py ROHCTL FOLDER", file=sys.stderr)
        return 2
    if not shutil.which(words[0]):
        print(f"tools/make_site.py: there is no program {words[0]}", file=sys.stderr)
        return 2
    folder = Path(words[1])
    folder.mkdir(parents=True, exist_ok=True)
    (folder / "index.html").write_text(page(Path(words[0]).resolve()))
    print(folder / "index.html")
    return 0


if __name__ == "__main__":
    sys.exit(main(sys.argv[1:]))
