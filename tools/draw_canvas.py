"""A canvas for the pictures of docs/pictures, written as SVG.

A picture is readable on light and on dark pages. A picture is refused if a text leaves its box or the frame, if two texts
overlap, or if an arrow runs through a text. The widths of texts are estimated generously.
"""

from xml.sax.saxutils import escape

SIZE = 14
STYLE = """
    text { font: 14px sans-serif; fill: #1f2328; }
    .mono { font-family: monospace; }
    .small { font-size: 12px; fill: #59636e; }
    .bold { font-weight: bold; }
    .page { fill: #ffffff; }
    .box { fill: #eef4fc; stroke: #2f6db5; stroke-width: 1.5; }
    .alone { fill: #e9f7ef; stroke: #2a7d4f; stroke-width: 1.5; }
    .hostile { fill: #fdeeee; stroke: #b3382f; stroke-width: 1.5; }
    .plain { fill: none; stroke: #8c959f; stroke-width: 1.5; stroke-dasharray: 5 4; }
    .arrow { fill: none; stroke: #59636e; stroke-width: 1.5; }
    .tip { fill: #59636e; }
    @media (prefers-color-scheme: dark) {
      text { fill: #e6edf3; }
      .small { fill: #9ea7b3; }
      .page { fill: #161b22; }
      .box { fill: #1b2b41; stroke: #6ea8fe; }
      .alone { fill: #17301f; stroke: #5fc98a; }
      .hostile { fill: #3b1d1c; stroke: #ff8f86; }
      .plain { stroke: #768390; }
      .arrow { stroke: #9ea7b3; }
      .tip { fill: #9ea7b3; }
    }
"""


class BadPicture(Exception):
    """A text can't be read where it stands."""


def overlap(a, b):
    """Whether two rectangles (left, top, right, bottom) share an area."""
    return a[0] < b[2] and b[0] < a[2] and a[1] < b[3] and b[1] < a[3]


class Canvas:
    """A picture of this width and height in pixels, with styles of its own behind those of all."""

    def __init__(self, name, width, height, style=""):
        self.name, self.width, self.height, self.style = name, width, height, style
        self.parts = []
        self.texts = []
        self.lines = []

    def text(self, x, y, words, kind="", anchor="middle", within=None):
        """One line of text; `y` is its middle. `within` is a rectangle that it may not leave."""
        size = 12 if "small" in kind else SIZE
        width = len(words) * size * (0.62 if "mono" in kind or "bold" in kind else 0.56)
        left = {"middle": x - width / 2, "start": x, "end": x - width}[anchor]
        place = (left, y - size * 0.62, left + width, y + size * 0.62)
        frame = within or (0, 0, self.width, self.height)
        if place[0] < frame[0] or place[1] < frame[1] or place[2] > frame[2] or place[3] > frame[3]:
            raise BadPicture(f"{self.name}: '{words}' leaves its frame: {place} in {frame}")
        for other, said in self.texts:
            if overlap(place, other):
                raise BadPicture(f"{self.name}: '{words}' overlaps '{said}'")
        self.texts.append((place, words))
        kind_word = f' class="{kind}"' if kind else ""
        self.parts.append(
            f'<text x="{x:g}" y="{y + size * 0.35:g}" text-anchor="{anchor}"{kind_word}>{escape(words)}</text>'
        )

    def box(self, x, y, width, height, words, kind="box", fonts=""):
        """A box with lines of text in its middle. `fonts` names a font for each line, separated by commas."""
        lines, fonts = words.split("\n"), fonts.split(",")
        self.parts.append(f'<rect class="{kind}" x="{x:g}" y="{y:g}" width="{width:g}" height="{height:g}" rx="6"/>')
        top = y + height / 2 - (len(lines) - 1) * 9
        for place, line in enumerate(lines):
            font = fonts[place] if place < len(fonts) else ""
            self.text(x + width / 2, top + place * 18, line, font, within=(x, y, x + width, y + height))

    def frame(self, x, y, width, height, kind="plain"):
        """A box without text."""
        self.parts.append(f'<rect class="{kind}" x="{x:g}" y="{y:g}" width="{width:g}" height="{height:g}" rx="6"/>')

    def arrow(self, *points):
        """A line through these points, with a tip at its end. Each part of it is vertical or horizontal."""
        for start, end in zip(points, points[1:]):
            if start[0] != end[0] and start[1] != end[1]:
                raise BadPicture(f"{self.name}: the line {start} to {end} is neither upright nor level")
            self.lines.append((start, end))
        path = " L ".join(f"{x:g} {y:g}" for x, y in points)
        (x, y), (a, b) = points[-1], points[-2]
        back, side = (9, 4.5)
        if x == a:
            up = back if b > y else -back
            tip = f"{x:g},{y:g} {x - side:g},{y + up:g} {x + side:g},{y + up:g}"
        else:
            left = back if a > x else -back
            tip = f"{x:g},{y:g} {x + left:g},{y - side:g} {x + left:g},{y + side:g}"
        self.parts.append(f'<path class="arrow" d="M {path}"/><polygon class="tip" points="{tip}"/>')

    def check_lines(self):
        """Refuses a line that runs through a text or leaves the frame."""
        for (x, y), (a, b) in self.lines:
            line = (min(x, a) - 1, min(y, b) - 1, max(x, a) + 1, max(y, b) + 1)
            if line[0] < 0 or line[1] < 0 or line[2] > self.width or line[3] > self.height:
                raise BadPicture(f"{self.name}: a line leaves the frame at {line}")
            for place, words in self.texts:
                if overlap(line, place):
                    raise BadPicture(f"{self.name}: a line runs through '{words}'")

    def svg(self, shows):
        """The picture as SVG, with a name and a description in words."""
        self.check_lines()
        body = "\n  ".join(self.parts)
        return (
            f'<svg xmlns="http://www.w3.org/2000/svg" viewBox="0 0 {self.width} {self.height}" width="{self.width}" '
            f'height="{self.height}" role="img">\n'
            f"  <title>{escape(shows[self.name])}</title>\n  <style>{STYLE}{self.style}  </style>\n"
            f'  <rect class="page" width="{self.width}" height="{self.height}" rx="8"/>\n  {body}\n</svg>\n'
        )
