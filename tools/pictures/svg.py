"""One SVG file: its style for light and dark, its texts and marks, and scales from numbers to places."""

import math
from xml.sax.saxutils import escape

LIGHT = {
    "paper": "fill:#ffffff",
    "ink": "fill:#1f2328",
    "faint": "fill:#59636e",
    "grid": "stroke:#ccd3da",
    "axis": "stroke:#59636e",
    "source": "stroke:#1f6fb4;fill:none",
    "decoded": "stroke:#d1480f;fill:none",
    "source-area": "fill:#1f6fb4",
    "decoded-area": "fill:#d1480f",
    "error": "stroke:#a8246e;fill:none",
    "error-area": "fill:#a8246e",
    "loop": "fill:#f7ecc6",
    "again": "fill:#fcf7e6",
}
DARK = {
    "paper": "fill:#14181d",
    "ink": "fill:#e6edf3",
    "faint": "fill:#9aa5b1",
    "grid": "stroke:#4a5561",
    "axis": "stroke:#9aa5b1",
    "source": "stroke:#62b0f2;fill:none",
    "decoded": "stroke:#ff9355;fill:none",
    "source-area": "fill:#62b0f2",
    "decoded-area": "fill:#ff9355",
    "error": "stroke:#f07fc0;fill:none",
    "error-area": "fill:#f07fc0",
    "loop": "fill:#3d3619",
    "again": "fill:#272414",
}


def rules(colours):
    """The rules of a style sheet."""
    return "".join(f".{name}{{{rule}}}" for name, rule in colours.items())


STYLE = (
    "text{font:12px system-ui,'DejaVu Sans',sans-serif}.title{font-size:15px;font-weight:bold}"
    ".source,.decoded{stroke-width:1.5;stroke-linejoin:round}.wide{stroke-width:5}.soft{opacity:.55}"
    + rules(LIGHT)
    + "@media (prefers-color-scheme:dark){"
    + rules(DARK)
    + "}"
)


def number(value):
    """A place with one decimal at most."""
    return f"{round(value, 1):g}"


def whole(value):
    """A whole number in groups of three, with thin spaces."""
    return f"{value:,}".replace(",", "\u2009")


def round_up(value):
    """A round number that is at least this one."""
    if value <= 0:
        return 1
    ten = 10 ** math.floor(math.log10(value))
    return next(step * ten for step in (1, 1.5, 2, 3, 4, 5, 6, 8, 10) if step * ten >= value)


class Scale:
    """The straight map that takes two numbers to two places."""

    def __init__(self, low, high, start, end):
        self.low, self.start = low, start
        self.factor = (end - start) / (high - low)

    def __call__(self, value):
        return self.start + (value - self.low) * self.factor


class Picture:
    """An SVG file that is being drawn."""

    def __init__(self, width, height, title):
        self.width, self.height, self.title = width, height, title
        self.parts = []
        self.text(16, 25, title, "title ink")

    def text(self, x, y, words, kind="ink", anchor="start"):
        """A line of text."""
        where = "" if anchor == "start" else f' text-anchor="{anchor}"'
        self.parts.append(f'<text class="{kind}" x="{number(x)}" y="{number(y)}"{where}>{escape(words)}</text>')

    def box(self, x, y, width, height, kind, told=None):
        """A filled box, with a text that shows where one points at it."""
        more = "/>" if told is None else f"><title>{escape(told)}</title></rect>"
        size = f'width="{number(width)}" height="{number(height)}"'
        self.parts.append(f'<rect class="{kind}" x="{number(x)}" y="{number(y)}" {size}{more}')

    def line(self, x, y, to_x, to_y, kind):
        """A straight line."""
        ends = f'x1="{number(x)}" y1="{number(y)}" x2="{number(to_x)}" y2="{number(to_y)}"'
        self.parts.append(f'<line class="{kind}" {ends}/>')

    def path(self, points, kind, closed=False):
        """A line through points."""
        places = " ".join(f"{number(x)},{number(y)}" for x, y in points)
        self.parts.append(f'<path class="{kind}" d="M{places}{"Z" if closed else ""}"/>')

    def legend(self, x, y, entries):
        """Marks with their meanings, one after another."""
        for kind, words in entries:
            self.box(x, y - 10, 18, 11, kind)
            self.text(x + 24, y, words)
            x += 46 + 6.6 * len(words)

    def __str__(self):
        size = f'width="{self.width}" height="{self.height}" viewBox="0 0 {self.width} {self.height}"'
        head = f'<svg xmlns="http://www.w3.org/2000/svg" {size} role="img"><title>{escape(self.title)}</title>'
        paper = f'<rect class="paper" width="{self.width}" height="{self.height}"/>'
        return "\n".join([head, f"<style>{STYLE}</style>", paper, *self.parts, "</svg>\n"])
