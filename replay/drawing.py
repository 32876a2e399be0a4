"""Marks on a picture, in SVG: texts with their widths, lines, arrows, crosses, boxes. Nothing here
knows what is drawn."""

import html

SMALL, PLAIN, LARGE = 11, 12, 14
NOTE = 10
LEADING = 15
INSET = 3  # of a double frame's inner line
BOLD = 1.12  # how much wider bold letters are

# Widths of a common wide face (DejaVu Sans), in parts of the size; a narrower face leaves air.
WIDTHS = [
    ("ijlI|.,:;'!", 0.34),
    (" ft", 0.4),
    ("r()[]-/", 0.42),
    ("mMwW%", 0.99),
    ("−+=<>…", 0.86),
]
WIDTH = {letter: width for letters, width in WIDTHS for letter in letters}

# Each rule speaks of a chart alone, since a page holds many pictures in one document.
RULES = """
{background:#fff}
 text{font-family:'DejaVu Sans',Verdana,Arial,sans-serif;fill:#222}
 .bad{fill:#b00020}
 .good{fill:#1b5e20}
 .quiet{fill:#666}
 .strong{font-weight:bold}
 .halo{paint-order:stroke;stroke:#fff;stroke-width:3px}
 .band{fill:#f2f4f7}
 .rule{stroke:#eceff3}
 .life{stroke:#b9c2cc}
 .busy{stroke:#c5d9f1;stroke-width:7}
 .box{fill:#fff;stroke:#4a6fa5;stroke-width:1.2}
 .paid{fill:#fff6e5;stroke:#b26a00}
 .came{fill:#e9f6ea;stroke:#2e7d32}
 .outside{fill:#d9efff;stroke:#01579b}
 .logged{fill:#efe9f7;stroke:#5e4b8b}
 .refused{fill:#fdecea;stroke:#b00020;stroke-dasharray:4 3}
 .go{stroke:#2e7d32;stroke-width:1.4}
 .no{stroke:#b00020;stroke-width:1.4;stroke-dasharray:5 4}
 .lost{stroke:#b00020;stroke-width:1.4}
 .stands{stroke:#777;stroke-width:1.4;stroke-dasharray:2 3}
 .tip{fill:#2e7d32}
 .cross{stroke:#b00020;stroke-width:2;fill:none}
 .dot{fill:#777}
"""
STYLE = "".join(f"svg.chart{rule}" for rule in RULES.strip("\n").split("\n"))


def wide(text, size):
    """The width of a text, rather too much than too little."""
    widths = (WIDTH.get(c, 0.77 if c.isupper() else 0.65 if c.isascii() else 1.1) for c in text)
    return sum(widths) * size


def clipped(text, size, width):
    if wide(text, size) <= width:
        return text
    while text and wide(text + "…", size) > width:
        text = text[:-1]
    return text + "…"


def wrapped(text, size, width):
    """A text in lines of that width, broken at spaces; inside a word only where it is too long."""
    lines, line = [], ""
    for word in text.split():
        if line and wide(f"{line} {word}", size) > width:
            lines.append(line)
            line = word
        else:
            line = f"{line} {word}".strip()
        while wide(line, size) > width:
            cut = len(line) - 1
            while wide(line[:cut], size) > width:
                cut -= 1
            lines.append(line[:cut])
            line = line[cut:]
    return [*lines, line] if line or not lines else lines


class Drawing:
    """A picture that grows downwards: `y` is where the next thing goes. Lines lie behind texts."""

    def __init__(self, width):
        self.width = width
        self.y = 0
        self.back, self.front = [], []

    def text(self, x, y, words, size=PLAIN, kind="", anchor="start"):
        kind = f' class="{kind}"' if kind else ""
        anchor = f' text-anchor="{anchor}"' if anchor != "start" else ""
        at = f'x="{x:g}" y="{y:g}" font-size="{size}"'
        self.front.append(f"<text {at}{anchor}{kind}>{html.escape(words)}</text>")

    def lines(self, x, y, lines, size=PLAIN, kind="", anchor="start"):
        """Lines one below the other, around the height y."""
        top = y - LEADING * (len(lines) - 1) / 2 + size * 0.36
        for place, line in enumerate(lines):
            self.text(x, top + LEADING * place, line, size, kind, anchor)

    def line(self, x1, y1, x2, y2, kind):
        ends = f'x1="{x1:g}" y1="{y1:g}" x2="{x2:g}" y2="{y2:g}"'
        self.back.append(f'<line {ends} class="{kind}"/>')

    def arrow(self, x1, y1, x2, y2, kind):
        """A line with a tip; the tip is drawn, since a marker would need a name in the document."""
        self.line(x1, y1, x2, y2, kind)
        length = max(((x2 - x1) ** 2 + (y2 - y1) ** 2) ** 0.5, 1)
        dx, dy = (x2 - x1) / length, (y2 - y1) / length
        x, y = x2 - 9 * dx, y2 - 9 * dy
        corners = [(x2, y2), (x - 4 * dy, y + 4 * dx), (x + 4 * dy, y - 4 * dx)]
        points = " ".join(f"{corner[0]:.1f},{corner[1]:.1f}" for corner in corners)
        self.back.append(f'<polygon points="{points}" class="tip"/>')

    def cross(self, x, y):
        self.back.append(f'<path d="M{x - 5:g} {y - 5:g}l10 10m0 -10l-10 10" class="cross"/>')

    def dot(self, x, y):
        self.back.append(f'<circle cx="{x:g}" cy="{y:g}" r="3" class="dot"/>')

    def band(self, height):
        """A grey band over the whole width, from where the drawing stands."""
        size = f'width="{self.width}" height="{height}"'
        self.back.append(f'<rect x="0" y="{self.y:g}" {size} class="band"/>')

    def frame(self, x, y, width, height, kind, is_double=False):
        """A frame around a middle; a double one can be told from the others without colours."""
        for inset in (0, INSET) if is_double else (0,):
            left, top = x - width / 2 + inset, y - height / 2 + inset
            size = f'width="{width - 2 * inset:g}" height="{height - 2 * inset:g}"'
            at = f'x="{left:g}" y="{top:g}" {size}'
            self.front.append(f'<rect {at} rx="4" class="box {kind}"/>')

    def box(self, x, y, width, lines, kind, is_double=False):
        """A frame around a middle, with its lines."""
        room = 8 + (2 * INSET if is_double else 0)
        self.frame(x, y, width, LEADING * len(lines) + room, kind, is_double)
        lines = [clipped(line, SMALL, width - room) for line in lines]
        self.lines(x, y, lines, SMALL, "bad" if kind == "refused" else "", "middle")

    def svg(self, title):
        height = int(self.y)
        size = f'width="{self.width}" height="{height}" viewBox="0 0 {self.width} {height}"'
        head = [
            f'<svg xmlns="http://www.w3.org/2000/svg" class="chart" role="img" {size}>',
            f"<title>{html.escape(title)}</title><style>{STYLE}</style>",
            f'<rect width="{self.width}" height="{height}" fill="#fff"/>',
        ]
        return "\n".join([*head, *self.back, *self.front, "</svg>"]) + "\n"
