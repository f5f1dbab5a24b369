"""Scalable pictures: of a plan's chains, and of the crates."""

from xml.sax.saxutils import escape

from . import layers

FONT = 'font-family="Helvetica, Arial, sans-serif"'
NATIVE, BRIDGED, LINE = "#cfe8cf", "#ffffff", "#7a8ba6"


def frame(width, height, body):
    """A picture of this size, on white."""
    return [
        f'<svg xmlns="http://www.w3.org/2000/svg" viewBox="0 0 {width} {height}" width="{width}" height="{height}">',
        f'<rect width="{width}" height="{height}" fill="#ffffff"/>', *body, "</svg>",
    ]


def text(x, y, words, size=12, anchor="middle", colour="#222222", weight="normal"):
    return (f'<text x="{x:g}" y="{y:g}" {FONT} font-size="{size}" font-weight="{weight}" text-anchor="{anchor}" '
            f'fill="{colour}">{escape(words)}</text>')


def box(x, y, width, height, fill, dash=""):
    return (f'<rect x="{x:g}" y="{y:g}" width="{width}" height="{height}" rx="6" fill="{fill}" stroke="#556070"'
            f'{dash}/>')


def curve(x, y, to_x, to_y, colour=LINE, width=1.2):
    """An arrow from one place to another further right."""
    bend = (to_x - x) / 2
    return (f'<path d="M {x:g} {y:g} C {x + bend:g} {y:g} {to_x - bend:g} {to_y:g} {to_x:g} {to_y:g}" fill="none" '
            f'stroke="{colour}" stroke-width="{width}" marker-end="url(#head)"/>')


HEAD = ('<defs><marker id="head" viewBox="0 0 8 8" refX="8" refY="4" markerWidth="7" markerHeight="7" orient="auto">'
        f'<path d="M 0 0 L 8 4 L 0 8 z" fill="{LINE}"/></marker></defs>')


class Chains:
    """The picture of a plan: what the solver takes at the right, and to the left what is rewritten as it."""

    width, height, across, down, margin = 172, 38, 236, 50, 24

    def __init__(self, plan, target):
        self.plan, self.target = plan, target
        shown = [kind for kind in plan.kinds if kind in plan.native or kind in plan.chosen]
        self.columns = layers.columns(shown, plan.children)
        self.tallest = max(map(len, self.columns))
        self.places = {}
        for column, kinds in enumerate(self.columns):
            top = self.margin + 30 + (self.tallest - len(kinds)) * self.down / 2
            for row, kind in enumerate(kinds):
                self.places[kind] = (self.margin + column * self.across, top + row * self.down)

    def node(self, kind):
        x, y = self.places[kind]
        fill = NATIVE if kind in self.plan.native else BRIDGED
        drawn = [box(x, y, self.width, self.height, fill), text(x + self.width / 2, y + 16, kind, 12, weight="bold")]
        below = "the solver takes it"
        if kind in self.plan.chosen:
            edge = self.plan.chosen[kind]
            below = f"{edge.number} {edge.family}, cost {self.plan.costs[kind]}"
        return drawn + [text(x + self.width / 2, y + 31, below, 10, colour="#445566")]

    def arrows(self, kind):
        x, y = self.places[kind]
        for child in self.plan.children(kind):
            to_x, to_y = self.places[child]
            yield curve(x + self.width, y + self.height / 2, to_x, to_y + self.height / 2)

    def lines(self):
        missing = [kind for kind in self.plan.kinds if kind not in self.places]
        title = f"--target {self.target}" + (f"   (no chain: {', '.join(missing)})" if missing else "")
        body = [HEAD, text(self.margin, 28, title, 14, "start", weight="bold")]
        for kind in self.places:
            body += self.arrows(kind)
        for kind in self.places:
            body += self.node(kind)
        wide = 2 * self.margin + (len(self.columns) - 1) * self.across + self.width
        return frame(wide, 2 * self.margin + 30 + self.tallest * self.down, body)
