"""The crates by layer, read off the groups of crates.txt."""

import os
import re

from . import svg
from .edges import TOP

LIST = os.path.join(TOP, "crates.txt")
GROUP = re.compile(r"# ([a-z ]+): (.*)")
WIDTH, HEIGHT, GAP, MARGIN, ACROSS, HEAD = 122, 22, 8, 16, 7, 44


class Group:
    """A group of crates: its name, what it is for, and the crates, lowest first."""

    def __init__(self, name, purpose):
        self.name, self.purpose, self.crates = name, purpose, []

    def uses(self, groups, below):
        """The other groups whose crates it uses."""
        used = {other for name in self.crates for other in below[name]}
        return [group.name for group in groups if group is not self and used.intersection(group.crates)]


def read(path=LIST):
    """The groups in order, and of each crate those of this repository that it uses."""
    groups, below = [], {}
    with open(path, encoding="utf-8") as file:
        for line in map(str.rstrip, file):
            found = GROUP.fullmatch(line)
            if found:
                groups.append(Group(*found.groups()))
            elif ":" in line and not line.startswith("#"):
                name, _, used = line.partition(":")
                below[name] = used.split()
                if groups:
                    groups[-1].crates.append(name)
    return groups, {name: [other for other in used if other in below] for name, used in below.items()}


def rows_of(group):
    return -(-len(group.crates) // ACROSS)


def band(group, top, used, fill):
    """A group's band: its name, its purpose, what it stands on, and its crates."""
    wide = ACROSS * (WIDTH + GAP) - GAP + 2 * MARGIN
    high = HEAD + rows_of(group) * (HEIGHT + GAP) + GAP
    drawn = [
        f'<rect x="0" y="{top}" width="{wide}" height="{high}" fill="{fill}"/>',
        svg.text(MARGIN, top + 18, group.name, 14, "start", weight="bold"),
        svg.text(wide - MARGIN, top + 18, "over " + ", ".join(used) if used else "", 11, "end", "#667788"),
        svg.text(MARGIN, top + 35, group.purpose, 11, "start", "#445566"),
    ]
    for place, name in enumerate(group.crates):
        x = MARGIN + place % ACROSS * (WIDTH + GAP)
        y = top + HEAD + place // ACROSS * (HEIGHT + GAP)
        drawn += [svg.box(x, y, WIDTH, HEIGHT, "#ffffff"), svg.text(x + WIDTH / 2, y + 15, name, 11)]
    return drawn, wide, high


def picture(path=LIST):
    """The lines of the picture: the program at the top, what all else is made of below, laws and tests last."""
    groups, below = read(path)
    beside = [group for group in groups if group.name in ("laws", "tests")]
    order = [group for group in reversed(groups) if group not in beside] + beside
    body, top, wide = [], 0, 0
    for turn, group in enumerate(order):
        drawn, wide, high = band(group, top, group.uses(groups, below), "#f0f4f9" if turn % 2 == 0 else "#ffffff")
        body += drawn
        top += high
    return svg.frame(wide, top, body)
