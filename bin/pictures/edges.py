"""The table of edges, read off the code, and the choices that `moi_edit plan` prints."""

import os
import re
from dataclasses import dataclass

TOP = os.path.dirname(os.path.dirname(os.path.dirname(os.path.abspath(__file__))))
TABLE = os.path.join(TOP, "crates", "item_core", "src", "edge.rt")
ROW = re.compile(r"^\s*E(\d+) (\w+) (?:keeps|rewrites) (\w+) =>((?: \w+)*);", re.MULTILINE)
KIND = re.compile(r"(Plain|Affine|Vplain|Vaffine|Group|Min|Max)(\w+)")


@dataclass(frozen=True)
class Edge:
    """An edge of the table: its number, its family, and the kinds that it leads from and to."""

    number: int
    family: str
    source: str
    children: tuple


def kind_text(name):
    """A kind as `plan` prints it: PlainLessThan is plain:LessThan, MinAffine is min:affine."""
    found = KIND.fullmatch(name)
    if not found:
        return name.lower()
    first, second = found[1].lower(), found[2]
    return f"{first}:{second.lower() if first in ('min', 'max') else second}"


def edges(path=TABLE):
    """The edges by their numbers."""
    with open(path, encoding="utf-8") as file:
        rows = ROW.findall(file.read())
    return {
        int(number): Edge(int(number), family, kind_text(source), tuple(map(kind_text, children.split())))
        for number, family, source, children in rows
    }


@dataclass
class Plan:
    """What a plan says: the kinds in order, which are native, the edge that each other takes, and the costs."""

    kinds: list
    native: set
    chosen: dict
    costs: dict

    def children(self, kind):
        return self.chosen[kind].children if kind in self.chosen else ()


def plan_of(lines, table):
    """The plan that these lines of `plan` say, with edges of the table."""
    plan = Plan([], set(), {}, {})
    for line in lines:
        kind, word, *rest = line.split(" ")
        plan.kinds.append(kind)
        if word == "native":
            plan.native.add(kind)
        elif word == "edge":
            plan.chosen[kind], plan.costs[kind] = table[int(rest[0])], int(rest[3])
    return plan


def dot(plan, target):
    """The plan as a DOT file."""
    lines = [f'digraph "{target}" {{', "  rankdir=LR;", '  node [shape=box, style="rounded"];']
    for kind in plan.kinds:
        if kind in plan.native:
            lines.append(f'  "{kind}" [style="rounded,filled", fillcolor="#cfe8cf"];')
        elif kind not in plan.chosen:
            lines.append(f'  "{kind}" [style="dashed", label="{kind}\\nno chain"];')
        else:
            edge = plan.chosen[kind]
            lines.append(f'  "{kind}" [label="{kind}\\n{edge.number} {edge.family}, cost {plan.costs[kind]}"];')
            lines += [f'  "{kind}" -> "{child}";' for child in edge.children]
    return lines + ["}"]
