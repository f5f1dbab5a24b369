"""The pictures of the documents: they are what the scripts draw today."""

import os
import re
import unittest

from explainer.program import Program
from pictures import crates, edges, layers, svg

from .test_program import PROGRAM, TOP


def kept(name):
    with open(os.path.join(TOP, "docs", name), encoding="utf-8") as file:
        return file.read().split("\n")


def plan(target):
    lines, _ = Program(PROGRAM).answer(["plan", "--target", target])
    return edges.plan_of(lines, edges.edges())


class Edges(unittest.TestCase):
    def test_the_table_has_each_edge(self):
        table = edges.edges()
        self.assertEqual(sorted(table), list(range(1, 64)))
        self.assertEqual(table[42], edges.Edge(42, "NormOne", "vaffine:NormOneCone",
                                               ("group:Reals", "vaffine:Nonnegatives")))
        self.assertEqual(table[62].children, ("free", "affine:GreaterThan", "min:plain"))

    def test_the_document_names_the_edges_of_each_family(self):
        said = re.findall(r"^\| `(\w+)` \| (\d+)(?:(?: to |, )(\d+))? \|", "\n".join(kept("BRIDGES.md")), re.MULTILINE)
        found = {}
        for edge in edges.edges().values():
            found.setdefault(edge.family, []).append(edge.number)
        self.assertEqual({name: (int(first), int(last or first)) for name, first, last in said},
                         {name: (numbers[0], numbers[-1]) for name, numbers in found.items()})


class Pictures(unittest.TestCase):
    def test_the_kept_pictures_are_current(self):
        for target in ("standard", "rows"):
            self.assertEqual(kept(f"bridges-{target}.svg")[:-1], svg.Chains(plan(target), target).lines())

    def test_each_crate_is_drawn_once(self):
        drawn = "\n".join(crates.picture())
        _, below = crates.read()
        for name in below:
            self.assertEqual(drawn.count(f">{name}</text>"), 1)

    def test_a_dot_file_has_the_chosen_edges(self):
        drawn = edges.dot(plan("standard"), "standard")
        self.assertIn('  "affine:Interval" -> "affine:LessThan";', drawn)
        self.assertIn('  "free" [style="dashed", label="free\\nno chain"];', drawn)

    def test_each_arrow_leads_to_the_right(self):
        chosen = plan("rows")
        column = {kind: place for place, kinds in enumerate(layers.columns(chosen.kinds, chosen.children)) for kind in kinds}
        for kind in chosen.kinds:
            for child in chosen.children(kind):
                self.assertLess(column[kind], column[child])


if __name__ == "__main__":
    unittest.main()
