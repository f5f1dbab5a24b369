"""bin/compare_duals: the models that it draws, and programs that disagree.

The program is that of the variable MOI_DUAL, or the one that `rt ci` leaves in crates/moi_dual/out.
"""

import json
import os
import stat
import sys
import tempfile
import unittest

from dualizing.compare import Comparison, Difference
from dualizing.models import SCALARS, SENSES, VECTORS, Models

from .test_program import PROGRAM, TOP

DUAL = os.environ.get("MOI_DUAL") or os.path.join(TOP, "crates", "moi_dual", "out", "moi_dual")

# Prints the lines that are told for the first of its arguments.
TELLING = """#!{python}
import sys
print({answers!r}[sys.argv[1]], end="")
"""

OPTIMAL = "ok\nok 2\noptimal 3\nprimal x 3\ndual row r 1\ndual var x 0\n"


class Drawn(unittest.TestCase):
    def test_each_set_sense_and_function_is_drawn(self):
        models = Models(1)
        seen = set()
        for _ in range(300):
            model = json.loads(models.next_text())
            seen.add(model["objective"]["sense"])
            for constraint in model["constraints"]:
                seen.add((constraint["function"]["type"], constraint["set"]["type"]))
        wanted = set(SENSES)
        for shape in ("Variable", "ScalarAffineFunction"):
            wanted |= {(shape, kind) for kind in SCALARS}
        for shape in ("VectorOfVariables", "VectorAffineFunction"):
            wanted |= {(shape, kind) for kind in VECTORS}
        self.assertEqual(wanted - seen, set())

    def test_a_seed_draws_the_same_models(self):
        first, second, other = Models(7), Models(7), Models(8)
        drawn = [first.next_text() for _ in range(5)]
        self.assertEqual(drawn, [second.next_text() for _ in range(5)])
        self.assertNotEqual(drawn, [other.next_text() for _ in range(5)])


class Compared(unittest.TestCase):
    def setUp(self):
        kept = tempfile.TemporaryDirectory()
        self.addCleanup(kept.cleanup)
        self.folder = kept.name

    def telling(self, name, answers):
        path = os.path.join(self.folder, name)
        with open(path, "w", encoding="ascii") as file:
            file.write(TELLING.format(python=sys.executable, answers=answers))
        os.chmod(path, os.stat(path).st_mode | stat.S_IXUSR)
        return path

    def compared(self, solved, dual, judged="yes\n"):
        edit = self.telling("edit", {"solve": solved, "check": judged})
        comparison = Comparison(edit, self.telling("dual", {"solve": dual}), self.folder)
        comparison.compare("{}")
        return dict(comparison.count)

    def test_answers_that_agree_are_counted(self):
        self.assertEqual(self.compared(OPTIMAL, "dual 3\ndual row r 1\ndual var x 0\n"), {"optimal": 1})
        self.assertEqual(self.compared("ok\nok 2\ninfeasible 1\n", "dual unbounded\n"), {"infeasible": 1})
        self.assertEqual(self.compared("ok\nok 2\ninfeasible 1\n", "dual none\n"), {"infeasible": 1})
        self.assertEqual(self.compared("ok\nok 2\nunbounded\n", "dual none\n"), {"unbounded": 1})
        self.assertEqual(self.compared(OPTIMAL, "refused 17 Overflow solver\n"), {"refused": 1})

    def test_another_value_is_a_difference(self):
        with self.assertRaises(Difference):
            self.compared(OPTIMAL, "dual 4\ndual row r 1\ndual var x 0\n")

    def test_wrong_duals_are_a_difference(self):
        with self.assertRaises(Difference):
            self.compared(OPTIMAL, "dual 3\ndual row r 2\ndual var x 0\n", "no\n")

    def test_none_where_the_dual_is_only_unbounded_is_a_difference(self):
        with self.assertRaises(Difference):
            self.compared("ok\nok 2\nunbounded\n", "dual unbounded\n")

    def test_no_answer_to_an_optimal_model_is_a_difference(self):
        with self.assertRaises(Difference):
            self.compared(OPTIMAL, "dual none\n")

    def test_the_programs_agree(self):
        models = Models(1)
        comparison = Comparison(PROGRAM, DUAL, self.folder)
        while comparison.count["optimal"] < 20:
            comparison.compare(models.next_text())


if __name__ == "__main__":
    unittest.main()
