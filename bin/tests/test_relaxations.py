"""bin/compare_relaxations: the least that it finds itself, and a program that is wrong.

The program is that of the variable MOI_RELAX, or the one that `rt ci` leaves in crates/moi_relax/out.
"""

import json
import os
import stat
import sys
import tempfile
import unittest
from fractions import Fraction

from relaxing.compare import Comparison, Difference
from relaxing.models import Models
from relaxing.rows import bounds_of_model
from relaxing.simplex import least_misses

from .test_program import PROGRAM, TOP

RELAX = os.environ.get("MOI_RELAX") or os.path.join(TOP, "crates", "moi_relax", "out", "moi_relax")

# Prints a text, whatever its arguments.
TELLING = """#!{python}
print({answer!r}, end="")
"""


def affine(coefficient, kind, **bounds):
    function = {"type": "ScalarAffineFunction", "terms": [{"coefficient": coefficient, "variable": "x"}], "constant": 0}
    return {"name": f"r {kind}", "function": function, "set": {"type": kind, **bounds}}


def bound(kind, **bounds):
    return {"function": {"type": "Variable", "name": "x"}, "set": {"type": kind, **bounds}}


def model_of(*constraints):
    head = {"version": {"major": 1, "minor": 0}, "variables": [{"name": "x"}], "objective": {"sense": "feasibility"}}
    return {**head, "constraints": list(constraints)}


def least_of(*constraints):
    return least_misses(["x"], bounds_of_model(model_of(*constraints)))


# At least 2 and at most 1.
APART = [affine(1, "GreaterThan", lower=2), affine(1, "LessThan", upper=1)]


class Found(unittest.TestCase):
    def test_the_least_is_found(self):
        self.assertEqual(least_of(*APART), 1)
        self.assertEqual(least_of(affine(1, "EqualTo", value=5), bound("Interval", lower=0, upper=3)), 2)
        self.assertEqual(least_of(affine(2, "Interval", lower=1, upper=2), bound("GreaterThan", lower=4)), 6)
        self.assertEqual(least_of(affine("1/2", "LessThan", upper=1), bound("GreaterThan", lower=3)), Fraction(1, 2))
        self.assertEqual(least_of(bound("GreaterThan", lower=4)), 0)

    def test_hard_rows_are_never_missed(self):
        self.assertIsNone(least_of(bound("GreaterThan", lower=4), bound("LessThan", upper=3), *APART))

    def test_norm_cones_are_cut_by_their_sides(self):
        for kind, least in (("NormOneCone", 3), ("NormInfinityCone", 2)):
            terms = [{"output_index": 1, "scalar_term": {"coefficient": 1, "variable": "x"}}]
            cone = {"type": kind, "dimension": 3}
            function = {"type": "VectorAffineFunction", "terms": terms, "constants": [0, 1, -2]}
            row = {"name": "norm", "function": function, "set": cone}
            self.assertEqual(least_of(row, affine(1, "LessThan", upper=0)), least)


class Compared(unittest.TestCase):
    def setUp(self):
        kept = tempfile.TemporaryDirectory()
        self.addCleanup(kept.cleanup)
        self.folder = kept.name

    def telling(self, name, answer):
        path = os.path.join(self.folder, name)
        with open(path, "w", encoding="ascii") as file:
            file.write(TELLING.format(python=sys.executable, answer=answer))
        os.chmod(path, os.stat(path).st_mode | stat.S_IXUSR)
        return path

    def compared(self, answer, *constraints, judged="yes\n"):
        comparison = Comparison(self.telling("edit", judged), self.telling("relax", answer), self.folder)
        comparison.compare(json.dumps(model_of(*constraints)))
        return dict(comparison.count)

    def test_right_answers_are_counted(self):
        for point, misses in (("2", "0 1"), ("1", "1 0"), ("3/2", "1/2 1/2")):
            first, second = misses.split(" ")
            answer = f"relaxed 1\nprimal x {point}\nover r%20GreaterThan {first}\nover r%20LessThan {second}\n"
            self.assertEqual(self.compared(answer, *APART), {"relaxed": 1})
        self.assertEqual(self.compared("refused 15 TooLarge 1\n", *APART), {"refused": 1})
        hard = (bound("GreaterThan", lower=4), bound("LessThan", upper=3))
        self.assertEqual(self.compared("infeasible 1\ndual var x 0\n", *hard), {"infeasible": 1})

    def test_wrong_answers_are_differences(self):
        hard = (bound("GreaterThan", lower=4), bound("LessThan", upper=3))
        for answer, constraints in (
            ("relaxed 2\nprimal x 3\nover r%20GreaterThan 0\nover r%20LessThan 2\n", APART),
            ("relaxed 1\nprimal x 2\nover r%20GreaterThan 1\nover r%20LessThan 0\n", APART),
            ("relaxed 1\nprimal x 2\nover r%20GreaterThan 0\n", APART),
            ("relaxed 1\nprimal y 2\nover r%20GreaterThan 0\nover r%20LessThan 1\n", APART),
            ("infeasible 1\ndual var x 0\n", APART),
            ("relaxed 0\nprimal x 4\n", hard),
            ("", APART),
        ):
            with self.subTest(answer=answer), self.assertRaises(Difference):
                self.compared(answer, *constraints)
        with self.assertRaises(Difference):
            self.compared("infeasible 1\ndual var x 0\n", *hard, judged="no\n")

    def test_the_program_is_right(self):
        models = Models(1)
        comparison = Comparison(PROGRAM, RELAX, self.folder)
        while comparison.count["relaxed"] < 20:
            comparison.compare(models.next_text())


if __name__ == "__main__":
    unittest.main()
