"""bin/compare_conflicts: answers that are right, and programs whose answers aren't.

The program is that of the variable MOI_CONFLICT, or the one that `rt ci` leaves in crates/moi_conflict/out.
"""

import json
import os
import unittest

from conflicting.compare import Comparison, Difference, parts
from dualizing.models import Models

from .test_duals import Compared
from .test_program import PROGRAM, TOP

CONFLICT = os.environ.get("MOI_CONFLICT") or os.path.join(TOP, "crates", "moi_conflict", "out", "moi_conflict")


def row(name, kind, key, bound):
    terms = [{"coefficient": 1, "variable": "x"}]
    function = {"type": "ScalarAffineFunction", "terms": terms, "constant": 0}
    return {"name": name, "function": function, "set": {"type": kind, key: bound}}


MODEL = json.dumps({"version": {"major": 1, "minor": 0}, "variables": [{"name": "x"}], "constraints": [
    row("a", "GreaterThan", "lower", 2), row("b", "LessThan", "upper", 1), row("c", "LessThan", "upper", 5)]})

RIGHT = ["conflict 2", "row a", "row b", "infeasible 1", "dual row a 1", "dual row b -1", "dual var x 0", "without a", "primal x 1",
         "without b", "primal x 2"]


class Judged(unittest.TestCase):
    setUp, telling = Compared.setUp, Compared.telling

    def judged(self, lines):
        """The answer of these lines, judged by the program."""
        told = self.telling("conflict", {os.path.join(self.folder, "model.mof.json"): "".join(f"{line}\n" for line in lines)})
        comparison = Comparison(PROGRAM, told, self.folder)
        comparison.compare(MODEL)
        return dict(comparison.count)

    def differs(self, lines):
        with self.assertRaises(Difference):
            self.judged(lines)

    def test_a_conflict_is_taken_apart(self):
        points = [("a", ["primal x 1"]), ("b", ["primal x 2"])]
        self.assertEqual(parts(RIGHT), (["a", "b"], RIGHT[3:7], points))

    def test_a_right_answer_is_counted(self):
        self.assertEqual(self.judged(RIGHT), {"infeasible": 1})
        self.assertEqual(self.judged(["refused 18 Limit 100000"]), {"refused": 1})

    def test_another_point_is_a_difference(self):
        self.differs([*RIGHT[:8], "primal x 2", *RIGHT[9:]])

    def test_other_duals_are_a_difference(self):
        self.differs([*RIGHT[:4], "dual row a 2", *RIGHT[5:]])

    def test_a_row_that_can_go_is_a_difference(self):
        self.differs(["conflict 3", *RIGHT[1:3], "row c", *RIGHT[3:6], "dual row c 0", *RIGHT[6:], "without c", "primal x 2"])

    def test_no_row_is_a_difference(self):
        self.differs(["conflict 0", "infeasible 1", "dual var x 0"])

    def test_another_order_is_a_difference(self):
        self.differs(["conflict 2", "row b", "row a", *RIGHT[3:]])

    def test_a_point_of_a_plan_that_cannot_be_met_is_a_difference(self):
        self.differs(["feasible", "primal x 2"])

    def test_the_answers_are_right(self):
        models = Models(1)
        comparison = Comparison(PROGRAM, CONFLICT, self.folder)
        while comparison.count["infeasible"] < 20:
            comparison.compare(models.next_text())


if __name__ == "__main__":
    unittest.main()
