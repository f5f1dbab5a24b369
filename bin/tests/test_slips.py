"""Common slips in a script: each is explained."""

import unittest

from explainer import lines, script, slips

CASES = [
    (b"\xef\xbb\xbfvar x free\n", "byte-order mark"),
    (b"var x\tfree\n", "tab"),
    (b"var x free\r\r\n", "more than one carriage return"),
    (b"var x free\r", "carriage return without a newline"),
    ("row c ≤ 4 : 1*x\n".encode(), "`≤` is written `<=`"),
    ("var prix_été >= 0\n".encode(), "write it as %C3"),
    (b"var x free # a comment\n", "a comment has a line of its own"),
    (b"var x>=0\n", "put spaces around `>=`: `x >= 0`"),
    (b"var x >=0\n", "put spaces around `>=`: `>= 0`"),
    (b"row c <= 4: 1*x\n", "spaces around `:`"),
    (b"vrow c nonneg : 1*x; 1*y\n", "spaces around `;`"),
    (b"row c =< 4 : 1*x\n", "`=<` isn't a relation: write `<=`"),
    (b"row c <= 4 : 2x\n", "write `2*x` for `2x`"),
    (b"row c <= 0.5 : 1*x\n", "`0.5` is written as a fraction: `1/2`"),
    (b"max -1.25*x\n", "`-1.25` is written as a fraction: `-5/4`"),
    (b"row c <= 1e3 : 1*x\n", "written out"),
    (b"var x <= inf\n", "leave an infinite bound out"),
    (b"row c <= 1,000 : 1*x\n", "without a comma: `1000`"),
    (b"row c <= 4 : x*2\n", "the number comes first: `2*x`"),
    (b"row c <= 4 : 2 * x\n", "without spaces around `*`"),
    (b"row c <= 4 : 1*x + 2*y\n", "side by side, without `+`"),
    (b"row c <= 1 / 2 : 1*x\n", "without spaces around `/`"),
    (b"min x 2*y\n", "`1*x`"),
    (b"Var x free\n", "small letters: `var`"),
    (b"minimise 1*x\n", "did you mean `min`?"),
    (b"optimze\n", "did you mean `optimize`?"),
    (b"int x\n", "not supported"),
    (b"x >= 0\n", "a line begins with its keyword"),
    (b"row c : 1*x <= 4\n", "come before the colon"),
    (b"row c <= 4 1*x\n", "a colon"),
    (b"row c <= 4 : 4/100 maize\n", "by `*`: `4/100*maize`"),
    (b"max 3 x 2 y\n", "by `*`: `3*x`"),
    (b"row c >= 2 <= 8 : 1*x\n", "`row R in 2 8 : 1*X`"),
    (b"row c in 1 to 5 : 1*x\n", "`row R in 2 8 : 1*X`"),
    (b"delete maize\n", "did you mean `delvar` or `delrow`?"),
    (b"var x\n", "`var x free`"),
    (b"var x y >= 0\n", "`vars nonneg X Y`"),
    (b"row c <= 1/0 : 1*x\n", "denominator 0"),
    (b"var x >= 170141183460469231731687303715884105728\n", "exceeds 128 bits"),
    (b"coef c x\n", "the form is coef R X Q"),
    (b"attach now\n", "`attach` takes no more words"),
]


class Slips(unittest.TestCase):
    def test_each_slip_is_explained(self):
        for script, said in CASES:
            with self.subTest(script=script):
                self.assertIn(said, slips.explain(lines.lines_of(script)[0]) or "")

    def test_a_slip_is_found_at_its_line(self):
        second = lines.lines_of(b"var x free\n\xef\xbb\xbfattach\n")[1]
        self.assertNotIn("byte-order", slips.explain(second))


class HandingOut(unittest.TestCase):
    """Which lines of an output answer which line of the script."""

    def answers(self, script, output):
        found = lines.lines_of(script)
        rest = lines.hand_out(found, output)
        return [line.answer for line in lines.heard(found)], rest

    def test_blank_lines_and_comments_get_no_answer(self):
        self.assertEqual(self.answers(b"\n# note\n  # note\nvar x free\r\nquit\nattach\n", ["ok"]), ([["ok"]], []))

    def test_an_answer_to_optimize_goes_to_its_last_dual(self):
        output = ["ok 1", "optimal 0", "primal x 0", "dual var x 0", "ok 0"]
        found, _ = self.answers(b"attach\noptimize\nobjconst 1\n", output)
        self.assertEqual(found, [output[:1], output[1:4], output[4:]])

    def test_two_looks_at_the_same_model_share_what_is_printed(self):
        look = ["var v:x free", "row r:c <= 1 : 1*v:x"]
        self.assertEqual(self.answers(b"bridged\n# again\nbridged\nwrite\n", look + look + ["{}"])[0], [look, look, ["{}"]])

    def test_looks_without_a_solver_are_refused_one_by_one(self):
        self.assertEqual(self.answers(b"bridged\nbridged\n", ["refused 13 NotAttached"] * 2)[0],
                         [["refused 13 NotAttached"]] * 2)

    def test_looks_in_an_open_group_are_refused(self):
        refused = ["refused 22 GroupOpen"]
        self.assertEqual(self.answers(b"begin\nbridged\nvar x free\ncommit\n", ["ok", *refused, "held", "ok"])[0],
                         [["ok"], refused, ["held"], ["ok"]])

    def test_the_names_of_a_committed_group_are_known(self):
        answers = ["ok", "held", "held", "ok", "refused 2 UnknownName"]
        shown = script.shown(b"begin\nvar x free\nrow limits <= 3 : 1*x\ncommit\nset limit <= 2\n", answers, 1)
        self.assertIn("did you mean `limits`?", "\n".join(shown))

    def test_an_empty_model_is_printed_as_nothing(self):
        self.assertEqual(self.answers(b"attach\nbridged\ndetach\n", ["ok 0", "ok"])[0], [["ok 0"], [], ["ok"]])

    def test_where_the_output_ends_the_rest_is_unanswered(self):
        found = lines.lines_of(b"var x free\nload f\nattach\n")
        lines.hand_out(found, ["ok"])
        self.assertEqual([line.is_answered for line in found], [True, False, False])


if __name__ == "__main__":
    unittest.main()
