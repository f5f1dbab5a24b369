"""Files and answers, by exact arithmetic, without the program."""

import json
import os
import unittest
from fractions import Fraction

from explainer import answers, commands, judge, mof, numbers, places, unnamed

DATA = os.path.join(os.path.dirname(os.path.abspath(__file__)), "..", "..", "crates", "moi_edit", "data")
# A workshop's plan and its answer, worked out by hand in docs/SCRIPT.md.
TABLES = """{"version":{"major":1},"variables":[{"name":"tables"},{"name":"chairs"}],
"objective":{"sense":"max","function":{"type":"ScalarAffineFunction","constant":0.0,"terms":[
{"coefficient":8.0,"variable":"tables"},{"coefficient":6.0,"variable":"chairs"}]}},
"constraints":[
{"name":"wood","function":{"type":"ScalarAffineFunction","constant":0.0,"terms":[
{"coefficient":4.0,"variable":"tables"},{"coefficient":2.0,"variable":"chairs"}]},"set":{"type":"LessThan","upper":60.0}},
{"name":"hours","function":{"type":"ScalarAffineFunction","constant":0.0,"terms":[
{"coefficient":2.0,"variable":"tables"},{"coefficient":4.0,"variable":"chairs"}]},"set":{"type":"LessThan","upper":48.0}},
{"function":{"type":"VectorOfVariables","variables":["tables","chairs"]},"set":{"type":"Nonnegatives","dimension":2}}]}"""
RIGHT = """optimal 132
primal tables 12
primal chairs 6
dual row wood -5/3
dual row hours -2/3
dual var tables 0
dual var chairs 0
"""
HOTEL = ',{"name":"hotel","function":{"type":"Variable","name":"tables"},"set":{"type":"GreaterThan","lower":20.0}}]}'
CONTRADICTION = """infeasible 5
dual row wood -1/4
dual row hours 0
dual row hotel 1
dual var tables 0
dual var chairs 1/2
"""


def failed(model, text):
    model = mof.read(model)
    return judge.failures(model, answers.read(text, model))


class Numbers(unittest.TestCase):
    def test_decimals_to_six_places(self):
        for number, shown in [("1/2", "0.5"), ("-1/3", "-0.333333"), ("1940/7", "277.142857"), ("1/3000000", "0.000000")]:
            self.assertEqual(numbers.decimal(Fraction(number)).lstrip("~"), shown)
        self.assertTrue(numbers.decimal(Fraction(1, 3)).startswith("~"))

    def test_names_that_look_like_numbers_stay(self):
        self.assertEqual(numbers.with_decimals("dual row 1/2 1/4 2"), "dual row 1/2 1/4 (0.25) 2")

    def test_literals_are_those_of_the_script(self):
        self.assertIsNone(numbers.read("1/0"))
        self.assertIsNone(numbers.read(str(2**127)))
        self.assertEqual(numbers.read("-22/2"), -11)


class Checks(unittest.TestCase):
    def test_a_right_answer_fails_nothing(self):
        self.assertEqual(failed(TABLES, RIGHT), [])
        self.assertEqual(failed(TABLES[:-2] + HOTEL, CONTRADICTION), [])

    def test_a_point_outside_a_row(self):
        self.assertIn("row wood: at the point it is 64", failed(TABLES, RIGHT.replace("tables 12", "tables 13"))[0])

    def test_a_dual_of_the_wrong_sign(self):
        found = failed(TABLES, RIGHT.replace("-5/3", "5/3"))
        self.assertIn("row wood: its dual is 5/3 (~1.666667), and in <= 60 it must be at most 0", found[0])

    def test_a_dual_that_leaves_another_for_a_variable(self):
        found = failed(TABLES, RIGHT.replace("-5/3", "-2"))
        self.assertTrue(found[0].startswith("var tables: its dual is 0, but the rows' duals"))
        self.assertIn("leaves 4/3", found[0])
        self.assertIn("duals: the weighted bounds add up to 152, not 132", found[-1])

    def test_another_value(self):
        found = failed(TABLES, RIGHT.replace("optimal 132", "optimal 133"))
        self.assertEqual([text.split(":")[0] for text in found], ["objective", "duals"])

    def test_a_gap_that_isnt_there(self):
        self.assertIn("gap", failed(TABLES[:-2] + HOTEL, CONTRADICTION.replace("infeasible 5", "infeasible 4"))[0])

    def test_a_ray_that_leaves_a_row(self):
        ray = "unbounded\nprimal tables 0\nprimal chairs 0\nray tables 0\nray chairs 1\n"
        self.assertEqual(failed(TABLES, ray), ["row wood: along the ray it changes by 2, and so leaves <= 60",
                                               "row hours: along the ray it changes by 4, and so leaves <= 48"])

    def refused(self, text):
        with self.assertRaises(answers.Unreadable) as caught:
            answers.read(text, mof.read(TABLES))
        return caught.exception

    def test_the_line_that_cant_be_read(self):
        self.assertEqual(self.refused("ok\nok 9\n" + RIGHT).line, 1)
        self.assertIn("leave the lines `ok ..` out", self.refused("ok 9\n" + RIGHT).why)
        self.assertEqual(self.refused(RIGHT.replace("dual row wood -5/3\n", "")).line, 4)
        self.assertEqual(self.refused(RIGHT.replace("primal chairs 6", "primal chairs 0.5")).line, 3)
        self.assertIn("newline", self.refused(RIGHT[:-1]).why)
        self.assertEqual(self.refused(RIGHT + "ok\n").line, 8)
        self.assertEqual(self.refused("").line, 1)


class Files(unittest.TestCase):
    def test_a_file_is_read_as_the_program_reads_it(self):
        with open(os.path.join(DATA, "m.json"), encoding="utf-8") as file:
            self.assertTrue(mof.read(file.read()).variables)

    def test_unnamed_rows_go_by_their_place(self):
        self.assertEqual([mof.made_name(3, 4, {"#3"}), mof.made_name(2, 4, set())], ["#7", "#2"])

    def test_a_row_without_a_name_is_shown(self):
        rows = unnamed.rows(TABLES.replace('"name":"wood",', "")[:-2] + HOTEL.replace('"name":"hotel",', ""))
        self.assertEqual(rows["#1"], "constraint 1 of the file: 4*tables 2*chairs <= 60")
        self.assertEqual(rows["#4"], "constraint 4 of the file: tables >= 20")
        self.assertEqual(commands.with_row("dual row #4 1/2", rows), f"dual row #4 1/2 (0.5)    {rows['#4']}")
        self.assertEqual(commands.with_row("dual row hours 0", rows), "dual row hours 0")

    def test_a_place_is_named_with_its_constraint(self):
        text = TABLES.replace('"type":"LessThan","upper":48.0', '"type":"ZeroOne"')
        said = places.explain(text, "/constraints/1/set/type")
        self.assertEqual(said[0], "place: `type` of `set` of constraint 2, named `hours`")
        self.assertIn('{"type":"ZeroOne"}', said[1])
        self.assertIn("line 8, column", said[1])

    def test_a_place_in_a_term(self):
        said = places.explain(TABLES, "/constraints/0/function/terms/1/variable")
        self.assertEqual(said[0], "place: `variable` of `term 2` of `function` of constraint 1, named `wood`")

    def test_a_missing_key(self):
        said = places.explain(TABLES, "/constraints/2/name")
        self.assertEqual(said[0], "place: `name` of constraint 3, which has no name: this key is missing")

    def test_what_isnt_json(self):
        self.assertIn("compressed", places.not_json(b"\x1f\x8b\x08")[0])
        self.assertIn("byte-order mark", places.not_json(b"\xef\xbb\xbf{}")[0])
        self.assertIn("line 1, column 2", places.not_json(b"{")[0])
        self.assertIn("UTF-8", places.not_json(b'{"a":"\xff"}')[0])

    def test_the_constraint_that_is_refused(self):
        with open(os.path.join(DATA, "bounded_twice.mof.json"), encoding="utf-8") as file:
            text = file.read()
        place = mof.refused_constraint(text, 8)
        self.assertEqual(mof.parsed(text)["constraints"][place]["set"]["type"], "GreaterThan")
        self.assertIsNone(mof.refused_constraint(text, 7))
        crossed = TABLES.replace('"type":"LessThan","upper":48.0', '"type":"Interval","lower":2,"upper":1')
        self.assertEqual(mof.refused_constraint(crossed, 7), 1)
        self.assertEqual(mof.refused_constraint(TABLES.replace('"Nonnegatives"', '"NormOneCone"'), 5), None)

    def test_pointers_with_escapes(self):
        text = json.dumps({"a/b": {"~": 1}})
        self.assertTrue(places.spans(text, "/a~1b/~0")[1])


if __name__ == "__main__":
    unittest.main()
