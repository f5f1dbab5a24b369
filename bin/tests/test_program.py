"""The whole of moi_explain over the program, and its tables beside those of the documents.

The program is that of the variable MOI_EDIT, or the one that `rt ci` leaves in crates/moi_edit/out.
"""

import contextlib
import io
import os
import tempfile
import unittest
from unittest import mock

from explainer import commands, tables

TOP = os.path.join(os.path.dirname(os.path.abspath(__file__)), "..", "..")
PROGRAM = os.environ.get("MOI_EDIT") or os.path.join(TOP, "crates", "moi_edit", "out", "moi_edit")
MODEL = os.path.join(TOP, "examples", "feed.mof.json")


def explained(*words, script=b""):
    """What moi_explain prints for these words and this script, and its status."""
    printed = io.StringIO()
    with mock.patch("sys.stdin", mock.Mock(buffer=io.BytesIO(script))), contextlib.redirect_stdout(printed):
        status = commands.main(["--program", PROGRAM, *words])
    return printed.getvalue(), status


def document(name):
    with open(os.path.join(TOP, "docs", name), encoding="utf-8") as file:
        return file.read().split("\n")


class Tables(unittest.TestCase):
    def test_the_documents_show_the_tables(self):
        for name, rows in tables.markdown().items():
            shown = document("FORMAT.md" if name == "faults" else "SCRIPT.md")
            place = shown.index(rows[0])
            self.assertEqual(shown[place : place + len(rows)], rows)


class Runs(unittest.TestCase):
    def test_each_line_has_its_answer_beside_it(self):
        with open(os.path.join(TOP, "examples", "blending.txt"), "rb") as file:
            said, status = explained("run", script=file.read())
        self.assertEqual(status, 0)
        self.assertIn("  11  attach                                ok 9\n", said)
        self.assertIn("optimal 1940/7 (~277.142857)\n", said)

    def test_a_refusal_is_explained(self):
        said, status = explained("run", script=b"var x>=0\nvar tables free\nminvar table\nbridged\n")
        self.assertEqual(status, 1)
        for text in ("here:  put spaces", "did you mean `tables`?", "refused 13 NotAttached", "do:    `attach` first"):
            self.assertIn(text, said)

    def test_options_go_to_the_program(self):
        said, _ = explained("run", "--target", "less", script=b"var x free\nrow c >= 2 : 1*x\nattach\nbridged\n")
        self.assertIn("row r:c.0 <= -2 : -1*v:x", said)

    def test_a_run_that_stops_says_where(self):
        said, status = explained("run", script=b"# note\nload none.json\nattach\n")
        self.assertEqual(status, 3)
        self.assertIn("Line 2 and those after it have no answer.", said)
        self.assertIn("Exit status 3", said)

    def test_words_of_no_command(self):
        with contextlib.redirect_stderr(io.StringIO()):
            self.assertEqual(explained("run", "--pivots", "-1")[1], 2)
            self.assertEqual(explained("nothing")[1], 2)

    def test_help_says_that_it_isnt_proved(self):
        self.assertIn("this is not", explained("--help")[0])


class FilesAndAnswers(unittest.TestCase):
    def setUp(self):
        folder = tempfile.TemporaryDirectory()
        self.addCleanup(folder.cleanup)
        self.folder = folder.name

    def put(self, name, text):
        path = os.path.join(self.folder, name)
        with open(path, "w", encoding="utf-8") as file:
            file.write(text)
        return path

    def test_a_file_with_a_fault(self):
        with open(MODEL, encoding="utf-8") as file:
            path = self.put("m.json", file.read().replace('"type":"LessThan"', '"type":"ZeroOne"'))
        said, status = explained("solve", path)
        self.assertEqual(status, 1)
        self.assertIn("refused 20 File 4 UnknownKind /constraints/2/set/type", said)
        self.assertIn("place: `type` of `set` of constraint 3, named `fibre`", said)
        self.assertIn("answers the empty model", said)

    def test_a_right_and_a_wrong_answer(self):
        answer = "\n".join(line for line in explained_answer()) + "\n"
        said, status = explained("check", MODEL, self.put("right.txt", answer))
        self.assertEqual((said.split("\n")[0], status), ("yes", 0))
        said, status = explained("check", MODEL, self.put("wrong.txt", answer.replace("6/7", "5/7")))
        self.assertEqual((said.split("\n")[0], status), ("no", 0))
        self.assertIn("var corn: its dual is 0, but", said)
        said, _ = explained("check", MODEL, self.put("whole.txt", "ok\nok 9\n" + answer))
        self.assertIn("line 1: an answer begins with", said)


def explained_answer():
    """The stored answer to the example's file, without the two `ok`."""
    with open(os.path.join(TOP, "examples", "feed.out"), encoding="utf-8") as file:
        return file.read().split("\n")[2:-1]


if __name__ == "__main__":
    unittest.main()
