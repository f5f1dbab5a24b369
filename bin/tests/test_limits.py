"""Files at the limit of what the program reads."""

import os
import tempfile
import unittest

from explainer.program import Program

from .test_program import PROGRAM

LIMIT = 67108864


class Limits(unittest.TestCase):
    def answers(self, size):
        """What `load`, `solve` and `check` answer to a file of so many bytes, which are all 0."""
        with tempfile.TemporaryDirectory() as folder:
            path, program = os.path.join(folder, "m.json"), Program(PROGRAM)
            with open(path, "wb") as file:
                file.truncate(size)
            return [
                program.answer(["run"], f"var x free\ndelvar x\nload {path}\nvar y free\n".encode()),
                program.answer(["solve", path]),
                program.answer(["check", path, path]),
            ]

    def test_a_file_of_one_byte_too_many_ends_the_run(self):
        self.assertEqual(self.answers(LIMIT + 1), [(["ok", "ok"], 6), ([], 6), ([], 6)])

    def test_a_file_at_the_limit_is_read(self):
        refused = "refused 20 File 1 NotJson -"
        said = [["ok", "ok", refused, "ok"], [refused, "ok 0", "optimal 0"], [refused]]
        self.assertEqual(self.answers(LIMIT), [(lines, 1) for lines in said])


if __name__ == "__main__":
    unittest.main()
