"""bin/refused_memory: what ends a run may have, and a script on the program."""

import os
import shutil
import tempfile
import unittest

from soaking import memory

from .test_program import PROGRAM


class Ends(unittest.TestCase):
    def judged(self, status, text):
        runs = memory.Runs(1)
        runs.judge(1, (status, text), (1, b"ok\nrefused 1 BadLine\n"))
        return runs.out, len(runs.whole), len(runs.wrong)

    def test_out_of_memory_after_a_prefix(self):
        self.assertEqual(self.judged(5, b"ok\n"), (1, 0, 0))
        self.assertEqual(self.judged(5, b""), (1, 0, 0))

    def test_as_with_ample_memory(self):
        self.assertEqual(self.judged(1, b"ok\nrefused 1 BadLine\n"), (0, 1, 0))

    def test_each_other_end_is_wrong(self):
        for status, text in [(5, b"ok\nok\n"), (1, b"ok\n"), (0, b"ok\nrefused 1 BadLine\n"), (-11, b"ok\n"), (3, b"")]:
            self.assertEqual(self.judged(status, text), (0, 0, 1))

    @unittest.skipUnless(shutil.which(os.environ.get("CC", "cc")), "there is no C compiler")
    def test_each_allocation_of_a_small_script(self):
        with tempfile.TemporaryDirectory() as folder:
            library = memory.library(folder)
            runs = memory.refuse_each(os.path.abspath(PROGRAM), library, folder, ["run"], memory.PRODUCT)
        self.assertGreater(runs.out, 5)
        self.assertEqual((runs.out + len(runs.whole), runs.wrong), (runs.count, []))


if __name__ == "__main__":
    unittest.main()
