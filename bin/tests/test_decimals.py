"""`bin/mof_decimals` makes a file that JuMP reads."""

import json
import subprocess
import unittest
from pathlib import Path

TOP = Path(__file__).resolve().parents[2]


def run(*words, text=None):
    return subprocess.run([TOP / "bin/mof_decimals", *words], input=text, capture_output=True, text=True)


class Decimals(unittest.TestCase):
    def test_texts_become_numerals(self):
        term = {"coefficient": "1/5", "variable": "1/2"}
        function = {"type": "ScalarAffineFunction", "terms": [term], "constant": "36893488147419103232"}
        rows = [{"function": function, "name": "3", "set": {"type": "LessThan", "upper": 7}}]
        made = run(text=json.dumps({"constraints": rows, "variables": [{"name": "1/2"}]}))
        self.assertEqual(
            made.stdout,
            '{"constraints":[{"function":{"type":"ScalarAffineFunction","terms":[{"coefficient":0.2,"variable":"1/2"}],'
            '"constant":3.6893488147419103e+19},"name":"3","set":{"type":"LessThan","upper":7}}],"variables":[{"name":"1/2"}]}\n',
        )

    def test_a_vector_of_constants(self):
        made = run(text='{"function":{"constants":["1/4",2]}}')
        self.assertEqual(made.stdout, '{"function":{"constants":[0.25,2]}}\n')

    def test_a_file_that_is_not_json(self):
        made = run(text="optimal 3")
        self.assertEqual((made.returncode, made.stdout), (1, ""))
        self.assertIn("mof_decimals:", made.stderr)


if __name__ == "__main__":
    unittest.main()
