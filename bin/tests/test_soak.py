"""bin/soak: the grammar that it draws from, a script on the program, and programs that go wrong."""

import os
import re
import sys
import tempfile
import time
import unittest

from soaking.grammar import FAMILIES, KINDS, SETS, TARGETS, Lines, change_table
from soaking.model import Model, token
from soaking.run import Difference, Script

from .test_program import PROGRAM, document

MODEL = Model("""{"constraints":[{"function":{"name":"a b","type":"Variable"},"set":{"lower":0,"type":"GreaterThan"}},
{"function":{"type":"VectorOfVariables","variables":["t","u"]},"set":{"dimension":2,"type":"NormOneCone"}},
{"function":{"constant":0,"terms":[],"type":"ScalarAffineFunction"},"name":"c","set":{"type":"LessThan","upper":4}},
{"function":{"constants":[0,0],"terms":[],"type":"VectorAffineFunction"},"name":"#7","set":{"dimension":2,"type":"Zeros"}}],
"objective":{"sense":"feasibility"},"variables":[{"name":"a b"},{"name":"t"},{"name":"u"}],"version":{"major":1,"minor":0}}""")

# Runs the program, and from the model's fourth entry on prints one less after `bridged`, unless the session is a fresh one.
FORGETFUL = """#!{python}
import subprocess, sys
started = subprocess.Popen([{program!r}, *sys.argv[1:]], stdin=subprocess.PIPE, stdout=subprocess.PIPE)
first = sys.stdin.readline()
if first.startswith(("load", "support", "unsupport", "off", "cost")):
    sys.stdout.buffer.write(started.communicate((first + sys.stdin.read()).encode())[0])
    sys.exit(started.returncode)
entries = 0
def answer(line):
    global entries
    started.stdin.write(line.encode())
    started.stdin.flush()
    if line == "bridged\\n":
        entries = 0
answer(first)
import threading
def hear():
    global entries
    for said in started.stdout:
        entries = entries + 1 if said.startswith((b"var ", b"row ")) else 0
        if entries != 4:
            sys.stdout.buffer.write(said)
            sys.stdout.buffer.flush()
threading.Thread(target=hear).start()
for line in sys.stdin:
    answer(line)
started.stdin.close()
"""


class Grammar(unittest.TestCase):
    def lines(self, count=4000, seed=1):
        maker = Lines(seed)
        return [line for _ in range(count) for line in maker.line(MODEL, True, "kept.json").split("\n")]

    def test_each_form_of_the_documents_is_drawn(self):
        text = document("SCRIPT.md")
        text = text[text.index("### Variables") : text.index("## Targets")]
        forms = [row[2:].partition(" | ")[0] for row in text if row.startswith("| `")]
        words = {it.split(" ")[0] for row in forms for it in re.findall(r"`([^`]*)`", row)}
        self.assertGreater(len(words), 35)
        # `quit` ends each script.
        self.assertEqual(words - {line.split(" ")[0] for line in self.lines()} - {"quit"}, set())

    def test_each_word_of_the_documents_is_drawn(self):
        text, maker = "\n".join(document("SCRIPT.md")), Lines(1)
        drawn = {word for line in self.lines() for word in line.split(" ")}
        drawn.update(word for _ in range(2000) for word in change_table(maker, None).split(" "))
        self.assertEqual([word for word in (*FAMILIES, *SETS, *TARGETS) if f"`{word}`" not in text], [])
        self.assertEqual({*FAMILIES, *SETS, *TARGETS, *KINDS} - drawn, set())
        self.assertEqual((len(set(FAMILIES)), len(set(KINDS))), (20, 15))

    def test_a_seed_makes_one_script(self):
        self.assertEqual(self.lines(300), self.lines(300))

    def test_names_are_written_as_the_program_writes_them(self):
        self.assertEqual(token('a b%é"\n'), "a%20b%25%C3%A9\"%0A")
        self.assertEqual((MODEL.variables, MODEL.fixed), (["a%20b", "t", "u"], {"t", "u"}))
        self.assertEqual(MODEL.rows["#7"], ("VectorAffineFunction", "Zeros", 2))


class Scripts(unittest.TestCase):
    def setUp(self):
        folder = tempfile.TemporaryDirectory()
        self.addCleanup(folder.cleanup)
        self.folder = folder.name

    def run_script(self, program, lines, seed=1):
        script = Script(program, seed, self.folder)
        script.run(lines, time.monotonic() + 60)
        return script.count

    def put(self, text):
        path = os.path.join(self.folder, "program")
        with open(path, "w", encoding="utf-8") as file:
            file.write(text)
        os.chmod(path, 0o755)
        return path

    def test_no_difference(self):
        count = self.run_script(PROGRAM, 150)
        self.assertEqual(count["lines"], 150)
        self.assertGreater(count["compared"], 50)

    def test_an_entry_that_is_missing_is_a_difference(self):
        program = self.put(FORGETFUL.format(python=sys.executable, program=os.path.abspath(PROGRAM)))
        with self.assertRaises(Difference) as found:
            self.run_script(program, 300)
        self.assertIn("the solver's model isn't the fresh one", str(found.exception))

    def test_a_program_that_ends_early_is_a_difference(self):
        with self.assertRaises(Difference) as found:
            self.run_script(self.put("#!/bin/sh\nexit 5\n"), 10)
        self.assertIn("status 5", str(found.exception))


if __name__ == "__main__":
    unittest.main()
