"""Each example prints what is stored beside it, by the command that examples/README.md names."""

import os
import re
import unittest

from explainer.program import Program

from .test_program import TOP

ROW = re.compile(r"\| `(\S+)` \|.*\| `bin/(\w+) ([^`]*)` \|")


def program_of(name):
    """The program of a name, as MOI_EDIT: that of this variable, or the one that `rt ci` leaves in its crate."""
    return Program(os.environ.get(name.upper()) or os.path.join(TOP, "crates", name, "out", name))


def stored(path, program):
    """Where a program's answers to an example are stored: under its name too, where other programs answer it as well."""
    stem = re.sub(r"(\.mof\.json|\.txt)$", "", path)
    own = f"{stem}.{program}.out"
    return own if os.path.exists(own) else f"{stem}.out"


class Examples(unittest.TestCase):
    def commands(self):
        """The name of each example, the program and the arguments of its command, and the script that is read."""
        with open(os.path.join(TOP, "examples", "README.md"), encoding="utf-8") as file:
            for name, program, command in ROW.findall(file.read()):
                words, _, script = command.partition(" < ")
                yield name, program, words.split(" "), script

    def test_each_example_prints_its_stored_answers(self):
        seen = set()
        for name, program, words, script in self.commands():
            with self.subTest(name=name):
                path = os.path.join(TOP, "examples", name)
                words = [os.path.join(TOP, word) if word.startswith("examples/") else word for word in words]
                with open(path, "rb") as file:
                    found, status = program_of(program).answer(words, file.read() if script else b"")
                with open(stored(path, program), encoding="utf-8") as file:
                    self.assertEqual((found, status), (file.read().split("\n")[:-1], 0))
                seen.add(name)
        wanted = {name for name in os.listdir(os.path.join(TOP, "examples")) if name.endswith((".txt", ".json"))}
        self.assertEqual(seen, wanted)

    def test_each_script_names_its_command(self):
        for name, program, words, script in self.commands():
            if script:
                with open(os.path.join(TOP, "examples", name), encoding="utf-8") as file:
                    self.assertEqual(file.readline(), f"# bin/{program} {' '.join(words)} < {script}\n")


if __name__ == "__main__":
    unittest.main()
