"""bin/moi_edit and bin/build_program over a gate that proves nothing, in a repository of two crates."""

import os
import shutil
import subprocess
import tempfile
import time
import unittest

BIN = os.path.dirname(os.path.dirname(os.path.abspath(__file__)))

# Like `rt ci`: a lock as it begins, then a line a crate, the program, and what that printed. WENT counts its runs.
GATE = """#!/bin/sh
[ "$*" = ci ] && [ -d .git ] || exit 2
echo run >>"$WENT"
: >.git/rt-ci.lock
rm -rf crates/moi_edit/out
[ ! -e crates/low/must-fail ] || echo "rt: low: trying its must-fail edits (1)"
printf '== low\\nlogic=proved\\n'
[ -z "$FAILS" ] || { printf 'src/lib.rt:1:1: error: a goal is open\\nrt: low NOT PROVED\\n'; exit 1; }
printf 'rt: low proved\\n== moi_edit\\nlogic=proved\\nrt: moi_edit proved\\n'
sleep 0.01
mkdir -p crates/moi_edit/out
printf '#!/bin/sh\\necho "%s" "$@"\\ncat\\n' "$(cat crates/low/src/lib.rt)" >crates/moi_edit/out/moi_edit
chmod +x crates/moi_edit/out/moi_edit
sleep 0.01
echo >crates/moi_edit/out/stdout
"""


class Build(unittest.TestCase):
    def setUp(self):
        room = tempfile.TemporaryDirectory()
        self.addCleanup(room.cleanup)
        self.top, self.went = f"{room.name}/top", f"{room.name}/went"
        os.makedirs(f"{self.top}/bin")
        for name in ("moi_edit", "run_program", "build_program", "gate", "gate.py"):
            shutil.copy(f"{BIN}/{name}", f"{self.top}/bin")
        self.write("crates.txt", "# all: two crates\nlow: thiserror\nmoi_edit: low\nother: low\n")
        self.write("HANDLES", "Handles allowed: none.\n")
        self.write("docs/PERFORMANCE.md", "| low | 90 | 10 | 5 | 75 | `f` 3.0 (Lts) |\n")
        self.write("crates/low/src/lib.rt", "first")
        self.write("crates/low/must-fail/one.edit", "")
        self.write("crates/moi_edit/src/main.rt", "")
        self.write("../gate/rt", GATE)
        subprocess.run(["git", "init", "-q", self.top], check=True)
        self.wait()

    def write(self, path, text):
        path = os.path.normpath(f"{self.top}/{path}")
        os.makedirs(os.path.dirname(path), exist_ok=True)
        with open(path, "w", encoding="utf-8") as file:
            file.write(text)
        os.chmod(path, 0o755)

    def wait(self):
        """Until a file that is written next is younger than those of now."""
        time.sleep(0.02)

    def environment(self, fails=False):
        words = {**os.environ, "WENT": self.went, "FAILS": "1" if fails else ""}
        return {**words, "PATH": f"{os.path.dirname(self.top)}/gate:{os.environ['PATH']}"}

    def call(self, *words, fails=False):
        words = words or ["run"]
        how = {"input": "lines\n", "capture_output": True, "text": True, "env": self.environment(fails)}
        return subprocess.run([f"{self.top}/bin/moi_edit", *words], check=False, **how)

    def runs(self):
        """How often the gate ran."""
        with open(self.went, encoding="utf-8") as file:
            return len(file.readlines())

    def gate(self):
        subprocess.run(["rt", "ci"], cwd=self.top, env=self.environment(), stdout=subprocess.DEVNULL, check=True)
        self.wait()

    def test_it_is_built_once(self):
        said = self.call("run", "--target", "less")
        self.assertEqual((said.stdout, said.stderr, said.returncode), ("first run --target less\nlines\n", "", 0))
        self.assertEqual(self.call("plan").stdout, "first plan\nlines\n")
        self.assertEqual(self.runs(), 1)
        with open(f"{self.top}/crates/moi_edit/out/build.log", encoding="utf-8") as log:
            self.assertNotIn("must-fail", log.read())

    def test_words_of_no_command_show_the_usage_and_build_nothing(self):
        for words in (["--help"], ["slove", "m.json"]):
            said = self.call(*words)
            self.assertEqual((said.stdout, said.stderr.partition(":")[0], said.returncode), ("", "usage", 2))
        self.assertFalse(os.path.exists(self.went))

    def test_a_change_of_code_builds_it_again(self):
        self.call()
        self.wait()
        self.write("crates/low/src/lib.rt", "second")
        self.assertEqual(self.call().stdout, "second run\nlines\n")

    def test_a_crate_that_is_not_proved_is_named(self):
        said = self.call(fails=True)
        self.assertEqual((said.stdout, said.returncode), ("", 70))
        self.assertIn("a goal is open\nrt: low NOT PROVED\n", said.stderr)
        self.assertEqual(self.call().returncode, 0)

    def test_the_program_of_the_gate_is_taken(self):
        self.gate()
        self.assertEqual(self.call().stdout, "first run\nlines\n")
        self.assertEqual(self.runs(), 1)

    def test_the_program_of_the_gate_is_not_taken_after_a_change(self):
        self.gate()
        self.write("crates/low/src/lib.rt", "second")
        self.assertEqual(self.call().stdout, "second run\nlines\n")
        self.assertEqual(self.runs(), 2)

    def test_a_program_older_than_the_gate_is_not_taken(self):
        self.gate()
        with open(f"{self.top}/.git/rt-ci.lock", "w", encoding="utf-8"):
            pass
        self.call()
        self.assertEqual(self.runs(), 2)

    @unittest.skipUnless(shutil.which("script"), "there is no terminal to show")
    def test_a_terminal_is_told_how_long_it_takes(self):
        how = {"stdin": subprocess.DEVNULL, "capture_output": True, "text": True, "env": self.environment()}
        shown = subprocess.run(["script", "-qec", f"{self.top}/bin/moi_edit run", "/dev/null"], check=False, **how).stdout
        self.assertIn("is built on this machine once, and each proof that it rests on is checked first", shown)
        self.assertIn("about 1 minute", shown)
