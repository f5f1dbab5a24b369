"""Runs of moi_edit in which one allocation is refused."""

import os
import subprocess
from dataclasses import dataclass, field

BIN = os.path.dirname(os.path.dirname(os.path.abspath(__file__)))
SOURCE = os.path.join(BIN, "refused_memory.c")
BUILT = os.path.join(os.path.dirname(BIN), "crates", "moi_edit", "out", "moi_edit")
OUT_OF_MEMORY = 5

MAXIMUM = """\
var x >= 0
var y >= 0
row c1 <= 4 : 1*x 1*y
row c2 <= 8 : 1*x 3*y
bound b x <= 3
max 3*x 2*y
attach
optimize
"""
PRODUCT = """\
var x >= 1267650600228229401496703205376
attach
row c <= 0 : 1267650600228229401496703205376*x
bridged
"""
FILE = """\
{"name":"MathOptFormat Model","version":{"major":1,"minor":7},
"variables":[{"name":"x[1]","primal_start":0.5},{"name":"x[2]"},{"name":"y"}],
"objective":{"sense":"max","function":{"type":"ScalarAffineFunction",
"terms":[{"coefficient":1.0,"variable":"x[1]"},{"coefficient":2.5e1,"variable":"x[2]"}],"constant":0.0}},
"constraints":[{"name":"c1","function":{"type":"ScalarAffineFunction",
"terms":[{"coefficient":0.1,"variable":"x[1]"},{"coefficient":1.0,"variable":"x[2]"}],"constant":0.0},
"set":{"type":"LessThan","upper":4.0}},
{"function":{"type":"Variable","name":"x[1]"},"set":{"type":"GreaterThan","lower":0.0}},
{"function":{"type":"Variable","name":"x[1]"},"set":{"type":"LessThan","upper":10.0}},
{"function":{"type":"VectorOfVariables","variables":["x[2]","y"]},"set":{"type":"Nonnegatives","dimension":2}}]}
"""
EDITS = """\
load m.json
attach
var z free
vars norminf t u
row c2 in 1 30 : 2*x[1] 1*z 1*z
vrow k normone : 1*z ; 1*x[1] -1 ; 1*y
bound up z <= 40
vbound pair nonneg y z
coef c2 y 3
const c2 1/2
vcoef k 1 u 2
vconst k 3 -1
set c1 <= 5
reset x[1] >= 1
objcoef z -1/3
objconst 7
optimize
target rows
off SplitSet
cost 6 3
on SplitSet
minvar z
renvar z price%20of%20z
renrow c2 c3
delvar y
free x[1]
delrow k
unsupport affine:LessThan
max 1*t 1*x[1]
optimize 20
bridged
plan
write
feasibility
detach
"""
# The name of each, the program's words and its script.
SCRIPTS = (
    ("a maximum over two rows", ["run"], MAXIMUM),
    ("a product that exceeds 128 bits", ["run"], PRODUCT),
    ("the model of a file", ["solve", "m.json"], ""),
    ("edits while a solver is attached", ["run"], EDITS),
)


def program(path):
    """The program to run: that of the path, or the built one."""
    if not path:
        subprocess.run([os.path.join(BIN, "moi_edit"), "plan"], stdout=subprocess.DEVNULL, check=True)
    return os.path.abspath(path or BUILT)


def library(folder):
    """Compiles what refuses an allocation, and lays down the file that the scripts read."""
    path = os.path.join(folder, "refused_memory.so")
    subprocess.run([os.environ.get("CC", "cc"), "-shared", "-fPIC", "-O1", "-o", path, SOURCE], check=True)
    with open(os.path.join(folder, "m.json"), "w", encoding="ascii") as file:
        file.write(FILE)
    return path


@dataclass
class Runs:
    """How the runs of a script ended, one for each of its allocations."""

    count: int
    out: int = 0
    whole: list = field(default_factory=list)
    wrong: list = field(default_factory=list)

    def __str__(self):
        """For a reader: the numbers of the runs, and each end that may not be."""
        told = f"{self.count} allocations; {self.out} runs ended with status {OUT_OF_MEMORY}, {len(self.whole)} as with ample memory"
        return "\n".join([told, *self.wrong])

    def judge(self, refused, found, ample):
        """Takes in a run: its status and text, beside those with ample memory."""
        if found == ample:
            self.whole.append(refused)
        elif found[0] == OUT_OF_MEMORY and ample[1].startswith(found[1]):
            self.out += 1
        else:
            self.wrong.append(f"    allocation {refused} refused: status {found[0]} after {len(found[1])} bytes, {found[1][-60:]!r}")


def one(program, library, folder, words, script, refused):
    """The status and the text of a run in which the allocation of this number is refused, and how many it tried."""
    reader, writer = os.pipe()
    environment = {"LD_PRELOAD": library, "REFUSED": str(refused), "COUNTED": str(writer)}
    how = {"cwd": folder, "env": environment, "pass_fds": (writer,), "stdout": subprocess.PIPE, "check": False}
    done = subprocess.run([program, *words], input=script.encode("ascii"), **how)
    os.close(writer)
    with open(reader, encoding="ascii") as file:
        told = file.read()
    return (done.returncode, done.stdout), int(told or 0)


def refuse_each(program, library, folder, words, script):
    """Runs a script with ample memory, and once for each allocation of that run with this one refused."""
    ample, count = one(program, library, folder, words, script, 0)
    runs = Runs(count)
    for refused in range(1, count + 1):
        found, _ = one(program, library, folder, words, script, refused)
        runs.judge(refused, found, ample)
    return runs
