"""What moi_dual says of a model, held to what moi_edit says of it."""

import collections
import os
import subprocess


class Difference(Exception):
    """The two programs say what can't both be right."""


class Comparison:
    """Compares the answers to models, and counts what they are."""

    def __init__(self, edit, dual, folder):
        self.edit, self.dual, self.folder = edit, dual, folder
        self.count = collections.Counter()

    def answer(self, program, *words):
        """The lines that a program prints for these arguments."""
        done = subprocess.run([program, *words], stdin=subprocess.DEVNULL, stdout=subprocess.PIPE, check=False)
        if done.returncode not in (0, 1):
            raise Difference(f"{program} {' '.join(words)} ended with status {done.returncode}")
        return done.stdout.decode("ascii").split("\n")[:-1]

    def written(self, name, text):
        path = os.path.join(self.folder, name)
        with open(path, "w", encoding="ascii") as file:
            file.write(text)
        return path

    def compare(self, text):
        """Asks both programs about the model of a text."""
        path = self.written("model.mof.json", text)
        solved, dual = self.answer(self.edit, "solve", path), self.answer(self.dual, "solve", path)
        # `solve` answers two lines, to load and to attach, before that of the optimise.
        said = next((line for line in solved if not line.startswith("ok")), "nothing")
        kind = said.split(" ")[0]
        if kind == "refused" or dual[0].startswith("refused"):
            self.count["refused"] += 1
        elif kind == "optimal":
            self.compare_optimal(path, solved, dual, said.split(" ")[1])
        elif kind == "infeasible":
            self.hold(dual in (["dual none"], ["dual unbounded"]), solved, dual)
        elif kind == "unbounded":
            self.hold(dual == ["dual none"], solved, dual)
        else:
            self.hold(False, solved, dual)
        if kind != "refused" and not dual[0].startswith("refused"):
            self.count[kind] += 1

    def compare_optimal(self, path, solved, dual, value):
        self.hold(dual[0] == f"dual {value}", solved, dual)
        point = [line for line in solved if line.startswith("primal ")]
        lines = [f"optimal {value}", *point, *dual[1:]]
        certificate = self.written("certificate.txt", "".join(f"{line}\n" for line in lines))
        judged = self.answer(self.edit, "check", path, certificate)
        if judged[:1] == ["refused 17 Overflow check"]:
            self.count["not judged"] += 1
        else:
            self.hold(judged == ["yes"], solved, [*dual, f"check: {judged}"])

    def hold(self, is_right, solved, dual):
        if not is_right:
            raise Difference("\n".join(["moi_edit:", *solved, "moi_dual:", *dual]))
