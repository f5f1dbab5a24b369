"""What moi_conflict says of a model, judged by moi_edit."""

import json

from dualizing import compare
from dualizing.compare import Difference  # noqa: F401


class Comparison(compare.Comparison):
    """Judges the answers to models, and counts what they are."""

    def __init__(self, edit, conflict, folder):
        super().__init__(edit, None, folder)
        self.conflict = conflict

    def compare(self, text):
        """Asks moi_conflict about the model of a text, and moi_edit whether the answer is right."""
        model = json.loads(text)
        said = self.answer(self.conflict, self.written("model.mof.json", text))
        # The objective plays no part.
        model["objective"] = {"sense": "feasibility"}
        solved = self.answer(self.edit, "solve", self.written("bare.mof.json", json.dumps(model)))
        # `solve` answers two lines, to load and to attach, before that of the optimise.
        first = next((line for line in solved if not line.startswith("ok")), "nothing")
        kind = "refused" if said[0].startswith("refused") else first.split(" ")[0]
        if kind == "optimal":
            points = [line for line in solved if line.startswith("primal ")]
            self.hold(said == ["feasible", *points], solved, said)
        elif kind == "infeasible":
            self.judge(model, solved, said)
        else:
            self.hold(kind == "refused", solved, said)
        self.count[kind] += 1

    def judge(self, model, solved, said):
        """Judges a conflict by its certificate and its points."""
        self.hold(said[0].startswith("conflict "), solved, said)
        names, certificate, points = parts(said)
        rows = [row for row in model["constraints"] if row.get("name") in names]
        self.hold([row["name"] for row in rows] == names == [name for name, _ in points], solved, said)
        self.accept(without(model, rows, None), certificate, solved, said)
        for name, point in points:
            left = without(model, rows, name)
            self.accept(left, ["optimal 0", *point, *zeros(left, point)], solved, said)

    def accept(self, model, certificate, solved, said):
        path = self.written("part.mof.json", json.dumps(model))
        lines = self.written("certificate.txt", "".join(f"{line}\n" for line in certificate))
        judged = self.answer(self.edit, "check", path, lines)
        if judged[:1] == ["refused 17 Overflow check"]:
            self.count["not judged"] += 1
        else:
            self.hold(judged == ["yes"], solved, [*said, f"check: {judged}"])

    def hold(self, is_right, solved, said):
        if not is_right:
            raise Difference("\n".join(["moi_edit:", *solved, "moi_conflict:", *said]))


def parts(said):
    """The names of a conflict's rows, the lines of its certificate, and the lines of each row's point."""
    count = int(said[0].split(" ")[1])
    names = [line.removeprefix("row ") for line in said[1 : count + 1]]
    certificate, points = [], []
    for line in said[count + 1 :]:
        if line.startswith("without "):
            points.append((line.removeprefix("without "), []))
        elif points:
            points[-1][1].append(line)
        else:
            certificate.append(line)
    return names, certificate, points


def without(model, rows, name):
    """The model with these rows alone, but for the one of this name."""
    groups = [constraint for constraint in model["constraints"] if "name" not in constraint]
    return {**model, "constraints": [*groups, *(row for row in rows if row["name"] != name)]}


def zeros(model, point):
    """The lines of duals that are all 0, which are right without an objective."""
    lines = []
    for row in model["constraints"]:
        if "name" in row:
            size = len(row["function"]["constants"]) if "constants" in row["function"] else 1
            lines.append(" ".join(["dual row", row["name"], *["0"] * size]))
    return [*lines, *(f"dual var {line.split(' ')[1]} 0" for line in point)]
