"""What moi_relax says of a model, held to a simplex of its own and to `moi_edit check`."""

import json
from fractions import Fraction
from urllib.parse import unquote

from dualizing import compare
from dualizing.compare import Difference

from .rows import bounds_of_model
from .simplex import least_misses


class Comparison(compare.Comparison):
    """Compares the answers to models, and counts what they are."""

    def __init__(self, edit, relax, folder):
        super().__init__(edit, None, folder)
        self.relax = relax

    def compare(self, text):
        """Asks the program about the model of a text."""
        model = json.loads(text)
        lines = self.answer(self.relax, self.written("model.mof.json", text))
        kind = lines[0].split(" ")[0] if lines else "nothing"
        if kind != "refused":
            names = [variable["name"] for variable in model["variables"]]
            bounds = bounds_of_model(model)
            value = least_misses(names, bounds)
            self.hold(kind == ("infeasible" if value is None else "relaxed"), lines, value)
            if value is None:
                self.compare_certificate(model, lines)
            else:
                self.compare_point(model, names, bounds, value, lines)
        self.count[kind] += 1

    def compare_point(self, model, names, bounds, value, lines):
        """The point meets the hard bounds, and misses the soft ones by what is said, together by the least."""
        primal = [line.split(" ") for line in lines if line.startswith("primal ")]
        over = [line.split(" ") for line in lines if line.startswith("over ")]
        self.hold(lines[0] == f"relaxed {value}" and len(lines) == 1 + len(primal) + len(over), lines, value)
        self.hold([unquote(name) for _, name, _ in primal] == names, lines, value)
        rows = [row["name"] for row in model["constraints"] if row["function"]["type"] == "ScalarAffineFunction"]
        self.hold([unquote(name) for _, name, _ in over] == rows, lines, value)
        point = {unquote(name): Fraction(told) for _, name, told in primal}
        self.hold(all(it.over(point) == 0 for it in bounds if not it.is_soft), lines, value)
        misses = [it.over(point) for it in bounds if it.is_soft]
        self.hold(misses == [Fraction(told) for _, _, told in over] and sum(misses) == value, lines, value)

    def compare_certificate(self, model, lines):
        """The certificate is one of the hard rows alone."""
        rows = [row for row in model["constraints"] if row["function"]["type"] != "ScalarAffineFunction"]
        hard = {**model, "constraints": rows, "objective": {"sense": "feasibility"}}
        path = self.written("hard.mof.json", json.dumps(hard))
        certificate = self.written("certificate.txt", "".join(f"{line}\n" for line in lines))
        judged = self.answer(self.edit, "check", path, certificate)
        if judged[:1] == ["refused 17 Overflow check"]:
            self.count["not judged"] += 1
        else:
            self.hold(judged == ["yes"], lines, f"check: {judged}")

    def hold(self, is_right, lines, wanted):
        if not is_right:
            raise Difference("\n".join(["moi_relax:", *lines, f"wanted: {wanted}"]))
