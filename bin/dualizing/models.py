"""Small random models as MathOptFormat files, of each set, sense and shape of function."""

import json
import random

SCALARS = ("LessThan", "GreaterThan", "EqualTo", "Interval")
VECTORS = ("Reals", "Zeros", "Nonnegatives", "Nonpositives", "NormInfinityCone", "NormOneCone")
SENSES = ("min", "max", "feasibility")


class Models:
    """The models of a seed, one after another."""

    def __init__(self, seed):
        self.random = random.Random(seed)
        self.made = 0

    def next_text(self):
        self.made += 1
        return json.dumps(self.model())

    def model(self):
        names = [f"x{place}" for place in range(1, self.random.randint(2, 5))]
        constraints = self.groups(list(names))
        for place in range(self.random.randint(0, 4)):
            constraints.append({"name": f"r{place + 1}", **self.row(names)})
        return {
            "version": {"major": 1, "minor": 0},
            "variables": [{"name": name} for name in names],
            "objective": self.objective(names),
            "constraints": constraints,
        }

    # ---- variables

    def groups(self, left):
        """The sets that the variables are created in, single or in vectors; some are free."""
        groups = []
        while left:
            if len(left) >= 2 and self.random.random() < 0.3:
                own, left = left[:2], left[2:]
                groups.append({"function": {"type": "VectorOfVariables", "variables": own}, "set": self.vector_set(2)})
            else:
                own, left = left[0], left[1:]
                if self.random.random() < 0.85:
                    groups.append({"function": {"type": "Variable", "name": own}, "set": self.scalar_set(True)})
        return groups

    # ---- sets

    def scalar_set(self, wide=False):
        kind = self.random.choice(("Interval", *SCALARS) if wide else SCALARS)
        low = self.random.randint(-4, 4)
        if kind == "LessThan":
            return {"type": kind, "upper": low}
        if kind == "GreaterThan":
            return {"type": kind, "lower": low}
        if kind == "EqualTo":
            return {"type": kind, "value": low}
        return {"type": kind, "lower": low, "upper": low + self.random.randint(0, 5)}

    def vector_set(self, dimension):
        kinds = VECTORS if dimension > 1 else VECTORS[:4]
        return {"type": self.random.choice(kinds), "dimension": dimension}

    # ---- functions

    def coefficient(self):
        number = self.random.choice((-3, -2, -1, 1, 1, 2, 3))
        return number if self.random.random() < 0.9 else f"{number}/2"

    def terms(self, names):
        chosen = self.random.sample(names, self.random.randint(1, len(names)))
        return [{"coefficient": self.coefficient(), "variable": name} for name in chosen]

    def scalar(self, names):
        if self.random.random() < 0.1:
            return {"type": "Variable", "name": self.random.choice(names)}
        return {"type": "ScalarAffineFunction", "terms": self.terms(names), "constant": self.random.randint(-3, 3)}

    def row(self, names):
        if self.random.random() < 0.6:
            function = self.scalar(names)
            if function["type"] == "Variable":
                function = {"type": "ScalarAffineFunction", "terms": [{"coefficient": 1, "variable": function["name"]}], "constant": 0}
            return {"function": function, "set": self.scalar_set()}
        dimension = self.random.randint(1, 3)
        terms = [
            {"output_index": output, "scalar_term": term}
            for output in range(1, dimension + 1)
            for term in self.terms(names)
        ]
        constants = [self.random.randint(-3, 3) for _ in range(dimension)]
        function = {"type": "VectorAffineFunction", "terms": terms, "constants": constants}
        return {"function": function, "set": self.vector_set(dimension)}

    def objective(self, names):
        sense = self.random.choices(SENSES, (5, 5, 1))[0]
        if sense == "feasibility":
            return {"sense": sense}
        return {"sense": sense, "function": self.scalar(names)}
