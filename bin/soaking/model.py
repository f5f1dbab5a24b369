"""What a model has, by the text that `write` prints of it."""

import json
import re

CONES = ("NormInfinityCone", "NormOneCone")


def token(name):
    """The name as a script writes it."""
    return re.sub(rb"[^!-~]|%", lambda it: b"%%%02X" % ord(it[0]), name.encode()).decode("ascii")


class Model:
    """The names of a model, as a script writes them, with the types of what they stand for."""

    def __init__(self, text):
        told = json.loads(text)
        self.variables = [token(it["name"]) for it in told["variables"]]
        # The set's type of each variable that was made within a bound, and the members of norm cones.
        self.bounded, self.fixed = {}, set()
        # Of each row the function's type, the set's, and how many components it has.
        self.rows = {}
        for it in told["constraints"]:
            self.add(it)
        self.is_empty = not self.variables and not self.rows and told["objective"]["sense"] == "feasibility"

    def add(self, constraint):
        function, kind = constraint["function"], constraint["set"]["type"]
        if "name" in constraint:
            count = constraint["set"].get("dimension", 1)
            self.rows[token(constraint["name"])] = function["type"], kind, count
        elif function["type"] == "Variable":
            self.bounded[token(function["name"])] = kind
        elif kind in CONES:
            self.fixed.update(token(it) for it in function["variables"])
