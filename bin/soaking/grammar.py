"""Random lines, over every line of the grammar of docs/SCRIPT.md.

Most lines suit the model that they meet, so that most are accepted. Of the others each mistake that a
planner makes comes now and then: a name that isn't there, a set of another type, a line of no form.
"""

import random

TARGETS = ("standard", "rows", "cone", "all", "less")
KINDS = (
    "group:Reals group:Nonnegatives affine:LessThan affine:GreaterThan affine:EqualTo plain:LessThan plain:GreaterThan "
    "plain:EqualTo vaffine:Zeros vaffine:Nonnegatives vaffine:Nonpositives min:plain min:affine max:plain max:affine"
).split(" ")
FAMILIES = (
    "GreaterLess OrthantFlip NonposVar ObjFlip Vectorize Scalarize ScalarFunctionize VectorFunctionize VectorizeVar "
    "ObjFunctionize SplitSet DropReals ZerosVar FreeVar ScalarSlack VectorSlack Later ObjSlack NormInfinity NormOne"
).split(" ")
SETS = ("reals", "zeros", "nonneg", "nonpos", "norminf", "normone")
# What each type of a set is in a line.
RELATIONS = {"LessThan": "<=", "GreaterThan": ">=", "EqualTo": "==", "Interval": "in"}
ODD = ("a%20b", "%C3%A9t%C3%A9", "100%25", 'q"t\\', "#3", "x*y", "%0A", "1/2", "free", "-7")
MISTAKES = ("var x", "var x>=0", "row r <= 4 1*x", "hello", "quit now", "coef", "optimize -1", "cost 0 1", "support free", "load")
EDGES, DEAREST = 63, 1000


class Lines:
    """A script from a seed, line by line. Some scripts have no variables in norm cones, which none can delete."""

    def __init__(self, seed):
        self.draw = random.Random(seed)
        self.most = self.draw.choice((4, 8, 16))
        self.has_cones = self.draw.random() < 0.5
        self.model, self.is_attached = None, False
        self.off, self.queue = set(), []

    def line(self, model, is_attached, kept):
        """The next line, where the session has this model. `kept` is a file of a model, to be loaded."""
        self.model, self.is_attached = model, is_attached
        if self.queue:
            return self.queue.pop(0)
        if not is_attached and self.chance(0.3):
            return "attach"
        if self.chance(0.003):
            self.queue = [*self.emptied(), f"load {kept}", "attach"]
        return self.draw.choices([*FORMS], [*FORMS.values()])[0](self, kept)

    def emptied(self):
        """Lines that delete all that can be deleted, without a solver."""
        rows, variables = self.model.rows, self.model.variables
        return ["detach", "feasibility", *[f"delrow {it}" for it in rows], *[f"delvar {it}" for it in variables]]

    def chance(self, share):
        return self.draw.random() < share

    def number(self):
        """Mostly a small whole number, sometimes a fraction, and rarely one that is near the limit."""
        size = self.draw.choices((5, 40, 2**62, 2**127), (66, 24, 6, 4))[0]
        over = self.draw.randrange(-size, size)
        return str(over) if self.chance(0.8) else f"{over}/{self.draw.randrange(1, min(size, 2**64) + 1)}"

    def new_name(self, letter):
        return self.draw.choice(ODD) if self.chance(0.1) else f"{letter}{self.draw.randrange(4 * self.most)}"

    def variable(self):
        """A variable that is there, unless there is none, or by mistake."""
        names = self.model.variables
        return self.draw.choice(names) if names and not self.chance(0.02) else self.new_name("x")

    def row(self, *functions):
        """A row with one of these functions, or any."""
        rows = self.model.rows
        names = [it for it in rows if not functions or rows[it][0] in functions]
        return self.draw.choice(names) if names and not self.chance(0.05) else self.new_name("r")

    def relation(self, kind=None):
        """A bound, of this type where one is named and no mistake is made."""
        sign = RELATIONS.get(kind if not self.chance(0.1) else None) or self.draw.choice(list(RELATIONS.values()))
        if sign != "in":
            return f"{sign} {self.number()}"
        low, high = sorted((self.draw.randrange(-9, 9), self.draw.randrange(-9, 9)), reverse=self.chance(0.05))
        return f"in {low} {high}"

    def terms(self):
        """Up to five terms, of which some are of one variable, are 0, or are constants."""
        found = [f"{self.number()}*{self.variable()}" for _ in range(self.draw.randrange(5))]
        found += [self.number()] * self.chance(0.2) + [f"0*{self.variable()}"] * self.chance(0.05)
        self.draw.shuffle(found)
        return " ".join(found)

    def group(self):
        """A set of vectors with the number of its components, sometimes one that the set can't have."""
        kind = self.draw.choice(SETS)
        least = 2 if kind.startswith("norm") else 1
        return kind, self.draw.randrange(least, 5) if not self.chance(0.02) else least - 1

    def is_full(self, names):
        return len(names) >= self.most and not self.chance(0.1)


def add_variable(it, _):
    if it.is_full(it.model.variables):
        return delete_variable(it, _)
    name = it.new_name("x")
    return f"var {name} free" if it.chance(0.3) else f"var {name} {it.relation()}"


def add_group(it, _):
    kind, count = it.group()
    if it.is_full(it.model.variables) or kind.startswith("norm") and (not it.has_cones or len(it.model.fixed) > 5):
        return delete_variable(it, _)
    return " ".join(["vars", kind, *[it.new_name("x") for _ in range(count)]])


def add_row(it, _):
    if it.is_full(it.model.rows):
        return delete_row(it, _)
    return f"row {it.new_name('r')} {it.relation()} : {it.terms()}".rstrip(" ")


def add_vector_row(it, _):
    if it.is_full(it.model.rows):
        return delete_row(it, _)
    kind, count = it.group()
    return f"vrow {it.new_name('r')} {kind} : {' ; '.join(it.terms() for _ in range(max(count, 1)))}".rstrip(" ")


def add_bound(it, _):
    if it.is_full(it.model.rows):
        return delete_row(it, _)
    return f"bound {it.new_name('r')} {it.variable()} {it.relation()}"


def add_vector_bound(it, _):
    if it.is_full(it.model.rows):
        return delete_row(it, _)
    kind, count = it.group()
    return " ".join(["vbound", it.new_name("r"), kind, *[it.variable() for _ in range(count)]])


def delete_variable(it, _):
    return f"delvar {it.variable()}"


def delete_row(it, _):
    return f"delrow {it.row()}"


def rename(it, _):
    if it.chance(0.5):
        return f"renvar {it.variable()} {it.new_name('x')}"
    return f"renrow {it.row()} {it.new_name('r')}"


def reset(it, _):
    names = list(it.model.bounded)
    name = it.draw.choice(names) if names and it.chance(0.95) else it.variable()
    return f"free {name}" if it.chance(0.1) else f"reset {name} {it.relation(it.model.bounded.get(name))}"


def change_set(it, _):
    name = it.row("Variable", "ScalarAffineFunction")
    return f"set {name} {it.relation(it.model.rows.get(name, (None, None))[1])}"


def change_row(it, _):
    name = it.row("ScalarAffineFunction")
    return f"const {name} {it.number()}" if it.chance(0.2) else f"coef {name} {it.variable()} {it.number()}"


def change_vector_row(it, _):
    name = it.row("VectorAffineFunction")
    place = it.draw.randrange(it.model.rows.get(name, (None, None, 1))[2]) + (0 if it.chance(0.05) else 1)
    if it.chance(0.2):
        return f"vconst {name} {place} {it.number()}"
    return f"vcoef {name} {place} {it.variable()} {it.number()}"


def change_objective(it, _):
    return f"objconst {it.number()}" if it.chance(0.2) else f"objcoef {it.variable()} {it.number()}"


def set_objective(it, _):
    if it.chance(0.2):
        return "feasibility"
    sense = it.draw.choice(("min", "max"))
    return f"{sense}var {it.variable()}" if it.chance(0.3) else f"{sense} {it.terms()}".rstrip(" ")


def change_table(it, _):
    if it.off and it.chance(0.6):
        family = it.draw.choice(sorted(it.off))
        it.off.discard(family)
        return f"on {family}"
    family, kind = it.draw.choice(FAMILIES), it.draw.choice(KINDS)
    form = it.draw.randrange(5)
    if form == 0:
        it.off.add(family)
    edge, cost = it.draw.randrange(1, EDGES + 1), it.draw.choice((1, 2, 3, 9, DEAREST))
    return (f"off {family}", f"support {kind}", f"unsupport {kind}", f"cost {edge} {cost}", f"target {it.draw.choice(TARGETS)}")[form]


def optimize(it, _):
    return "optimize" if it.chance(0.5) else f"optimize {it.draw.randrange(40)}"


def look(it, kept):
    return it.draw.choice(("bridged", "plan", "write", f"load {kept}", "attach", "detach"))


def nothing(it, _):
    return it.draw.choice(("", "  ", "# a remark", *MISTAKES))


def edits_at_once(it, kept):
    """A group of edits. Whatever becomes of it, none is open afterwards."""
    edits = [it.draw.choices([*EDITS], [*EDITS.values()])[0](it, kept) for _ in range(it.draw.randrange(6))]
    return "\n".join(["begin", *edits, "commit", "abandon"])


# How often each form comes, beside the others.
EDITS = {
    add_variable: 8, add_group: 6, add_row: 10, add_vector_row: 6, add_bound: 4, add_vector_bound: 4, delete_variable: 4,
    delete_row: 5, rename: 4, reset: 8, change_set: 8, change_row: 10, change_vector_row: 8, change_objective: 5,
    set_objective: 5,
}
FORMS = {**EDITS, edits_at_once: 8, change_table: 8, optimize: 3, look: 2, nothing: 2}
