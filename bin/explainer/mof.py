"""Reads a MathOptFormat file as a model, with exact numbers.

It is called for files that moi_edit has loaded, so it doesn't look for their faults.
"""

import json
import re
from dataclasses import dataclass
from fractions import Fraction

NUMBER_SETS = {
    "LessThan": ("upper",), "GreaterThan": ("lower",), "EqualTo": ("value",), "Interval": ("lower", "upper"),
}


@dataclass
class Function:
    """A linear function: its coefficients by the variables' names, and its constant."""

    terms: dict
    constant: Fraction

    def value(self, point):
        return self.constant + self.slope(point)

    def slope(self, ray):
        return sum((number * ray[name] for name, number in self.terms.items()), Fraction(0))


@dataclass
class Row:
    """Functions that are together in a set, (type, numbers); of a group these are its variables."""

    name: str
    functions: list
    set: tuple


@dataclass
class Model:
    groups: list
    rows: list
    sense: str
    objective: Function

    @property
    def variables(self):
        return [name for group in self.groups for name in group.functions]


def exact(value):
    """A number: a whole one, another numeral as text, or a text such as "1/2"."""
    if isinstance(value, str) and not re.search("[1-9]", re.split("[eE/]", value)[0]):
        return Fraction(0)
    return Fraction(value)


def function(value):
    """The components of a function: one of a function of numbers."""
    kind = value["type"]
    if kind == "Variable":
        return [Function({value["name"]: Fraction(1)}, Fraction(0))]
    if kind == "VectorOfVariables":
        return [Function({name: Fraction(1)}, Fraction(0)) for name in value["variables"]]
    if kind == "ScalarAffineFunction":
        components = [Function({}, exact(value["constant"]))]
        terms = [(1, term) for term in value["terms"]]
    else:
        components = [Function({}, exact(number)) for number in value["constants"]]
        terms = [(int(exact(term["output_index"])), term["scalar_term"]) for term in value["terms"]]
    for output, term in terms:
        sums = components[output - 1].terms
        sums[term["variable"]] = sums.get(term["variable"], Fraction(0)) + exact(term["coefficient"])
    return components


def set_of(value):
    """A set: its type, and its numbers."""
    return value["type"], tuple(exact(value[key]) for key in NUMBER_SETS.get(value["type"], ()))


def given_names(constraints):
    """The name of each constraint, or None: an empty, too long or repeated name doesn't count."""
    seen, names = set(), []
    for constraint in constraints:
        name = constraint.get("name") or None
        if name is not None and (name in seen or len(name.encode()) > 4096):
            name = None
        seen.add(name)
        names.append(name)
    return names


def made_name(number, count, taken):
    """The name of an unnamed row: by its place from 1, and by later numbers where that is taken."""
    while f"#{number}" in taken:
        number += count
    return f"#{number}"


def creation_sets(constraints):
    """Of each constraint, whether it is the set in which its variables are made; all others are rows."""
    grouped, found = set(), []
    for constraint in constraints:
        kind, is_scalar = constraint["function"]["type"], constraint["set"]["type"] in NUMBER_SETS
        names = variables_of(constraint["function"])
        fits = (kind == "Variable" and is_scalar) or (kind == "VectorOfVariables" and not is_scalar)
        makes = bool(fits and names and len(set(names)) == len(names) and not grouped.intersection(names))
        grouped.update(names if makes else ())
        found.append(makes)
    return found


def variables_of(value):
    """The variables of a function that is of variables alone; none of another."""
    return [value["name"]] if value["type"] == "Variable" else list(value.get("variables", []))


def row_names(constraints):
    """The name of each constraint's row, or None where it is the set in which its variables are made."""
    names, makes = given_names(constraints), creation_sets(constraints)
    taken, count = set(names), len(constraints)
    return [None if made else name or made_name(place, count, taken) for place, (name, made) in enumerate(zip(names, makes), 1)]


def parsed(text):
    """The tree of a file's text. Other numerals than whole ones stay texts: one in a skipped key may be of any size."""
    return json.loads(text, parse_float=str)


def read(text):
    """The model of a file's text."""
    file = parsed(text)
    order = {variable["name"]: place for place, variable in enumerate(file["variables"])}
    constraints, groups, rows = file.get("constraints", []), [], []
    for constraint, name in zip(constraints, row_names(constraints)):
        sets = set_of(constraint["set"])
        if name is None:
            groups.append(Row(None, variables_of(constraint["function"]), sets))
        else:
            rows.append(Row(name, function(constraint["function"]), sets))
    grouped = {name for group in groups for name in group.functions}
    groups += [Row(None, [name], ("Reals", ())) for name in order if name not in grouped]
    groups.sort(key=lambda group: min(order[name] for name in group.functions))
    objective = file.get("objective", {"sense": "feasibility"})
    is_none = objective["sense"] == "feasibility"
    of = Function({}, Fraction(0)) if is_none else function(objective["function"])[0]
    return Model(groups, rows, objective["sense"], of)


LOWER, UPPER = ("GreaterThan", "EqualTo", "Interval"), ("LessThan", "EqualTo", "Interval")


def is_refused(number, sets, components, is_bounded):
    """Whether a constraint meets this refusal of an edit."""
    kind, numbers = sets
    if number == 5:
        return kind not in NUMBER_SETS and components < (2 if kind.startswith("Norm") else 1)
    if number == 7:
        return kind == "Interval" and numbers[0] > numbers[1]
    return number in (8, 9) and is_bounded


def refused_constraint(text, number):
    """The place of the first constraint that meets a refusal 5, 7, 8 or 9, or None: groups come before rows."""
    constraints = parsed(text).get("constraints", [])
    makes, bounded = creation_sets(constraints), set()
    types = LOWER if number == 8 else UPPER
    for place in sorted(range(len(constraints)), key=lambda place: not makes[place]):
        value, sets = constraints[place]["function"], set_of(constraints[place]["set"])
        is_bound = value["type"] == "Variable" and sets[0] in types
        name = variables_of(value)[0] if is_bound else None
        if is_refused(number, sets, len(function(value)), name is not None and name in bounded):
            return place
        bounded.add(name)
        bounded.discard(None)
    return None
