"""What a model's file demands, as bounds on sums: `low <= sum of coefficient * variable + constant <= high`."""

import itertools
from fractions import Fraction


class Bounds:
    """A sum, what is demanded of it, and whether it may be missed."""

    def __init__(self, terms, constant, low, high, is_soft=False):
        self.terms, self.constant, self.low, self.high, self.is_soft = terms, constant, low, high, is_soft

    def over(self, point):
        """By how much a point misses it."""
        value = sum(factor * point[name] for name, factor in self.terms.items()) + self.constant
        misses = [Fraction(0)]
        if self.low is not None:
            misses.append(self.low - value)
        if self.high is not None:
            misses.append(value - self.high)
        return max(misses)


def number(told):
    return None if told is None else Fraction(told)


def sum_of(terms):
    """The coefficients of terms, of which several may name one variable."""
    found = {}
    for term in terms:
        found[term["variable"]] = found.get(term["variable"], 0) + Fraction(term["coefficient"])
    return found


def functions_of(function):
    """The components of a function, each with its coefficients and its constant."""
    kind = function["type"]
    if kind == "Variable":
        return [({function["name"]: Fraction(1)}, Fraction(0))]
    if kind == "VectorOfVariables":
        return [({name: Fraction(1)}, Fraction(0)) for name in function["variables"]]
    if kind == "ScalarAffineFunction":
        return [(sum_of(function["terms"]), Fraction(function["constant"]))]
    return [
        (
            sum_of([term["scalar_term"] for term in function["terms"] if term["output_index"] == place]),
            Fraction(constant),
        )
        for place, constant in enumerate(function["constants"], 1)
    ]


def combined(parts, factors):
    """A sum of components, each multiplied by its factor."""
    terms, constant = {}, Fraction(0)
    for (own, number_of_it), factor in zip(parts, factors):
        for name, coefficient in own.items():
            terms[name] = terms.get(name, 0) + factor * coefficient
        constant += factor * number_of_it
    return terms, constant


def bounds_of(constraint):
    """What a constraint demands: one pair of bounds for each component of most sets, and one for each side of a norm cone."""
    parts, kind = functions_of(constraint["function"]), constraint["set"]["type"]
    is_soft = constraint["function"]["type"] == "ScalarAffineFunction"
    if kind == "Reals":
        return []
    if kind in ("NormInfinityCone", "NormOneCone"):
        return [Bounds(*combined(parts, factors), 0, None) for factors in sides(kind, len(parts) - 1)]
    if kind in ("Zeros", "Nonnegatives", "Nonpositives"):
        low, high = {"Zeros": (0, 0), "Nonnegatives": (0, None), "Nonpositives": (None, 0)}[kind]
    else:
        value = number(constraint["set"].get("value"))
        low = number(constraint["set"].get("lower")) if value is None else value
        high = number(constraint["set"].get("upper")) if value is None else value
    return [Bounds(*part, low, high, is_soft) for part in parts]


def sides(kind, count):
    """The factors of the components of a norm cone in sums of which each is at least 0."""
    if kind == "NormOneCone":
        return [(1, *signs) for signs in itertools.product((1, -1), repeat=count)]
    return [(1, *(sign * (place == other) for other in range(count))) for place in range(count) for sign in (1, -1)]


def bounds_of_model(model):
    return [bounds for constraint in model["constraints"] for bounds in bounds_of(constraint)]
