"""Which constraint of a file a row such as `#9` is, which has no name of its own."""

from . import judge, mof
from .answers import escaped

MOST = 3


def summed(function):
    """A function as the script writes it, cut off after some terms."""
    terms = [f"{number}*{escaped(name)}" for name, number in list(function.terms.items())[:MOST]]
    terms += [".."] * (len(function.terms) > MOST) + [str(function.constant)] * bool(function.constant)
    return " ".join(terms) or "0"


def shown(constraint):
    """A constraint as a planner writes it: `x[1] <= 10`."""
    value, functions = constraint["function"], mof.function(constraint["function"])
    parts = [escaped(name) for name in mof.variables_of(value)] or [summed(it) for it in functions[:MOST]]
    more = [".."] * (len(functions) > len(parts[:MOST]))
    return f"{' ; '.join(parts[:MOST] + more)} {judge.said(mof.set_of(constraint['set']))}"


def rows(text):
    """Of each row without a name, by the name that it is called by: its number in the file, and what it says."""
    constraints = mof.parsed(text).get("constraints", [])
    given, called = mof.given_names(constraints), mof.row_names(constraints)
    unnamed = [place for place, name in enumerate(called) if name and not given[place]]
    return {called[place]: f"constraint {place + 1} of the file: {shown(constraints[place])}" for place in unnamed}
