"""Exact numbers, as moi_edit reads and prints them."""

import re
from fractions import Fraction

LARGEST = 2**127 - 1
LITERAL = re.compile(r"(-?)([0-9]+)(?:/([0-9]+))?", re.ASCII)


def read(text):
    """The number of a literal such as `-1/2`, or None where the text is none."""
    parts = LITERAL.fullmatch(text)
    if not parts:
        return None
    over, under = int(parts[2]), int(parts[3] or 1)
    if under == 0 or over > LARGEST or under > LARGEST:
        return None
    return Fraction(-over if parts[1] else over, under)


def text(number):
    """The number as moi_edit prints it."""
    return str(number)


def decimal(number):
    """The number to six decimal places, with `~` before it where that is rounded; a whole number as it is."""
    if number.denominator == 1:
        return str(number)
    millionths = round(number * 10**6)
    whole, part = divmod(abs(millionths), 10**6)
    shown = f"{'-' if millionths < 0 else ''}{whole}.{part:06}"
    if number * 10**6 == millionths:
        return shown.rstrip("0")
    return "~" + shown


def both(number):
    """A fraction with its decimals beside it, a whole number alone."""
    return str(number) if number.denominator == 1 else f"{number} ({decimal(number)})"


def with_decimals(line):
    """A line of an answer with decimals beside each fraction; names stay as they are."""
    words = line.split(" ")
    if words[0] in ("optimal", "infeasible"):
        first = 1
    elif words[0] in ("primal", "ray"):
        first = 2
    elif words[0] == "dual" and len(words) > 2:
        first = 3
    else:
        return line
    shown = []
    for place, word in enumerate(words):
        number = read(word) if place >= first else None
        shown.append(both(number) if number is not None else word)
    return " ".join(shown)
