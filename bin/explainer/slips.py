"""Common slips in a script: what is likely meant by a line that moi_edit refuses as a BadLine.

Each slip is a function of a line. It returns an explanation, or None where the line hasn't this slip.
The first in SLIPS that finds something is shown.
"""

import difflib
import re

from . import numbers

KEYWORDS = (
    "var vars reset free delvar renvar row bound vrow vbound min max minvar maxvar feasibility delrow renrow coef const "
    "vcoef vconst set objcoef objconst begin commit abandon attach detach optimize bridged plan target support unsupport cost on off quit "
    "load write"
).split()
OTHER_WORDS = {
    "minimize": "min", "minimise": "min", "maximize": "max", "maximise": "max", "solve": "optimize",
    "optimise": "optimize", "variable": "var", "constraint": "row", "con": "row", "st": "row", "delete": "delvar` or `delrow",
    "remove": "delvar` or `delrow", "objective": "min` or `max", "obj": "min` or `max",
    "print": "write", "read": "load", "open": "load", "save": "write", "exit": "quit",
    "end": "quit", "int": "none", "bin": "none", "integer": "none", "binary": "none",
}
FORMS = {
    "var": "var X free, var X >= Q, var X <= Q, var X == Q or var X in L U", "vars": "vars SET X Y ..",
    "row": "row R >= Q : 1*X 2*Y, with the number before the colon", "bound": "bound R X >= Q",
    "vrow": "vrow R SET : 1*X ; 2*Y", "vbound": "vbound R SET X Y ..", "set": "set R >= Q", "reset": "reset X >= Q",
    "coef": "coef R X Q", "const": "const R Q", "vcoef": "vcoef R I X Q", "vconst": "vconst R I Q",
    "objcoef": "objcoef X Q", "objconst": "objconst Q", "min": "min 1*X 2*Y", "max": "max 1*X 2*Y",
    "minvar": "minvar X", "maxvar": "maxvar X", "delvar": "delvar X", "delrow": "delrow R", "renvar": "renvar X Y",
    "renrow": "renrow R S", "free": "free X", "optimize": "optimize or optimize N", "load": "load FILE",
    "cost": "cost E N, with E from 1 to 63 and N from 1 to 1000",
    "on": "on FAMILY, such as Vectorize", "off": "off FAMILY, such as Vectorize",
    "support": "support KIND, such as affine:LessThan", "unsupport": "unsupport KIND, such as affine:LessThan",
    "target": "target T, of standard, rows, cone, less, all",
}
RELATION = re.compile(r">=|<=|==")
ALMOST = {"=>": ">=", "=<": "<=", "=": "==", "<": "<=", ">": ">=", "≥": ">=", "≤": "<=", "!=": "=="}
DECIMAL = re.compile(r"(-?)([0-9]*)[.]([0-9]*)")
PLACE = re.compile(r"-?[0-9]+(?:/[0-9]+)?")


def byte_order_mark(line):
    if line.number == 1 and line.raw.startswith(b"\xef\xbb\xbf"):
        return "the file begins with a byte-order mark, three bytes that your editor put there: save it as plain UTF-8"


def tab(line):
    if b"\t" in line.raw:
        return "there is a tab in the line: only spaces separate tokens"


def windows_end(line):
    if line.raw.endswith(b"\r"):
        if line.is_last_without_end:
            return "the last line ends in a carriage return without a newline: end it with both, or with neither"
        return "the line ends in more than one carriage return: Windows line ends have one, and a newline"


def other_byte(line):
    for byte in line.raw:
        if not 32 <= byte <= 126:
            shown = line.raw.decode("utf-8", "replace")
            sign = next((sign for sign in ALMOST if sign in shown and not sign.isascii()), None)
            if sign:
                return f"`{sign}` is written `{ALMOST[sign]}`"
            return f"there is a byte outside printable ASCII, also in comments refused: in a name write it as %{byte:02X}"


def comment_behind(line):
    behind = [token for token in line.tokens[1:] if token.startswith("#")]
    if behind:
        return "a comment has a line of its own, which begins with `#`; one behind a line isn't skipped"


def almost_relation(line):
    for token in line.tokens:
        if token in ALMOST:
            return f"`{token}` isn't a relation: write `{ALMOST[token]}`. Relations are `>=`, `<=`, `==` and `in L U`"


def tight_relation(line):
    for token in line.tokens:
        found = RELATION.search(token)
        if found and token != found[0]:
            spaced = " ".join(filter(None, (token[: found.start()], found[0], token[found.end() :])))
            return f"put spaces around `{found[0]}`: `{spaced}`"
        if re.fullmatch(r"[^<>=]+[<>=]{1,2}[^<>=]+", token):
            return f"`{token}` isn't a relation: write `>=`, `<=` or `==`, with spaces around it"


def tight_colon(line):
    for token in line.tokens[1:]:
        for sign in ":;":
            if sign in token and token != sign and line.tokens[0] in ("row", "vrow"):
                return f"put spaces around `{sign}`: it is a token of its own"


def infinite(line):
    for token in line.tokens[1:]:
        if re.fullmatch(r"[+-]?(inf|infinity|infty|∞|nan)", token.lower()):
            return f"`{token}` isn't a number: leave an infinite bound out, as `var x free` or `var x >= 0`"


def decimal_number(line):
    for token in line.tokens[1:]:
        for part in token.split("*"):
            found = DECIMAL.fullmatch(part)
            if found and (found[2] or found[3]):
                over, under = int((found[2] + found[3]) or 0), 10 ** len(found[3])
                exact = str(numbers.Fraction(over, under))
                return f"`{part}` is written as a fraction: `{found[1]}{exact}`"
            if re.fullmatch(r"-?[0-9.]+[eE][+-]?[0-9]+", part):
                return f"`{part}` is written out, as `1000` or `1/1000`"


def comma(line):
    for token in line.tokens[1:]:
        if re.fullmatch(r"-?[0-9]{1,3}(,[0-9]{3})+", token.split("*")[0]):
            return f"`{token}` is written without a comma: `{token.replace(',', '')}`"
        if token.endswith(",") or token == ",":
            return "a space alone separates the parts of a line, no comma"


def too_long_number(line):
    for token in line.tokens[1:]:
        part = token.split("*")[0]
        if PLACE.fullmatch(part) and numbers.read(part) is None:
            if int(part.partition("/")[2] or 1) == 0:
                return f"`{part}` has the denominator 0"
            return f"`{part}` exceeds 128 bits: neither part may pass {numbers.LARGEST}"


def star_left_out(line):
    if line.tokens[0] not in ("row", "vrow", "min", "max"):
        return None
    for number, name in zip(line.tokens[1:], line.tokens[2:]):
        if PLACE.fullmatch(number) and re.match(r"[A-Za-z_]", name) and "*" not in name:
            return f"join the number and its variable by `*`: `{number}*{name}`"


def no_star(line):
    for token in line.tokens[1:]:
        found = re.fullmatch(r"([+-]?[0-9]+(?:/[0-9]+)?)([A-Za-z_%\[].*)", token)
        if found and "*" not in token:
            return f"write `{found[1]}*{found[2]}` for `{token}`"


def star_behind(line):
    for token in line.tokens[1:]:
        before, star, behind = token.partition("*")
        if star and numbers.read(before) is None and numbers.read(behind) is not None:
            return f"the number comes first: `{behind}*{before}`"


def star_apart(line):
    if any(token == "*" or token.endswith("*") or token.startswith("*") for token in line.tokens[1:]):
        return "write a term without spaces around `*`: `2*x`"


def plus(line):
    for token in line.tokens[1:]:
        if token in ("+", "-"):
            return "write terms side by side, without `+` and with the sign at the number: `2*x -3*y`"
        if token.startswith("+"):
            return f"numbers are written without `+`: `{token[1:]}`"


def spaced_fraction(line):
    if any(token == "/" or re.fullmatch(r"-?[0-9]+/|/[0-9]+", token) for token in line.tokens[1:]):
        return "write a fraction without spaces around `/`: `1/2`"


def bare_variable(line):
    places = [place for place, token in enumerate(line.tokens) if token in ("min", "max", ":", ";")]
    start = places[0] if places and line.tokens[0] in ("min", "max", "row", "vrow") else None
    if start is None:
        return None
    for token in line.tokens[start + 1 :]:
        before, star, behind = token.partition("*")
        if token in (":", ";") or PLACE.fullmatch(before):
            continue
        if not star and re.match(r"[-+]?[A-Za-z_]", token):
            return f"a variable alone has the number 1: `{'-' if token[0] == '-' else ''}1*{token.lstrip('+-')}`"
        if star:
            return f"`{before}` isn't a number such as 2, -1/2: a term is a number, `*` and a variable"


def number_behind(line):
    tokens = line.tokens
    if tokens[0] != "row" or ":" not in tokens:
        return None if tokens[0] != "row" else f"a row has its number before its terms, and a colon: {FORMS['row']}"
    before = tokens[: tokens.index(":")]
    if sum(token in (">=", "<=", "==") for token in before) == 2 or ("in" in before and "to" in before):
        return "two bounds are written `in`, the lower one first: `row R in 2 8 : 1*X`"
    if any(token in (">=", "<=", "==", "in") for token in tokens[tokens.index(":") :]):
        return f"the relation and its number come before the colon: {FORMS['row']}"


def other_keyword(line):
    word = line.tokens[0]
    if word in KEYWORDS:
        return None
    if word.lower() in KEYWORDS:
        return f"keywords are in small letters: `{word.lower()}`"
    if OTHER_WORDS.get(word.lower()) == "none":
        return "integer and binary variables are not supported"
    if word.lower() in OTHER_WORDS:
        return f"`{word}` isn't a keyword; did you mean `{OTHER_WORDS[word.lower()]}`?"
    if len(line.tokens) > 1 and line.tokens[1] in (">=", "<=", "==", "in"):
        return "a line begins with its keyword: `var x >= 0` for a variable, `bound R x >= 0` or `row R >= 0 : 1*x` for a row"
    close = difflib.get_close_matches(word, KEYWORDS, 1)
    return f"`{word}` isn't a keyword" + (f"; did you mean `{close[0]}`?" if close else "")


def missing_bound(line):
    if line.tokens[0] == "var":
        if len(line.tokens) == 2:
            return f"say what values it may have: `var {line.tokens[1]} free` or `var {line.tokens[1]} >= 0`"
        if len(line.tokens) > 3 and line.tokens[2] not in (">=", "<=", "==", "in", "free"):
            return "`var` adds one variable. Several at once: `vars nonneg X Y`, or `vars reals X Y` for free ones"


def form_of_keyword(line):
    form = FORMS.get(line.tokens[0])
    if form:
        return f"the form is {form}"
    if line.tokens[0] in KEYWORDS:
        return f"`{line.tokens[0]}` takes no more words"


SLIPS = (
    byte_order_mark, tab, windows_end, other_byte, comment_behind, almost_relation, tight_relation, tight_colon, infinite,
    decimal_number, comma, too_long_number, star_behind, no_star, star_apart, plus, spaced_fraction, other_keyword,
    number_behind, star_left_out, missing_bound, bare_variable, form_of_keyword,
)


def explain(line):
    """The explanation of the first slip that the line has, or None."""
    for slip in SLIPS:
        if not line.tokens and slip not in SLIPS[:4]:
            return None
        found = slip(line)
        if found:
            return found
    return None
