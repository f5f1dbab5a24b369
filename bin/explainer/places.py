"""Where a JSON pointer leads in the text of a file, and what stands there in a planner's words."""

import json
from json.decoder import JSONDecodeError, scanstring

DECODER = json.JSONDecoder()
SPACE = " \t\r\n"
LONGEST = 240


def past_space(text, at):
    while at < len(text) and text[at] in SPACE:
        at += 1
    return at


def members(text, at):
    """The parts of the object or array that begins at a place: (key or index, begin, end) each."""
    closing, index = {"{": "}", "[": "]"}[text[at]], 0
    at = past_space(text, at + 1)
    while text[at] != closing:
        key = index
        if closing == "}":
            key, at = scanstring(text, at + 1)
            at = past_space(text, at)
            at = past_space(text, at + 1)
        _, end = DECODER.raw_decode(text, at)
        yield key, at, end
        index += 1
        at = past_space(text, end)
        if text[at] == ",":
            at = past_space(text, at + 1)


def parts_of(pointer):
    """The keys of a JSON pointer."""
    return [part.replace("~1", "/").replace("~0", "~") for part in pointer.split("/")[1:]]


def spans(text, pointer):
    """The begin and end of each value on the way to a place, the whole text first; and whether all are there."""
    start = past_space(text, 0)
    found = [(start, DECODER.raw_decode(text, start)[1])]
    for part in parts_of(pointer):
        at = found[-1][0]
        inside = [(begin, end) for key, begin, end in members(text, at) if str(key) == part] if text[at] in "{[" else []
        if not inside:
            return found, False
        found.append(inside[-1])
    return found, True


def line_and_column(text, at):
    return text.count("\n", 0, at) + 1, at - text.rfind("\n", 0, at)


def piece(text, found):
    """The largest value around the place, up to the constraint or variable that it is of, that isn't long."""
    begin, end = found[-1]
    for outer_begin, outer_end in reversed(found[2:-1]):
        if outer_end - outer_begin > LONGEST:
            break
        begin, end = outer_begin, outer_end
    shown = " ".join(text[begin:end].split())
    return shown if len(shown) <= LONGEST else shown[: LONGEST - 2] + " .."


def named(file, pointer):
    """The place in words: of which variable or constraint it is, counted from 1, with its name."""
    parts = parts_of(pointer)
    if not parts:
        return "the whole text"
    if parts[0] in ("variables", "constraints") and len(parts) > 1 and parts[1].isdigit():
        what, number = parts[0][:-1], int(parts[1])
        try:
            name = file[parts[0]][number].get("name")
        except (KeyError, IndexError, AttributeError, TypeError):
            name = None
        words = f"{what} {number + 1}" + (f", named `{name}`" if name else ", which has no name")
        parts = parts[2:]
    else:
        words, parts = f"`{parts[0]}`", parts[1:]
    inner = " of ".join(inner_words(parts))
    return f"{inner} of {words}" if inner else words


def inner_words(parts):
    """The rest of a pointer in words, the innermost first; an item of a list goes by its number from 1."""
    words = []
    for part in parts:
        if part.isdigit() and words:
            words[-1] = words[-1].rstrip("`").rstrip("s") + f" {int(part) + 1}`"
        else:
            words.append(f"`{part}`")
    return list(reversed(words))


def explain(text, pointer):
    """The lines that say where in the file's text a pointer leads."""
    try:
        file = json.loads(text)
        found, is_there = spans(text, pointer)
    except (JSONDecodeError, RecursionError):
        return []
    line, column = line_and_column(text, found[-1][0])
    where = f"place: {named(file, pointer)}"
    if not is_there:
        where += ": this key is missing"
    return [where, f"       line {line}, column {column}: {piece(text, found)}"]


def not_json(data):
    """Why the bytes of a file aren't JSON."""
    if data.startswith(b"\x1f\x8b"):
        return ["place: the file is compressed: unpack it first"]
    if data.startswith(b"\xef\xbb\xbf"):
        return ["place: the file begins with a byte-order mark, three bytes that JSON doesn't have: save it as plain UTF-8"]
    try:
        json.loads(data.decode("utf-8"))
    except UnicodeDecodeError as fault:
        return [f"place: byte {fault.start + 1} of the file isn't UTF-8"]
    except JSONDecodeError as fault:
        return [f"place: line {fault.lineno}, column {fault.colno}: {fault.msg}"]
    except RecursionError:
        return ["place: the text is nested too deep"]
    return []
