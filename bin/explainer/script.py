"""`moi_explain run`: a script with its answers beside its lines."""

from . import lines, numbers, slips, tables
from .session import Session

WIDTH = 44
# The most that is shown of an edit which another line refuses.
LONGEST = 100
GROUP = 21
NOTES = {
    "infeasible": "no point meets all rows: those with a dual other than 0 contradict each other",
    "unbounded": "the objective improves without end along the ray: usually a row is missing",
}

HINTS = {
    (4, "objcoef"): "the objective isn't of terms: after `minvar x` write `min 1*x` first",
    (4, "objconst"): "the objective isn't of terms: after `minvar x` write `min 1*x` first",
    (4, "reset"): "only a variable made within a bound can be reset: add a row, `bound R x <= 4`",
    (4, "free"): "the variable is free already, or was made by `vars`",
    (4, "coef"): "the row wasn't made by `row`: `vcoef R I X Q` serves after `vrow`; a bound has no number at its variable, so delete it and write `row`",
    (4, "const"): "the row wasn't made by `row`: `vconst R I Q` serves after `vrow`",
    (4, "vcoef"): "the row wasn't made by `vrow`: `coef R X Q` serves after `row`",
    (4, "vconst"): "the row wasn't made by `vrow`: `const R Q` serves after `row`",
    (4, "set"): "the row is of vectors, whose set has no number: `vconst R I Q` changes the constant of a function",
    (10, "reset"): "the new bound is of another type than the old: add it as a row, `bound R x <= 4`, after `free x` where the old one is to go",
    (10, "set"): "the row's relation can't change: delete the row and add another",
}


def beside(line, answer):
    """A line of the script, its answer beside it, or below where the line is long."""
    head = f"{line.number:>4}  {line.text}".rstrip()
    if not answer:
        return [head]
    margin = " " * WIDTH
    if len(head) > WIDTH - 2:
        return [head] + [margin + text for text in answer]
    return [head.ljust(WIDTH) + answer[0]] + [margin + text for text in answer[1:]]


def refusal(answer):
    """The number of a refusal, or None for another answer."""
    words = answer.split(" ")
    return int(words[1]) if words[0] == "refused" and len(words) > 2 and words[1].isdigit() else None


def meaning(number):
    """What a refusal means and what to do, a line each."""
    row = tables.by_number("refusals").get(number)
    if not row:
        return []
    return [f"means: {tables.plain(row['meaning'])}", f"do:    {tables.plain(row['todo'])}"]


def reason(line, number, names):
    """Why a line is refused: the slip, where one is found, and else what the table says."""
    here = slips.explain(line) if number == 1 else names.hint(line.tokens) if number == 2 else HINTS.get((number, line.tokens[0]))
    return [f"here:  {here}"] if here else meaning(number)


def refused_edit(answer, session):
    """The line of the edit for which `commit` is refused, why, and what to do about the group."""
    place, number = (int(word) for word in answer.split(" ")[3:5])
    edit = session.held[place - 1]
    text = edit.text if len(edit.text) <= LONGEST else edit.text[: LONGEST - 3] + " .."
    return [
        f"edit:  line {edit.number}, `{text}`",
        *reason(edit, number, session.names_before(place - 1)),
        f"group: {tables.plain(tables.by_number('refusals')[GROUP]['todo'])}",
    ]


def explained(line, session):
    """The lines below an answer: what a refusal means here, or a note on an answer without an optimum."""
    number = refusal(line.answer[0])
    if number is None:
        return [f"note:  {NOTES[word]}" for word in NOTES if line.answer[0].split(" ")[0] == word]
    return refused_edit(line.answer[0], session) if number == GROUP else reason(line, number, session.names)


def shown(script, output, status):
    """All that is printed of a script, its output and its status."""
    all_lines = lines.lines_of(script)
    rest = lines.hand_out(all_lines, output)
    session, printed = Session(), []
    for line in all_lines:
        printed += beside(line, [numbers.with_decimals(text) for text in line.answer])
        if line.answer:
            printed += [" " * 8 + text for text in explained(line, session)]
            session.follow(line)
    asked = lines.heard(all_lines)
    first = next((line.number for line in asked if not line.is_answered), None)
    if first is not None:
        printed.append(f"Line {first} and those after it have no answer.")
    printed += session.left_open()
    if rest:
        printed.append("These lines of the output belong to no line of the script:")
        printed += rest
    printed.append(f"Exit status {status}: {tables.by_number('statuses')[status]['meaning']}.")
    return printed
