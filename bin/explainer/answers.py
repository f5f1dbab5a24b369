"""Reads the text of an answer, as `optimize` prints it."""

from dataclasses import dataclass, field

from . import numbers


class Unreadable(Exception):
    """The text isn't an answer for the model: the line from 1, and why."""

    def __init__(self, line, why):
        super().__init__(f"line {line}: {why}")
        self.line, self.why = line, why


@dataclass
class Answer:
    """An answer: `optimal`, `infeasible` or `unbounded`, with its numbers by name and by place."""

    kind: str
    number: object = None
    point: dict = field(default_factory=dict)
    ray: dict = field(default_factory=dict)
    row_duals: list = field(default_factory=list)
    duals: dict = field(default_factory=dict)


def escaped(name):
    """A name as moi_edit prints it."""
    return "".join(chr(byte) if 32 < byte < 127 and byte != 37 else f"%{byte:02X}" for byte in name.encode())


class Reader:
    """The lines of a text, one after another."""

    def __init__(self, text):
        *self.lines, self.rest = text.split("\n")
        self.place = 0

    def refuse(self, why):
        raise Unreadable(self.place, why)

    def next(self, wanted):
        """The next line, which is to be of this form."""
        self.place += 1
        if self.place > len(self.lines):
            if self.rest and self.place == len(self.lines) + 1:
                self.refuse("it doesn't end in a newline")
            self.refuse(f"it is missing; `{wanted}` is wanted")
        return self.lines[self.place - 1]

    def after(self, head, count):
        """The numbers of the next line, which is to begin so and to have so many of them."""
        line = self.next(f"{head} ..")
        if line != head and not line.startswith(head + " "):
            self.refuse(f"it is `{line}`, and `{head} ..` is wanted: lines come in the model's order, and none is left out")
        words = line[len(head) :].split(" ")[1:]
        found = [numbers.read(word) for word in words]
        if None in found:
            self.refuse(f"`{words[found.index(None)]}` isn't a number such as 2 or -1/2")
        if len(found) != count:
            self.refuse(f"it has {len(found)} numbers, and {count} are wanted")
        return found

    def each(self, word, names):
        """A number for each variable."""
        return {name: self.after(f"{word} {escaped(name)}", 1)[0] for name in names}

    def heading(self):
        line = self.next("optimal V")
        word, _, rest = line.partition(" ")
        number = numbers.read(rest)
        if line == "unbounded" or (word in ("optimal", "infeasible") and number is not None):
            return Answer(word, number)
        if line.split(" ")[0] == "ok":
            return self.refuse("an answer begins with `optimal`, `infeasible` or `unbounded`: leave the lines `ok ..` out")
        return self.refuse(f"it is `{line}`, and `optimal V`, `infeasible GAP` or `unbounded` is wanted")

    def end(self):
        self.place += 1
        if self.place <= len(self.lines) or self.rest:
            self.refuse("nothing may follow the last number")


def read(text, model):
    """The answer that a text is for a model, or Unreadable."""
    reader = Reader(text)
    answer = reader.heading()
    if answer.kind != "infeasible":
        answer.point = reader.each("primal", model.variables)
    if answer.kind == "unbounded":
        answer.ray = reader.each("ray", model.variables)
    else:
        answer.row_duals = [reader.after(f"dual row {escaped(row.name)}", len(row.functions)) for row in model.rows]
        answer.duals = reader.each("dual var", model.variables)
    reader.end()
    return answer
