"""Scripts line by line, and which lines of an output answer which line of the script."""

import re
from dataclasses import dataclass, field

LEAF = re.compile(r"(var|row|min|max) ")
KIND = re.compile(r"\S+ (native|none|edge [0-9]+ \S+ cost [0-9]+)")
CERTIFICATE = re.compile(r"(primal|ray|dual) ")


@dataclass
class Line:
    """A line of a script: its number from 1, its bytes, and the lines that answer it."""

    number: int
    raw: bytes
    is_last_without_end: bool = False
    answer: list = field(default_factory=list)
    is_answered: bool = False

    @property
    def text(self):
        """The line as it can be shown: other bytes than printable ASCII as an escape."""
        return "".join(chr(byte) if 32 <= byte <= 126 else f"\\x{byte:02x}" for byte in self.raw)

    @property
    def tokens(self):
        return [token for token in self.text.split(" ") if token]

    @property
    def is_ascii(self):
        return all(32 <= byte <= 126 for byte in self.raw)

    @property
    def is_silent(self):
        """Blank lines and comments get no answer; a line with another byte does, whatever it is."""
        return self.is_ascii and (not self.tokens or self.tokens[0].startswith("#"))

    @property
    def is_quit(self):
        return self.is_ascii and self.tokens == ["quit"]


def lines_of(script):
    """The lines of a script's bytes. One carriage return before a newline doesn't count."""
    *whole, rest = script.split(b"\n")
    lines = [Line(number, raw[:-1] if raw.endswith(b"\r") else raw) for number, raw in enumerate(whole, 1)]
    if rest:
        lines.append(Line(len(lines) + 1, rest, True))
    return lines


def heard(lines):
    """The lines that get an answer, up to `quit`."""
    found = []
    for line in lines:
        if line.is_quit:
            break
        if not line.is_silent:
            found.append(line)
    return found


def form_of(line):
    """Which lines may follow the first of an answer: those of `bridged`, `plan` or `optimize`."""
    if not line.is_ascii:
        return None
    if line.tokens in (["bridged"], ["plan"]):
        return line.tokens[0]
    return "optimize" if line.tokens[0] == "optimize" else None


def taken(output, place, form):
    """The end of the lines of this form that begin at a place of the output."""
    form = {"bridged": LEAF.match, "plan": KIND.fullmatch, "optimize": CERTIFICATE.match}[form]
    while place < len(output) and form(output[place]):
        place += 1
    return place


def hand_out(lines, output):
    """Gives each line that is heard its answer. A line stays unanswered where the output ends before it."""
    place, turn, asked = 0, 0, heard(lines)
    while turn < len(asked):
        form = form_of(asked[turn])
        if form in ("bridged", "plan"):
            # Nothing changes between two of these that follow each other, so each prints the same.
            alike = 1
            while turn + alike < len(asked) and form_of(asked[turn + alike]) == form:
                alike += 1
            place = share(asked[turn : turn + alike], output, place, form)
            turn += alike
            continue
        if place < len(output):
            end = taken(output, place + 1, "optimize") if form == "optimize" else place + 1
            asked[turn].answer, asked[turn].is_answered = output[place:end], True
            place = end
        turn += 1
    return output[place:]


def share(asked, output, place, form):
    """Hands the same lines to each of some `bridged` or `plan` in a row; the place after them."""
    end = taken(output, place, form)
    if end == place:
        # Either each is refused, or the solver's model is empty and nothing is printed.
        for line in asked:
            is_refused = place < len(output) and output[place].startswith("refused ")
            line.answer, line.is_answered = output[place : place + is_refused], True
            place += is_refused
        return place
    each = -(-(end - place) // len(asked))
    for line in asked:
        line.answer = output[place : min(place + each, end)]
        line.is_answered = bool(line.answer)
        place = min(place + each, end)
    return place
