"""A random script, and each of its answers beside those of a fresh session."""

import difflib
import os
import time

from .grammar import TARGETS, Lines
from .model import Model
from .sessions import Ended, Session, Table, fresh


NOT_ATTACHED = ["refused 13 NotAttached\n"]


class Difference(Exception):
    """What two sessions print differs, or a refused line changed something."""


def differing(what, expected, found):
    return Difference("".join([f"{what}\n", *difflib.unified_diff(expected, found, "expected", "found", n=0)]))


def told(line, answers):
    """The first line of an answer; of a group of edits, which ends with `commit` and `abandon`, that to `commit`."""
    return "".join(answers[-2:-1] if line.startswith("begin\n") else answers[:1])


class Script:
    """A script from a seed, as it is run."""

    def __init__(self, program, seed, folder):
        self.program, self.target = program, TARGETS[seed % len(TARGETS)]
        self.maker, self.table = Lines(seed), Table(self.target)
        # The model of the last comparison, and one that is loaded later.
        self.written, self.kept = os.path.join(folder, "written.json"), os.path.join(folder, "kept.json")
        self.lines, self.count = [], {"lines": 0, "accepted": 0, "compared": 0}

    def run(self, most, end):
        """Runs so many lines, or those until the time `end`."""
        session = Session(self.program, self.target)
        try:
            before = session.answer("")
            self.keep(self.kept, before[1])
            while self.count["lines"] < most and time.monotonic() < end:
                before = self.step(session, before)
            rest, status = session.end()
            if rest or status not in (0, 1):
                raise Difference(f"after `quit` the program printed {rest!r} and ended with status {status}")
        except Ended as fault:
            raise Difference(str(fault)) from fault
        finally:
            session.stop()

    def step(self, session, before):
        line = self.maker.line(Model(before[1]), before[2] != NOT_ATTACHED, self.kept)
        self.lines.append(line)
        self.count["lines"] += 1
        if line == "detach":
            self.keep(self.kept, before[1])
        after = session.answer(line)
        said = told(line, after[0])
        if said.startswith("refused ") and after[1:] != before[1:]:
            raise differing(f"`{line}` was refused, and yet it changed something", [before[1], *before[2]], [after[1], *after[2]])
        if said.startswith("ok"):
            self.count["accepted"] += 1
            self.table.accept(line)
        if after[2] != NOT_ATTACHED and (said.startswith("ok") or line.startswith("optimize")):
            self.compare(line, after)
        return after

    def compare(self, line, after):
        """The solver's model, and an answer of `optimize`, beside a fresh session's."""
        self.keep(self.written, after[1])
        bridged, answer = fresh(self.program, self.table, self.written, line)
        self.count["compared"] += 1
        if after[2] != bridged:
            raise differing(f"after `{line}` the solver's model isn't the fresh one", bridged, after[2])
        if line.startswith("optimize") and after[0] != answer:
            raise differing(f"`{line}` isn't answered as in a fresh session", answer, after[0])

    def keep(self, path, text):
        with open(path, "w", encoding="utf-8") as file:
            file.write(text)
