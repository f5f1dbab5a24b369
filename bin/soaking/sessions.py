"""Sessions of moi_edit: one that goes on line by line, and fresh ones."""

import contextlib
import subprocess

PIVOTS = "1000"


class Ended(Exception):
    """The program ended before it was told to."""


class Session:
    """A script that is answered line by line."""

    def __init__(self, program, target):
        words = [program, "run", "--target", target, "--pivots", PIVOTS]
        self.process = subprocess.Popen(words, stdin=subprocess.PIPE, stdout=subprocess.PIPE)

    def answer(self, line):
        """What is answered to a line, and then what `write` and `bridged` print. Only the text of a model
        begins with a brace, so it shows where an answer ends."""
        try:
            self.process.stdin.write(f"{line}\nwrite\nbridged\nwrite\n".encode("ascii"))
            self.process.stdin.flush()
        except BrokenPipeError as fault:
            raise Ended(f"the program ended with status {self.process.wait()}") from fault
        said, model = self.to_model()
        if line == "write":
            said, (_, model) = [model], self.to_model()
        bridged, again = self.to_model()
        if again != model:
            raise Ended("`bridged` changed the model")
        return said, model, bridged

    def to_model(self):
        said = []
        while True:
            line = self.process.stdout.readline()
            if not line.endswith(b"\n"):
                raise Ended(f"the program ended with status {self.process.wait()}")
            if line.startswith(b"{"):
                return said, line.decode()
            said.append(line.decode("ascii"))

    def end(self):
        """Sends `quit`, and returns what is printed after it and the status."""
        with contextlib.suppress(BrokenPipeError):
            self.process.stdin.write(b"quit\nvar x free\n")
            self.process.stdin.close()
        return self.process.stdout.read(), self.process.wait()

    def stop(self):
        self.process.kill()
        self.process.stdout.close()
        with contextlib.suppress(BrokenPipeError):
            self.process.stdin.close()
        self.process.wait()


def fresh(program, table, path, line):
    """What a fresh session prints by a table's lines for the model of a file: `bridged`, and an `optimize` if that is the line."""
    words = [program, "run", "--target", table.target, "--pivots", PIVOTS]
    script = [*table.lines(), f"load {path}", "attach", "bridged", *[line] * line.startswith("optimize")]
    done = subprocess.run(words, input="\n".join(script).encode("ascii"), stdout=subprocess.PIPE, check=False)
    said = done.stdout.decode("ascii").splitlines(keepends=True)
    start = len(table.lines()) + 1
    if said[:start] != ["ok\n"] * start or not said[start].startswith("ok "):
        raise Ended(f"a fresh session didn't attach: {said[:start + 1]}")
    count = int(said[start].split(" ")[1])
    return said[start + 1 : start + 1 + count], said[start + 1 + count :]


class Table:
    """The target, the switches and the costs that the accepted lines left."""

    def __init__(self, target):
        self.target, self.native, self.off, self.costs = target, [], set(), {}

    def accept(self, line):
        word, *rest = line.split(" ")
        if word == "target":
            self.target, self.native = rest[0], []
        elif word in ("support", "unsupport"):
            self.native.append(line)
        elif word == "off":
            self.off.add(rest[0])
        elif word == "on":
            self.off.discard(rest[0])
        elif word == "cost":
            self.costs[rest[0]] = rest[1]

    def lines(self):
        costs = [f"cost {edge} {cost}" for edge, cost in self.costs.items()]
        return [*self.native, *[f"off {it}" for it in sorted(self.off)], *costs]
