"""Which variables and rows a script has made, so that a wrong name can be answered with a likely one."""

import difflib

# Among more names than these no likely one is looked for.
MOST = 2000


class Names:
    """The names of variables and rows, followed line by line as the program accepts them."""

    def __init__(self):
        self.variables, self.rows = set(), set()

    def copy(self):
        other = Names()
        other.variables, other.rows = set(self.variables), set(self.rows)
        return other

    def accept(self, tokens):
        """Follows a line that was accepted."""
        word, rest = tokens[0], tokens[1:]
        if word == "var":
            self.variables.add(rest[0])
        elif word == "vars":
            self.variables.update(rest[1:])
        elif word in ("row", "bound", "vrow", "vbound"):
            self.rows.add(rest[0])
        elif word == "renvar":
            self.variables.discard(rest[0])
            self.variables.add(rest[1])
        elif word == "renrow":
            self.rows.discard(rest[0])
            self.rows.add(rest[1])
        elif word == "delrow":
            self.rows.discard(rest[0])
        # After `delvar` and `load` the names are taken as they were: a hint may then name too much or too little.

    def used(self, tokens):
        """The variables and the rows that a line uses."""
        word, rest = tokens[0], tokens[1:]
        terms = [token.partition("*")[2] for token in rest if "*" in token]
        variables = {
            "reset": rest[:1], "free": rest[:1], "delvar": rest[:1], "renvar": rest[:1], "bound": rest[1:2],
            "vbound": rest[2:], "minvar": rest[:1], "maxvar": rest[:1], "coef": rest[1:2], "vcoef": rest[2:3],
            "objcoef": rest[:1], "row": terms, "vrow": terms, "min": terms, "max": terms,
        }.get(word, [])
        has_row = word in ("set", "coef", "const", "vcoef", "vconst", "delrow", "renrow")
        return variables, rest[:1] if has_row else []

    def hint(self, tokens):
        """Which name of a line isn't there, with the nearest that is."""
        variables, rows = self.used(tokens)
        for what, used, there in (("variable", variables, self.variables), ("row", rows, self.rows)):
            for name in used:
                if name in there:
                    continue
                if what == "row" and name in self.variables:
                    return f"`{name}` is a variable and no row: `reset {name} ..` changes its bound"
                close = difflib.get_close_matches(name, sorted(there), 1) if len(there) <= MOST else []
                near = f"; did you mean `{close[0]}`?" if close else ""
                return f"there is no {what} `{name}`{near}"
        return None
