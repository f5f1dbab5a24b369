"""What a script's lines have made so far: the names, and the group of edits that is open."""

from .names import Names


class Session:
    """Followed line by line as the program answers them."""

    def __init__(self):
        self.names, self.opened, self.held = Names(), None, []

    def follow(self, line):
        """Follows a line that has its answer."""
        word, answer = line.tokens[0], line.answer[0].split(" ")[0]
        if answer == "held":
            self.held.append(line)
        elif answer != "ok":
            return
        elif word == "begin":
            self.opened = line
        elif word in ("commit", "abandon"):
            for edit in self.held if word == "commit" else []:
                self.names.accept(edit.tokens)
            self.opened, self.held = None, []
        else:
            self.names.accept(line.tokens)

    def names_before(self, place):
        """The names before the edit at a place of the open group, counted from 0."""
        names = self.names.copy()
        for edit in self.held[:place]:
            names.accept(edit.tokens)
        return names

    def left_open(self):
        """What is said at the end of a group that still holds edits."""
        if not self.held:
            return []
        return [f"Line {self.opened.number} opens a group that nothing closes, so none of its edits is made: end it with `commit`."]
