"""Groups of edits: the edit for which `commit` is refused, and edits in a group that nothing closes."""

import unittest

from explainer import script

LEFT = "Line 2 opens a group that nothing closes, so none of its edits is made: end it with `commit`."


def shown(text, answers, status=1):
    """What is shown of a script with these answers, a string."""
    return "\n".join(script.shown(text, answers, status)) + "\n"


class RefusedEdits(unittest.TestCase):
    def test_a_wrong_name_is_shown_at_its_edit(self):
        said = shown(b"var late >= 0\n# a move\nbegin\nmin 1*late\nobjcoef lat 9\ncommit\nabandon\n",
                     ["ok", "ok", "held", "held", "refused 21 Group 2 2 UnknownName", "ok"])
        below = said.split("refused 21 Group 2 2 UnknownName\n")[1].split("\n")
        self.assertEqual([line.strip() for line in below[:3]], [
            "edit:  line 5, `objcoef lat 9`",
            "here:  there is no variable `lat`; did you mean `late`?",
            "group: `abandon`, and write the group again with that edit corrected",
        ])
        self.assertIn("   7  abandon", below[3])

    def test_the_names_of_earlier_edits_of_the_group_count(self):
        said = shown(b"begin\nvar night free\nrenvar night late\nmin 1*nigh\ncommit\n",
                     ["ok", "held", "held", "held", "refused 21 Group 3 2 UnknownName"])
        self.assertIn("there is no variable `nigh`\n", said)
        said = shown(b"begin\nvar night free\nmin 1*nigh\nvar nights free\ncommit\n",
                     ["ok", "held", "held", "held", "refused 21 Group 2 2 UnknownName"])
        self.assertIn("did you mean `night`?", said)

    def test_an_abandoned_group_leaves_no_names(self):
        said = shown(b"begin\nvar night free\nabandon\nminvar nigh\n", ["ok", "held", "ok", "refused 2 UnknownName"])
        self.assertIn("there is no variable `nigh`\n", said)

    def test_another_refusal_has_its_hint_or_what_the_table_says(self):
        said = shown(b"var x >= 0\nbound b x <= 1\nbegin\ncoef b x 2\ncommit\n",
                     ["ok", "ok", "ok", "held", "refused 21 Group 1 4 FunctionShape"])
        self.assertIn("here:  the row wasn't made by `row`", said)
        said = shown(b"var x >= 0\nbegin\nvar x free\ncommit\n", ["ok", "ok", "held", "refused 21 Group 1 3 NameTaken"])
        self.assertIn("means: the new name exists already", said)

    def test_a_limit_has_its_numbers_behind_it(self):
        said = shown(b"begin\nvar x free\ncommit\n", ["ok", "held", "refused 21 Group 1 12 Full 65536 65535"])
        self.assertIn("edit:  line 2, `var x free`", said)

    def test_a_long_edit_is_cut_off(self):
        edit = b"max" + b" 1*x" * 100
        said = shown(b"begin\n" + edit + b"\ncommit\n", ["ok", "held", "refused 21 Group 1 2 UnknownName"])
        shown_edit = next(line for line in said.split("\n") if "edit:" in line)
        self.assertTrue(shown_edit.endswith(" ..`") and len(shown_edit) < 130)


class OpenGroups(unittest.TestCase):
    def test_edits_that_are_never_made(self):
        self.assertIn(LEFT, shown(b"\nbegin\nvar x free\n", ["ok", "held"], 0))
        self.assertIn(LEFT, shown(b"\nbegin\nvar x free\nquit\ncommit\n", ["ok", "held"], 0))
        self.assertIn(LEFT, shown(b"\nbegin\nminvar x\ncommit\n", ["ok", "held", "refused 21 Group 1 2 UnknownName"]))

    def test_nothing_is_said_of_a_closed_or_an_empty_group(self):
        for text, answers in [
            (b"\nbegin\nvar x free\ncommit\n", ["ok", "held", "ok"]),
            (b"\nbegin\nvar x free\nabandon\n", ["ok", "held", "ok"]),
            (b"\nbegin\n", ["ok"]),
        ]:
            self.assertNotIn("opens a group", shown(text, answers, 0))


if __name__ == "__main__":
    unittest.main()
