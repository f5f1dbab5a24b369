"""The refusals, the faults of a file and the exit statuses, each with its meaning.

They stand once, in tables.json. docs/SCRIPT.md and docs/FORMAT.md show the rows that `bin/moi_explain
tables` prints, and a test compares them.
"""

import functools
import json
import os
import re

PATH = os.path.join(os.path.dirname(os.path.abspath(__file__)), "tables.json")


@functools.lru_cache(maxsize=None)
def load():
    """The three tables by name, each a list of rows."""
    with open(PATH, encoding="utf-8") as file:
        return json.load(file)


@functools.lru_cache(maxsize=None)
def by_number(name):
    """The rows of a table, by their numbers."""
    return {row["number"]: row for row in load()[name]}


def plain(text):
    """The text without Markdown's links, for a terminal."""
    return re.sub(r"\[([^\]]*)\]\([^)]*\)", r"\1", text)


def markdown():
    """The tables as the documents show them: a list of rows for each."""
    tables = load()
    refusals = []
    for row in tables["refusals"]:
        answer = " ".join(filter(None, ("refused", str(row["number"]), row["name"], row["fields"])))
        refusals.append(f"| `{answer}` | {row['meaning']} | {row['todo']} |")
    faults = [f"| `{row['number']} {row['name']}` | {row['meaning']} | {row['todo']} |" for row in tables["faults"]]
    statuses = [f"| {row['number']} | {row['meaning']} |" for row in tables["statuses"]]
    return {"refusals": refusals, "faults": faults, "statuses": statuses}
