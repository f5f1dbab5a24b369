"""The commands of bin/moi_explain."""

import sys

from . import answers, judge, mof, numbers, places, script, tables, unnamed
from .program import Missing, Program

HELP = """\
Runs moi_edit and explains what it prints.

    bin/moi_explain run [--target T] [--pivots N] < SCRIPT
        each line of the script with its answer beside it, what a refusal means and what to do,
        and fractions also as decimals (~ before a rounded one)
    bin/moi_explain solve MODEL [--target T] [--pivots N]
        the answer to a file's model, with what a row without a name says; where the file can't be
        read, the place of its fault
    bin/moi_explain check MODEL ANSWER
        where an answer isn't right: the line that can't be read, or each condition that fails
    bin/moi_explain tables
        the tables of refusals, faults and exit statuses, as docs/SCRIPT.md and docs/FORMAT.md show them

--program PATH, or the variable MOI_EDIT, names another program than bin/moi_edit.
The exit status is moi_edit's; 70 where it can't be started.

moi_edit is proved; this is not. It only reads what moi_edit prints, and works out `check`'s reasons itself.
"""
MARGIN = " " * 7


def write(lines):
    sys.stdout.write("".join(line + "\n" for line in lines))


def read_file(name):
    with open(name, "rb") as file:
        return file.read()


def run(program, words):
    data = sys.stdin.buffer.read()
    output, status = program.answer(["run", *words], data)
    if status == 2:
        return usage(status)
    write(script.shown(data, output, status))
    return status


def usage(status):
    sys.stderr.write("moi_edit takes no such arguments (bin/moi_explain --help).\n")
    return status


def file_refusal(answer, name):
    """What is said of a refusal of `load`: what it means, and where in the file it is."""
    words, data = answer.split(" ", 4), read_file(name)
    if words[1] != "20":
        return script.meaning(int(words[1])) + constraint_at_fault(data.decode("utf-8"), int(words[1]))
    fault = tables.by_number("faults")[int(words[3])]
    lines = [f"means: {tables.plain(fault['meaning'])}", f"do:    {tables.plain(fault['todo'])}"]
    if fault["number"] == 1:
        return lines + places.not_json(data)
    pointer = answer.split(" ", 5)[-1]
    return lines + ([] if pointer == "-" else places.explain(data.decode("utf-8", "replace"), pointer))


def constraint_at_fault(text, number):
    """Where an edit of the file is refused, which moi_edit doesn't print: found by this script."""
    place = mof.refused_constraint(text, number)
    if place is None:
        return ["note:  the file has no fault, but the model that it makes is refused"]
    return places.explain(text, f"/constraints/{place}")


def refused_load(output, name):
    """The explained first line of `solve`, where the file was refused."""
    lines = [output[0]] + [MARGIN + line for line in file_refusal(output[0], name)]
    return lines + [MARGIN + "note:  nothing was loaded, so what follows answers the empty model"]


def solve(program, words):
    names = files_among(words)
    output, status = program.answer(["solve", *words])
    if status == 2 or len(names) != 1:
        return usage(2)
    lines, rows = [], unnamed.rows(read_file(names[0]).decode("utf-8")) if output[:1] == ["ok"] else {}
    for line in output:
        if line.startswith("refused ") and not lines:
            lines += refused_load(output, names[0])
        else:
            lines.append(with_row(line, rows))
            if line.startswith("refused "):
                lines += [MARGIN + text for text in script.meaning(script.refusal(line))]
    write(lines + [f"Exit status {status}: {tables.by_number('statuses')[status]['meaning']}."])
    return status


def with_row(line, rows):
    """A line with decimals, and behind the dual of a row without a name what the row says."""
    words, line = line.split(" ", 3), numbers.with_decimals(line)
    says = rows.get(words[2]) if words[:2] == ["dual", "row"] else None
    return f"{line}    {says}" if says else line


def files_among(words):
    """The words that are files: neither an option nor its value."""
    files, is_value = [], False
    for word in words:
        if is_value or word.startswith("-"):
            is_value = not is_value and "=" not in word
        else:
            files.append(word)
    return files


def reasons(model_name, answer_name):
    """Why `check` says no, a line each."""
    model = mof.read(read_file(model_name).decode("utf-8"))
    text = read_file(answer_name).decode("ascii", "replace")
    try:
        answer = answers.read(text, model)
    except answers.Unreadable as fault:
        return ["The text isn't an answer to this model:", f"{MARGIN}{fault}"]
    failed = judge.failures(model, answer)
    if not failed:
        return ["By the arithmetic of this script no condition fails: please report both files."]
    return ["The text is an answer to this model, and isn't right:"] + [MARGIN + line for line in failed]


def check(program, words):
    output, status = program.answer(["check", *words])
    if status == 2 or len(words) != 2:
        return usage(2)
    lines = list(output)
    if output == ["no"]:
        lines += reasons(*words)
    elif output and output[0].startswith("refused 17"):
        lines += [MARGIN + line for line in script.meaning(17)]
    elif output and output[0].startswith("refused "):
        lines += [MARGIN + line for line in file_refusal(output[0], words[0])]
    meaning = "the check ran to its end, with the answer above" if status == 0 else tables.by_number("statuses")[status]["meaning"]
    write(lines + [f"Exit status {status}: {meaning}."])
    return status


def print_tables(_, words):
    if words:
        return usage(2)
    for name, rows in tables.markdown().items():
        write([f"{name}:", *rows, ""])
    return 0


COMMANDS = {"run": run, "solve": solve, "check": check, "tables": print_tables}


def option(words, name):
    """The value of an option that this script takes itself, and the other words."""
    if name in words and words.index(name) + 1 < len(words):
        place = words.index(name)
        return words[place + 1], words[:place] + words[place + 2 :]
    return None, words


def main(words):
    """Does what the words say; the exit status."""
    path, words = option(list(words), "--program")
    if not words or words[0] in ("--help", "-h", "help"):
        sys.stdout.write(HELP)
        return 0
    if words[0] not in COMMANDS:
        sys.stderr.write(HELP)
        return 2
    try:
        return COMMANDS[words[0]](Program(path), words[1:])
    except (Missing, OSError) as fault:
        sys.stderr.write(f"moi_explain: {fault}\n")
        return 70
