"""What the scripts beside this file share: the crates, a gate over some of them alone, and the provers at work."""

import os
import shutil
import subprocess
import sys

TOP = os.path.dirname(os.path.dirname(os.path.abspath(__file__)))
TICKS = os.sysconf("SC_CLK_TCK")


def listed():
    """The line of each crate in crates.txt, by its name."""
    with open(f"{TOP}/crates.txt", encoding="utf-8") as file:
        lines = [line.partition("#")[0].strip() for line in file]
    return {line.partition(":")[0].split()[0]: line for line in lines if ":" in line}


def below():
    """The crates that each crate stands on directly, without the kit's libraries."""
    lines = listed()
    return {name: [it for it in line.partition(":")[2].split() if it in lines] for name, line in lines.items()}


def kit_libraries():
    """The kit's libraries that each crate names."""
    lines = listed()
    return {name: [it for it in line.partition(":")[2].split() if it not in lines] for name, line in lines.items()}


def needed(names):
    """These crates and all that they stand on, each after those below it."""
    uses, found = below(), []

    def visit(name):
        if name not in found:
            for it in uses[name]:
                visit(it)
            found.append(name)

    for name in names:
        visit(name)
    return found


def copied(names, room):
    """Makes a repository of these crates and all that they stand on in the folder `room`, and returns their names. It leaves out
    what was built and the must-fail edits, which are for the gate of the whole repository."""
    crates, lines = needed(names), listed()
    os.mkdir(f"{room}/.git")
    with open(f"{room}/crates.txt", "w", encoding="utf-8") as file:
        file.writelines(f"{lines[it]}\n" for it in crates)
    shutil.copy(f"{TOP}/HANDLES", room)
    for it in crates:
        own = f"{TOP}/crates/{it}"
        shutil.copytree(own, f"{room}/crates/{it}", ignore=lambda at, _, own=own: ("out", "must-fail") if at == own else ())
    return crates


def started(room, **how):
    """Starts the gate in `room`. It proves all from nothing, unless the kit's gate keeps what it proved on this machine before."""
    return subprocess.Popen([sys.executable, f"{TOP}/bin/gate"], cwd=room, stdin=subprocess.DEVNULL, stderr=subprocess.STDOUT, **how)


def processes():
    """Each process by its number: its parent's number and the processor seconds that it used."""
    found = {}
    for number in filter(str.isdigit, os.listdir("/proc")):
        try:
            with open(f"/proc/{number}/stat", encoding="utf-8", errors="replace") as file:
                # The name stands in parentheses and may hold spaces.
                words = file.read().rpartition(")")[2].split()
        except OSError:
            continue
        found[int(number)] = int(words[1]), (int(words[11]) + int(words[12])) / TICKS
    return found


def descends(number, top, found):
    while number in found and number != top:
        number = found[number][0]
    return number == top


def work_of(number):
    """The crate that a prover works on and what it tries there, if the process is a prover."""
    try:
        with open(f"/proc/{number}/cmdline", encoding="utf-8", errors="replace") as file:
            words = file.read().split("\0")
        folder = os.readlink(f"/proc/{number}/cwd")
    except OSError:
        return None
    if os.path.basename(words[0]) != "rattle" or "--crate-name" not in words:
        return None
    crate = words[words.index("--crate-name") + 1]
    # An edit is tried on a copy of the crate, begun with what a check of the crate itself had proved.
    if os.path.basename(folder).startswith("rt-edit-"):
        return crate, "edits"
    return crate, "tests" if "--test" in words else "proofs"
