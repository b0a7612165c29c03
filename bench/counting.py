"""Counts the instructions of a run with callgrind, and which of its functions take how many."""

import collections
import pathlib
import re
import shutil
import subprocess
import tempfile

# what stands for a function that has no name, so that its place stands for it
NAMELESS = re.compile(r"0x[0-9a-f]+|\?\?\?")


def is_there():
    """Whether there is a valgrind."""
    return shutil.which("valgrind") is not None


def counted(words):
    """The instructions of a run, and those of each function by itself, by name."""
    with tempfile.TemporaryDirectory() as folder:
        path = pathlib.Path(folder) / "counts"
        valgrind = ["valgrind", "--tool=callgrind", f"--callgrind-out-file={path}", *map(str, words)]
        subprocess.run(valgrind, stdout=subprocess.DEVNULL, stderr=subprocess.DEVNULL, check=True)
        return totals(path.read_text("utf-8", "replace").splitlines())


def totals(lines):
    """The sum and the instructions by function of callgrind's file.

    A function's name stands once behind its number, and a line of cost is a place and a count. The one behind `calls=`
    has what a called function takes, and counts for that one.
    """
    names, costs, name, is_call = {}, collections.Counter(), "", False
    for line in lines:
        if line.startswith(("fn=", "cfn=")):
            number, text = re.match(r"c?fn=(\(\d+\)) ?(.*)", line).groups()
            found = names.setdefault(number, text)
            name = name if line.startswith("c") else found
        elif line.startswith("calls="):
            is_call = True
        elif re.match(r"[0-9+*-]", line):
            costs[name] += 0 if is_call else int(line.split()[1])
            is_call = False
    return sum(costs.values()), costs


def most_costly(costs, number):
    """Names and counts of the functions that take most, or nothing where they have no names.

    What a generic function is made for is left out of its name, and what recursion adds to it.
    """
    short = collections.Counter()
    for name, count in costs.items():
        short[re.sub(r"(::<.*|'\d+)$", "", name)] += count
    found = short.most_common(number)
    return [] if all(NAMELESS.fullmatch(name) for name, _ in found) else found
