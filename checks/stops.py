#!/usr/bin/env python3
"""Stops the built program at each rename and each unlink of a command, and looks at what the next command makes of it.

usage: checks/stops.py

Each such call is failed with EIO and with ENOSPC, and the program is killed before it, by `strace`. Afterwards `list`
must answer 0, and the folder must hold exactly the files of before or those of after the command. Where a migration was
stopped and the database is still of an older version, `migrate` stands for `list`; the files must be those of after it.
A half-written file beside its name may be left where nothing was written again; it is no name of a database.
"""

import collections
import concurrent.futures
import pathlib
import shutil
import subprocess
import sys
import tempfile

import cells
import old
import stage

CALLS = "rename,renameat,renameat2,unlink,unlinkat"
FAULTS = ("error=EIO", "error=ENOSPC", "error=EIO:signal=KILL")
HALF_WRITTEN = ".new"



def old_first(at):
    """A database of version 1 in the midst of a replacement, with a tile that goes."""
    at.write("db/manifest.txt", old.manifest(1, 2, 0, "put n00e000", "n00e000"))
    at.write("db/cells/n00e000.dt", (at.folder / "flat.dt0").read_bytes())
    at.write("db/stage.dt", (at.folder / "seven.dt0").read_bytes())
    at.write("db/0/0/0.terrain", b"old")
    at.write("db/2/1/1.txt", b"extra")


def old_second(at):
    """A database of version 2 in the midst of a replacement of one of two cells, and with a cell that is of no row."""
    at.write("db/manifest.txt", old.manifest(2, 2, 0, "put n00e000 0", "n00e000 0", "n00e001 0"))
    at.write("db/cells/n00e000.0.dt", (at.folder / "flat.dt0").read_bytes())
    at.write("db/cells/n00e001.0.dt", cells.flat(0, "n00e001"))
    at.write("db/cells/n00e000.1.dt", b"extra")
    at.write("db/stage.dt", (at.folder / "seven.dt0").read_bytes())
    at.write("db/0/0/0.txt", b"old")


# each command with what was done before it: commands, or files that were laid down
COMMANDS = {
    "init": ([], ["init", "3", "0"]),
    "add": ([["init", "3", "0"]], ["add", "flat.dt0"]),
    "replace": ([["init", "3", "0"], ["add", "flat.dt0"]], ["replace", "seven.dt0"]),
    "remove": ([["init", "3", "0"], ["add", "flat.dt0"]], ["remove", "n00e000", "0"]),
    "rebuild": ([["init", "3", "0"], ["add", "flat.dt0"]], ["rebuild"]),
    "apply": ([["init", "2", "0"]], ["apply", "lines"]),
    "migrate, from version 1": (old_first, ["migrate"]),
    "migrate, from version 2": (old_second, ["migrate"]),
}


def prepare(folder):
    at = stage.Stage([stage.PROGRAM], folder)
    at.write("flat.dt0", cells.flat(0, "n00e000"))
    at.write("seven.dt0", cells.flat(7, "n00e000"))
    at.write("lines", b"add flat.dt0\nreplace seven.dt0\nremove n00e000 0\n")
    return at


def traced(folder, words, *options):
    """The status of a command under strace, and the lines that strace wrote."""
    log = folder / "calls"
    command = ["strace", "-f", "-qq", "-o", log, "-e", f"trace={CALLS}", *options, stage.PROGRAM, "db", *words]
    done = subprocess.run([str(word) for word in command], cwd=folder, stdout=subprocess.DEVNULL, check=False)
    lines = [line for line in log.read_text().splitlines() if "(" in line and "unfinished" not in line]
    log.unlink()
    return done.returncode, lines


def places(lines):
    """Each call by its name and its number among the calls of that name, as strace counts them."""
    seen = collections.Counter()
    for line in lines:
        call = line.split("(")[0].split()[-1]
        seen[call] += 1
        yield call, seen[call]


def held(folder):
    """The files of the database with their hashes, without half-written ones."""
    files = stage.Stage([stage.PROGRAM], folder).files()
    return [file for file in files if not file[0].endswith(HALF_WRITTEN)]


def states_passed(base, words):
    """The files after no line of the command, and after each line of a script; of another command before and after it.

    A migration is done again where it was stopped, so it passes the files of after it alone.
    """
    states = [] if words == ["migrate"] else [held(base)]
    with tempfile.TemporaryDirectory() as folder:
        copy = pathlib.Path(folder) / "copy"
        shutil.copytree(base, copy)
        at = stage.Stage([stage.PROGRAM], copy)
        steps = [line.split() for line in (copy / "lines").read_text().splitlines()] if words[0] == "apply" else [words]
        for step in steps:
            at.run(*step)
            states.append(held(copy))
    return states


def tried(base, words, states, fault, call, number):
    """What is wrong after the command is stopped at its call of this name and number, or None."""
    with tempfile.TemporaryDirectory() as folder:
        copy = pathlib.Path(folder) / "copy"
        shutil.copytree(base, copy)
        status, _ = traced(copy, words, "-e", f"inject={call}:{fault}:when={number}")
        killed = "KILL" in fault
        if not killed and status != 4:
            return f"status {status} where a store's call failed"
        at = stage.Stage([stage.PROGRAM], copy)
        is_old = words == ["migrate"] and not (at.database / "manifest.txt").read_bytes().startswith(b"terrain-db 3\n")
        listing = at.run("migrate" if is_old else "list")
        if words[0] == "init" and listing.stdout.startswith(b"refused K5 not a database line 0"):
            return None if held(copy) == [] else "an interrupted init left files and no manifest"
        if listing.returncode != 0:
            return f"{'migrate' if is_old else 'list'} answers {listing.returncode} {listing.stdout!r}"
        return None if held(copy) in states else "the files are those of no state that the command passes"


def main():
    if not shutil.which("strace"):
        print("stops: skipped, strace is not installed")
        return 0
    if "init" not in stage.commands_of([stage.PROGRAM]):
        print("stops: skipped, the program has no command init yet")
        return 0
    failed = 0
    for name, (before, words) in COMMANDS.items():
        with tempfile.TemporaryDirectory() as folder:
            base = pathlib.Path(folder) / "base"
            base.mkdir()
            at = prepare(base)
            if words[0] not in at.commands:
                print(f"stops of {name}: skipped, the program has no command {words[0]} yet")
                continue
            if callable(before):
                before(at)
            else:
                for step in before:
                    at.run(*step)
            states = states_passed(base, words)
            copy = pathlib.Path(folder) / "counted"
            shutil.copytree(base, copy)
            _, lines = traced(copy, words)
            if not lines:
                print("stops: skipped, strace may not trace here")
                return 0
            trials = [(fault, *place) for fault in FAULTS for place in places(lines)]
            with concurrent.futures.ThreadPoolExecutor(4) as pool:
                wrong = list(pool.map(lambda trial: tried(base, words, states, *trial), trials))
            found = [f"{fault} at {call} {number}: {said}" for (fault, call, number), said in zip(trials, wrong) if said]
            failed += len(found)
            print(f"stops of {name}: {len(trials)} tried, {len(found)} wrong")
            for line in found[:5]:
                print(f"  {line}")
    return 1 if failed else 0


if __name__ == "__main__":
    sys.exit(main())
