#!/usr/bin/env python3
"""Counts what a `replace` reads and writes among few and among many cells that do not touch its square's tiles.

usage: checks/growth.py

Settling reads each stored cell once. Beyond that the same cells must be read and the same files written, however many cells
there are on the other side of the globe.
"""

import pathlib
import shutil
import subprocess
import sys
import tempfile

import cells
import stage

CHANGED = "n10e090"
CALLS = "open,openat,rename,renameat,renameat2"
COUNTS = (40, 400)


def far_squares(count):
    """Squares of the western hemisphere, away from its borders."""
    return [f"n{lat:02}w{lon:03}" for lat in range(10, 30) for lon in range(131, 151)][:count]


def prepare(folder, count):
    """A database of the changed cell and so many far ones, and a new cell beside it."""
    at = stage.Stage([stage.PROGRAM], folder)
    squares = sorted([CHANGED, *far_squares(count)], key=lambda text: cells.square_of(text)[::-1])
    at.write("new.dt0", cells.landscape(4, CHANGED, 0))
    for square in squares:
        at.write(f"db/cells/{square}.0.dt", cells.flat(100, square))
    rows = "".join(f"{square} 0\n" for square in squares)
    at.write("db/manifest.txt", f"terrain-db 3\ncap 6\nfill 0\nstate rebuild\ncells {len(squares)}\n{rows}".encode())
    at.run("list")
    return at


def counted(at, count):
    """How many cells a `replace` reads beyond one reading of each stored one, and how many files it writes."""
    log = at.folder / "calls"
    command = ["strace", "-f", "-qq", "-o", log, "-e", f"trace={CALLS}", stage.PROGRAM, "db", "replace", "new.dt0"]
    done = subprocess.run([str(word) for word in command], cwd=at.folder, stdout=subprocess.PIPE, check=False)
    lines = log.read_text().splitlines()
    reads = sum("cells/" in line and "O_RDONLY" in line for line in lines)
    writes = sum("rename" in line for line in lines)
    return done.stdout.decode(), reads - (count + 1), writes


def main():
    if not shutil.which("strace"):
        print("growth: skipped, strace is not installed")
        return 0
    if "init" not in stage.commands_of([stage.PROGRAM]):
        print("growth: skipped, the program has no command init yet")
        return 0
    found = []
    for count in COUNTS:
        with tempfile.TemporaryDirectory() as folder:
            said, reads, writes = counted(prepare(pathlib.Path(folder), count), count)
        print(f"growth: replace among {count} far cells reads {reads} cells beyond settling and writes {writes} files")
        found.append((said.startswith(f"replaced {CHANGED} tiles "), reads, writes))
    if len(set(found)) != 1 or not found[0][0]:
        print("growth: not the same")
        return 1
    return 0


if __name__ == "__main__":
    sys.exit(main())
