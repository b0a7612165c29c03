#!/usr/bin/env python3
"""Times `cell` on a level 1 and a level 2 file, best of five.

usage: bench/cell.py [PEER ARGUMENT..]

Prints the seconds and megabytes a second of `./terrain . cell FILE` for a level 1 file (2,902,642 bytes) and a level 2
file (25,981,042 bytes), the greatest memory of a run, and how long `cat` of the file takes. Given a PEER's command
line, it times that too, run by run in turn, and prints the ratio. Both must print the same.
"""

import timing

import cells


def post(column, row):
    """A ridge with some voids."""
    return (column * 7 + row * 3) % 4000 if (column + row) % 97 else None


def trials(files, _):
    for level in (1, 2):
        path = files / f"ridge.dt{level}"
        path.write_bytes(cells.cell("n46e007", level, post))
        size = path.stat().st_size
        yield timing.Trial(f"`cell` on a level {level} file ({size:,} bytes)", ("cell", path),
                           limit=lambda _, path=path: ["cat", path], size=size, unit="byte", units=size)


if __name__ == "__main__":
    timing.show(trials)
