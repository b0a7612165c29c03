#!/usr/bin/env python3
"""Times commands over databases in a folder, best of three, and beside a peer with the same command line.

usage: bench/database.py [PEER ARGUMENT..]

- `init`, and `add` of a level 0, 1 and 2 landscape to an empty database of cap 9, 12 and 14 (22, 815 and 11,488 tiles)
- `check` of the database of the level 1 landscape, and `inspect`, `deps` and `heightmap` of one of its tiles
- `apply` of 60 level 0 landscapes, and `rebuild` of them
- `replace` and `remove` of one level 0 cell among 400
- `list` over 400 level 0 and 8 level 2 cells
- `migrate` of a database of version 2, and `trial` of 64 generated commands

Prints seconds and the greatest memory of each, and the seconds of what moves the same bytes: `cp -r` of the files for a
command that makes them, `cat` of them for one that reads them. With a PEER, run in turn with it, its seconds and the
ratio. Its first word is a program, further words stand before the folder. Both must print the same.
"""

import timing

import cells
import old
import stage

RUNS = 3
SQUARES = [f"n{lat:02}e{lon:03}" for lat in range(40, 60) for lon in range(20)]
TILE = ("12", "4266", "3106")
LANDSCAPES = ((0, 9, 22, "n00e000"), (1, 12, 815, "n46e007"), (2, 14, 11488, "n46e007"))


def copying(database):
    """The words of the command that copies a database's files."""
    return ["cp", "-r", database, f"{database}.copy"]


def reading(database):
    """The words of the command that reads all files of a database."""
    return ["cat", *sorted(path for path in database.rglob("*") if path.is_file())]


def reading_cells(database):
    """The words of the command that reads a database's manifest and cells."""
    return ["cat", database / "manifest.txt", *sorted((database / "cells").iterdir())]


def script(path, contents):
    """A script that adds these cells, whose files are made beside it."""
    lines = []
    for name, content in contents:
        cell = path.parent / name
        cell.write_bytes(content)
        lines.append(f"add {cell}\n")
    path.write_text("".join(lines), encoding="utf-8")
    return path


def making(files, peer):
    """Databases of one cell: made, checked, and asked about a tile."""
    for level, cap, tiles, square in LANDSCAPES:
        path = files / f"landscape.dt{level}"
        path.write_bytes(cells.landscape(9, square, level))
        empty = timing.made(files / f"empty{level}", peer, ["init", str(cap), "0"])
        counted = {"unit": "tile", "units": tiles} if level < 2 else {}
        yield timing.Trial(f"`add` of a level {level} cell at cap {cap} ({tiles:,} tiles)", ("add", path), empty,
                           changes=True, runs=RUNS, limit=copying, **counted)
        if level == 1:
            whole = timing.made(files / "whole", peer, ["init", str(cap), "0"], ["add", path])
            yield timing.Trial("`check` of the level 1 database", ("check",), whole, runs=RUNS, limit=reading)
            for command in ("inspect", "deps", "heightmap"):
                yield timing.Trial(f"`{command}` of a tile of level 12", (command, *TILE), whole)


def many_cells(files, peer):
    """Databases of 60 and of 400 level 0 cells."""
    nothing = timing.made(files / "nothing", peer, ["init", "9", "0"])
    sixty = script(files / "sixty", [(f"hill{k}.dt0", cells.landscape(k, SQUARES[k], 0)) for k in range(60)])
    yield timing.Trial("`apply` of 60 level 0 cells at cap 9", ("apply", sixty), nothing,
                       changes=True, runs=RUNS, limit=copying)
    base = timing.made(files / "hills", peer, ["init", "9", "0"], ["apply", sixty])
    yield timing.Trial("`rebuild` of 60 level 0 cells", ("rebuild",), base, changes=True, runs=RUNS, limit=copying)
    flat = script(files / "flat", [(f"{square}.dt0", cells.flat(100, square)) for square in SQUARES])
    base = timing.made(files / "many", peer, ["init", "9", "0"], ["apply", flat])
    path = files / "new.dt0"
    path.write_bytes(cells.landscape(4, "n50e010", 0))
    for words in (("replace", path), ("remove", "n50e010", "0")):
        yield timing.Trial(f"`{words[0]}` of one level 0 cell among 400", words, base, changes=True, runs=RUNS)


def listing(files, peer):
    """A database of many cells, with no tile but those of level 0."""
    contents = [(f"low{square}.dt0", cells.flat(100, square)) for square in SQUARES]
    contents += [(f"fine{k}.dt2", cells.flat(200, f"n0{k}e007", level=2)) for k in range(8)]
    base = timing.made(files / "listed", peer, ["init", "0", "0"], ["apply", script(files / "listed.txt", contents)])
    size = sum(len(content) for _, content in contents)
    yield timing.Trial(f"`list` over 400 level 0 and 8 level 2 cells ({size:,} bytes)", ("list",), base,
                       limit=reading_cells, size=size, unit="byte", units=size)


def others(files, peer):
    """Commands of which little is asked."""
    none = files / "none"
    none.mkdir()
    yield timing.Trial("`init`", ("init", "12", "0"), (none, none), changes=True)
    before = files / "before"
    before.mkdir()
    second = stage.Stage([timing.built()], before)
    old.second(second)
    yield timing.Trial("`migrate` of three cells at cap 4 from version 2", ("migrate",),
                       (second.database, second.database), changes=True)
    yield timing.Trial("`trial` of 64 generated commands", ("trial", "64", "1"), runs=RUNS)


def trials(files, peer):
    for some in (making, many_cells, listing, others):
        yield from some(files, peer)


if __name__ == "__main__":
    timing.show(trials)
