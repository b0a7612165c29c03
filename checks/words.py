#!/usr/bin/env python3
"""Statuses and texts of the built program where files, words and outputs are not as they should be.

usage: checks/words.py
"""

import os
import pathlib
import subprocess
import sys
import tempfile

import cells
import old
import stage

USAGE = (
    b"usage: terrain DIR init CAP FILL | add FILE | replace FILE | remove SQUARE V | apply SCRIPT | rebuild | list"
    b" | inspect Z X Y | deps Z X Y | cell FILE | audit FILE | check | trial COUNT NUMBER | migrate | convert FILE"
    b" | heightmap Z X Y | height Z E N | profile Z X Y U1 V1 U2 V2 | sight Z X Y U1 V1 A1 U2 V2 A2"
    b" | view Z X Y U V A\n"
)

# words behind the folder that are no migration and no question of a surface, parted by single blanks
NO_QUESTIONS = (
    "migrate x", "migrate ",
    "height 0 0", "height 0 0 0 0", "height 15 0 0", "height 0 1296000 0", "height 0 0 648001", "height 0 -1 0",
    "height 00 0 0", "height 0 01 0", "height 0 0 -0", "height 0 +1 0", "height 0 1e3 0",
    "height 0 18446744073709551616 0", "height  0 0", "Height 0 0 0",
    "profile 0 0 0 1 1 1 1", "profile 0 0 0 1 1 32768 1", "profile 0 0 0 32768 1 1 1", "profile 0 0 0 1 32768 1 1",
    "profile 0 0 0 1 1 1 32768", "profile 0 2 0 1 1 2 2", "profile 0 0 1 1 1 2 2", "profile 15 0 0 1 1 2 2",
    "profile 0 0 0 1 1 2", "profile 0 0 0 1 1 2 2 2", "profile 0 0 0 01 1 2 2", "profile 0 0 0 1 -0 2 2",
    "profile 0 0 0 1 1 2 -1", "profile 0 0 0 65536 1 2 1",
    "sight 0 0 0 1 1 5 1 1 6", "sight 0 0 0 1 1 65536 2 2 0", "sight 0 0 0 1 1 0 2 2 -65536",
    "sight 0 0 0 1 1 -0 2 2 0", "sight 0 0 0 1 1 00 2 2 0", "sight 0 0 0 1 1 +7 2 2 0", "sight 0 0 0 1 1 0 2 2",
    "sight 0 0 0 1 1 0 2 2 0 0", "sight 0 0 0 32768 1 0 2 2 0", "sight 0 0 0 1 1 0 2 32768 0",
    "sight 15 0 0 1 1 0 2 2 0", "sight 0 0 1 1 1 0 2 2 0", "sight 0 0 0 1 1 -07 2 2 0", "sight 0 0 0 1 1 - 2 2 0",
    "sight 0 0 0 1 1 4294967296 2 2 0",
    "view 0 0 0 1 1", "view 0 0 0 1 1 0 0", "view 0 0 0 32768 1 0", "view 0 0 0 1 32768 0", "view 0 0 0 1 1 65536",
    "view 0 0 0 1 1 -65536", "view 0 0 0 1 1 -0", "view 0 2 0 1 1 0", "view 15 0 0 1 1 0", "view 0 0 0 1 01 0",
    "view 0 0 0 1 1 ",
)


def said(folder, *words, **named):
    done = subprocess.run([str(stage.PROGRAM), *words], cwd=folder, stdout=subprocess.PIPE, stderr=subprocess.PIPE, check=False, **named)
    return done.returncode, done.stdout, done.stderr


def usage_lines(folder):
    """Words that are no command print the usage line."""
    for words in ([], ["db"], ["db", "init", "15", "0"], ["db", "init", "9", "-0"], ["db", "init", "09", "0"], ["db", "add"], ["db", "add", ""],
                  ["db", "remove", "n0e0", "0"], ["db", "remove", "n00e000", "3"], ["db", "inspect", "0", "2", "0"], ["db", "trial", "65", "1"],
                  ["db", "list", "x"], [b"db", b"cell", b"\xff"]):
        yield f"words {words}", said(folder, *words) == (2, USAGE, b"")


def questions(folder):
    """Words that are nearly a migration or a question of a surface print the usage line."""
    for line in NO_QUESTIONS:
        yield f"words {line}", said(folder, "db", *line.split(" ")) == (2, USAGE, b"")


def cell_files(folder):
    """Absent files, folders and long files of `cell`."""
    (folder / "good.dt0").write_bytes(cells.flat(0, "n00e000"))
    (folder / "long.dt0").write_bytes(b"")
    os.truncate(folder / "long.dt0", 33_554_433)
    (folder / "most.dt0").write_bytes(b"")
    os.truncate(folder / "most.dt0", 33_554_432)
    rows = (
        ("good.dt0", 0, b"n00e000 level 0 columns 121 rows 121 min 0 max 0 voids 0\n"),
        ("absent.dt0", 1, b"refused F1 absent absent.dt0\n"),
        ("good.dt0/below", 1, b"refused F1 absent good.dt0/below\n"),
        ("long.dt0", 1, b"refused F2 too long long.dt0 limit 33554432\n"),
        ("most.dt0", 1, b"refused C2 no UHL\n"),
        (".", 3, b""),
    )
    for name, status, text in rows:
        yield f"cell {name}", said(folder, ".", "cell", name) == (status, text, b"")
    os.truncate(folder / "long.dt0", 16_777_217)
    yield "audit of a long file", said(folder, ".", "audit", "long.dt0") == (1, b"refused F2 too long long.dt0 limit 16777216\n", b"")


def cell_ways(folder):
    """A cell tells the same behind tape labels, before other bytes and through a pipe, at most as long as may be."""
    flat = cells.flat(7, "n00e000", changes=[(3, 4, None), (120, 120, -9)])
    good = (0, b"n00e000 level 0 columns 121 rows 121 min -9 max 7 voids 1\n", b"")
    labelled = b"VOL1".ljust(80) + b"HDR1".ljust(80) + flat
    for title, content in (("alone", flat), ("labelled", labelled), ("longer", flat + b"UHL1"), ("longest", flat.ljust(33_554_432))):
        (folder / "cell.dt0").write_bytes(content)
        yield title, said(folder, ".", "cell", "cell.dt0") == good
    (folder / "cell.dt0").write_bytes(flat.ljust(33_554_433))
    yield "too long", said(folder, ".", "cell", "cell.dt0") == (1, b"refused F2 too long cell.dt0 limit 33554432\n", b"")
    yield "through a pipe", said(folder, ".", "cell", "/dev/stdin", input=flat) == good
    yield "not all through a pipe", said(folder, ".", "cell", "/dev/stdin", input=flat[:-1])[1] == b"refused C1 too short need 34162 have 34161\n"


def cell_refusals(folder):
    """Each refusal of a cell's file, by a flat cell that is spoilt in one place."""
    flat = cells.flat(0, "n00e000")

    def spoilt(at, content):
        return flat[:at] + content + flat[at + len(content):]

    rows = (
        (flat[:100], b"C1 too short need 3428 have 100"),
        (flat[:-1], b"C1 too short need 34162 have 34161"),
        (spoilt(0, b"UHX"), b"C2 no UHL"),
        (spoilt(11, b"X"), b"C3 bad field at 11"),
        (spoilt(7, b"30"), b"C4 off degree"),
        (spoilt(20, b"0600"), b"C5 wrong spacing"),
        (spoilt(47, b"0061"), b"C6 wrong counts"),
        (spoilt(80, b"DSX"), b"C7 no DSI"),
        (spoilt(143, b"1"), b"C8 series disagrees"),
        (spoilt(224, b"WGS72"), b"C9 not WGS84"),
        (spoilt(728, b"ACX"), b"C10 no ACC"),
        (spoilt(3428, b"\x00"), b"C11 bad sentinel column 0"),
        (spoilt(3433, b"\x01"), b"C12 bad column 0"),
        (spoilt(33917, b"\x01"), b"C13 bad checksum column 120 stated 410 summed 411"),
        (cells.flat(0, "n00e000", changes=[(5, 7, 16001)]), b"C14 height column 5 row 7 value 16001"),
    )
    for content, text in rows:
        (folder / "cell.dt0").write_bytes(content)
        yield f"refused {text.decode()}", said(folder, ".", "cell", "cell.dt0") == (1, b"refused " + text + b"\n", b"")


def tile_refusals(folder):
    """Refusals of a tile's file."""
    rows = ((bytes(87), b"M1 truncated at 0 need 88"), (bytes(91), b"M1 truncated at 88 need 4"), (b"\x1f\x8b\x08\x00", b"M6 compressed"))
    for content, text in rows:
        (folder / "tile.terrain").write_bytes(content)
        yield f"refused {text.decode()}", said(folder, ".", "audit", "tile.terrain") == (1, b"refused " + text + b"\n", b"")


def full_output(folder):
    """A report that can't be written is an output fault."""
    (folder / "flat.dt0").write_bytes(cells.flat(0, "n00e000"))
    for words in ([".", "cell", "flat.dt0"], [".", "cell", "absent.dt0"], []):
        with open("/dev/full", "wb") as full:
            done = subprocess.run([str(stage.PROGRAM), *words], cwd=folder, stdout=full, stderr=subprocess.PIPE, check=False)
        yield f"{words} to a full output", done.returncode == 5


def output_faults(folder):
    """An output that takes nothing leaves what was done."""
    (folder / "flat.dt0").write_bytes(cells.flat(0, "n00e000"))
    (folder / "older/cells").mkdir(parents=True)
    (folder / "older/cells/n00e000.0.dt").write_bytes(cells.flat(0, "n00e000"))
    (folder / "older/manifest.txt").write_bytes(old.manifest(2, 9, 0, "closed", "n00e000 0"))
    none, one = b"cap 9 fill 0 cells 0\n", b"cap 9 fill 0 cells 1\n"
    with open("/dev/full", "wb") as full:
        for database, words, listing in (
            ("full", ["init", "9", "0"], none), ("full", ["add", "flat.dt0"], one), ("older", ["migrate"], one),
            ("older", ["height", "0", "0", "0"], one),
        ):
            command = [str(stage.PROGRAM), database, *words]
            done = subprocess.run(command, cwd=folder, stdout=full, stderr=subprocess.PIPE, check=False)
            yield f"{words[0]} to a full output", done.returncode == 5
            yield f"{words[0]} is done", said(folder, database, "list")[1].startswith(listing)


def labelled_rows(folder):
    """A database's cells are read where they have tape labels and where they have none."""
    for name, content in (("flat.dt0", cells.flat(7, "n00e000")), ("labelled.dt0", b"HDR1".ljust(80) + cells.flat(5, "n00e001"))):
        (folder / name).write_bytes(content)
    rows = (
        (["init", "4", "0"], b"created cap 4 fill 0\n"),
        (["add", "flat.dt0"], b"added n00e000 tiles 6\n"),
        (["add", "labelled.dt0"], b"added n00e001 tiles 6\n"),
        (["list"], b"cap 4 fill 0 cells 2\nn00e000 level 0 min 7 max 7\nn00e001 level 0 min 5 max 5\n"),
    )
    for words, text in rows:
        yield f"{words}", said(folder, "db", *words) == (0, text, b"")


def store_faults(folder):
    """A folder or a long file under a file's name is a fault of the store, and a folder that is not there is an empty store."""
    yield "list of no folder", said(folder, "nowhere", "list") == (1, b"refused K5 not a database line 0\n", b"")
    (folder / "odd/manifest.txt").mkdir(parents=True)
    yield "a folder under the manifest's name", said(folder, "odd", "list")[0] == 4
    (folder / "much").mkdir()
    (folder / "much/manifest.txt").write_bytes(b"")
    os.truncate(folder / "much/manifest.txt", 134_217_729)
    yield "a manifest past the limit", said(folder, "much", "list")[0] == 4
    (folder / "plain").write_bytes(b"x")
    yield "a plain file in the folder's place", said(folder, "plain", "init", "0", "0")[0] == 4


def main():
    failed = 0
    checks = [usage_lines, questions, cell_files, cell_ways, cell_refusals, tile_refusals, full_output]
    if "init" in stage.commands_of([stage.PROGRAM]):
        checks += [output_faults, labelled_rows, store_faults]
    for check in checks:
        with tempfile.TemporaryDirectory() as folder:
            rows = list(check(pathlib.Path(folder)))
        wrong = [title for title, holds in rows if not holds]
        failed += len(wrong)
        print(f"{check.__name__}: {len(rows)} tried, {len(wrong)} wrong" + "".join(f"\n  {title}" for title in wrong))
    return 1 if failed else 0


if __name__ == "__main__":
    sys.exit(main())
