#!/usr/bin/env python3
"""Draws the pictures of the documents, from tiles that the program made, into docs/pictures/.

usage: docs/pictures.py

- `mesh.png`: the mesh of a hilly tile over the shaded relief of its cell's posts
- `correction.svg`: the tiles of three levels whose bytes changed when one of nine cells was replaced

The cells are of landscapes that are made up from numbers. The same tiles give the same pictures.
"""

import itertools
import math
import pathlib
import random
import struct
import subprocess
import sys
import tempfile
import zlib

ROOT = pathlib.Path(__file__).resolve().parent.parent
PICTURES = ROOT / "docs/pictures"
sys.path[:0] = [str(ROOT / "bench"), str(ROOT / "checks")]

import cells  # noqa: E402
import timing  # noqa: E402


def ran(folder, *words):
    """Runs the program over the database `db` of a folder, and prints what it says."""
    done = subprocess.run([timing.built(), "db", *words], cwd=folder, stdout=subprocess.PIPE, check=True)
    print(done.stdout.decode().strip().splitlines()[-1])


# --- a landscape with mountains and valleys ---

def finer(rows):
    """Rows of values at twice the density in both directions, smoothed (Chaikin's corner cutting)."""
    for _ in range(2):
        pairs = [[pair for a, b in zip(row, row[1:]) for pair in ((a, b), (b, a))] for row in rows]
        rows = [list(column) for column in zip(*([0.75 * near + 0.25 * far for near, far in row] for row in pairs))]
    return rows


def smooth(draws, knots, side):
    """Rows of so many values from 0 to 1, drawn at a few knots and smooth between them."""
    rows = [[draws.random() for _ in range(knots)] for _ in range(knots)]
    while len(rows) < side:
        rows = finer(rows)
    return [row[:side] for row in rows[:side]]


def courses(heights, side):
    """Where water goes from each place that is not on the border, to the steepest neighbour below, and how far that is.

    From a place without one below it stays there.
    """
    around = [(step, 1.0) for step in (1, -1, side, -side)]
    around += [(step, 1.414) for step in (side + 1, side - 1, 1 - side, -side - 1)]
    found = {}
    for row in range(1, side - 1):
        for at in range(row * side + 1, row * side + side - 1):
            fall, step, far = max(((heights[at] - heights[at + step]) / far, step, far) for step, far in around)
            found[at] = (at + step, far) if fall > 0 else (at, 1.0)
    return found


def worn(rows, uplift, rounds):
    """Rows of heights after rounds in which the land rises and each river cuts in by the root of the area above it.

    The border stays as it is, and the water goes off there.
    """
    side = len(rows)
    heights, rise = ([value for row in values for value in row] for values in (rows, uplift))
    for _ in range(rounds):
        course = courses(heights, side)
        upwards = sorted(course, key=heights.__getitem__)
        area = [1.0] * len(heights)
        for at in reversed(upwards):
            to, _ = course[at]
            area[to] += area[at] if to != at else 0
        for at in upwards:
            to, far = course[at]
            cut = math.sqrt(area[at]) / (6 * far) if to != at else 0
            heights[at] = (heights[at] + rise[at] + cut * heights[to]) / (1 + cut)
    return [heights[at:at + side] for at in range(0, side * side, side)]


def mountains(number, side):
    """Heights in metres of plains and of mountains that rivers wore, from a number: rows of so many from the south.

    They are worn at a sixteenth of the density, then at an eighth and at a fourth, where each round takes longer.
    """
    draws = random.Random(number)
    coarse = side // 4 + 8
    uplift = smooth(draws, 4, coarse)
    rows = [[draws.random() for _ in range(coarse // 4 + 4)] for _ in range(coarse // 4 + 4)]
    for rounds in (60, 12, 6):
        places = [k * coarse // len(rows) for k in range(len(rows))]
        rise = [[max(0.02, uplift[y][x] - 0.25) ** 2 for x in places] for y in places]
        rows = worn([[value * (1 + 0.1 * draws.random()) for value in row] for row in rows], rise, rounds)
        rows = finer(rows)
    rows = finer(rows)
    return [[int(175 * value) for value in row[8:8 + side]] for row in rows[8:8 + side]]


# --- the mesh of a tile over the relief of its cell ---

# The tile of level 8 from 7.03125 degrees on, east and north: from the middle between two posts on, 843.75 posts wide.
SQUARE = "n07e007"
TILE = "8/266/138"
FIRST = 38
SIDE = 844
NUMBER = 9
# Colours are numbered by how much ink there is on the ground, then by the ground from dark to bright.
INKS = 4
SHADES = 22
INK, DARK, BRIGHT = (12, 84, 178), (38, 36, 34), (252, 248, 238)


def mesh_of(tile):
    """The places (u, v) of a stored tile's vertices, and its triangles, as three numbers of vertices each."""
    count = int.from_bytes(tile[88:92], "little")
    words = struct.unpack_from(f"<{2 * count}H", tile, 92)
    steps = [word // 2 if word % 2 == 0 else -(word + 1) // 2 for word in words]
    places = list(zip(itertools.accumulate(steps[:count]), itertools.accumulate(steps[count:])))
    at = 92 + 6 * count
    codes = struct.unpack_from(f"<{3 * int.from_bytes(tile[at:at + 4], 'little')}H", tile, at + 4)
    mark, corners = 0, []
    for code in codes:
        corners.append(mark - code)
        mark += code == 0
    return places, list(zip(corners[::3], corners[1::3], corners[2::3]))


def shade(posts, column, row):
    """How bright the land at a post is, from 0 to 1, in light from the north-west, the slopes five times as steep.

    Two steps of 3 arc-seconds are some 186 metres.
    """
    east = (posts[row][column + 1] - posts[row][column - 1]) * 5 / 186
    north = (posts[row + 1][column] - posts[row - 1][column]) * 5 / 186
    light = (0.5 * east - 0.5 * north + 0.7071) / math.sqrt(east * east + north * north + 1)
    return min(1.0, max(0.0, light))


def draw_line(inks, start, end):
    """Draws a line between two places; at each step two pixels share its ink, by how near they are."""
    (left, top), (right, bottom) = start, end
    is_steep = abs(bottom - top) > abs(right - left)
    steps = max(1, math.ceil(max(abs(bottom - top), abs(right - left))))
    for k in range(steps + 1):
        x, y = left + (right - left) * k / steps, top + (bottom - top) * k / steps
        column, row = int(x), int(y)
        part = x - column if is_steep else y - row
        beside = (column + 1, row) if is_steep else (column, row + 1)
        for (c, r), ink in (((column, row), 1 - part), (beside, part)):
            if c < SIDE and r < SIDE:
                inks[r][c] = max(inks[r][c], ink)


def drawn(tile):
    """How much ink of the lines of a tile's mesh each pixel has, from 0 to 1."""
    places, triangles = mesh_of(tile)
    spots = [(u / 32767 * (SIDE - 1), (32767 - v) / 32767 * (SIDE - 1)) for u, v in places]
    edges = {tuple(sorted(edge)) for a, b, c in triangles for edge in ((a, b), (b, c), (c, a))}
    inks = [[0.0] * SIDE for _ in range(SIDE)]
    for a, b in edges:
        draw_line(inks, spots[a], spots[b])
    return inks


def mixed(ground, ink, share):
    """A colour between two."""
    return [round(a + (b - a) * share) for a, b in zip(ground, ink)]


def png(rows, colours):
    """The bytes of a PNG file of rows of pixels, which are numbers of colours."""
    def chunk(kind, body):
        return struct.pack(">I", len(body)) + kind + body + struct.pack(">I", zlib.crc32(kind + body))

    head = struct.pack(">IIBBBBB", len(rows[0]), len(rows), 8, 3, 0, 0, 0)
    body = zlib.compress(b"".join(b"\0" + bytes(row) for row in rows), 9)
    parts = [(b"IHDR", head), (b"PLTE", bytes(itertools.chain(*colours))), (b"IDAT", body), (b"IEND", b"")]
    return b"\x89PNG\r\n\x1a\n" + b"".join(chunk(kind, body) for kind, body in parts)


def draw_mesh(folder):
    """Draws the mesh of a tile over its part of the cell, a pixel for each post."""
    posts = mountains(NUMBER, 1201)
    (folder / "hills.dt1").write_bytes(cells.cell(SQUARE, 1, lambda column, row: posts[row][column]))
    ran(folder, "init", "12", "0")
    ran(folder, "add", "hills.dt1")
    rows = []
    for down, inks in enumerate(drawn((folder / f"db/{TILE}.terrain").read_bytes())):
        grounds = [round((SHADES - 1) * shade(posts, FIRST + east, FIRST + SIDE - 1 - down)) for east in range(SIDE)]
        rows.append([round((INKS - 1) * ink) * SHADES + ground for ink, ground in zip(inks, grounds)])
    grounds = [mixed(DARK, BRIGHT, k / (SHADES - 1)) for k in range(SHADES)]
    colours = [mixed(ground, INK, 0.8 * k / (INKS - 1)) for k in range(INKS) for ground in grounds]
    (PICTURES / "mesh.png").write_bytes(png(rows, colours))


# --- the tiles that a correction changed ---

CHANGED = "n45e045"
AROUND = [f"n{lat}e{lon:03}" for lat in (44, 45, 46) for lon in (44, 45, 46)]
LEVELS = (7, 8, 9)
# Each level has a panel of so many degrees, from this meridian on and this parallel down, at so many pixels a degree.
WEST, NORTH, DEGREES, SCALE = 43.45, 47.9, 4.5, 66
HEAD = """<svg xmlns="http://www.w3.org/2000/svg" viewBox="0 0 891 331" width="891" height="331">
<style>
text { font: 16px sans-serif; fill: #222; text-anchor: middle }
rect { fill: none; stroke: #8a8f98 }
.changed { fill: #f2a65a }
.cell { stroke: #1d4f91; stroke-dasharray: 4 3 }
.replaced { stroke: #1d4f91; stroke-width: 3 }
</style>
<rect width="891" height="331" style="fill: #fff; stroke: none"/>"""


def tiles(folder, level):
    """The bytes of each tile of a level that the database of a folder has, by its column and row."""
    paths = (folder / f"db/{level}").glob("*/*.terrain")
    return {(int(path.parent.name), int(path.stem)): path.read_bytes() for path in paths}


def box(panel, west, south, side, kind):
    """A square in degrees as an element of the picture."""
    x, y, wide = panel * DEGREES * SCALE + (west - WEST) * SCALE, (NORTH - south - side) * SCALE, side * SCALE
    return f'<rect class="{kind}" x="{x:.1f}" y="{y:.1f}" width="{wide:.1f}" height="{wide:.1f}"/>'


def elements(panel, level, before, after):
    """The tiles of a level, those whose bytes changed filled, the squares of the cells over them, and the counts."""
    side = 180 / 2**level
    changed = [place for place in sorted(after) if after[place] != before[place]]
    for kind, places in (("tile", sorted(after)), ("changed", changed)):
        yield from (box(panel, x * side - 180, y * side - 90, side, kind) for x, y in places)
    for kind, squares in (("cell", AROUND), ("replaced", [CHANGED])):
        yield from (box(panel, lon - 180, lat - 90, 1, kind) for lon, lat in map(cells.square_of, squares))
    middle = (panel + 0.5) * DEGREES * SCALE
    yield f'<text x="{middle:.1f}" y="320">level {level}: {len(changed)} of {len(after)} tiles changed</text>'


def draw_correction(folder):
    """Draws the tiles of three levels whose bytes changed when the middle one of nine cells was replaced."""
    for square in AROUND:
        (folder / f"{square}.dt0").write_bytes(cells.landscape(2, square, 0))
    (folder / "script").write_text("".join(f"add {square}.dt0\n" for square in AROUND), "utf-8")
    (folder / "new.dt0").write_bytes(cells.landscape(4, CHANGED, 0))
    ran(folder, "init", "9", "0")
    ran(folder, "apply", "script")
    before = [tiles(folder, level) for level in LEVELS]
    ran(folder, "replace", "new.dt0")
    lines = [HEAD]
    for panel, level in enumerate(LEVELS):
        lines += elements(panel, level, before[panel], tiles(folder, level))
    (PICTURES / "correction.svg").write_text("\n".join([*lines, "</svg>"]) + "\n", "utf-8")


def main():
    if sys.argv[1:]:
        sys.exit(__doc__)
    PICTURES.mkdir(exist_ok=True)
    for draw in (draw_mesh, draw_correction):
        with tempfile.TemporaryDirectory() as folder:
            draw(pathlib.Path(folder))


if __name__ == "__main__":
    main()
