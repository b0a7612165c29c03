#!/usr/bin/env python3
"""Compares the program with GDAL, the geospatial data abstraction library.

usage: checks/gdal.py

- cells of each level and zone that GDAL writes, of level 0 by the script `cell.sh` of docs/GUIDE.md, are read as such
- in a database over such cells, samples of a tile are what GDAL finds there, and heights at posts are within its bound
- cells that `convert` makes of HGT files that GDAL writes are read by GDAL without a warning, post by post
"""

import array
import fractions
import json
import math
import os
import shutil
import sys
import tempfile

import cells
import stage

# the squares of cells that GDAL writes, by their level: both ends of each zone in the north and the south
WRITTEN = (
    ("n00e000", "n49e179", "n50w180", "n69e007", "n70w001", "n74e000", "n75e120", "n79w008", "n80e000", "n89w180",
     "s01w001", "s50w071", "s51e000", "s70e179", "s71w001", "s75e166", "s76w180", "s80w001", "s81e007", "s90e179"),
    ("n46e007", "s56w070", "n71w008", "s78e166", "n82w180"),
    ("s01w001", "n83w070"),
)
# those of them of which a database is made
IN_DATABASE = (
    ("n00e000", 0), ("s51e000", 0), ("n74e000", 0), ("s90e179", 0),
    ("n46e007", 1), ("s56w070", 1), ("n71w008", 1), ("s78e166", 1), ("n82w180", 1), ("n83w070", 2),
)
# names of HGT files, and the lines of each
CONVERTED = (
    ("N46E007", 1201), ("S51W071", 1201), ("N70W001", 1201), ("S80E179", 1201), ("N89W180", 1201), ("S90E000", 1201),
    ("S01W001", 3601), ("N50E000", 3601),
)
CAP = 9
VOID = -32767
HGT_VOID = -32768
RAISED = 1000
FORM = """BYTEORDER I
LAYOUT BIL
NROWS {rows}
NCOLS {columns}
NBANDS 1
NBITS 16
PIXELTYPE SIGNEDINT
NODATA {void}
ULXMAP {west}
ULYMAP {north}
XDIM {wide:.15f}
YDIM {high:.15f}
"""


def hills():
    """Heights along a line over hills and below the sea, in metres."""
    return array.array("h", (round(700 + 900 * math.sin(k / 900) + 300 * math.sin(k / 41)) for k in range(4 * 3601)))


HILLS = hills()


def posts(columns, rows, void):
    """Heights row by row from the north, with voids in the corners and near the north, and the two extremes."""
    found = [HILLS[3 * row:3 * row + columns] for row in range(rows)]
    for row, column in ((0, 0), (0, columns - 1), (rows - 1, 0), (rows - 1, columns - 1), (5, 12), (5, 13), (6, 12)):
        found[row][column] = void
    found[3][6], found[3][18] = 16000, -16000
    return found


def put(at, name, heights, square, void):
    """Heights as a raster that GDAL reads: words, and a header that tells where the posts of the square stand."""
    lon, lat = cells.square_of(square)
    columns, rows = len(heights[0]), len(heights)
    places = {"west": lon - 180, "north": lat - 89, "wide": 1 / (columns - 1), "high": 1 / (rows - 1)}
    at.write(f"{name}.bil", b"".join(row.tobytes() for row in heights))
    at.write(f"{name}.hdr", FORM.format(rows=rows, columns=columns, void=void, **places).encode())


class Failed(Exception):
    """A tool of GDAL did not end well."""


def done_by(at, *words):
    """What a tool of GDAL printed, and its warnings."""
    status, output, said = stage.said_by(words, cwd=at.folder, env=dict(os.environ, GDAL_PAM_ENABLED="NO"))
    if status != 0:
        raise Failed(f"{' '.join(map(str, words))}: status {status}, {said}")
    return output, said


def guide_script():
    """The script `cell.sh`, as the guide has it."""
    text = (stage.ROOT / "docs/GUIDE.md").read_text(encoding="utf-8")
    return "#!/bin/sh" + text.split("```\n#!/bin/sh")[1].split("```")[0]


def written(at, square, level):
    """Has GDAL write heights as a cell of a square; its name, and what GDAL had to say."""
    lon, lat = cells.square_of(square)
    if level == 0:
        _, said = done_by(at, "sh", "cell.sh", "posts.bil", lon - 180, lat - 90, level, square)
        return f"{square}.dt{level}", said
    name = f"{square}.dt{level}"
    _, said = done_by(at, "gdal_translate", "-q", "-of", "DTED", "-a_srs", "EPSG:4326", "posts.bil", name)
    return name, said


def wrong_cells(at, squares):
    """What the program says otherwise of cells that GDAL writes; the heights of each square are kept in `squares`."""
    at.write("cell.sh", guide_script().encode())
    for level, names in enumerate(WRITTEN):
        for square in names:
            columns, rows = cells.shape(square, level)
            heights = posts(columns, rows, VOID)
            put(at, "posts", heights, square, VOID)
            name, said = written(at, square, level)
            if said:
                yield f"{name}: GDAL says {said}"
            expected = f"{square} level {level} columns {columns} rows {rows} min -16000 max 16000 voids 7\n"
            done = at.call("cell", name)
            if (done.returncode, done.stdout.decode()) != (0, expected):
                yield f"cell {name}: status {done.returncode}, {done.stdout!r}"
            squares[square, level] = heights


def middle_tile(square):
    """The column and row of the tile of the deepest level that holds a square's middle."""
    return [(2 * degrees + 1) * 2**CAP // 360 for degrees in cells.square_of(square)]


def samples(at, column, row):
    """The heights in metres of a tile of the form heightmap-1.0."""
    found = array.array("H", at.call("heightmap", str(CAP), str(column), str(row)).stdout[:2 * 65 * 65])
    return [number / 5 - RAISED for number in found]


def found_by_gdal(at, name, column, row):
    """The heights that GDAL finds between a cell's posts, at the places of a tile's samples."""
    side = 180 / 2**CAP
    west, south, half = column * side - 180, row * side - 90, side / 128
    edges = (west - half, south - half, west + side + half, south + side + half)
    plain = ("-wo", "XSCALE=1", "-wo", "YSCALE=1")
    options = ("-q", "-overwrite", "-r", "bilinear", *plain, "-ot", "Float32", "-of", "ENVI")
    done_by(at, "gdalwarp", *options, "-te", *(f"{edge:.12f}" for edge in edges), "-ts", 65, 65, name, "found")
    return array.array("f", (at.folder / "found").read_bytes())


def wrong_heights(at, square, level, heights):
    """Posts of a square from which the surface of a tile is farther than its bound, or of which nothing is told."""
    lon, lat = cells.square_of(square)
    columns, rows = len(heights[0]), len(heights)
    for part in (2, 5, 8):
        place, line = columns * part // 10, rows * part // 10
        east, north = 3600 * lon + 3600 // (columns - 1) * place, 3600 * (lat + 1) - 3600 // (rows - 1) * line
        answer = at.call("height", str(CAP), str(east), str(north)).stdout.decode()
        if not answer.startswith("height "):
            yield f"height {CAP} {east} {north}: {answer!r}"
            continue
        _, metres, _, tile = answer.split()
        said = at.call("inspect", *tile.split("/")).stdout.decode().split()
        bound = int(said[said.index("bound") + 1])
        if abs(fractions.Fraction(metres) - heights[line][place]) > bound:
            post = f"a post of {heights[line][place]} in {square} level {level}"
            yield f"height {CAP} {east} {north}: {answer!r}, at {post}, bound {bound}"


def wrong_surfaces(at, squares):
    """Samples and heights of a database's tiles that are not those of the cells as GDAL reads them."""
    at.write("edits", "".join(f"add {square}.dt{level}\n" for square, level in IN_DATABASE).encode())
    at.call("init", str(CAP), "0")
    done = at.call("apply", "edits")
    if not done.stdout.decode().endswith(f"script done {len(IN_DATABASE)} refused 0\n"):
        yield f"apply: status {done.returncode}, {done.stdout[-200:]!r}"
        return
    for square, level in IN_DATABASE:
        column, row = middle_tile(square)
        pairs = list(zip(samples(at, column, row), found_by_gdal(at, f"{square}.dt{level}", column, row)))
        far = [(place, ours, theirs) for place, (ours, theirs) in enumerate(pairs) if abs(ours - theirs) > 0.501]
        if far or len(pairs) != 65 * 65:
            yield f"heightmap in {square} level {level}: {len(pairs)} samples, {len(far)} others, the first {far[:1]}"
        yield from wrong_heights(at, square, level, squares[square, level])


def wrong_header(at, square, columns, rows):
    """What GDAL reads otherwise in a cell's header."""
    lon, lat = cells.square_of(square)
    said = json.loads(done_by(at, "gdalinfo", "-json", "converted.dt")[0])
    wide, high = 1 / (columns - 1), 1 / (rows - 1)
    corner = [lon - 180 - wide / 2, wide, 0, lat - 89 + high / 2, 0, -high]
    if max(abs(have - want) for have, want in zip(said["geoTransform"], corner)) > 1e-9:
        yield f"convert of {square}: GDAL sees {said['geoTransform']}"
    found = (said["driverShortName"], said["size"], said["bands"][0]["noDataValue"])
    if found != ("DTED", [columns, rows], VOID) or '"WGS 84"' not in said["coordinateSystem"]["wkt"]:
        yield f"convert of {square}: GDAL sees {found}, {said['coordinateSystem']['wkt'][:60]}"


def wrong_conversions(at):
    """Cells of converted HGT files that GDAL reads otherwise."""
    for name, lines in CONVERTED:
        square = name.lower()
        factor = cells.zone_factor(cells.square_of(square)[1])
        put(at, "samples", posts(lines, lines, HGT_VOID), square, HGT_VOID)
        done_by(at, "gdal_translate", "-q", "-of", "SRTMHGT", "-a_srs", "EPSG:4326", "samples.bil", f"{name}.hgt")
        done = at.call("convert", f"{name}.hgt")
        if done.returncode != 0:
            yield f"convert {name}.hgt: status {done.returncode}, {done.stdout[:100]!r}"
            continue
        at.write("converted.dt", done.stdout)
        yield from wrong_header(at, square, (lines - 1) // factor + 1, lines)
        options = ("--config", "DTED_VERIFY_CHECKSUM", "YES", "-q", "-of", "ENVI")
        _, said = done_by(at, "gdal_translate", *options, "converted.dt", "back")
        wanted = b"".join(row[::factor].tobytes() for row in posts(lines, lines, VOID))
        if said or (at.folder / "back").read_bytes() != wanted:
            yield f"convert {name}.hgt: posts come back as others, or GDAL says {said!r}"


def main():
    if not shutil.which("gdal_translate"):
        print("gdal: skipped, gdal_translate is not installed")
        return 0
    squares, wrong = {}, []
    with tempfile.TemporaryDirectory() as folder:
        at = stage.Stage([stage.PROGRAM], folder)
        try:
            for part in (wrong_cells(at, squares), wrong_surfaces(at, squares), wrong_conversions(at)):
                wrong += part
        except Failed as failure:
            wrong.append(str(failure))
    for line in wrong:
        print(f"gdal: {line}")
    print(f"gdal: {len(squares)} written and {len(CONVERTED)} converted cells {'wrong' if wrong else 'as expected'}")
    return 1 if wrong else 0


if __name__ == "__main__":
    sys.exit(main())
