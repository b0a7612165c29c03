#!/usr/bin/env python3
"""Reads layer texts with a JSON reader that is not the project's, and compares what they say with what it finds itself.

usage: bench/layer.py

The layers are those of 0, 1, 40 and 300 scattered cells, to level 14. Each is compact JSON with its keys ascending;
the keys and values are those of TileJSON 2.1.0 and of a quantized-mesh terrain layer; and the runs of levels 0 to 8 are
those of the tiles that overlap a cell, found here tile by tile.
"""

import json
import subprocess
import sys
from fractions import Fraction

import library

FIXED = {
    "bounds": [-180, -90, 180, 90],
    "format": "quantized-mesh-1.0",
    "minzoom": 0,
    "projection": "EPSG:4326",
    "scheme": "tms",
    "tilejson": "2.1.0",
    "tiles": ["{z}/{x}/{y}.terrain"],
    "version": "1.0.0",
}
DEPTHS = (9, 12, 14)


def cells(count):
    """The scattered cells: degrees east of 180 degrees west, north of the south pole, and the deepest level."""
    return [(k % 4096 * 7919 % 360, k % 4096 * 67 % 180, DEPTHS[k % 3]) for k in range(count)]


def overlap(z, number, degree):
    """Whether the insides of a stripe of 180/2^z degrees and of a degree share a point."""
    low, high = Fraction(180 * number, 2**z), Fraction(180 * (number + 1), 2**z)
    return low < degree + 1 and degree < high


def level_runs(z, count):
    """The maximal runs of the existing tiles of a level, by row, then column."""
    deep = [(lon, lat) for lon, lat, depth in cells(count) if z <= depth]
    rows = {lat: [y for y in range(2**z) if overlap(z, y, lat)] for _, lat in deep}
    columns = {lon: [x for x in range(2 ** (z + 1)) if overlap(z, x, lon)] for lon, _ in deep}
    tiles = {(y, x) for lon, lat in deep for y in rows[lat] for x in columns[lon]}
    if z == 0:
        tiles = {(0, 0), (0, 1)}
    runs = []
    for y, x in sorted(tiles):
        if runs and runs[-1]["endY"] == y and runs[-1]["endX"] == x - 1:
            runs[-1]["endX"] = x
        else:
            runs.append({"endX": x, "endY": y, "startX": x, "startY": y})
    return runs


def check(count):
    program = library.built()
    text = subprocess.run([str(program), "layer", str(count)], stdout=subprocess.PIPE, check=True).stdout.decode()
    layer = json.loads(text)
    deepest = max([depth for _, _, depth in cells(count)] or [0])
    assert text == json.dumps(layer, separators=(",", ":"), sort_keys=True), "not compact, or keys out of order"
    assert {key: layer[key] for key in FIXED} == FIXED
    assert set(layer) == set(FIXED) | {"available", "maxzoom"}
    assert layer["maxzoom"] == deepest and len(layer["available"]) == deepest + 1
    for z in range(min(deepest, 8) + 1):
        assert layer["available"][z] == level_runs(z, count), f"level {z}"
    print(f"{count} cells: {len(text)} bytes, maxzoom {deepest}, as they should be")


if __name__ == "__main__":
    for number in (0, 1, 40, 300):
        check(number)
    sys.exit(0)
