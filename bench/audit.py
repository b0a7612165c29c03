#!/usr/bin/env python3
"""Times `audit` on three tiles, best of five.

usage: bench/audit.py [PEER ARGUMENT..]

- the densest tile of this program: all 4489 points of a grid of 67 by 67, with 8712 triangles
- an irregular mesh of 4096 vertices: a grid of 64 by 64 points, of which none inside shares its u or v with another
- 65536 vertices, a grid of 256 by 256 points, which are too many to be looked at

Prints the seconds and megabytes a second of `./terrain . audit FILE`, and the greatest memory of a run. Given a PEER's
command line, it times that too, run by run in turn, and prints the ratio. Both must print the same.
"""

import timing

import meshes

LAST = 32767


def grid_triangles(side):
    """Two triangles for each square between grid points, row by row."""
    for row in range(side - 1):
        for column in range(side - 1):
            south_west, south_east = (column, row), (column + 1, row)
            north_west, north_east = (column, row + 1), (column + 1, row + 1)
            yield south_west, south_east, north_east
            yield south_west, north_east, north_west


def tile(side, place, greatest=0):
    """The bytes of a tile of grid points, whose u, v and height `place(column, row)` gives.

    The height 32767 stands for the greatest one in metres, 0 for 0 m.
    """
    triangles = list(grid_triangles(side))
    order = {}
    for triangle in triangles:
        for point in triangle:
            order.setdefault(point, len(order))
    vertices = [place(*point) for point in order]
    return meshes.tile(vertices, [tuple(order[point] for point in triangle) for triangle in triangles], 0, greatest)


def even(side):
    """Points at even steps, with heights that go up and down."""
    def place(column, row):
        return column * LAST // (side - 1), row * LAST // (side - 1), (column * 7919 + row * 104729) % (LAST + 1)

    return place


def uneven(side):
    """The same, but each point inside is moved, so that it shares its u and its v with no other."""
    def place(column, row):
        u, v, height = even(side)(column, row)
        inside = 0 < column < side - 1 and 0 < row < side - 1
        return (u + 3 * row - side, v + 3 * column - side, height) if inside else (u, v, height)

    return place


def trials(files, _):
    for number, (title, content) in enumerate((
        ("the densest tile (4489 vertices, 8712 triangles)", lambda: tile(67, even(67))),
        ("4096 vertices, none inside in another's row", lambda: tile(64, uneven(64))),
        ("65536 vertices, too many to be looked at", lambda: tile(256, even(256))),
    )):
        path = files / f"{number}.terrain"
        path.write_bytes(content())
        yield timing.Trial(f"`audit` on {title}", ("audit", path), size=path.stat().st_size)


if __name__ == "__main__":
    timing.show(trials)
