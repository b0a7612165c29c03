"""Tiles of quantized-mesh-1.0 for the checks, from vertices and triangles; headers are zeros but for the heights."""

import array
import struct

import cells


def zigzag(number):
    return 2 * number if number >= 0 else -2 * number - 1


def words(numbers):
    """Numbers of 16 bits, the lower byte first."""
    return array.array("H", numbers).tobytes()


def differences(codes):
    """Each code less the one before it, with the sign in the lowest bit."""
    return words([zigzag(code - before) for before, code in zip([0, *codes], codes)])


def high_water(indexes):
    """Each index as how far it is below the least that has not come yet."""
    most, codes = 0, []
    for index in indexes:
        codes.append(most - index)
        most += index == most
    return codes


def tile(vertices, triangles, least=0, greatest=0):
    """The bytes of a tile of vertices (u, v, height), each an index's first use in their order, and triangles.

    A height is from 0 to 32767, and stands for one between the least and the greatest height in metres.
    """
    number = array.array("I" if len(vertices) > 65536 else "H")
    out = bytes(24) + struct.pack("<ff", least, greatest) + bytes(56) + len(vertices).to_bytes(4, "little")
    out += b"".join(differences([vertex[k] for vertex in vertices]) for k in range(3))
    out += bytes(-len(out) % number.itemsize)
    out += len(triangles).to_bytes(4, "little")
    number.extend(high_water([index for triangle in triangles for index in triangle]))
    return out + number.tobytes() + bytes(16)


def in_first_use(vertices, triangles):
    """The same mesh, its vertices numbered by their first use in the triangles; those of no triangle come last."""
    order = list(dict.fromkeys(index for triangle in triangles for index in triangle))
    used = set(order)
    order += [k for k in range(len(vertices)) if k not in used]
    place = {index: k for k, index in enumerate(order)}
    return [vertices[k] for k in order], [tuple(place[k] for k in triangle) for triangle in triangles]


class Draws:
    """Numbers drawn one after another, from a number."""

    def __init__(self, number):
        self.number = number << 20

    def below(self, bound):
        self.number += 1
        return cells.mix(self.number) % bound


def lines(draws, count):
    """So many codes that ascend, from 0 to 32767."""
    inner = set()
    while len(inner) < count - 2:
        inner.add(1 + draws.below(32766))
    return [0, *sorted(inner), 32767]


def grid_mesh(draws, columns, rows):
    """Two triangles, by either diagonal, for each square between lines."""
    height = lambda: draws.below(3) * 1000
    vertices = [(u, v, height()) for v in rows for u in columns]
    side = len(columns)
    triangles = []
    for row in range(len(rows) - 1):
        for column in range(side - 1):
            a, b = row * side + column, row * side + column + 1
            c, d = a + side, b + side
            triangles += [(a, b, d), (a, d, c)] if draws.below(2) else [(a, b, c), (b, d, c)]
    return vertices, triangles


def stacked(draws):
    """Two meshes one above the other, with other lines from the south to the north, and maybe other heights between."""
    middle = 1 + draws.below(32766)
    low = grid_mesh(draws, lines(draws, 2 + draws.below(3)), [0, middle])
    high = grid_mesh(draws, lines(draws, 2 + draws.below(3)), [middle, 32767])
    vertices = low[0] + high[0]
    if draws.below(2):
        vertices = [(u, v, 500 if v == middle else height) for u, v, height in vertices]
    return vertices, low[1] + [tuple(k + len(low[0]) for k in triangle) for triangle in high[1]]


def drawn(number):
    """A small mesh, good or with a fault of some kind, by a number."""
    draws = Draws(number)
    kind = number % 7
    if kind == 6:
        return in_first_use(*stacked(draws))
    vertices, triangles = grid_mesh(draws, lines(draws, 2 + draws.below(4)), lines(draws, 2 + draws.below(4)))
    at = draws.below(len(triangles))
    if kind == 1:
        del triangles[at]
    elif kind == 2:
        corner = draws.below(3)
        u, v, height = vertices[triangles[at][corner]]
        vertices.append((u, v, height + 1))
        triangles[at] = tuple(len(vertices) - 1 if k == corner else index for k, index in enumerate(triangles[at]))
    elif kind == 3:
        triangles[at] = triangles[at][::-1]
    elif kind == 4:
        moved = draws.below(len(vertices))
        u, v, height = vertices[moved]
        vertices[moved] = (min(32767, u + draws.below(400)), max(0, v - draws.below(400)), height)
    elif kind == 5:
        triangles.append(triangles[at])
    return in_first_use(vertices, triangles)
