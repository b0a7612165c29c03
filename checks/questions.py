"""Questions about the surface of a stored tile, by a number."""

import meshes

LAST = 32767
GRID = 66
SIDE = 648000


def code(draws):
    """A coordinate: anywhere, on a grid line of the tile, or on its border."""
    return (draws.below(LAST + 1), LAST * draws.below(GRID + 1) // GRID, LAST * draws.below(2))[draws.below(4) % 3]


def spots(draws):
    """Two different spots, now and then on one line along an axis."""
    u, v, other_u, other_v = (code(draws) for _ in range(4))
    along = draws.below(6)
    if along == 0:
        other_u = u
    elif along == 1:
        other_v = v
    return (u, v, other_u, other_v) if (u, v) != (other_u, other_v) else (u, v, LAST - u, v)


def height(draws, tile, _):
    """A place in the tile, or on its border."""
    level, column, row = tile
    east, north = (-(-SIDE * stripe // 2**level) + draws.below(max(1, SIDE // 2**level)) for stripe in (column, row))
    return "height", level, east, north


def profile(draws, tile, _):
    return "profile", *tile, *spots(draws)


def sight(draws, tile, metres):
    u, v, other_u, other_v = spots(draws)
    return "sight", *tile, u, v, metres(draws), other_u, other_v, metres(draws)


def view(draws, tile, metres):
    return "view", *tile, code(draws), code(draws), metres(draws)


KINDS = (height, profile, sight, view, sight, profile, height, sight)


def drawn(number, tile, metres, count):
    """So many questions of a tile, as words; `metres` draws a height for an eye."""
    draws = meshes.Draws(number)
    for k in range(count):
        yield [str(word) for word in KINDS[k % len(KINDS)](draws, tile, metres)]
