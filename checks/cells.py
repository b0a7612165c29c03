"""DTED cells for the checks: flat ones, and landscapes made from a number (MIL-PRF-89020, levels 0 to 2)."""

import array

VOID = 0xFFFF
LAT_STEPS = (30, 3, 1)
MASK = 2**64 - 1


def square_of(text):
    """The whole degrees east of 180 degrees west and north of the south pole of a square such as `n46e007`."""
    lat, lon = int(text[1:3]), int(text[4:7])
    return 180 + (lon if text[3] == "e" else -lon), 90 + (lat if text[0] == "n" else -lat)


def zone_factor(lat):
    """How much wider posts are spaced in longitude than in latitude."""
    away = lat - 90 if lat >= 90 else 89 - lat
    return 1 if away < 50 else 2 if away < 70 else 3 if away < 75 else 4 if away < 80 else 6


def shape(square, level):
    """The columns and rows of a square's cell."""
    step = LAT_STEPS[level]
    return 3600 // (step * zone_factor(square_of(square)[1])) + 1, 3600 // step + 1


def header(square, level):
    """The 3428 bytes before the records."""
    lon, lat = square_of(square)
    columns, rows = shape(square, level)
    step = LAT_STEPS[level]
    text = bytearray(b" " * 3428)
    text[0:4] = b"UHL1"
    text[4:12] = b"%03d0000%c" % (abs(lon - 180), b"W" if lon < 180 else b"E")
    text[12:20] = b"%03d0000%c" % (abs(lat - 90), b"S" if lat < 90 else b"N")
    text[20:28] = b"%04d%04d" % (10 * step * zone_factor(lat), 10 * step)
    text[47:55] = b"%04d%04d" % (columns, rows)
    text[80:83] = b"DSI"
    text[139:144] = b"DTED%d" % level
    text[224:229] = b"WGS84"
    text[728:731] = b"ACC"
    return bytes(text)


def word(metres):
    """An elevation as a sign bit and 15 bits, or a void."""
    return VOID if metres is None else metres if metres >= 0 else 0x8000 | -metres


def record(column, words):
    """The record of one meridian."""
    posts = array.array("H", words)
    posts.byteswap()
    body = b"\xaa" + column.to_bytes(3, "big") + column.to_bytes(2, "big") + b"\0\0" + posts.tobytes()
    return body + sum(body).to_bytes(4, "big")


def cell(square, level, post):
    """The bytes of the cell whose post in a column and a row is `post(column, row)`, in metres, or None for a void."""
    columns, rows = shape(square, level)
    records = (record(c, [word(post(c, r)) for r in range(rows)]) for c in range(columns))
    return header(square, level) + b"".join(records)


def flat(metres, square, level=0, changes=()):
    """A cell of one height, but for some posts: `changes` has columns, rows and metres."""
    columns, rows = shape(square, level)
    words = [[word(metres)] * rows for _ in range(columns)]
    for column, row, other in changes:
        words[column][row] = word(other)
    return header(square, level) + b"".join(record(c, words[c]) for c in range(columns))


def mix(n):
    """A number for a number, without a pattern that shows (splitmix64)."""
    a = (n + 0x9E3779B97F4A7C15) & MASK
    b = ((a ^ (a >> 30)) * 0xBF58476D1CE4E5B9) & MASK
    c = ((b ^ (b >> 27)) * 0x94D049BB133111EB) & MASK
    return c ^ (c >> 31)


def landscape(number, square, level):
    """The landscape of a number: heights between knots eight to a degree; where the number is odd one knot square is void."""
    lon, lat = square_of(square)
    step = LAT_STEPS[level]
    wide = step * zone_factor(lat)
    knots = {}

    def knot(gx, gy):
        if (gx, gy) not in knots:
            knots[gx, gy] = mix(number ^ mix(gx * 4096 + gy)) % 2001
        return knots[gx, gy]

    def post(column, row):
        east, north = column * wide, row * step
        kx, ky = min(7, east // 450), min(7, north // 450)
        fx, fy = east - 450 * kx, north - 450 * ky
        if number % 2 and 0 < fx < 450 and 0 < fy < 450 and kx == number % 8 and ky == number // 8 % 8:
            return None
        gx, hx = (8 * lon + kx) % 2880, (8 * lon + kx + 1) % 2880
        gy, hy = 8 * lat + ky, 8 * lat + ky + 1
        south = knot(gx, gy) * (450 - fx) + knot(hx, gy) * fx
        north = knot(gx, hy) * (450 - fx) + knot(hx, hy) * fx
        return (south * (450 - fy) + north * fy) // 202500

    return cell(square, level, post)
