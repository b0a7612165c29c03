"""What the checks do with a program, each in a folder of its own: files beside the database, then words after words.

A scenario is a function of a `Stage`. Where a database is meant, its folder is `db`.
"""

import array

import cells
import meshes
import migrations
import surfaces

FLAT = "n00e000"


def empty_set(stage):
    stage.run("init", "9", "0")
    stage.run("list")
    stage.run("inspect", "0", "0", "0")


def one_flat_cell(stage):
    stage.run("init", "9", "0")
    stage.write("flat.dt0", cells.flat(0, FLAT))
    stage.run("cell", "flat.dt0")
    stage.run("add", "flat.dt0")
    stage.run("list")
    stage.run("inspect", "9", "512", "256")


def there_and_back(stage):
    stage.run("init", "9", "0")
    stage.write("flat.dt0", cells.flat(0, FLAT))
    stage.write("seven.dt0", cells.flat(7, FLAT))
    stage.run("add", "flat.dt0")
    stage.run("replace", "seven.dt0")
    stage.keep("replaced")
    stage.run("remove", FLAT, "0")


def touch_in_one_corner(stage):
    stage.run("init", "9", "0")
    stage.write("a.dt0", cells.flat(0, FLAT, changes=[(0, 0, None)]))
    stage.write("b.dt0", cells.flat(50, "s01w001"))
    stage.run("add", "a.dt0")
    stage.keep("first")
    stage.run("add", "b.dt0")
    stage.run("deps", "9", "512", "256")


def antimeridian(stage):
    stage.run("init", "9", "0")
    stage.write("west.dt0", cells.flat(0, "n10w180"))
    stage.write("east.dt0", cells.flat(100, "n10e179"))
    stage.run("add", "west.dt0")
    stage.run("add", "east.dt0")
    stage.run("inspect", "9", "1023", "285")
    stage.run("inspect", "9", "0", "285")
    stage.run("deps", "9", "0", "285")


def poles_and_wrap(stage):
    stage.run("init", "9", "0")
    stage.write("south.dt0", cells.flat(0, "s90e000"))
    stage.write("north.dt0", cells.flat(12, "n89w001"))
    stage.run("add", "south.dt0")
    stage.run("add", "north.dt0")
    stage.run("list")


def cells_that_disagree(stage):
    stage.run("init", "9", "0")
    stage.write("west.dt0", cells.flat(0, "n00w001"))
    stage.write("east.dt0", cells.flat(30, FLAT))
    stage.run("add", "west.dt0")
    stage.run("add", "east.dt0")
    stage.run("inspect", "9", "511", "256")


def realistic_cell(stage):
    stage.run("init", "12", "0")
    stage.write("hills.dt1", cells.landscape(9, "n46e007", 1))
    stage.run("cell", "hills.dt1")
    stage.run("add", "hills.dt1")
    stage.run("inspect", "12", "4266", "3106")
    stage.run("list")
    stage.run("check")
    tiles = sorted(stage.database.rglob("*.terrain"))
    good = sum(stage.call("audit", str(tile)).stdout.endswith(b"\ngood\n") for tile in tiles)
    stage.said.append(["tiles that an audit finds good", good, f"of {len(tiles)}"])


def script(stage):
    stage.run("init", "9", "0")
    stage.write("a.dt0", cells.flat(0, FLAT))
    stage.write("lines", b"add a.dt0\nadd a.dt0\nremove n00e000 0\r\n# a note\n\nremove n00e000 0\nadd b.dt0\nadd\nmove a.dt0\n#\xff\nadd a.dt0")
    stage.run("apply", "lines")
    stage.run("apply", "absent")
    stage.write("none", b"")
    stage.run("apply", "none")


def no_good_database(stage):
    stage.run("list")
    stage.write("db/manifest.txt", b"terrain-db 3\ncap 15\nfill 0\nstate closed\ncells 0\n")
    stage.run("list")
    stage.write("db/manifest.txt", b"terrain-db 1\ncap 9\nfill 0\nstate closed\ncells 0\n")
    stage.run("list")
    stage.write("db/manifest.txt", b"terrain-db 2\ncap 9\nfill 0\nstate closed\ncells 0\n")
    stage.run("rebuild")
    stage.write("db/manifest.txt", b"terrain-db 3\ncap 9\nfill 0\nstate closed\ncells 1\nn00e000 0\n")
    stage.run("list")
    stage.write("db/cells/n00e000.0.dt", cells.flat(0, "s90e000"))
    stage.run("list")
    stage.write("db/cells/n00e000.0.dt", cells.flat(0, FLAT, level=1))
    stage.run("list")
    stage.write("db/cells/n00e000.0.dt", cells.flat(0, FLAT)[:100])
    stage.run("list")
    stage.write("db/manifest.txt", b"terrain-db 3\ncap 9\nfill 0\nstate put n00e000 0\ncells 1\nn00e000 0\n")
    stage.run("list")
    stage.remove("db/manifest.txt")
    stage.remove("db/cells/n00e000.0.dt")
    stage.write("db/9/3/4.txt", b"x")
    stage.write("db/9/3/05.txt", b"no name of a database")
    stage.run("init", "9", "0")


def lost_tiles(stage):
    stage.run("init", "9", "0")
    stage.run("inspect", "9", "0", "0")
    stage.run("deps", "9", "0", "0")
    stage.remove("db/0/1/0.terrain")
    stage.run("inspect", "0", "1", "0")
    stage.remove("db/0/0/0.txt")
    stage.run("inspect", "0", "0", "0")
    stage.write("db/9/3/4.txt", b"extra")
    stage.write("db/cells/n00e000.dt", b"extra")
    stage.run("rebuild")


def spoilt_tile(stage):
    stage.run("init", "9", "0")
    stage.write("db/0/0/0.terrain", bytes(60))
    stage.run("inspect", "0", "0", "0")
    stage.write("db/0/0/0.terrain", b"\x1f\x8b\x08\x00")
    stage.run("inspect", "0", "0", "0")
    stage.run("audit", "db/0/0/0.terrain")


def audits(stage):
    west, east, south, north = 0, 32767, 0, 32767
    corners = [(west, south, 0), (east, south, 0), (east, north, 0), (west, north, 0)]
    crossed = [(west, south, 0), (east, north, 0), (east, south, 0), (west, north, 0)]
    middle = [*corners, (16384, 16384, 0)]
    fan = [(0, 1, 4), (1, 2, 4), (2, 3, 4), (3, 0, 4)]
    for name, vertices, triangles in (
        ("whole", corners, [(0, 1, 2), (0, 2, 3)]),
        ("overlap-and-hole", corners, [(0, 1, 2), (0, 1, 2)]),
        ("clockwise", crossed, [(0, 1, 2), (0, 1, 3)]),
        ("hole", corners, [(0, 1, 2)]),
        ("none", corners, []),
        ("fan", [*corners[:2], middle[4], *corners[2:]], [(0, 1, 2), (1, 3, 2), (3, 4, 2), (4, 0, 2)]),
        ("step", [*corners, *[(u, v, 5) for u, v, _ in corners]], [(0, 1, 2), (4, 6, 7)]),
        ("line", [(west, south, 0), (east, south, 0), (east, 16384, 0), (west, 16384, 0),
                  (west, 16384, 3), (east, 16384, 3), (east, north, 3), (west, north, 3)],
         [(0, 1, 2), (0, 2, 3), (4, 5, 6), (4, 6, 7)]),
        ("large", [(0, 0, 0)] * 65537, []),
    ):
        stage.write(name, meshes.tile(*meshes.in_first_use(vertices, triangles)))
        stage.run("audit", name)
    stage.write("compressed", b"\x1f\x8b\x08\x00")
    stage.run("audit", "compressed")
    stage.write("short", bytes(87))
    stage.run("audit", "short")


def audits_of_many(stage):
    """Three hundred small meshes, good and with faults of each kind."""
    for number in range(300):
        stage.write(f"mesh{number}", meshes.tile(*meshes.drawn(number)))
        stage.run("audit", f"mesh{number}")


def checked(stage):
    stage.run("check")
    stage.run("init", "9", "0")
    stage.run("check")
    path = stage.database / "0/0/0.terrain"
    kept = path.read_bytes()
    stage.write("db/0/0/0.terrain", kept[:-1] + bytes([kept[-1] ^ 1]))
    stage.run("check")
    stage.write("db/0/0/0.terrain", kept)
    stage.write("db/9/3/4.txt", b"extra")
    stage.run("check")
    stage.write("db/cells/n00e000.dt", b"extra")
    stage.remove("db/0/1/0.terrain")
    stage.run("check")
    stage.run("rebuild")
    stage.write("flat.dt0", cells.flat(0, FLAT))
    stage.run("add", "flat.dt0")
    stage.run("check")
    stage.write("db/layer.json", b"{}")
    stage.run("check")


def converted(stage):
    stage.write("N46E007.hgt", bytes(2 * 1201 * 1201))
    stage.ask("convert", "N46E007.hgt")
    stage.write("below/n60e007.HGT", bytes(2 * 1201 * 1201))
    stage.ask("convert", "below/n60e007.HGT")
    samples = array.array("h", [-32768 if k % 1009 == 0 else k % 2803 - 400 for k in range(1201 * 1201)])
    samples.byteswap()
    stage.write("S90W180.hgt", samples.tobytes())
    stage.ask("convert", "S90W180.hgt")
    stage.write("s00e180.hgt", samples.tobytes())
    stage.ask("convert", "s00e180.hgt")
    samples.byteswap()
    samples[1201 * 5 + 7] = 16001
    samples.byteswap()
    stage.write("N00W000.hgt", samples.tobytes())
    stage.run("convert", "N00W000.hgt")
    stage.write("N80E007.hgt", bytes(100))
    stage.run("convert", "N80E007.hgt")
    stage.run("convert", "N46E008.hgt")
    for name in ("x.hgt", "N90E007.hgt", "S91E007.hgt", "N46E181.hgt", "N46E07.hgt", "N46E007.hgt/", "N46E007.dt1"):
        stage.run("convert", name)


def heightmaps(stage):
    stage.run("init", "9", "0")
    stage.write("seven.dt0", cells.flat(7, FLAT))
    stage.run("add", "seven.dt0")
    for tile in (("0", "1", "0"), ("0", "0", "0"), ("9", "512", "256"), ("8", "256", "128"), ("9", "0", "0")):
        stage.ask("heightmap", *tile)
    stage.run("heightmap", "9", "0", "0")


def dropped_halfway(stage):
    one_flat_cell(stage)
    stage.write("db/manifest.txt", b"terrain-db 3\ncap 9\nfill 0\nstate drop n00e000 0\ncells 0\n")
    stage.run("list")


def put_halfway(stage):
    one_flat_cell(stage)
    stage.write("db/stage.dt", cells.flat(7, FLAT))
    stage.write("db/manifest.txt", b"terrain-db 3\ncap 9\nfill 0\nstate put n00e000 0\ncells 1\nn00e000 0\n")
    stage.run("list")


def rebuilt_halfway(stage):
    one_flat_cell(stage)
    stage.write("db/manifest.txt", b"terrain-db 3\ncap 9\nfill 3\nstate rebuild\ncells 1\nn00e000 0\n")
    stage.write("db/7/1/1.terrain", b"extra")
    stage.run("list")


def refused_edits(stage):
    stage.run("init", "9", "0")
    stage.write("a.dt0", cells.flat(0, FLAT))
    stage.write("bad.dt0", cells.flat(0, FLAT)[:-1])
    stage.run("replace", "a.dt0")
    stage.run("remove", FLAT, "2")
    stage.run("add", "bad.dt0")
    stage.run("add", "absent.dt0")
    stage.run("add", "a.dt0")
    stage.run("add", "a.dt0")
    stage.run("replace", "a.dt0")


def full_database(stage):
    rows = [f"{'n' if lat >= 0 else 's'}{abs(lat):02}e{lon:03}" for lat in range(-16, 16) for lon in range(128)]
    for row in rows:
        stage.write(f"db/cells/{row}.0.dt", cells.flat(0, row))
    text = f"terrain-db 3\ncap 0\nfill 0\nstate closed\ncells {len(rows)}\n" + "".join(f"{row} 0\n" for row in rows)
    stage.write("db/manifest.txt", text.encode())
    stage.write("one.dt0", cells.flat(0, "n40w100"))
    stage.run("add", "one.dt0")


def trials(stage):
    stage.run("trial", "0", "1")
    stage.run("trial", "12", "7")


def void_cell(stage):
    stage.run("init", "9", "-5")
    stage.write("void.dt0", cells.flat(None, FLAT))
    stage.run("add", "void.dt0")
    stage.run("list")
    stage.run("inspect", "9", "513", "257")


def far_cell(stage):
    stage.run("init", "9", "0")
    stage.write("west.dt0", cells.flat(0, "n40w100"))
    stage.write("east.dt0", cells.flat(0, "n40e100"))
    stage.run("add", "west.dt0")
    stage.run("add", "east.dt0")


def two_levels(stage):
    stage.run("init", "9", "0")
    stage.write("coarse.dt0", cells.flat(0, FLAT))
    stage.write("void.dt1", cells.flat(None, FLAT, level=1))
    stage.write("five.dt1", cells.flat(5, FLAT, level=1))
    stage.run("add", "coarse.dt0")
    stage.run("add", "void.dt1")
    stage.run("list")
    stage.keep("filled from the coarser level")
    stage.run("replace", "five.dt1")
    stage.run("inspect", "9", "512", "256")
    stage.keep("the finer level")
    stage.run("remove", FLAT, "1")


# ---- lists of commands by a number

PLACES = (
    ("n10w180", "n10e179", "n11w180", "s01w180", "n00w180", "n00e179"),
    ("s90e000", "s90w001", "s90e090", "s89e000", "s90w180", "s90e179"),
    ("n89e000", "n89w180", "n89e179", "n88e045", "n89e001", "n88e044"),
    ("n49e010", "n50e010", "n49e011", "n50e011", "s50e010", "s51e010"),
    ("n69w003", "n70w003", "n74e020", "n75e020", "s75e120", "s76e120"),
    ("n00e000", "n00w001", "s01e000", "s01w001", "n79e100", "n80e100"),
)


def edits_by(number, count):
    """So many edits: a kind, a square, a level, and the bytes of a cell where there is one."""
    for k in range(count):
        seed = cells.mix(1000 * number + k)
        places = PLACES[number % len(PLACES)]
        square = places[seed % len(places)]
        level = 0 if seed // 8 % 4 else 1
        kind = ("add", "add", "add", "replace", "remove")[seed // 64 % 5]
        height = None if seed // 1024 % 16 == 0 else seed // 4096 % 3000 - 500
        if level == 0 and seed // 512 % 2:
            yield kind, square, level, lambda seed=seed, square=square: cells.landscape(seed, square, 0)
        else:
            columns, rows = cells.shape(square, level)
            changes = [(seed // 2**20 % columns, seed // 2**32 % rows, 700), (columns - 1, 0, None), (0, rows - 1, -40)]
            yield kind, square, level, lambda height=height, square=square, level=level, changes=changes: cells.flat(
                height, square, level, changes)


def edits(stage, number, count, cap):
    stage.run("init", str(cap), str(number % 7 - 3))
    for k, (kind, square, level, bytes_of) in enumerate(edits_by(number, count)):
        if kind == "remove":
            stage.run("remove", square, str(level))
        else:
            stage.write(f"{k}.dt", bytes_of())
            stage.run(kind, f"{k}.dt")
    stage.run("list")


def edits_of(number):
    def scenario(stage):
        edits(stage, number, 7, 7 + number % 4)

    scenario.__name__ = f"edits_{number}"
    return scenario


def forty_commands(stage):
    """A list with refusals among its commands, done by a script."""
    stage.run("init", "9", "100")
    lines = []
    for k, (kind, square, level, bytes_of) in enumerate(edits_by(41, 40)):
        if kind == "remove":
            lines.append(f"remove {square} {level}")
        elif k % 13 == 12:
            lines.append(f"{kind} absent{k}.dt")
        else:
            stage.write(f"{k}.dt", bytes_of())
            lines.append(f"{kind} {k}.dt")
    stage.write("script", ("\n".join(lines) + "\n").encode())
    stage.run("apply", "script")
    stage.run("list")


SCENARIOS = (
    empty_set, one_flat_cell, there_and_back, touch_in_one_corner, antimeridian, poles_and_wrap, cells_that_disagree,
    realistic_cell, script, no_good_database, lost_tiles, spoilt_tile, audits, audits_of_many, checked, converted, heightmaps,
    dropped_halfway, put_halfway, rebuilt_halfway,
    refused_edits, full_database, trials, void_cell, far_cell, two_levels,
    *migrations.SCENARIOS, *surfaces.SCENARIOS,
    *(edits_of(number) for number in range(12)), forty_commands,
)
