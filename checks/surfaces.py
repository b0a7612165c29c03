"""Questions about the surface of stored tiles."""

import cells
import meshes
import old
import questions

FLAT = "n00e000"


def flat_database(stage, metres=0):
    """A database to level 9 of one cell."""
    stage.run("init", "9", "0")
    stage.write("flat.dt0", cells.flat(metres, FLAT))
    stage.run("add", "flat.dt0")


def asked_of_flat_ground(stage):
    flat_database(stage, 7)
    metres = lambda draws: (7, 6, 8, 0, -65535, 65535)[draws.below(6)]
    for number, tile in enumerate(((0, 1, 0), (6, 64, 32), (9, 512, 256), (9, 513, 257))):
        for words in questions.drawn(number, tile, metres, 20):
            stage.answer(*words)


def asked_of_hills(stage):
    stage.run("init", "9", "0")
    stage.write("west.dt0", cells.landscape(9, "n46e007", 0))
    stage.write("east.dt0", cells.landscape(16, "n46e008", 0))
    stage.run("add", "west.dt0")
    stage.run("add", "east.dt0")
    metres = lambda draws: draws.below(2500) - 100
    tiles = ((0, 1, 0), (4, 16, 12), (7, 133, 97), (8, 267, 194), (9, 531, 386), (9, 533, 388))
    for number, tile in enumerate(tiles):
        for words in questions.drawn(10 + number, tile, metres, 20):
            stage.answer(*words)


def asked_at_poles_and_antimeridian(stage):
    stage.run("init", "9", "-4")
    squares = ("n89w180", "n89e179", "s90w180", "s90e179", "n00w180", FLAT)
    for metres, square in zip((12, 100, 5, 9, 30, 40), squares):
        stage.write(f"{square}.dt0", cells.flat(metres, square))
        stage.run("add", f"{square}.dt0")
    for level in ("0", "5", "9"):
        for east in ("0", "1", "647999", "648000", "1295999"):
            for north in ("0", "1", "323999", "324000", "647999", "648000"):
                stage.run("height", level, east, north)


QUESTIONS = (
    ("height", "9", "648001", "324002"),
    ("profile", "9", "512", "256", "0", "32767", "32767", "0"),
    ("sight", "9", "512", "256", "1", "2", "3000", "32766", "32765", "-2"),
    ("view", "9", "512", "256", "101", "201", "300"),
)


def ask_all(stage, tile=None):
    """One question of each kind, of a stored tile that is put in the place of another."""
    if tile is not None:
        stage.write("db/9/512/256.terrain", tile)
    for words in QUESTIONS:
        stage.answer(*words)


def asked_of_placed_tiles(stage):
    """A slope, a peak, vertices that no triangle uses, unsound meshes, and heights that are none or not whole."""
    flat_database(stage)
    west, east, south, north = 0, 32767, 0, 32767
    slope = [(west, south, 0), (east, south, 32767), (east, north, 32767), (west, north, 0)]
    halves = [(0, 1, 2), (0, 2, 3)]
    for least, greatest in (
        (0, 7), (7, 0), (-65535, 65535), (5, 5), (-1, 65536), (0, 65536), (-65536, 0), (0, 16777215), (0, 16777216),
        (0.5, 7), (0, 7.5), (-0.0, 7), (0, 1e-45), (float("nan"), 7), (0, float("inf")),
    ):
        ask_all(stage, meshes.tile(slope, halves, least, greatest))
    ask_all(stage, meshes.tile([(0, 0, 0)], [], float("nan"), 0))
    ask_all(stage, meshes.tile([], [], float("nan"), 0))
    ask_all(stage, meshes.tile([*slope[:2], (east, north, 1), slope[3]], halves, 0, 7))
    ask_all(stage, meshes.tile(slope, [(0, 1, 2), (0, 1, 2)], 0, 7))
    ask_all(stage, meshes.tile([*slope, (5, 5, 1)], [(0, 1, 2), (0, 1, 2)], 0, 7))
    ask_all(stage, meshes.tile([(0, 0, 0)] * 16385, [], 0, 7))
    unused = [(100, 200, 32767), (100, 201, 0), (20000, 9, 4681), (9, 20000, 32767)]
    peak = [*[(u, v, 0) for u, v, _ in slope], (16384, 16000, 4681)]
    fan = [(0, 1, 4), (1, 2, 4), (2, 3, 4), (3, 0, 4)]
    order = meshes.in_first_use([*peak, *unused], fan)
    ask_all(stage, meshes.tile(*order, 0, 7))
    for words in (
        "0 0 0", "0 0 1", "16384 16000 1", "16384 16000 0", "16384 9 -1", "101 200 0", "100 200 7", "100 200 8",
        "100 201 7", "100 201 0", "20000 9 1", "9 20000 9",
    ):
        stage.answer("view", "9", "512", "256", *words.split())
    for words in (
        "0 0 0 32767 32767 0", "0 0 1 32767 32767 0", "0 0 1 32767 32767 1", "0 16000 1 32767 16000 1",
        "16384 16000 1 0 0 0", "16384 16000 0 0 0 0", "16384 0 -65535 16384 32767 65535", "1 1 65535 2 1 65535",
        "0 0 0 32767 0 0",
    ):
        stage.answer("sight", "9", "512", "256", *words.split())
    for words in (
        "0 0 32767 32767", "0 0 32767 0", "0 0 0 32767", "16384 16000 0 0", "16384 16000 32767 16000",
        "100 200 100 201", "0 32767 32767 0",
    ):
        stage.answer("profile", "9", "512", "256", *words.split())


def asked_of_drawn_tiles(stage):
    """Small meshes, good and with faults of each kind; a height is so many metres."""
    flat_database(stage)
    metres = lambda draws: draws.below(2500) - 100
    for number in range(42):
        stage.write("db/9/512/256.terrain", meshes.tile(*meshes.drawn(number), 0, 32767))
        for words in questions.drawn(100 + number, (9, 512, 256), metres, 6):
            stage.answer(*words)


def asked_in_vain(stage):
    """No database, none of this version, no such tile, a lost one, and one that can't be read."""
    ask_all(stage)
    stage.write("db/manifest.txt", old.manifest(2, 9, 0, "closed"))
    ask_all(stage)
    stage.remove("db/manifest.txt")
    stage.write("flat.dt0", cells.flat(0, FLAT))
    stage.run("init", "9", "0")
    ask_all(stage, b"a file of no tile")
    stage.run("rebuild")
    stage.run("add", "flat.dt0")
    ask_all(stage, bytes(87))
    ask_all(stage, b"\x1f\x8b\x08\x00")
    whole = meshes.tile([(0, 0, 0), (32767, 0, 0), (32767, 32767, 0), (0, 32767, 0)], [(0, 1, 2), (0, 2, 3)])
    ask_all(stage, whole[:92] + b"\xff\xff" + whole[94:])
    ask_all(stage, whole[:120] + b"\x01" + whole[121:])
    ask_all(stage, whole[:-16] + b"\x01\x00\x00\x00\x04\x00" + bytes(12))
    ask_all(stage, whole[:-12] + b"\x09\x00\x00\x00" + whole[-8:])
    ask_all(stage, whole + b"\x01\x02\x00\x00\x00\x00")
    ask_all(stage, whole + b"\x01\x02\x00\x00\x00\x00\x00")
    stage.remove("db/9/512/256.txt")
    ask_all(stage)
    stage.remove("db/9/512/256.terrain")
    ask_all(stage)
    stage.write("db/stage.dt", cells.flat(7, FLAT))
    stage.write("db/manifest.txt", old.manifest(3, 9, 0, "put n00e000 0", "n00e000 0"))
    ask_all(stage)


SCENARIOS = (
    asked_of_flat_ground, asked_of_hills, asked_at_poles_and_antimeridian, asked_of_placed_tiles, asked_of_drawn_tiles,
    asked_in_vain,
)
