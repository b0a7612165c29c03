"""Databases of older versions, and what `migrate` makes of them, or why it refuses them."""

import cells
import old

FLAT = "n00e000"


def migrated_from_first(stage):
    """Tiles, notes and a cell under their old names are written anew, or go."""
    old.first(stage)
    stage.write("db/9/3/4.terrain", b"extra")
    stage.run("list")
    stage.run("migrate")
    stage.keep("brought to this version")
    stage.run("list")
    stage.run("migrate")
    stage.run("check")


def migrated_from_second(stage):
    """Two levels in a square, and hills; what is on the stage is of no command."""
    old.second(stage)
    stage.write("db/stage.dt", cells.flat(7, FLAT))
    stage.write("db/cells/n00e000.dt", b"extra")
    stage.write("db/3/1/1.txt", b"extra")
    stage.run("check")
    stage.run("migrate")
    stage.keep("brought to this version")
    stage.run("list")
    stage.run("inspect", "4", "16", "12")
    stage.run("migrate")


def migrated_put_of_first(stage):
    """A cell of level 1 that was on the stage takes the place of one of level 0."""
    old.first(stage)
    stage.write("db/stage.dt", cells.flat(50, FLAT, level=1))
    stage.write("db/manifest.txt", old.manifest(1, 6, -2, f"put {FLAT}", "s90w001", FLAT))
    stage.write("db/cells/s90w001.dt", cells.flat(3, "s90w001"))
    stage.run("rebuild")
    stage.run("migrate")
    stage.keep("brought to this version")
    stage.run("list")


def migrated_drop_and_rebuild_of_first(stage):
    old.first(stage)
    stage.write("db/manifest.txt", old.manifest(1, 3, 5, f"drop {FLAT}"))
    stage.run("migrate")
    stage.keep("without the dropped cell")
    stage.write("db/cells/n00e000.dt", cells.flat(8, FLAT))
    stage.write("db/manifest.txt", old.manifest(1, 3, 5, "rebuild", FLAT))
    stage.run("migrate")


def migrated_put_of_second(stage):
    old.second(stage)
    stage.remove("db/cells/n46e007.0.dt")
    stage.write("db/stage.dt", cells.landscape(4, "n46e007", 0))
    stage.write("db/manifest.txt", old.manifest(2, 4, -3, "put n46e007 0", "n00e000 1", "n00e000 0", "n46e007 0"))
    stage.run("list")
    stage.run("migrate")
    stage.keep("brought to this version")
    stage.run("list")


def migrated_drop_of_second(stage):
    old.second(stage)
    stage.write("db/manifest.txt", old.manifest(2, 4, -3, "drop n00e000 1", "n00e000 0", "n46e007 0"))
    stage.run("migrate")
    stage.run("list")


def migrated_rebuild_of_second(stage):
    stage.write("db/manifest.txt", old.manifest(2, 5, 0, "rebuild", FLAT + " 0"))
    stage.write("db/cells/n00e000.0.dt", cells.flat(0, FLAT))
    stage.write("db/5/1/1.terrain", b"extra")
    stage.run("migrate")
    stage.run("check")


def refused_migrations(stage):
    stage.run("migrate")
    for content in (
        b"", b"terrain-db 1", b"terrain-db 01\n", b"terrain-db 3\n", b"terrain-db 3", old.manifest(4, 9, 0, "closed"),
        old.manifest(1, 15, 0, "closed"), old.manifest(2, "09", 0, "closed"), old.manifest(1, 9, "-0", "closed"),
        old.manifest(2, 9, 16001, "closed"), old.manifest(1, 9, 0, "open"), old.manifest(1, 9, 0, "put n00e000"),
        old.manifest(1, 9, 0, "drop n00e000", FLAT), old.manifest(1, 9, 0, "put n00e000 0", FLAT),
        old.manifest(2, 9, 0, "put n00e000", "n00e000 0"), old.manifest(2, 9, 0, "put n00e000 1", "n00e000 0"),
        old.manifest(2, 9, 0, "drop n00e000 0", "n00e000 0"), old.manifest(1, 9, 0, "closed", "n00e000 0"),
        old.manifest(2, 9, 0, "closed", FLAT), old.manifest(2, 9, 0, "closed", "n00e000 3"),
        old.manifest(1, 9, 0, "closed", FLAT, "n00w001"), old.manifest(2, 9, 0, "closed", "n00e000 0", "n00e000 1"),
        old.manifest(1, 9, 0, "closed", FLAT, FLAT), old.manifest(1, 9, 0, "closed", FLAT) + b"\n",
        old.manifest(2, 9, 0, "closed", "n00e000 0")[:-1],
        old.manifest(1, 9, 0, "closed").replace(b"cells 0", b"cells 4097"),
        old.manifest(2, 9, 0, "closed").replace(b"cells 0", b"cells 1"),
    ):
        stage.write("db/manifest.txt", content)
        stage.run("migrate")
    flat = cells.flat(0, FLAT)
    high = cells.flat(0, FLAT, changes=[(5, 7, 16001)])
    elsewhere = cells.flat(0, "n01e000")
    for version, state, name in (
        (1, "closed", "cells/n00e000.dt"), (1, f"put {FLAT}", "stage.dt"),
        (2, "closed", "cells/n00e000.0.dt"), (2, "put n00e000 0", "stage.dt"),
    ):
        rows = ("s90e000", FLAT) if version == 1 else ("s90e000 0", "n00e000 0")
        stage.write("db/manifest.txt", old.manifest(version, 9, 0, state, *rows))
        stage.run("migrate")
        stage.write("db/cells/s90e000.dt", cells.flat(0, "s90e000"))
        stage.write("db/cells/s90e000.0.dt", cells.flat(0, "s90e000"))
        stage.run("migrate")
        for content in (flat[:100], flat[:-1], high, elsewhere):
            stage.write(f"db/{name}", content)
            stage.run("migrate")
        if version == 2:
            stage.write(f"db/{name}", cells.flat(0, FLAT, level=1))
            stage.run("migrate")
        stage.keep(f"version {version}, {state}")
        for path in ("cells/s90e000.dt", "cells/s90e000.0.dt", name):
            stage.remove(f"db/{path}")


SCENARIOS = (
    migrated_from_first, migrated_from_second, migrated_put_of_first, migrated_drop_and_rebuild_of_first,
    migrated_put_of_second, migrated_drop_of_second, migrated_rebuild_of_second, refused_migrations,
)
