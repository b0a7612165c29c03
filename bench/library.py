#!/usr/bin/env python3
"""Times the work of the program's libraries that no command does by itself yet.

usage: bench/library.py [KIND [PEER WORD.. [-- PEER WORD..]]]

KIND is `boxes` (boxes of places in Earth-fixed coordinates), `dense` or `hilly` (meshes of a grid of heights), `grids`
(grids of heights over a level 2 cell), `tiles` (both files of a tile of level 8 over such a cell, whose bound is found
at 6.4 million posts), or left out, which times each. Prints how many results a second come, from the best of five runs,
less that of a run that makes none. Given a PEER's command that makes one such result, and behind `--` one that makes
none, it prints the peer's seconds, the first less the second, and the ratio.
"""

import subprocess
import sys

import timing

KINDS = {
    "boxes": (200000, "a box in Earth-fixed coordinates"),
    "dense": (1000, "the mesh of the densest grid (8712 triangles)"),
    "hilly": (1000, "the mesh of a hilly grid"),
    "grids": (500, "the heights of a tile's grid over a level 2 cell"),
    "tiles": (10, "both files of a level 8 tile over a level 2 cell (6.4 million posts)"),
}


def built():
    """The program of the benchmarks, which is built where it is not there yet."""
    folder = timing.ROOT / "crates/terrain_bench"
    program = folder / "out/terrain_bench"
    if not program.exists():
        subprocess.run(["rt", "run", "--", "none"], cwd=folder, stdout=subprocess.DEVNULL, check=True)
    return program


def best(words):
    """The seconds of the fastest of the runs, and the greatest memory."""
    return timing.best([timing.timed(words) for _ in range(timing.RUNS)])


def each(kind):
    """The seconds for one result, and the greatest memory in megabytes."""
    count, _ = KINDS[kind]
    some = best([built(), kind, count])
    return (some.seconds - best([built(), kind, 0]).seconds) / count, some.memory


def of_peer(words):
    """The seconds of the command before `--`, less those of the one behind it."""
    cut = words.index("--") if "--" in words else len(words)
    none = words[cut + 1 :]
    return best(words[:cut]).seconds - (best(none).seconds if none else 0)


def described(kind, seconds):
    """What a second brings, as a text."""
    text = f"{kind}: {1 / seconds:.0f} a second, {seconds * 1e6:.1f} microseconds each"
    if kind == "grids":
        text += f", {67 * 67 / seconds / 1e6:.1f} million grid points a second"
    return text


def main():
    for kind in sys.argv[1:2] or KINDS:
        seconds, _ = each(kind)
        text = described(kind, seconds)
        if sys.argv[2:]:
            peer = of_peer(sys.argv[2:])
            text += f", peer {peer * 1e6:.0f} microseconds for one, ratio {seconds / peer:.2f}"
        print(text, flush=True)


if __name__ == "__main__":
    main()
