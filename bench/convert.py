#!/usr/bin/env python3
"""Times `convert` on a raster of 3601 lines, best of five.

usage: bench/convert.py [PEER ARGUMENT..]

Prints the seconds of `./terrain . convert N46E007.hgt`, the megabytes read a second, and the greatest memory of a run.
Given a PEER's command line, it times that too, run by run in turn, and prints the ratio. Both must print the same.
"""

import array

import timing

SIDE = 3601


def raster():
    """Samples of a slope with a ripple over it, and a void now and then."""
    samples = array.array("h", (-32768 if k % 100003 == 0 else k // SIDE // 4 + 7 * k % 97 for k in range(SIDE * SIDE)))
    samples.byteswap()
    return samples.tobytes()


def trials(files, _):
    path = files / "N46E007.hgt"
    path.write_bytes(raster())
    yield timing.Trial("`convert` of a raster of 3601 lines", ("convert", path), size=path.stat().st_size)


if __name__ == "__main__":
    timing.show(trials)
