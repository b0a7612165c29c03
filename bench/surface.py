#!/usr/bin/env python3
"""Times questions about the surface of a stored tile, best of five.

usage: bench/surface.py [PEER ARGUMENT..]

The tile is the densest of this program, all 4489 points of a grid of 67 by 67, with 8712 triangles. It is

- flat, so that all of it is seen from above and nothing ends a look early, or
- rugged, with heights that go up and down between 0 and 32767 metres, so that a fourth of it is seen.

Each question is asked of a database without cells, so that little else is done. Prints the seconds and the greatest
memory of `height`, `profile`, `sight` and `view`. Given a PEER's command line, it times that too, run by run in turn,
and prints the ratio. Both must print the same.
"""

import audit
import timing

SIDE = 67
QUESTIONS = (
    ("height", "0", "345678", "456789"),
    ("profile", "0", "0", "0", "3", "5", "32760", "32761"),
    ("sight", "0", "0", "0", "3", "5", "34000", "32760", "32761", "34000"),
    ("view", "0", "0", "0", "15000", "17000", "34000"),
)


def trials(files, _):
    for title, greatest in (("flat", 0), ("rugged", audit.LAST)):
        base, _ = timing.made(files / title, [], ["init", "0", "0"])
        (base / "0/0/0.terrain").write_bytes(audit.tile(SIDE, audit.even(SIDE), greatest))
        for words in QUESTIONS:
            yield timing.Trial(f"`{words[0]}` on the densest tile, {title}", words, (base, base))


if __name__ == "__main__":
    timing.show(trials)
