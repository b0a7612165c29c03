#!/usr/bin/env python3
"""Runs each scenario with the built program and compares with what another program said and left.

usage: checks/compare.py [NAME..]            the scenarios of these names, or all
       checks/compare.py --record PEER..     writes expected.json by a peer's command line in place of the program

Expected texts, statuses and hashes of files are those of an unverified program that follows the same formats.
"""

import json
import pathlib
import sys
import tempfile
import time

import scenarios
import stage

EXPECTED = pathlib.Path(__file__).with_name("expected.json")


def outcome(program, scenario):
    """What a scenario comes to: texts and statuses, then the files at its end as one hash."""
    with tempfile.TemporaryDirectory() as folder:
        at = stage.Stage(program, folder)
        scenario(at)
        at.keep("at the end")
        return at.said


def differences(expected, found):
    """The first step at which they differ, in words."""
    for want, have in zip(expected, found):
        if want != have:
            return f"{want[0]}: expected {want[1]} {want[2]!r}, found {have[1]} {have[2]!r}"
    return f"expected {len(expected)} steps, found {len(found)}" if len(expected) != len(found) else None


def main(words):
    if words[:1] == ["--record"]:
        found = {scenario.__name__: outcome(words[1:], scenario) for scenario in scenarios.SCENARIOS}
        lines = ",\n".join(f"{json.dumps(name)}: {json.dumps(said)}" for name, said in found.items())
        EXPECTED.write_text("{\n" + lines + "\n}\n", encoding="utf-8")
        return 0
    expected = json.loads(EXPECTED.read_text(encoding="utf-8"))
    failed = 0
    for scenario in scenarios.SCENARIOS:
        name = scenario.__name__
        if words and name not in words:
            continue
        start = time.perf_counter()
        try:
            wrong = differences(expected[name], outcome([stage.PROGRAM], scenario))
        except stage.NotBuilt as missing:
            print(f"{name}: skipped, the program has no command {missing} yet")
            continue
        failed += wrong is not None
        print(f"{name}: {wrong or 'as expected'} ({time.perf_counter() - start:.1f} s)")
    return 1 if failed else 0


if __name__ == "__main__":
    sys.exit(main(sys.argv[1:]))
