"""Times commands of the program, beside a peer with the same command line and beside what the machine itself needs.

A script of this folder makes trials, one after the other, and this runs them: the program, the command that is its
limit, and the peer, run by run in turn.
"""

from __future__ import annotations

import contextlib
import pathlib
import shutil
import subprocess
import sys
import tempfile
from collections.abc import Callable
from typing import NamedTuple

ROOT = pathlib.Path(__file__).resolve().parent.parent
START = pathlib.Path(__file__).resolve().parent / "start.py"
RUNS = 5

# what makes cells and meshes stands with the checks
sys.path.insert(0, str(ROOT / "checks"))


class Trial(NamedTuple):
    """Words behind the folder, and the folders of the program and of the peer, which a run may change.

    The limit gives the words of a command that moves the same bytes, once the folder is known. Where units are given,
    as so many bytes or tiles, instructions are counted for each.
    """

    title: str
    words: tuple
    bases: tuple = (".", ".")
    changes: bool = False
    runs: int = RUNS
    limit: Callable | None = None
    size: int = 0
    unit: str = ""
    units: int = 0


class Run(NamedTuple):
    """What a run took, in seconds and megabytes, and what it printed."""

    seconds: float
    processor: float
    memory: float
    output: bytes


class Figures(NamedTuple):
    """The best of the runs of the program, and of the peer and of the limit where there are any."""

    own: Run
    peer: Run | None
    limit: Run | None


def built():
    """The program, which is built where it is not there yet."""
    program = ROOT / "crates/terrain_tool/out/terrain_tool"
    if not program.exists():
        subprocess.run([str(ROOT / "terrain")], stdout=subprocess.DEVNULL, check=False)
    return program


def timed(words, output=subprocess.PIPE):
    """One run of a program."""
    starter = [sys.executable, "-I", "-S", START, *words]
    done = subprocess.run([str(word) for word in starter], stdout=output, stderr=subprocess.PIPE, check=True)
    seconds, processor, memory = done.stderr.decode().splitlines()[-1].split()
    return Run(float(seconds), float(processor), float(memory), done.stdout)


def best(runs):
    """The least times and the greatest memory of some runs, or None where there are none."""
    if not runs:
        return None
    seconds, processor, memory, outputs = zip(*runs)
    return Run(min(seconds), min(processor), max(memory), outputs[-1])


@contextlib.contextmanager
def folder_of(trial, base):
    """The folder of a run: the base, or a copy of it where a run changes it."""
    if not trial.changes:
        yield base
        return
    with tempfile.TemporaryDirectory() as folder:
        database = pathlib.Path(folder) / "db"
        shutil.copytree(base, database)
        yield database


def measured(trial, peer):
    """The figures of a trial. The program and the peer must print the same."""
    own, theirs, limits = [], [], []
    for _ in range(trial.runs):
        with folder_of(trial, trial.bases[0]) as database:
            own.append(timed([built(), database, *trial.words]))
            if trial.limit:
                limits.append(timed(trial.limit(database), subprocess.DEVNULL))
        if peer:
            with folder_of(trial, trial.bases[1]) as database:
                theirs.append(timed([*peer, database, *trial.words]))
            other, said = theirs[-1].output, own[-1].output
            if other != said:
                sys.exit(f"{trial.title}: the peer prints {told(other)!r} where this prints {told(said)!r}")
    return Figures(best(own), best(theirs), best(limits))


def told(output):
    """The first line that a program printed, and how much it printed where there is more, or where it is no text."""
    line = output.split(b"\n", 1)[0].decode("latin-1")
    if not (line.isascii() and line.isprintable()):
        return f"{len(output)} bytes"
    return line if len(output) <= len(line) + 1 else f"{line} .. {len(output)} bytes"


def described(trial, figures):
    """The figures of a trial as a text of two lines."""
    own, peer, limit = figures
    text = f"{trial.title}: {own.seconds:.4f} s"
    if trial.size:
        text += f", {trial.size / own.seconds / 1e6:.0f} MB/s"
    text += f", {own.memory:.1f} MB of memory"
    if peer:
        text += f"; peer {peer.seconds:.4f} s, ratio {own.seconds / peer.seconds:.2f}"
        text += f", of processor time {own.processor / peer.processor:.2f}"
    if limit:
        text += f"; limit {limit.seconds:.4f} s, ratio {own.seconds / limit.seconds:.1f}"
    return f"{text}\n  {told(own.output)}"


def made(folder, peer, *commands):
    """A database by the program and one by the peer, where there is one, each after these commands."""
    bases = []
    for name, program in (("own", [built()]), ("peer", peer)):
        base = pathlib.Path(folder) / name
        bases.append(base)
        if program:
            base.mkdir(parents=True)
            for words in commands:
                timed([*program, base, *words])
    return tuple(bases)


def show(trials):
    """Prints the figures of a script's trials, beside the peer that stands on the command line."""
    peer = sys.argv[1:]
    with tempfile.TemporaryDirectory() as folder:
        for trial in trials(pathlib.Path(folder), peer):
            print(described(trial, measured(trial, peer)), flush=True)
