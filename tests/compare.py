#!/usr/bin/env python3
"""Compares the program's tables with an independent count, over random recordings.

compare.py PROGRAM [SEED [CASES]]

Each case is a recording made from the seed: sound ones of several kinds of history, with missing readings and readings outside all
classes, and damaged ones. The count here works on the whole list of points, from docs/RULES.md and docs/FORMATS.md alone. What the
program prints, byte for byte, and its exit status are compared. Last line: compare: N passed, M failed
"""
import os
import random
import subprocess
import sys
import tempfile

# No folder is made in the checkout.
sys.dont_write_bytecode = True

from model import MISSING, Count, Grid, recording
from trial import Trial

# What `table` counts by: 64 classes of 1 N/mm² from 0, and raw values in N/mm².
CLASSES = 64
GRID = Grid(CLASSES, 2, 0, 32)
GAIN = (1000, 1, 0)


def table_of(raws):
    lines = Count(GRID, GAIN, raws).table()
    return "".join(line + "\n" for line in lines)


def history(rng, n):
    kind = rng.randrange(5)
    level = rng.randrange(CLASSES)
    raws = []
    for _ in range(n):
        if kind == 0:
            level = rng.randrange(CLASSES)
        elif kind == 1:
            level = min(CLASSES - 1, max(0, level + rng.randint(-3, 3)))
        elif kind == 2:
            level = rng.choice((10, 30, 50))
        elif kind == 3:
            level = level if rng.random() < 0.8 else rng.randrange(CLASSES)
        else:
            level = (level + 7) % CLASSES
        raws.append(level)
    for _ in range(rng.randrange(4) * n // 50):
        raws[rng.randrange(n)] = rng.choice((MISSING, -1, CLASSES, 2**31 - 1, -(2**31) + 1))
    return raws


def case_of(rng):
    """A file's bytes, and the status and the text that are due."""
    size = rng.choice((0, 1, 2, 3, 5, 9, 40, 300, 2000, 17000, 40000))
    raws = history(rng, size) if size else []
    file = recording(raws)
    damage = rng.randrange(12)
    if damage == 0:
        return file[: rng.randrange(32)], 4, ""
    if damage == 1:
        place = rng.choice((0, 1, 2, 3, 4, 5, 6, 7, 28, 29, 30, 31))
        return file[:place] + bytes([file[place] ^ rng.randrange(1, 256)]) + file[place + 1 :], 4, ""
    if damage == 2:
        return file + bytes(rng.randrange(1, 4)), 5, ""
    return file, 0, table_of(raws)


def main():
    if len(sys.argv) < 2:
        sys.exit(__doc__.splitlines()[2])
    program = os.path.abspath(sys.argv[1])
    seed = int(sys.argv[2]) if len(sys.argv) > 2 else 1
    cases = int(sys.argv[3]) if len(sys.argv) > 3 else 300
    rng = random.Random(seed)
    trial = Trial("compare")
    with tempfile.TemporaryDirectory() as room:
        path = os.path.join(room, "recording.sgrc")
        for case in range(cases):
            file, status, text = case_of(rng)
            with open(path, "wb") as out:
                out.write(file)
            run = subprocess.run([program, "table", path], stdout=subprocess.PIPE, stderr=subprocess.DEVNULL)
            trial.check("seed %d, case %d" % (seed, case), (run.returncode, run.stdout), (status, text.encode()))
    return trial.end()


if __name__ == "__main__":
    sys.exit(main())
