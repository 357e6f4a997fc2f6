#!/usr/bin/env python3
"""Makes the recordings of this example: a day of traffic in small, always the same.

make_recordings.py FOLDER [SAMPLES]    the first SAMPLES samples (12000 where it is left out) of each gauge

Cars and lorries cross the bridge; each gives a gauge its influence line, scaled by its weight. The sun moves the zero slowly, and the
logger adds noise. Some readings are missing, and one is a spike far outside every class.
"""

import math
import os
import random
import struct
import sys

SAMPLES = 12000
PERIOD_US = 50_000
MISSING = -(2**31)
SPIKE = 9_000_000


def vehicles(rng):
    """Where each vehicle begins to cross, how many samples it takes, and its weight (1 is a heavy lorry)."""
    at = 0
    while at < SAMPLES:
        at += rng.randint(5, 120)
        heavy = rng.random() < 0.25
        weight = rng.uniform(0.3, 1.0) if heavy else rng.uniform(0.02, 0.08)
        yield at, rng.randint(30, 70), weight


def span(x):
    """The influence line of a section in mid-span: a dip on the neighbouring spans, a hump on its own."""
    return math.sin(math.pi * (3 * x - 1)) * (1.0 if 1 / 3 < x < 2 / 3 else 0.25)


def pier(x):
    """Over a pier: compression on both spans beside it."""
    return -0.6 * math.sin(2 * math.pi * x) ** 2


def web(x):
    """Shear: it turns its sign where the vehicle passes."""
    return (1.0 if x < 0.5 else -1.0) * math.sin(math.pi * x)


def history(line, scale, seed):
    """Raw values: the sum of all vehicles, the drift of the zero, and noise."""
    rng = random.Random(seed)
    stress = [0.03 * math.sin(2 * math.pi * i / SAMPLES) for i in range(SAMPLES)]
    for begin, length, weight in vehicles(random.Random(2005)):
        for i in range(begin, min(begin + length, SAMPLES)):
            stress[i] += weight * line((i - begin + 0.5) / length)
    raws = [round(scale * (s + rng.gauss(0, 0.004))) for s in stress]
    for _ in range(7):
        raws[rng.randrange(SAMPLES)] = MISSING
    raws[rng.randrange(SAMPLES)] = SPIKE
    return raws


def write(path, number, raws):
    """A recording with an id of sixteen equal bytes."""
    head = b"SGRC\x01\x00\x00\x00" + bytes([number] * 16) + struct.pack("<II", PERIOD_US, 0)
    with open(path, "wb") as out:
        out.write(head + struct.pack("<%di" % len(raws), *raws))


def main():
    folder = sys.argv[1]
    samples = int(sys.argv[2]) if len(sys.argv) > 2 else SAMPLES
    gauges = [("span2-flange", span, 230), ("pier-flange", pier, 2300), ("web-shear", web, 38_000)]
    for number, (name, line, scale) in enumerate(gauges, start=1):
        write(os.path.join(folder, name + ".sgrc"), number, history(line, scale, number)[:samples])


main()
