#!/usr/bin/env python3
"""Makes sites to try a fleet with, always the same: make_sites.py FOLDER [SITES [SAMPLES]]

Each site is a folder with a configuration and one or two recordings of SAMPLES samples (20000 where it is left out), 50 a second. Calling it
again with more samples lets the recordings grow.
"""

import pathlib
import random
import struct
import sys

PERIOD_US = 20_000
MICROSTRAIN_KPA = 210
CATEGORIES = [112, 90, 80, 71, 56, 50]

HEAD = """# Bridge {name}, made by make_sites.py.
[grid]
classes = 128
width = 2
low = -64000
reference = 64
[count]
workers = 1
"""
GAUGE = """[[gauge]]
name = "{gauge}"
file = "{gauge}.sgrc"
num = {num}
[[detail]]
name = "{gauge}-weld"
gauge = "{gauge}"
kind = "normal"
category = {category}
gamma = 115
"""


def gauges_of(number: int) -> list[str]:
    """The names of the gauges of a site: every third has two."""
    return ["span", "pier"] if number % 3 == 0 else ["span"]


def configuration(number: int, name: str) -> str:
    """The configuration of a site."""
    text = HEAD.format(name=name)
    for place, gauge in enumerate(gauges_of(number)):
        category = CATEGORIES[(number + place) % len(CATEGORIES)]
        text += GAUGE.format(gauge=gauge, num=MICROSTRAIN_KPA, category=category)
    return text


def history(seed: str, samples: int) -> list[int]:
    """Microstrain under traffic: vehicles that come and go, and noise. The first samples are the same for each number of samples."""
    rng = random.Random(seed)
    raws: list[int] = []
    while len(raws) < samples:
        height = rng.choice((20, 30, 45, 60, 140, 200))
        length = rng.randint(20, 60)
        raws += [height * min(i, length - i) * 2 // length + rng.randint(-2, 2) for i in range(length)]
        raws += [rng.randint(-2, 2) for _ in range(rng.randint(5, 80))]
    return raws[:samples]


def write_site(folder: pathlib.Path, number: int, samples: int) -> None:
    """Writes a site's configuration once, and its recordings. A recording that is there only grows."""
    name = folder.name
    folder.mkdir(parents=True, exist_ok=True)
    if not (folder / "monitor.toml").exists():
        (folder / "monitor.toml").write_text(configuration(number, name), encoding="ascii")
    for place, gauge in enumerate(gauges_of(number)):
        raws = history(f"{name} {gauge}", samples)
        identity = f"{name}-{place}".encode().ljust(16, b"\0")
        head = b"SGRC\x01\0\0\0" + identity + struct.pack("<II", PERIOD_US, 0)
        body = head + struct.pack(f"<{len(raws)}i", *raws)
        recording = folder / f"{gauge}.sgrc"
        held = recording.stat().st_size if recording.exists() else 0
        with open(recording, "ab") as out:
            out.write(body[held:])


def main() -> None:
    folder = pathlib.Path(sys.argv[1])
    sites = int(sys.argv[2]) if len(sys.argv) > 2 else 64
    samples = int(sys.argv[3]) if len(sys.argv) > 3 else 20_000
    for number in range(1, sites + 1):
        write_site(folder / f"bridge-{number:04}", number, samples)


if __name__ == "__main__":
    main()
