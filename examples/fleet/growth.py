#!/usr/bin/env python3
"""How large a store grows: growth.py [--days N] [--samples N]

Counts a site of one gauge day by day: N days (5) of N samples (100000) of traffic, 50 a second, over 128 classes, by blocks of 1,024 and of
4,096 samples. Each line has the bytes that the store grew by, in all and for a body: what is stored of a gauge by a round of up to 16
blocks. The bytes are the same on each machine. MONITOR names the program (monitor).
"""

import argparse
import os
import pathlib
import shutil
import subprocess
import sys
import tempfile

# No folder is made beside this file.
sys.dont_write_bytecode = True

import make_sites

BLOCKS_OF_A_ROUND = 16
FIRST_GATE = 63


def grown(program: str, block: int, days: int, samples: int) -> list[int]:
    """The bytes of the store after `init` and after each day."""
    with tempfile.TemporaryDirectory() as folder:
        site = pathlib.Path(folder) / "bridge-0001"
        make_sites.write_site(site, 1, 0)
        configuration = (site / "monitor.toml").read_text().replace("workers = 1", f"workers = 1\nblock = {block}")
        (site / "monitor.toml").write_text(configuration)
        subprocess.run([program, "init"], cwd=site, check=True, stderr=subprocess.DEVNULL)
        sizes = [(site / "monitor.store").stat().st_size]
        for day in range(1, days + 1):
            make_sites.write_site(site, 1, day * samples)
            subprocess.run([program, "count"], cwd=site, check=True, stdout=subprocess.DEVNULL, stderr=subprocess.DEVNULL)
            sizes.append((site / "monitor.store").stat().st_size)
        return sizes


def main() -> int:
    words = argparse.ArgumentParser(usage=__doc__)
    words.add_argument("--days", type=int, default=5)
    words.add_argument("--samples", type=int, default=100_000)
    given = words.parse_args()
    program = os.environ.get("MONITOR", "monitor")
    if not shutil.which(program):
        print(f"growth: there is no program {program}; MONITOR names it")
        return 1
    print(f"a store without bodies: {FIRST_GATE} bytes for one gauge; days of {given.samples} samples")
    for block in (1024, 4096):
        sizes = grown(program, block, given.days, given.samples)
        if sizes[0] != FIRST_GATE:
            print(f"growth: the new store has {sizes[0]} bytes")
            return 1
        bodies = -(-given.samples // (BLOCKS_OF_A_ROUND * block))
        each = [after - before for before, after in zip(sizes, sizes[1:])]
        mean = sum(each) / len(each)
        print(f"block {block}: {bodies} bodies a day, {' '.join(str(it) for it in each)} bytes a day, {mean / bodies:.0f} bytes a body")
    return 0


if __name__ == "__main__":
    sys.exit(main())
