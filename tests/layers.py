#!/usr/bin/env python3
"""The layers of the crates: how many crates, edges and ways crates.txt has, and its longest chain.

  layers.py                        prints them
  layers.py CRATES CHAIN WAYS      ends with status 1 where one of the three is greater

A way is a path of lines that leads from the program down to a crate; some kits take a digest of a library anew for each.
"""

import functools
import pathlib
import sys

ROOT = pathlib.Path(__file__).resolve().parent.parent
PROGRAM = "monitor_main"


def crates_below(text: str) -> dict[str, list[str]]:
    """Returns the repository's crates, each with those of its line that are the repository's."""
    lines = [line.split("#")[0].partition(":") for line in text.splitlines()]
    names = {left.split()[0]: right.split() for left, colon, right in lines if colon and left.strip()}
    return {name: [it for it in below if it in names] for name, below in names.items()}


def main(limits: list[int]) -> int:
    below = crates_below((ROOT / "crates.txt").read_text(encoding="utf-8"))

    @functools.cache
    def ways(name: str) -> int:
        return 1 + sum(map(ways, below[name]))

    @functools.cache
    def chain(name: str) -> tuple[str, ...]:
        return (*max(map(chain, below[name]), key=len, default=()), name)

    longest = max(map(chain, below), key=len)
    edges, every = sum(map(len, below.values())), sum(map(ways, below))
    print(f"layers: {len(below)} crates, {edges} edges, {ways(PROGRAM)} ways from {PROGRAM}, {every} in all")
    print(f"layers: the longest chain has {len(longest)}: {' '.join(longest)}")
    status = 0
    for what, found, most in zip(("crates", "in a chain", "ways"), (len(below), len(longest), ways(PROGRAM)), limits):
        if found > most:
            print(f"layers: {found} {what}, where at most {most} may be")
            status = 1
    return status


if __name__ == "__main__":
    sys.exit(main([int(it) for it in sys.argv[1:]]))
