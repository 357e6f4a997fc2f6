#!/usr/bin/env python3
"""Prints the numbers that the test `repeats` of `trials_counts` expects of 2,000 histories, by the independent count.

Both sides make the histories by the same plain generator. A number stands for the cycles of a hundred histories.
"""
import sys

# No folder is made in the checkout.
sys.dont_write_bytecode = True

from model import repeating_cycles


def draw(seed):
    return (seed * 1103515245 + 12345) % 2**31


def mixed(digest, number):
    return (digest * 1000003 + number) % 2**31


def main():
    seed = 20
    for group in range(20):
        digest = 0
        for trial in range(100 * group, 100 * group + 100):
            levels = []
            for _ in range(trial % 50):
                seed = draw(seed)
                levels.append(seed // 65536 % (2 + trial % 15))
            for (lo, hi), n in sorted(repeating_cycles(levels).items()):
                digest = mixed(mixed(digest, 16 * lo + hi), n)
        print(digest)


main()
