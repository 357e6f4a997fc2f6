#!/usr/bin/env python3
"""Runs the program over random sites, kills it on the way, and compares all that it prints with an independent count.

site.py PROGRAM [SEED [CASES [KILLS]]]

Each case makes a folder with a configuration and recordings, and a store by `init`. The recordings grow a few times. At each growth
`count` or `watch` is killed by signal 9 KILLS times (none where it is left out), each a random moment after a random line, and then both
run to their ends, each over the store as it is then.
Only a kill that met a running program is one of the KILLS; a growth has at most three times as many tries. What is checked, byte for byte:
- after a kill `report` is that of a front of each recording, which holds every acknowledged sample;
- after `count`, its report and that of `report` are those of the whole recordings, and each last acknowledged number is the length;
- `watch` prints, acknowledges and stores the same bytes, and tells then what its watcher saw, by the rule of these lines;
- after `count`, what `repeat` prints is the count of each whole recording as a history that repeats;
- `window` over random instants, most of them near the ends of stored bodies, prints the report of the samples whose bodies lie inside;
- `compact` writes the bytes of a store that has one body for each gauge, and of such a copy the same bytes. Half of the copies take the
  store's place, so that the further runs go on over them;
- `audit` finds every gauge the same, and the one that was changed where a held sample was.
Some cases begin over a store that is made here, of either version, with bodies that end anywhere.
Last line: site: N passed, M failed
"""

import os
import random
import subprocess
import sys
import tempfile
import time

# No folder is made in the checkout.
sys.dont_write_bytecode = True

import instants
import stores
from model import MISSING, Count, Detail, Grid, recording, repeat, report, seen_faults, window_of, window_report
from trial import Trial as Counted
from trial import held, other_lines, read, samples, without_seen
from trial import write as write_file

NORMAL = [160, 140, 125, 112, 100, 90, 80, 71, 63, 56, 50, 45, 40, 36]


class Site:
    """A random configuration, and a history for each gauge."""

    def __init__(self, rng, longest):
        self.rng = rng
        classes = rng.choice((2, 3, 16, 64, 128, rng.randint(2, 200)))
        width = rng.randint(1, max(1, min(4, 2000 // max(1, classes - 1))))
        low = rng.choice((0, -500 * width * (classes // 2), rng.randint(-100000, 100000)))
        self.grid = Grid(classes, width, low, rng.randint(1, classes - 1))
        self.names = ["gauge-%d" % g for g in range(rng.randint(1, 5))]
        self.gains = [self.gain() for _ in self.names]
        self.raws = [self.history(g, rng.randint(longest // 2 if longest > 1000 else 0, longest)) for g in range(len(self.names))]
        self.details = [self.detail(d) for d in range(rng.randint(0, 5))]
        self.block = rng.choice((1, 2, 7, 64, 1024) if longest < 1000 else (16, 64))
        self.workers = rng.randint(1, 8)
        self.periods = [rng.choice((10000, 10000, 0, 1, 2**32 - 1, rng.randint(1, 2**32 - 1))) for _ in self.names]

    def gain(self):
        rng = self.rng
        return rng.choice((210, 1000, -1000, rng.randint(1, 5000))), rng.choice((1, 1, 7)), rng.choice((0, 0, -333))

    def raw_of(self, gauge, level):
        """A raw value of this level, or one beside it."""
        num, den, offset = self.gains[gauge]
        stress = self.grid.low + 500 * self.grid.width * level + 250 * self.grid.width
        return (stress - offset) * den // num

    def history(self, gauge, samples):
        rng = self.rng
        kind = rng.randrange(4)
        top = self.grid.classes - 1
        level = rng.randint(0, top)
        raws = []
        for _ in range(samples):
            if kind == 0 or rng.random() < 0.02:
                level = rng.randint(0, top)
            elif kind == 1:
                level = min(top, max(0, level + rng.randint(-2, 2)))
            elif kind == 2:
                level = rng.choice((0, top // 2, top))
            raw = self.raw_of(gauge, level)
            raws.append(rng.choice((MISSING, 2**31 - 1)) if rng.random() < 0.01 else raw)
        return raws

    def detail(self, number):
        rng = self.rng
        kind = rng.choice(("normal", "normal", "shear"))
        category = rng.choice((100, 80) if kind == "shear" else NORMAL)
        gauge = rng.randrange(len(self.names))
        return Detail("detail-%d" % number, gauge, kind, category, rng.choice((100, 115, 135)))

    def configuration(self):
        grid = self.grid
        lines = ["[grid]", "classes = %d" % grid.classes, "width = %d" % grid.width, "low = %d" % grid.low]
        lines += ["reference = %d" % grid.reference, "[count]", "block = %d" % self.block]
        lines += ["workers = %d" % self.workers]
        for name, (num, den, offset) in zip(self.names, self.gains):
            lines += ["[[gauge]]", 'name = "%s"' % name, 'file = "%s.sgrc"' % name]
            lines += ["num = %d" % num, "den = %d" % den, "offset = %d" % offset]
        for d in self.details:
            lines += ["[[detail]]", 'name = "%s"' % d.name, 'gauge = "%s"' % self.names[d.gauge]]
            lines += ['kind = "%s"' % d.kind, "category = %d" % d.category, "gamma = %d" % d.gamma]
        return "\n".join(lines) + "\n"

    def report(self, lengths):
        """The report of so many samples of each gauge."""
        return report(self.names, self.counts(lengths), self.details)

    def repeat(self, lengths):
        """The count of so many samples of each gauge as histories that repeat."""
        return repeat(self.names, self.counts(lengths))

    def counts(self, lengths):
        return self.counts_of([(0, n) for n in lengths])

    def counts_of(self, parts):
        """The counts of a part of each gauge, from one sample to another."""
        return [
            Count(self.grid, gain, raws[a:b]) for gain, raws, (a, b) in zip(self.gains, self.raws, parts)
        ]

    def head(self, version=2):
        """What the store is made for."""
        ids = [bytes([g + 1]) * 16 for g in range(len(self.names))]
        return stores.Head(self.grid, self.gains, ids, self.periods, version)

    def copy(self, lengths):
        """The compact copy of a store that holds so many samples of each gauge."""
        return stores.copy(self.head(), self.counts(lengths))

    def store(self, lengths, version):
        """A store that holds so many, in bodies that end anywhere, of gauges in any order."""
        ends, bodies = [0] * len(lengths), []
        while ends != lengths:
            g = self.rng.choice([g for g, n in enumerate(lengths) if ends[g] < n])
            first, ends[g] = ends[g], self.rng.randint(ends[g] + 1, min(lengths[g], ends[g] + 1 + lengths[g] // 3))
            count = Count(self.grid, self.gains[g], self.raws[g][first : ends[g]])
            bodies.append(stores.body(stores.Name(g, first, ends[g]), count, layout=version))
        return stores.store(self.head(version), bodies)

    def times(self, image):
        """The start and two borders: most of them near an end of a body of this store, the others anywhere."""
        rng = self.rng
        start = rng.choice((0, -1, 1704067200 * instants.SECOND, instants.EARLIEST, instants.LATEST))
        start = rng.choice((start, rng.randint(instants.EARLIEST, instants.LATEST)))
        ends = [start + 1000 * self.periods[name.gauge] * n for name in stores.names(image) for n in (name.first, name.end)]
        borders = []
        for _ in range(2):
            border = rng.choice((instants.EARLIEST, instants.LATEST, rng.randint(instants.EARLIEST, instants.LATEST)))
            if ends and rng.random() < 0.8:
                border = rng.choice(ends) + rng.choice((0, 0, 0, 1, -1, 1000, -1000, rng.randint(-(10**9), 10**9)))
            borders.append(min(max(border, instants.EARLIEST), instants.LATEST))
        return start, min(borders), max(borders)

    def window(self, image, start, first, last):
        """What `window` prints of this store."""
        parts = [
            window_of(stores.names_of(image, g), period, start, first, last) for g, period in enumerate(self.periods)
        ]
        return window_report(self.names, parts, self.counts_of(parts), self.details)


class Trial(Counted):
    def __init__(self, program, seed):
        super().__init__("site")
        self.program, self.seed = program, seed
        # how often it was killed, how often while it ran, and how often after it had acknowledged something
        self.kills = self.running = self.acknowledged = 0

    def check(self, what, got, due):
        super().check("seed %d: %s" % (self.seed, what), got, due)

    def run(self, *words):
        done = subprocess.run([self.program, *words], capture_output=True, text=True)
        return done.returncode, done.stdout, done.stderr

    def run_bytes(self, *words):
        """The same, where what is printed is no text."""
        done = subprocess.run([self.program, *words], capture_output=True)
        return done.returncode, done.stdout, done.stderr

    def kill(self, rng):
        """What a `count` or a `watch` acknowledged that is killed a moment after one of its first lines, or before any."""
        child = subprocess.Popen(
            [self.program, rng.choice(("count", "watch"))], stdout=subprocess.DEVNULL, stderr=subprocess.PIPE, text=True
        )
        told = ""
        for _ in range(rng.randint(0, 6)):
            told += child.stderr.readline()
        time.sleep(rng.random() * 0.002)
        child.kill()
        told += child.communicate()[1]
        self.kills += 1
        self.running += child.returncode == -9
        self.acknowledged += child.returncode == -9 and bool(held(told))
        return held(told)


def write(site, lengths):
    for g, (name, raws, n) in enumerate(zip(site.names, site.raws, lengths)):
        with open(name + ".sgrc", "wb") as out:
            out.write(recording(raws[:n], g + 1, site.periods[g]))


def windows(trial, site, tries):
    """So many windows over the store that is there."""
    image = read("monitor.store")
    for _ in range(tries):
        start, first, last = site.times(image)
        words = instants.words(site.rng, start, first, last)
        trial.check("window %s" % words, trial.run("window", *words), (0, site.window(image, start, first, last), ""))
        if first < last:
            status, text, told = trial.run("window", *instants.words(site.rng, start, last, first))
            trial.check("a window that ends before it begins", (status, text, told[:15]), (1, "", "usage: monitor "))
    trial.check("the store behind windows", read("monitor.store") == image, True)


def copies(trial, site, lengths):
    """The copy of the store that is there and holds so many samples, and the copy of that."""
    image = read("monitor.store")
    due = site.copy(lengths)
    trial.check("compact", trial.run_bytes("compact"), (0, due, b""))
    trial.check("the store behind compact", read("monitor.store") == image, True)
    write_file("monitor.store", due)
    trial.check("compact of a copy", trial.run_bytes("compact"), (0, due, b""))
    trial.check("report of a copy", trial.run("report"), (0, site.report(lengths), ""))
    windows(trial, site, 1)
    if site.rng.random() < 0.5:
        write_file("monitor.store", image)


def watch(trial, site, counted):
    """A `watch` over the store that is there ends as this `count` over the same did, and leaves the same bytes."""
    starts = samples(trial.run("report")[1])
    status, text, told = trial.run("watch", *site.rng.choice(((), ("--workers", str(site.rng.randint(1, 8))))))
    trial.check("watch", ((status, text, without_seen(told)), read("monitor.store")), counted)
    trial.check("what a watcher saw", seen_faults(told, site.names, starts), [])


def grow(trial, site, lengths, kills):
    """The recordings have grown to these lengths."""
    write(site, lengths)
    begun = time.time()
    acknowledged = {}
    due = trial.running + kills
    for _ in range(3 * kills):
        if trial.running == due:
            break
        acknowledged.update(trial.kill(site.rng))
        status, text, _ = trial.run("report")
        there = samples(text)
        trial.check("status of report", (status, len(there)), (0, len(site.names)))
        trial.check("report of a front", text, site.report(there))
        kept = [acknowledged.get(name, 0) <= n for name, n in zip(site.names, there)]
        trial.check("what was acknowledged", all(kept), True)
        if site.rng.random() < 0.25:
            windows(trial, site, 1)
    before = read("monitor.store")
    status, text, told = trial.run("count")
    counted = (status, text, told), read("monitor.store")
    write_file("monitor.store", before)
    watch(trial, site, counted)
    watch(trial, site, ((status, text, ""), counted[1]))
    trial.check("status of count", (status, other_lines(told)), (0, ""))
    trial.check("report of count", text, site.report(lengths))
    acknowledged.update(held(told))
    for name, n in zip(site.names, lengths):
        if name in held(told):
            trial.check("last acknowledged", held(told)[name], n)
    trial.check("report", trial.run("report"), (0, text, ""))
    trial.check("repeat", trial.run("repeat"), (0, site.repeat(lengths), ""))
    windows(trial, site, 1 if kills else 3)
    copies(trial, site, lengths)
    return time.time() - begun


def audit(trial, site, lengths):
    same = "".join("audit %s same\n" % name for name in site.names)
    trial.check("audit", trial.run("audit"), (0, same, ""))
    for g, n in enumerate(lengths):
        place = site.rng.randrange(n) if n else 0
        if n == 0 or site.raws[g][place] == MISSING:
            continue
        kept = site.raws[g][place]
        site.raws[g][place] = MISSING
        write(site, lengths)
        status, text, told = trial.run("audit")
        line = "audit %s: " % site.names[g]
        trial.check("audit of a change", (status, text, told[: len(line)]), (11, "", line))
        site.raws[g][place] = kept
        write(site, lengths)
        return


def begin_over(trial, site):
    """A store that is made here takes the place of the one that `init` made. How many samples it holds."""
    version = site.rng.choice((1, 2)) if site.grid.classes <= 128 else 2
    lengths = [site.rng.randint(0, len(raws) // 2) for raws in site.raws]
    write(site, lengths)
    write_file("monitor.store", site.store(lengths, version))
    trial.check("report of a store of version %d" % version, trial.run("report"), (0, site.report(lengths), ""))
    windows(trial, site, 3)
    copies(trial, site, lengths)
    return lengths


def case(trial, rng, kills):
    site = Site(rng, 20000 if kills else 400)
    with open("monitor.toml", "w") as out:
        out.write(site.configuration())
    write(site, [0] * len(site.names))
    made = trial.run("init")
    trial.check("init", made, (0, "", "init %d\n" % len(site.names)))
    trial.check("init again", trial.run("init")[0], 3)
    lengths = [0] * len(site.names)
    if not kills and rng.random() < 0.3:
        lengths = begin_over(trial, site)
    for _ in range(rng.randint(1, 3)):
        lengths = [rng.randint(n, len(raws)) for n, raws in zip(lengths, site.raws)]
        grow(trial, site, lengths, kills)
    audit(trial, site, lengths)


def main():
    if len(sys.argv) < 2:
        sys.exit(__doc__.splitlines()[2])
    program = os.path.abspath(sys.argv[1])
    seed = int(sys.argv[2]) if len(sys.argv) > 2 else 1
    cases = int(sys.argv[3]) if len(sys.argv) > 3 else 100
    kills = int(sys.argv[4]) if len(sys.argv) > 4 else 0
    trial = Trial(program, seed)
    for number in range(cases):
        with tempfile.TemporaryDirectory() as room:
            os.chdir(room)
            case(trial, random.Random("%d %d" % (seed, number)), kills)
            os.chdir("/")
    if trial.kills:
        # How many come too late is the machine's speed, so this is told; a script that never met a running program tried nothing.
        print("site: killed %d times, %d while it ran, %d of these after a line" % (trial.kills, trial.running, trial.acknowledged))
        trial.check("some kills met a running program after a line", trial.acknowledged > 0, True)
    return trial.end()


if __name__ == "__main__":
    sys.exit(main())
