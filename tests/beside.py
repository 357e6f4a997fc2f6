#!/usr/bin/env python3
"""Starts commands of the program beside each other over one store.

beside.py PROGRAM [SEED [TRIALS]]

- Two and three writers, each `count` or `watch`, at once, TRIALS times (60 where it is left out), over recordings that grow between and during
  them. Each ends with the report of what it read, or is refused since another holds the store. Afterwards the report is that of all the samples.
- `report`, `repeat`, `window` and `compact` beside a writer with a backlog, until TRIALS of them began and ended while it ran. Each prints what is
  held of a front of each recording, with at least what was acknowledged before it began.
- Two `init` at once, half as often. One makes the store, the other is refused.
- `count`, `watch`, `init` and the readers beside a program that holds the store.
What is expected comes from an independent count (model.py). Last line: beside: N passed, M failed
"""

import fcntl
import os
import random
import subprocess
import sys
import tempfile
import threading
import time

# No folder is made in the checkout.
sys.dont_write_bytecode = True

import stores
from model import Count, recording, repeat, report, seen_faults, window_report
from trial import ALL_TIME, GAIN, GRID, Trial, as_text, held, other_lines, parts, read, samples, without_seen

IN_USE = "monitor: monitor.store: in use by another monitor\nstation fault\n"
NAMES = ["north", "south"]
WRITERS = ("count", "watch")

# Readers that are few beside one writer, and samples of a recording that are many for a trial.
FEW = 4
LONG = 60_000


def configuration(block):
    lines = ["[grid]", "classes = 16", "width = 2", "low = -8000", "reference = 8"]
    lines += ["[count]", "block = %d" % block, "workers = 2"]
    for name in NAMES:
        lines += ["[[gauge]]", 'name = "%s"' % name, 'file = "%s.sgrc"' % name, "num = 1000"]
    return "\n".join(lines) + "\n"


class Run:
    """A command that runs, whose lines are read as they come."""

    def __init__(self, program, *words):
        self.child = subprocess.Popen([program, *words], stdout=subprocess.PIPE, stderr=subprocess.PIPE)
        self.told, self.printed = "", ""
        self.readers = [threading.Thread(target=read) for read in (self.read_lines, self.read_text)]
        for reader in self.readers:
            reader.start()

    def read_lines(self):
        for line in self.child.stderr:
            self.told += as_text(line)

    def read_text(self):
        self.printed = as_text(self.child.stdout.read())

    def is_running(self):
        return self.child.poll() is None

    def end(self):
        self.child.wait()
        for reader in self.readers:
            reader.join()
        self.child.stdout.close()
        self.child.stderr.close()
        return self.child.returncode, self.printed, self.told


class Trials(Trial):
    def __init__(self, program, seed):
        super().__init__("beside")
        self.program, self.rng = program, random.Random(seed)
        self.raws = [[] for _ in NAMES]

    def run(self, *words):
        return Run(self.program, *words).end()

    def grow(self, most):
        """Each recording gets up to so many samples more."""
        for raws, name, number in zip(self.raws, NAMES, (1, 2)):
            more = [self.rng.randint(-9, 8) for _ in range(self.rng.randint(most // 2, most))]
            is_new = not raws
            raws += more
            with open(name + ".sgrc", "wb" if is_new else "ab") as out:
                out.write(recording(more, number)[0 if is_new else 32 :])

    def begin(self, block):
        """A new site with a store."""
        self.raws = [[] for _ in NAMES]
        for name in os.listdir("."):
            os.remove(name)
        with open("monitor.toml", "w") as out:
            out.write(configuration(block))
        self.grow(4)
        self.check("init", self.run("init"), (0, "", "init 2\n"))

    def counts(self, lengths):
        return [Count(GRID, GAIN, raws[:n]) for raws, n in zip(self.raws, lengths)]

    def report(self, lengths):
        return report(NAMES, self.counts(lengths), [])

    def repeat(self, lengths):
        return repeat(NAMES, self.counts(lengths))

    def window(self, lengths):
        """The window of all time."""
        return window_report(NAMES, [(0, n) for n in lengths], self.counts(lengths), [])

    def copy(self, lengths):
        head = stores.Head(GRID, [GAIN] * len(NAMES), [bytes([number]) * 16 for number in (1, 2)], [10000] * len(NAMES))
        return as_text(stores.copy(head, self.counts(lengths)))

    def check_front(self, word, end, acknowledged):
        """What a reader printed is of a front of each recording, with at least what was acknowledged."""
        status, printed, told = end
        self.check("%s beside a writer" % word, (status, told), (0, ""))
        if word == "repeat":
            return
        if word == "report":
            there, text_of = samples(printed), self.report
        elif word == "window":
            there, text_of = [end for _, end in parts(printed)], self.window
        else:
            ends = {name.gauge: name.end for name in stores.names(printed.encode("utf-8", "surrogateescape"))}
            there, text_of = [ends.get(gauge, 0) for gauge in range(len(NAMES))], self.copy
        enough = [acknowledged.get(name, 0) <= n for name, n in zip(NAMES, there)]
        self.check("what was acknowledged before %s" % word, enough, [True] * len(NAMES))
        self.check("%s of a front" % word, printed, text_of(there))

    def check_lines(self, word, told, starts):
        """A writer that ended well acknowledged, and told what its watcher saw if it had one; each of the starts may be what it found held."""
        if word == "watch":
            faults = [seen_faults(told, NAMES, start) for start in starts]
            self.check("what a watcher saw", [] if [] in faults else faults, [])
            told = without_seen(told)
        self.check("lines of %s" % word, other_lines(told), "")

    def end_of_one(self, word, end, before, starts):
        """What a writer beside others acknowledged. Its recordings had these lengths when it was started."""
        status, printed, told = end
        if status == 8:
            self.check("a second writer", (printed, told), ("", IN_USE))
            return {}, 1
        self.check("status of %s" % word, status, 0)
        there = samples(printed)
        grown = [low <= n <= len(raws) for low, n, raws in zip(before, there, self.raws)]
        self.check("how much was counted", grown, [True] * len(NAMES))
        self.check("report of %s" % word, printed, self.report(there))
        self.check_lines(word, told, starts)
        return held(told), 0

    def count_at_once(self, writers):
        """So many writers over recordings that have grown, and some that grow on."""
        starts = [samples(self.run("report")[1])]
        self.grow(300)
        before = [len(raws) for raws in self.raws]
        words = [self.rng.choice(WRITERS) for _ in range(writers)]
        runs = []
        for word in words:
            runs.append(Run(self.program, word))
            time.sleep(self.rng.choice((0, 0, 0.001, 0.004)))
        if self.rng.random() < 0.5:
            self.grow(60)
        refused, acknowledged = 0, {}
        ends = [run.end() for run in runs]
        # (what one of them left is what the next one finds)
        starts += [samples(printed) for status, printed, _ in ends if status == 0]
        for word, end in zip(words, ends):
            last, was_refused = self.end_of_one(word, end, before, starts)
            refused += was_refused
            for name, n in last.items():
                acknowledged[name] = max(n, acknowledged.get(name, 0))
        self.check("one of them counted", refused < writers, True)
        status, printed, told = self.run("report")
        self.check("report", (status, told), (0, ""))
        there = samples(printed)
        self.check("all that was acknowledged", [acknowledged.get(name, 0) <= n for name, n in zip(NAMES, there)], [True] * len(NAMES))
        self.check("report of a front", printed, self.report(there))
        lengths = [len(raws) for raws in self.raws]
        word = self.rng.choice(WRITERS)
        status, printed, told = self.run(word)
        self.check("a further %s" % word, (status, printed), (0, self.report(lengths)))
        self.check_lines(word, told, [there])
        return refused

    def read_beside(self, due):
        """Readers until so many ran beside a writer. How many did. Where few ran beside one, the next one has more to count."""
        beside = writers = 0
        backlog = 4000
        while beside < due and writers < 10 * due:
            writers += 1
            before = beside
            if len(self.raws[0]) > LONG:
                self.begin(1)
            starts = [samples(self.run("report")[1])]
            self.grow(backlog)
            writer = WRITERS[writers % 2]
            run = Run(self.program, writer)
            while run.is_running() and beside < due:
                words = self.rng.choice((("report",), ("report",), ("repeat",), ALL_TIME, ("compact",)))
                acknowledged = held(run.told)
                end = self.run(*words)
                beside += run.is_running()
                self.check_front(words[0], end, acknowledged)
            status, printed, told = run.end()
            lengths = [len(raws) for raws in self.raws]
            self.check("%s with readers" % writer, (status, printed), (0, self.report(lengths)))
            self.check_lines(writer, told, starts)
            self.check("repeat", self.run("repeat"), (0, self.repeat(lengths), ""))
            self.check("window", self.run(*ALL_TIME), (0, self.window(lengths), ""))
            self.check("compact", self.run("compact"), (0, self.copy(lengths), ""))
            if beside < before + FEW:
                backlog = min(2 * backlog, LONG)
        return beside

    def init_at_once(self, store):
        """Two `init`, of which one makes these bytes."""
        os.remove("monitor.store")
        runs = [Run(self.program, "init"), Run(self.program, "init")]
        ends = sorted(run.end() for run in runs)
        self.check("one init", ends[0], (0, "", "init 2\n"))
        others = [(3, "", "store: not empty, %d bytes\n" % len(store)), (8, "", IN_USE)]
        self.check("the other init", ends[1] in others or ends[1], True)
        self.check("the store", read("monitor.store"), store)
        return ends[1][0] == 8

    def hold(self):
        """Each command beside a program that holds the store."""
        lengths = [len(raws) for raws in self.raws]
        with open("monitor.store", "r+b") as store:
            fcntl.flock(store, fcntl.LOCK_EX)
            for word in WRITERS:
                self.check("%s of a store in use" % word, self.run(word), (8, "", IN_USE))
            self.check("init of a store in use", self.run("init"), (8, "", IN_USE))
            self.check("report of a store in use", self.run("report"), (0, self.report(lengths), ""))
            self.check("repeat of a store in use", self.run("repeat"), (0, self.repeat(lengths), ""))
            self.check("window of a store in use", self.run(*ALL_TIME), (0, self.window(lengths), ""))
            self.check("compact of a store in use", self.run("compact"), (0, self.copy(lengths), ""))
            same = "".join("audit %s same\n" % name for name in NAMES)
            self.check("audit of a store in use", self.run("audit"), (0, same, ""))
        for word in WRITERS:
            self.check("%s of a store that was let go" % word, self.run(word)[0], 0)


def main():
    program = os.path.abspath(sys.argv[1])
    seed, due = [int(word) for word in (sys.argv[2:] + ["1", "60"][len(sys.argv) - 2 :])]
    trials = Trials(program, seed)
    with tempfile.TemporaryDirectory() as room:
        os.chdir(room)
        refused = 0
        for number in range(due):
            if number % 12 == 0:
                trials.begin(trials.rng.choice((1, 4)))
            refused += trials.count_at_once(2 + number % 2)
        trials.hold()
        trials.begin(1)
        beside = trials.read_beside(due)
        trials.check("readers beside a writer", beside, due)
        trials.begin(4)
        store = read("monitor.store")
        refused_inits = sum(trials.init_at_once(store) for _ in range(due // 2))
        os.chdir("/")
    print("beside: %d writers and %d makers were refused, %d readers ran beside a writer" % (refused, refused_inits, beside))
    return trials.end()


if __name__ == "__main__":
    sys.exit(main())
