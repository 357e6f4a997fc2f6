#!/usr/bin/env python3
"""Refuses the program memory, one request at a time, and looks at how it ends.

refused.py PROGRAM

A small library in C is put before the system's own (LD_PRELOAD), which refuses the Nth request of a run. Each command below runs with N
from 1 on, until a run makes fewer requests. What is checked:
- the run ends as the one without a refusal does, in status, text and lines, or it tells `out of memory` last, ends with status 9, and
  prints nothing;
- after `init` there is no store, one that is none yet, or the whole one;
- after `count` the store holds a front of the recording, with at least what was acknowledged, and a further `count` prints the report;
- `watch` ends so too, where of its lines only those that tell what its watcher saw may be others, by their rule. Where it ends with status 9
  the store is as it was, or holds every sample, since a watcher that could not be shown a segment doesn't stop the storing; and it ends so after
  some refusal at least.
What is expected comes from an independent count (model.py). It needs a C compiler, as $CC or cc. Last line: refused: N passed, M failed
"""

import os
import subprocess
import sys
import tempfile

# No folder is made in the checkout.
sys.dont_write_bytecode = True

import stores
from model import Count, Detail, Grid, recording, repeat, report, seen_faults, window_report
from trial import ALL_TIME, GAIN, GRID, ONE_GAUGE, as_text, held, read, samples, without_seen, write
from trial import Trial as Counted

LIBRARY = r"""
#include <errno.h>
#include <stdatomic.h>
#include <stdlib.h>
#include <unistd.h>
void *__libc_malloc(size_t);
void *__libc_calloc(size_t, size_t);
void *__libc_realloc(void *, size_t);
void *__libc_memalign(size_t, size_t);
static atomic_long requests;
static long refused;
static int fd;
__attribute__((constructor)) static void begin(void) {
    refused = atol(getenv("REFUSED"));
    fd = atoi(getenv("REFUSED_FD"));
}
static int refuses(void) {
    if (refused == 0 || atomic_fetch_add(&requests, 1) + 1 != refused) return 0;
    (void)!write(fd, "x", 1);
    errno = ENOMEM;
    return 1;
}
void *malloc(size_t n) { return refuses() ? 0 : __libc_malloc(n); }
void *calloc(size_t n, size_t m) { return refuses() ? 0 : __libc_calloc(n, m); }
void *realloc(void *p, size_t n) { return refuses() ? 0 : __libc_realloc(p, n); }
void *memalign(size_t a, size_t n) { return refuses() ? 0 : __libc_memalign(a, n); }
void *aligned_alloc(size_t a, size_t n) { return refuses() ? 0 : __libc_memalign(a, n); }
int posix_memalign(void **p, size_t a, size_t n) {
    if (refuses()) return ENOMEM;
    *p = __libc_memalign(a, n);
    return *p ? 0 : ENOMEM;
}
"""

CONFIGURATION = ONE_GAUGE + """[[detail]]
name = "W1"
gauge = "G1"
kind = "normal"
category = 71
gamma = 100
"""
EXAMPLE = [-2, 1, -3, 5, -1, 3, -4, 4, -2]
# Two rounds of a recording.
LONG = EXAMPLE * 11
STORE = bytes.fromhex(
    "015347535402000100100002ffffffffffffe0c00008" + "11" * 16 + "0000271000000000000003e800000001000000000000000000"
)


def report_of(raws):
    return report(["G1"], [Count(GRID, GAIN, raws)], [Detail("W1", 0, "normal", 71, 100)])


def window_of_all():
    """The window in which all samples lie."""
    return window_report(["G1"], [(0, len(EXAMPLE))], [Count(GRID, GAIN, EXAMPLE)], [Detail("W1", 0, "normal", 71, 100)])


def copy_of_all():
    """The compact copy of the store that holds all samples."""
    return as_text(stores.copy(stores.Head(GRID, [GAIN], [b"\x11" * 16], [10000]), [Count(GRID, GAIN, EXAMPLE)]))


def table_of(raws):
    lines = Count(Grid(64, 2, 0, 32), GAIN, raws).table()
    return "".join(line + "\n" for line in lines)


class Trial(Counted):
    def __init__(self, program, library):
        super().__init__("refused")
        self.program, self.library = program, library

    def check(self, what, got, due):
        """Looks whether it is one of those that are due."""
        super().check(what, got, got if got in due else due)

    def run(self, words, number=0):
        """Status, text and lines of a run of which this request is refused, and whether it came so far."""
        reader, writer = os.pipe()
        env = dict(os.environ, LD_PRELOAD=self.library, REFUSED=str(number), REFUSED_FD=str(writer))
        done = subprocess.run([self.program, *words], capture_output=True, env=env, pass_fds=[writer], timeout=60)
        os.close(writer)
        was_refused = os.read(reader, 1) == b"x"
        os.close(reader)
        return (done.returncode, as_text(done.stdout), as_text(done.stderr)), was_refused

    def beside_watcher(self, words, ended):
        """The same, without what a watcher saw, which is looked at here. (Nothing is held when a `watch` begins.)"""
        status, text, told = ended
        if words != ["watch"]:
            return ended
        faults = seen_faults(told, ["G1"], [0]) if status == 0 else [line for line in told.splitlines() if line.startswith("seen ")]
        self.check("what a watcher saw", faults, [[]])
        return status, text, without_seen(told)

    def each(self, name, words, begin, after):
        """Tries a command with each request refused, in a folder that `begin` fills. `after` looks at it, with the lines that were told."""
        begin()
        whole, _ = self.run(words)
        whole = self.beside_watcher(words, whole)
        number = outs = 0
        while True:
            number += 1
            begin()
            ended, was_refused = self.run(words, number)
            ended = self.beside_watcher(words, ended)
            if not was_refused:
                self.check("%s, which makes %d requests" % (name, number - 1), ended, [whole])
                break
            status, text, told = ended
            outs += status == 9
            if status == 9:
                self.check("%s: text where request %d is refused" % (name, number), text, [""])
                self.check("%s: lines where request %d is refused" % (name, number), told.endswith("out of memory\n"), [True])
            else:
                self.check("%s: end where request %d is refused" % (name, number), ended, [whole])
            after(number, told)
        print("refused: %s: %d requests, %d of them end it" % (name, number - 1, outs))


def store():
    return read("monitor.store") if os.path.exists("monitor.store") else b""


def no_store():
    if os.path.exists("monitor.store"):
        os.remove("monitor.store")


def rows(trial):
    write("monitor.toml", CONFIGURATION.encode())
    write("g1.sgrc", recording(EXAMPLE))
    write("t.sgrc", recording([raw + 8 for raw in EXAMPLE]))

    def after_init(number, told):
        left = store()
        is_none = len(left) < 22 or left[0] != 1
        trial.check("init: store where request %d is refused" % number, is_none or left == STORE, [True])
        trial.check("init: line where request %d is refused" % number, "init 1\n" not in told or left == STORE, [True])

    def after_count(number, told):
        acknowledged = held(told).get("G1", 0)
        ended, _ = trial.run(["report"])
        fronts = [(0, report_of(EXAMPLE[:n]), "") for n in range(acknowledged, 10)]
        trial.check("report where request %d of count was refused" % number, ended, fronts)
        status, text, _ = trial.run(["count"])[0]
        trial.check("count where request %d of count was refused" % number, (status, text), [(0, report_of(EXAMPLE))])

    shows_refused = []  # the requests whose refusal ended a `watch` that had stored all samples

    def after_watch(number, told):
        ended, _ = trial.run(["report"])
        no_memory = told.endswith("out of memory\n")
        ends = [0, len(LONG)] if no_memory else [len(LONG)]
        if no_memory and held(told).get("G1", 0) == len(LONG):
            shows_refused.append(number)
        trial.check("report where request %d of watch was refused" % number, ended, [(0, report_of(LONG[:n]), "") for n in ends])
        trial.check("what watch acknowledged then", held(told).get("G1", 0), samples(ended[1]))
        status, text, _ = trial.run(["count"])[0]
        trial.check("count where request %d of watch was refused" % number, (status, text), [(0, report_of(LONG))])

    def after_reading(image):
        return lambda number, told: trial.check("store where request %d is refused" % number, store() == image, [True])

    trial.each("init", ["init"], no_store, after_init)
    trial.each("init again", ["init"], lambda: write("monitor.store", STORE), after_reading(STORE))
    write("g1.sgrc", recording(LONG))
    trial.each("watch", ["watch"], lambda: write("monitor.store", STORE), after_watch)
    trial.check("watch tells where a show was refused", bool(shows_refused), [True])
    write("g1.sgrc", recording(EXAMPLE))
    trial.each("count", ["count"], lambda: write("monitor.store", STORE), after_count)
    trial.check("count", trial.run(["count"])[0], [(0, report_of(EXAMPLE), "")])
    image = store()
    repeated = repeat(["G1"], [Count(GRID, GAIN, EXAMPLE)])
    readers = (("report",), report_of(EXAMPLE)), (("repeat",), repeated), (("audit",), "audit G1 same\n")
    for words, due in (*readers, (ALL_TIME, window_of_all()), (("compact",), copy_of_all())):
        trial.check(words[0], trial.run(words)[0], [(0, due, "")])
        trial.each(words[0], words, lambda: None, after_reading(image))
    no_store()
    trial.check("no store", trial.run(["report"])[0], [(3, "", "store: not a store\n")])
    for words in (["report"], ALL_TIME, ["compact"]):
        trial.each("%s of no store" % words[0], words, no_store, after_reading(b""))
    trial.check("table", trial.run(["table", "t.sgrc"])[0], [(0, table_of([raw + 8 for raw in EXAMPLE]), "")])
    trial.each("table", ["table", "t.sgrc"], no_store, after_reading(b""))
    sheet = "G1\n" + "".join("%d\n" % raw for raw in EXAMPLE)
    trial.check("sheet", trial.run(["sheet"])[0], [(0, sheet, "")])
    trial.each("sheet", ["sheet"], no_store, after_reading(b""))
    write("d.csv", b"t,G1\n0,-2\n1,1\n2,\n")
    column = ["column", "d.csv", "G1", "11" * 16, "10000"]
    made = as_text(recording([-2, 1, -(2**31)]))
    trial.check("column", trial.run(column)[0], [(0, made, "")])
    trial.each("column", column, no_store, after_reading(b""))
    trial.each("demo", ["demo", "--samples", "100", "--workers", "2"], no_store, after_reading(b""))


def main():
    if len(sys.argv) < 2:
        sys.exit(__doc__.splitlines()[2])
    program = os.path.abspath(sys.argv[1])
    with tempfile.TemporaryDirectory() as room:
        os.chdir(room)
        write("refusing.c", LIBRARY.encode())
        subprocess.run([os.environ.get("CC", "cc"), "-O1", "-shared", "-fPIC", "-o", "refusing.so", "refusing.c"], check=True)
        trial = Trial(program, os.path.join(room, "refusing.so"))
        rows(trial)
        os.chdir("/")
    return trial.end()


if __name__ == "__main__":
    sys.exit(main())
