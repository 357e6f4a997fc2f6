#!/usr/bin/env python3
"""Hands the program files and words as a stranger might, and looks at how it ends.

fuzz.py PROGRAM [SEED [RUNS]]

Random sites (site.py) are made, counted by the program, and kept. Each run takes one, changes its configuration, a recording, its
store, several of these or the command's words at random, and runs a command over it, under a limit of address space and of time.
Bodies of a changed store often get a digest that fits, so that what stands behind the digest is met too. What is checked:
- the exit status is one of docs/FORMATS.md that the command may have: no signal ends the program, and no limit of time;
- the line of the status is told last, in the form of docs/FORMATS.md, and besides only lines that acknowledge, or tell what a watcher saw;
- with another status than 0 nothing is printed, and with 0 the command's text is;
- a copy that `compact` writes is one of which `report` prints what it prints of the store, and `compact` the same bytes;
- the store is as it was where it has to be;
- the program never takes more memory than the greatest site needs.
The folder of a run that fails is kept and named. Last line: fuzz: N passed, M failed
"""

import collections
import hashlib
import importlib.util
import os
import random
import re
import resource
import shutil
import struct
import sys
import tempfile

# No folder is made in the checkout.
sys.dont_write_bytecode = True

import instants
from model import recording

# (The name `site` is that of a module of Python.)
_spec = importlib.util.spec_from_file_location("random_site", os.path.join(os.path.dirname(os.path.abspath(__file__)), "site.py"))
random_site = importlib.util.module_from_spec(_spec)
_spec.loader.exec_module(random_site)

ADDRESS_SPACE = 4 << 30
SECONDS = 20
# In KiB: what docs/ARCHITECTURE.md says of the greatest site.
MOST_MEMORY = 1_000_000_000 // 1024

FORMS = {
    1: r"usage: monitor table FILE \| init \| .*",
    2: r"config: (not TOML|too long|missing .*|wrong kind .*|out of range .*|double (gauge|detail) \d+ \d+|no such gauge, detail \d+)",
    3: r"store: (not a store|version \d+|not empty, \d+ bytes|.* was -?\d+, is -?\d+|damaged at \d+(, kept [0-9a-f]{64}, found [0-9a-f]{64})?)",
    4: r"recording .*: (short|no SGRC|version \d+|not zero|id was [0-9a-f]{32}, is [0-9a-f]{32}|period was \d+, is \d+|\d+ held, \d+ there)",
    5: r"recording .*: ends in [123] odd bytes",
    6: r"read fault",
    8: r"station fault",
    9: r"out of memory",
    11: r"audit .*: (used|missing|refused|cell \d+ \d+) held \d+, recount \d+",
}
# The statuses of each command; 1 is that of words that are no command.
STATUSES = {
    "table": (0, 4, 5, 6, 9),
    "init": (0, 2, 3, 4, 6, 8, 9),
    "count": (0, 2, 3, 4, 5, 6, 8, 9),
    "watch": (0, 2, 3, 4, 5, 6, 8, 9),
    "report": (0, 2, 3, 6, 8, 9),
    "repeat": (0, 2, 3, 6, 8, 9),
    "audit": (0, 2, 3, 4, 6, 8, 9, 11),
    "window": (0, 2, 3, 6, 8, 9),
    "compact": (0, 2, 3, 6, 8, 9),
}
BEGINS = {"table": b"samples ", "init": b"", "count": b"gauge ", "watch": b"gauge ", "report": b"gauge ", "repeat": b"repeat ", "audit": b"audit "}
BEGINS |= {"window": b"window ", "compact": b"\x01SGST\x02"}
# The lines that a command may tell besides that of its status; those that tell what a watcher saw come with status 0 alone.
LINES_BESIDE = {"init": r"init \d+", "count": r"held [A-Za-z0-9_-]{1,32} [1-9]\d*"}
LINES_BESIDE["watch"] = LINES_BESIDE["count"]
SEEN = r"seen [A-Za-z0-9_-]{1,32} \d+"
# The commands that read the store and no recording.
READERS = ("report", "repeat", "window", "compact")
NUMBERS = [0, 1, 2, 3, 7, 8, 127, 128, 129, 255, 256, 1024, 1025, 4095, 4096, 65535, 65536, 10**6, 10**9, 10**9 + 1]
NUMBERS += [2**31 - 1, 2**31, 2**32 - 1, 2**32, 2**40 - 1, 2**40, 2**63 - 1, 2**63, 2**64 - 1, 2**64, 10**30]


# What is made of bytes.


def cut(rng, data):
    return data[: rng.randint(0, len(data))]


def turned(rng, data):
    data = bytearray(data)
    for _ in range(rng.choice((1, 1, 1, 2, 4, 16))):
        if data:
            place = rng.randrange(len(data))
            data[place] = rng.choice((data[place] ^ (1 << rng.randrange(8)), data[place] ^ 0xFF, 0, 1, 0xFF, rng.randrange(256)))
    return bytes(data)


def without(rng, data):
    start = rng.randint(0, len(data))
    return data[:start] + data[start + rng.choice((1, 2, 4, 8, rng.randint(0, 64))) :]


def widened(rng, data):
    start = rng.randint(0, len(data))
    more = rng.choice((bytes(rng.randint(1, 64)), rng.randbytes(rng.randint(1, 64)), data[start : start + rng.randint(1, 300)]))
    return data[:start] + more + data[start:]


def numbered(rng, data):
    """A number of 2, 4 or 8 bytes stands somewhere, in either order of bytes."""
    size = rng.choice((2, 4, 8))
    if len(data) < size:
        return data
    number = rng.choice(NUMBERS + [-1, -2]) % (1 << (8 * size))
    start = rng.randint(0, len(data) - size)
    return data[:start] + number.to_bytes(size, rng.choice(("big", "little"))) + data[start + size :]


def replaced(rng, data):
    return rng.choice((b"", bytes(rng.randint(1, 500)), rng.randbytes(rng.randint(1, 500)), b"\xff" * rng.randint(1, 500)))


CHANGES = [cut, turned, turned, turned, without, widened, numbered, numbered]


def changed(rng, data):
    if rng.random() < 0.02:
        return replaced(rng, data)
    for _ in range(rng.choice((1, 1, 1, 2, 3))):
        data = rng.choice(CHANGES)(rng, data)
    return data


# What is made of a configuration.

LINES = [
    "x = " + "[" * 40 + "]" * 40,
    "x = " + "[" * 30000,
    "x = " + "{a=" * 8000,
    "[" + "a." * 20000 + "a]",
    "a." * 20000 + "a = 1",
    "x = '" + "y" * 60000 + "'",
    "# " + "z" * 66000,
    "x = 1979-05-27T07:32:00Z",
    "x = 1e400",
    "x = -nan",
    'x = "\\U0010FFFF\\uD800"',
    'x = """\n\n"""',
    "[[gauge]]",
    "[[gauge.more]]",
    "[gauge]",
    "[count]",
    "[grid]",
    "[[detail]]",
    "classes = 1024",
    'name = "a b"',
    'file = "/"',
    'file = "."',
    'file = ""',
    'file = "\\u0000"',
    'file = "' + "f" * 256 + '"',
    'file = "/dev/null"',
    "\x00",
    "\ufeff",
]
VALUES = ['""', "true", "[]", "{}", "1.5", "0x10", "0o17", "1_000", "+8", "-0", "''", "1979-05-27", "inf", '"16"']


def with_line(rng, lines):
    lines.insert(rng.randint(0, len(lines)), rng.choice(LINES))


def without_line(rng, lines):
    del lines[rng.randrange(len(lines))]


def with_line_twice(rng, lines):
    lines.insert(rng.randint(0, len(lines)), rng.choice(lines))


def with_lines_moved(rng, lines):
    start = rng.randrange(len(lines))
    part = lines[start : start + rng.randint(1, 8)]
    del lines[start : start + len(part)]
    place = rng.randint(0, len(lines))
    lines[place:place] = part


def with_value(rng, lines):
    place = rng.randrange(len(lines))
    key, equals, _ = lines[place].partition(" = ")
    if equals:
        number = rng.choice(NUMBERS) * rng.choice((1, 1, -1))
        lines[place] = key + equals + rng.choice((str(number), str(number), rng.choice(VALUES)))


def with_gauges(rng, lines):
    for number in range(rng.randint(1, 33)):
        lines += ["[[gauge]]", 'name = "more-%d"' % number, 'file = "gauge-0.sgrc"', "num = 1000"]


def changed_configuration(rng, text):
    if rng.random() < 0.4:
        return changed(rng, text)
    lines = text.decode().split("\n")
    for _ in range(rng.choice((1, 1, 1, 2, 5))):
        if lines:
            rng.choice((with_line, without_line, with_line_twice, with_lines_moved, with_value, with_value, with_gauges))(rng, lines)
    return "\n".join(lines).encode("utf-8", "surrogatepass")


# What is made of a store.


def with_digests(store):
    """The same store with a digest that fits behind each body, as far as its lengths are sound."""
    data = bytearray(store)
    place = 23 + 40 * struct.unpack(">H", store[6:8])[0] if len(store) >= 8 else len(store)
    while place + 4 <= len(data):
        end = place + 4 + struct.unpack(">I", data[place : place + 4])[0]
        if end + 33 > len(data):
            break
        data[end : end + 32] = hashlib.sha256(data[place:end]).digest()
        place = end + 33
    return bytes(data)


def changed_store(rng, store):
    store = changed(rng, store)
    return with_digests(store) if rng.random() < 0.6 else store


class Kept:
    """A site that was counted: its configuration, its recordings, and its stores, before it was counted, in the middle and after."""

    def __init__(self, program, rng):
        site = random_site.Site(rng, 120)
        self.files = ["%s.sgrc" % name for name in site.names]
        self.configuration = site.configuration().encode()
        self.recordings = [recording(raws, g + 1) for g, raws in enumerate(site.raws)]
        self.stores = [b""]
        for share in (0, 2, 1):
            lengths = [len(raws) // share if share else 0 for raws in site.raws]
            with tempfile.TemporaryDirectory() as room:
                parts = [recording(raws[:n], g + 1) for g, (raws, n) in enumerate(zip(site.raws, lengths))]
                put(room, self.configuration, dict(zip(self.files, parts)), self.stores[-1])
                status, _, told, _ = run(program, room, ["count" if share else "init"])
                if status != 0:
                    raise SystemExit("fuzz: a sound site was refused: %r" % told)
                self.stores.append(read(os.path.join(room, "monitor.store")))


def read(path):
    try:
        with open(path, "rb") as file:
            return file.read()
    except OSError:
        return None


def put(room, configuration, recordings, store):
    """Writes the files of a site. A store of no bytes is left out."""
    for name, data in [("monitor.toml", configuration), ("monitor.store", store or None), *recordings.items()]:
        if data is not None:
            with open(os.path.join(room, name), "wb") as file:
                file.write(data)


def limited():
    resource.setrlimit(resource.RLIMIT_AS, (ADDRESS_SPACE, ADDRESS_SPACE))
    resource.setrlimit(resource.RLIMIT_CPU, (SECONDS, SECONDS))
    resource.setrlimit(resource.RLIMIT_CORE, (0, 0))


def run(program, room, words):
    """The status (below 0: the signal), what is printed and told, and the greatest resident memory."""
    with tempfile.TemporaryFile() as out, tempfile.TemporaryFile() as told:
        child = os.fork()
        if child == 0:
            try:
                os.chdir(room)
                os.dup2(os.open(os.devnull, os.O_RDONLY), 0)
                os.dup2(out.fileno(), 1)
                os.dup2(told.fileno(), 2)
                limited()
                os.execv(program, [program, *words])
            finally:
                os._exit(127)
        _, status, usage = os.wait4(child, 0)
        out.seek(0)
        told.seek(0)
        return os.waitstatus_to_exitcode(status), out.read(), told.read(), usage.ru_maxrss


WORDS = ["", "-", "--", "-h", "--help", "--workers", "--workers=2", "--workers=0", "9", "-1", "x" * 5000, "\n", "--seed", "count"]
TIMES = ["2024-01-01T00:00:00Z", "2024-01-01", "2024-02-30T00:00:00Z", "9999-12-31T23:59:59Z", "-009999-01-01T00:00:00Z", "-000000-01-01T00:00:00Z"]
TIMES += ["2024-01-01T00:00:00.%sZ" % ("9" * 5000), "2024-01-01T00:00:00[UTC]", "2024-01-01T00:00:00+25:59:59[!x=y]", "20240101T000000.5Z", "noon"]


def times(rng):
    """The words of a window, most of them in order."""
    if rng.random() < 0.1:
        return [rng.choice(TIMES) for _ in range(3)]
    # (as far apart as the bodies of a random site)
    near = [rng.randrange(2 * 10**9) for _ in range(2)]
    borders = near if rng.random() < 0.8 else [rng.randint(instants.EARLIEST, instants.LATEST) for _ in range(2)]
    return instants.words(rng, 0, *(sorted(borders) if rng.random() < 0.95 else borders))


class Case:
    """One run: the files of a site, the command and its words."""

    def __init__(self, rng, kept):
        self.command = rng.choice(("table", "init", "count", "watch", "report", "repeat", "audit", "window", "compact"))
        self.configuration = kept.configuration
        self.recordings = dict(zip(kept.files, kept.recordings))
        self.store = b"" if self.command == "init" and rng.random() < 0.8 else rng.choice(kept.stores)
        self.file = rng.choice(kept.files)
        self.words = [self.command] + ([self.file] if self.command == "table" else times(rng) if self.command == "window" else [])
        # (a window's words may be in the wrong order, or no instants)
        self.words_changed = self.command == "window"
        for part in rng.sample(self.parts(), rng.choice((1, 1, 1, 2))):
            part(rng)

    def parts(self):
        if self.command == "table":
            return [self.change_recording, self.change_words]
        parts = [self.change_configuration, self.change_words]
        if self.command not in READERS:
            parts += [self.change_recording, self.change_recording]
        if self.store:
            parts += [self.change_store, self.change_store, self.change_store]
        return parts

    def change_configuration(self, rng):
        self.configuration = changed_configuration(rng, self.configuration)
        if rng.random() < 0.01:
            self.configuration = None

    def change_recording(self, rng):
        # A few of them are gone.
        if self.recordings[self.file] is not None:
            self.recordings[self.file] = changed(rng, self.recordings[self.file]) if rng.random() < 0.98 else None

    def change_store(self, rng):
        self.store = changed_store(rng, self.store)

    def change_words(self, rng):
        self.words_changed = True
        if rng.random() < 0.3:
            self.words = self.words[: rng.randint(0, len(self.words))]
        for _ in range(rng.randint(0, 2)):
            self.words.insert(rng.randint(0, len(self.words)), rng.choice(WORDS + TIMES if self.command == "window" else WORDS))

    def faults(self, status, printed, told, memory, left):
        """What is wrong with how it ended."""
        command = self.words[0] if self.words and self.words[0] in STATUSES else self.command
        allowed = STATUSES[command] + ((1,) if self.words_changed else ())
        if status not in allowed:
            yield "status %d" % status
            return
        lines = told.decode("utf-8", "replace").split("\n")
        if lines.pop() != "":
            yield "a line without an end: %r" % told[-200:]
        if status != 0:
            last = lines.pop() if lines else ""
            if not re.fullmatch(FORMS[status], last, re.S):
                yield "line of status %d: %r" % (status, last[:200])
            reasons = [line for line in lines if re.fullmatch(r"monitor: .*: .+", line)]
            if bool(reasons) != (status in (6, 8)):
                yield "reasons of status %d: %r" % (status, reasons[:3])
            lines = [line for line in lines if line not in reasons]
            if printed:
                yield "status %d printed %r" % (status, printed[:100])
        elif not printed.startswith(BEGINS[command]) or (command == "init" and printed):
            yield "printed %r" % printed[:100]
        if command == "watch" and status == 0:
            first = next((at for at, line in enumerate(lines) if not line.startswith("held ")), len(lines))
            seen, lines = lines[first:], lines[:first]
            if not seen or not all(re.fullmatch(SEEN, line) for line in seen):
                yield "told of a watcher %r" % seen[:3]
        if not all(re.fullmatch(LINES_BESIDE.get(command, ""), line) for line in lines):
            yield "told besides %r" % lines[:3]
        if (status in (1, 2, 3, 4, 11) or command in ("table", "audit", *READERS)) and (left or b"") != self.store:
            yield "status %d, and the store changed" % status
        if memory > MOST_MEMORY:
            yield "%d KiB of memory" % memory


def faults_of_copy(program, room, copy):
    """What is wrong with a copy of the store in this folder."""
    due = run(program, room, ["report"])[:3]
    with tempfile.TemporaryDirectory() as other:
        put(other, read(os.path.join(room, "monitor.toml")), {}, copy)
        if run(program, other, ["report"])[:3] != due:
            yield "another report of a copy"
        if run(program, other, ["compact"])[:3] != (0, copy, b""):
            yield "another copy of a copy"


def attempt(program, rng, kept, what):
    """How a case ended, and whether well. The files of one that did not stay."""
    case = Case(rng, kept)
    room = tempfile.mkdtemp(prefix="fuzz-")
    put(room, case.configuration, case.recordings, case.store)
    status, printed, told, memory = run(program, room, case.words)
    faults = list(case.faults(status, printed, told, memory, read(os.path.join(room, "monitor.store"))))
    if status == 0 and case.words[0] == "compact":
        faults += faults_of_copy(program, room, printed)
    if faults:
        put(room, case.configuration, case.recordings, case.store)
        print("fuzz: %s: %s: %r in %s" % (what, "; ".join(faults), case.words, room), flush=True)
    else:
        shutil.rmtree(room)
    return (case.words[0] if case.words else "", status), memory, not faults


def main():
    if len(sys.argv) < 2:
        sys.exit(__doc__.splitlines()[2])
    program = os.path.abspath(sys.argv[1])
    seed = int(sys.argv[2]) if len(sys.argv) > 2 else 1
    runs = int(sys.argv[3]) if len(sys.argv) > 3 else 20000
    sites = [Kept(program, random.Random("%d site %d" % (seed, number))) for number in range(16)]
    ends = collections.Counter()
    most = passed = 0
    for number in range(runs):
        rng = random.Random("%d %d" % (seed, number))
        end, memory, is_well = attempt(program, rng, rng.choice(sites), "seed %d, run %d" % (seed, number))
        ends[end if end[0] in STATUSES else ("other words", end[1])] += 1
        most = max(most, memory)
        passed += is_well
    for command in sorted({command for command, _ in ends}):
        shares = ["%d: %d" % (status, n) for (name, status), n in sorted(ends.items()) if name == command]
        print("fuzz: %s ended with %s" % (command, ", ".join(shares)))
    print("fuzz: at most %d MiB of memory" % (most // 1024))
    print("fuzz: %d passed, %d failed" % (passed, runs - passed))
    return 1 if passed < runs else 0


if __name__ == "__main__":
    sys.exit(main())
