#!/usr/bin/env python3
"""Tries `column` and `sheet` against an independent reading of CSV files.

columns.py PROGRAM [SEED [RUNS]]

First a table of cells and files, each with the recording or the line that is due. Then random files, some of them damaged, by docs/FORMATS.md
alone. Then a sheet of random recordings, which is read back column by column, a CSV file that grows between two counts of a site, and a file at
the limit of length and one byte longer. Last line: columns: N passed, M failed
"""
import os
import random
import subprocess
import sys
import tempfile

# No folder is made in the checkout.
sys.dont_write_bytecode = True

from model import MISSING, recording
from trial import Trial as Counted

ID = "11" * 16
LIMIT = 268435456


def records(data):
    """The records of a CSV text: lists of fields. Blank lines are none."""
    if data.startswith(b"\xef\xbb\xbf"):
        data = data[3:]
    found, at = [], 0
    while at < len(data):
        if data[at] in b"\r\n":
            at += 1
            continue
        fields, at = record(data, at)
        found.append(fields)
    return found


def record(data, at):
    """The fields of the record that begins here, and the place behind it."""
    fields, field, quoted = [], bytearray(), at < len(data) and data[at] == 34
    at += quoted
    while True:
        if at == len(data):
            return fields + [bytes(field)], at
        byte = data[at]
        at += 1
        if quoted:
            if byte != 34:
                field.append(byte)
            elif data[at : at + 1] == b'"':
                field.append(34)
                at += 1
            else:
                quoted = False
        elif byte in b"\r\n":
            return fields + [bytes(field)], at
        elif byte == 44:
            fields.append(bytes(field))
            field, quoted = bytearray(), data[at : at + 1] == b'"'
            at += quoted
        else:
            field.append(byte)


def sample(cell):
    """The sample that a cell means, or None."""
    cell = cell.strip(b" \t")
    if cell in (b"", b"NaN"):
        return MISSING
    digits = cell[1:] if cell[:1] in (b"+", b"-") else cell
    if not 1 <= len(digits) <= 10 or any(d not in b"0123456789" for d in digits):
        return None
    value = int(digits)
    return None if value > 2**31 - 1 else -value if cell[:1] == b"-" else value


def due(data, name):
    """The samples of the column, or the line that is told of the file d.csv."""
    found = records(data)
    if not found or name not in found[0]:
        return "recording d.csv: no column\n"
    place = found[0].index(name)
    samples = []
    for row, fields in enumerate(found[1:]):
        if len(fields) <= place:
            return "recording d.csv: row %d has %d fields\n" % (row, len(fields))
        value = sample(fields[place])
        if value is None:
            return "recording d.csv: row %d is no number\n" % row
        samples.append(value)
    return samples


CELLS = {
    b"5": 5, b"-2": -2, b" +1": 1, b"": MISSING, b"NaN": MISSING, b"\t7 ": 7, b"-0": 0, b"0000000012": 12, b"2147483647": 2**31 - 1,
    b"-2147483647": 1 - 2**31, b"nan": None, b"NAN": None, b"-NaN": None, b"1.5": None, b"1e3": None, b"+": None, b"-": None, b"+-1": None,
    b"--1": None, b"1 2": None, b"00000000012": None, b"2147483648": None, b"-2147483648": None, b"9999999999": None, b"0x1": None,
    b"1\x00": None, b"\x00": None, b"\xff": None, b"1_0": None, b'"8"': 8, b'" -8 "': -8, b'"8': None, b'8"': None, b'""': MISSING,
}  # fmt: skip

ROWS = b"t,G1,G2\n0,5,-2\n1,6,\n2,7, +1\n"

FILES = [
    (ROWS, b"G2", [-2, MISSING, 1]),
    (ROWS, b"G3", "recording d.csv: no column\n"),
    (ROWS + b"3,8\n", b"G2", "recording d.csv: row 3 has 2 fields\n"),
    (ROWS + b"3,8,1.5\n", b"G2", "recording d.csv: row 3 is no number\n"),
    (b"", b"G1", "recording d.csv: no column\n"),
    (b"\n\r\n\n", b"G1", "recording d.csv: no column\n"),
    (b"G1\n", b"G1", []),
    (b"G1", b"G1", []),
    (b"G1,G1\n1,2\n", b"G1", [1]),
    (b'"a, ""b""",c\n1,2\n', b'a, "b"', [1]),
    (b"\xef\xbb\xbfG1\n1\n", b"G1", [1]),
    (b"G1\r\n1\r\n\r\n2\r\n", b"G1", [1, 2]),
    (b"G1\r1\r2", b"G1", [1, 2]),
    (b"G1,t\n1,\xff\xfe\n", b"G1", [1]),
    (b"G\xc3\xa9,t\n1,2\n", "G\u00e9".encode(), [1]),
    (b'G1,t\n1,"2\n3,4\n', b"G1", [1]),
    (b"t,G1\n1,2,3,4\n5,6\n", b"G1", [2, 6]),
    (b" G1,t\n1,2\n", b"G1", "recording d.csv: no column\n"),
]


class Trial(Counted):
    def __init__(self, program, room):
        super().__init__("columns")
        self.program, self.room = program, room

    def run(self, *words):
        ran = subprocess.run([self.program, *words], cwd=self.room, capture_output=True)
        return ran.returncode, ran.stdout, ran.stderr.decode()

    def write(self, name, data):
        with open(os.path.join(self.room, name), "wb") as file:
            file.write(data)

    def column(self, what, data, name, wanted):
        """`column` gives these samples, or tells this line and writes nothing."""
        self.write("d.csv", data)
        sound = not isinstance(wanted, str)
        answer = (0, recording(wanted), "") if sound else (4, b"", wanted)
        self.check(what, self.run("column", "d.csv", name, ID, "10000"), answer)


def tables(trial):
    for cell, value in CELLS.items():
        wanted = "recording d.csv: row 1 is no number\n" if value is None else [0, value]
        trial.column("cell %r" % cell, b"t,G1\n0,0\n1,%s\n" % cell, b"G1", wanted)
    for data, name, wanted in FILES:
        trial.check("what is due of %r" % data, due(data, name), wanted)
        trial.column("file %r" % data, data, name, wanted)


def random_file(rng):
    names = rng.sample([b"t", b"G1", b"G2", b"a b", b"x,y", b'q"q'], rng.randrange(1, 6))
    lines = [names]
    for _ in range(rng.choice((0, 1, 3, 30, 3000))):
        lines.append([b"%d" % rng.randint(-(2**31) + 1, 2**31 - 1) if rng.random() < 0.98 else b"" for _ in names])
    end = rng.choice((b"\n", b"\r\n", b"\r"))
    data = b"".join(b",".join(quoted(rng, cell) for cell in line) + end for line in lines)
    for _ in range(rng.choice((0, 0, 1, 2))):
        at = rng.randrange(len(data) + 1)
        data = data[:at] + rng.choice((b",", b'"', b"\n", b"x", b" ", b"")) + data[at + rng.randrange(2) :]
    return data, rng.choice(names + [b"t"])


def quoted(rng, cell):
    if cell == b"" or any(byte in b',"' for byte in cell) or rng.random() < 0.05:
        return b'"' + cell.replace(b'"', b'""') + b'"'
    return cell


def sheets(trial, rng):
    """A site's sheet, and each of its columns."""
    lengths = [rng.choice((0, 1, 7, 20000)) for _ in range(rng.randrange(1, 6))]
    gauges = [[rng.choice((MISSING, 2**31 - 1, 1 - 2**31, rng.randint(-999, 999))) for _ in range(n)] for n in lengths]
    lines = ["[grid]\nclasses = 64\nwidth = 2\nlow = 0\nreference = 32\n"]
    for number, samples in enumerate(gauges):
        trial.write("g%d" % number, recording(samples, number))
        lines.append('[[gauge]]\nname = "G-%d"\nfile = "g%d"\nnum = 1000\n' % (number, number))
    trial.write("monitor.toml", "".join(lines).encode())
    longest = max(lengths)
    rows = [["G-%d" % number for number in range(len(gauges))]]
    for i in range(longest):
        cells = [samples[i] if i < len(samples) else MISSING for samples in gauges]
        rows.append(["NaN" if value == MISSING else str(value) for value in cells])
    text = "".join(",".join(row) + "\n" for row in rows).encode()
    trial.check("a sheet", trial.run("sheet"), (0, text, ""))
    for number, samples in enumerate(gauges):
        padded = samples + [MISSING] * (longest - len(samples))
        trial.column("a column of a sheet", text, b"G-%d" % number, padded)


def grown(trial):
    """A CSV file that grew gives a recording that grew: what was held is not counted again."""
    rows = [b"%d,%d\n" % (i, (i * 37) % 50) for i in range(3000)]
    trial.write("monitor.toml", b'[grid]\nclasses = 64\nwidth = 2\nlow = 0\nreference = 32\n[[gauge]]\nname = "G"\nfile = "g"\nnum = 1000\n')
    told = []
    for part in (1000, 3000):
        trial.write("d.csv", b"t,G\n" + b"".join(rows[:part]))
        status, data, _ = trial.run("column", "d.csv", "G", ID, "10000")
        trial.check("a column that grows", (status, len(data)), (0, 32 + 4 * part))
        trial.write("g", data)
        if not told:
            trial.check("a store", trial.run("init")[0], 0)
        status, text, lines = trial.run("count")
        told.append((status, lines))
    trial.check("counts of a recording that grew", told, [(0, "held G 1000\n"), (0, "held G 3000\n")])
    os.remove(os.path.join(trial.room, "monitor.store"))
    trial.run("init")
    trial.check("one count of it all", trial.run("count")[:2], (0, text))


def limits(trial):
    path = os.path.join(trial.room, "d.csv")
    for length, answer in ((LIMIT, (4, b"", "recording d.csv: no column\n")), (LIMIT + 1, (10, b"", "recording d.csv: too long\n"))):
        with open(path, "wb") as file:
            file.truncate(length)
        trial.check("a file of %d bytes" % length, trial.run("column", "d.csv", "G1", ID, "10000"), answer)
    os.remove(path)
    due = (6, b"", "monitor: d.csv: No such file or directory\nread fault\n")
    trial.check("no file", trial.run("column", "d.csv", "G1", ID, "10000"), due)


def main():
    if len(sys.argv) < 2:
        sys.exit(__doc__.splitlines()[2])
    program = os.path.abspath(sys.argv[1])
    rng = random.Random(int(sys.argv[2]) if len(sys.argv) > 2 else 1)
    runs = int(sys.argv[3]) if len(sys.argv) > 3 else 300
    with tempfile.TemporaryDirectory() as room:
        trial = Trial(program, room)
        tables(trial)
        for number in range(runs):
            data, name = random_file(rng)
            trial.column("random file %d" % number, data, name, due(data, name))
        for _ in range(max(1, runs // 30)):
            sheets(trial, rng)
        grown(trial)
        limits(trial)
    return trial.end()


if __name__ == "__main__":
    sys.exit(main())
