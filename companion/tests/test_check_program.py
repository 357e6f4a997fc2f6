"""Compares the verdict of `check` with what the program tells, over random broken sites.

MONITOR_CHECK_CASES says how many sites there are, and MONITOR_CHECK_SEED where they begin.
"""

from __future__ import annotations

import os
import pathlib
import random
import re
import struct
import tempfile
import unittest

from monitor_companion.check_command import Checked, check_folder
from monitor_companion.check_findings import Severity
from tests import check_sites as sites
from tests.program import program, run

CASES = int(os.environ.get("MONITOR_CHECK_CASES", "24"))
SEED = int(os.environ.get("MONITOR_CHECK_SEED", "1"))

BASE = """\
[grid]
classes = 16
width = 2
low = -8000
reference = 8

[count]
block = 64
workers = 2

[[gauge]]
name = "north"
file = "north.sgrc"
num = 1000
den = 1
offset = 0

[[gauge]]
name = "south"
file = "south.sgrc"
num = 210

[[detail]]
name = "weld"
gauge = "north"
kind = "normal"
category = 71
gamma = 115

[[detail]]
name = "web"
gauge = "south"
kind = "shear"
category = 80
gamma = 100
"""
VALUES = (
    "0",
    "1",
    "2",
    "-1",
    "3",
    "1024",
    "1025",
    "2000",
    "2001",
    "4096",
    "4097",
    "8",
    "9",
    "15",
    "16",
    "71",
    "100",
    "115",
    "135",
    "65535",
    "65536",
    "1000000",
    "1000001",
    "1000000000",
    "1000000001",
    "-1000000000",
    "-1000000001",
    "9223372036854775807",
    "9223372036854775808",
    "1.0",
    "1e3",
    "1e400",
    "inf",
    "-nan",
    "true",
    '"1"',
    '"north"',
    '"normal"',
    '"shear"',
    '"a.b"',
    '""',
    "''",
    '"""x\ny"""',
    "[]",
    "[1]",
    "{}",
    "{ a = 1 }",
    "1979-05-27",
    "07:32",
    "0000-01-01",
    "0x10",
    "0b1",
    "1_000",
    "01",
    "north",
    '"\\x41\\e"',
    '"\\q"',
    '"' + "n" * 32 + '"',
    '"' + "n" * 33 + '"',
    '"' + "ü" * 128 + '"',
    '"' + "f" * 255 + '"',
    "{ a = 1,\n b = 2,\n}",
)
SOUND_VALUES = tuple(
    value
    for value in VALUES
    if value not in ("9223372036854775808", "1e400", "01", "north", '"\\q"')
)
KEYS = (
    "classes",
    "width",
    "low",
    "name",
    "file",
    "num",
    "offset",
    "gauge",
    "kind",
    "category",
    "gamma",
    "extra",
)
HEADERS = (
    "[grid]",
    "[[grid]]",
    "[gauge]",
    "[[gauge]]",
    "[detail]",
    "[[detail]]",
    "[[details]]",
    "[count]",
    "[gauge.more]",
    "[grid.low]",
    "gauge = []",
    "gauge = [1]",
    "detail = []",
    "detail = [{}]",
    "count = 1",
    "[ grid ]",
    '["grid"]',
)


def recording(values: list[int], number: int) -> bytes:
    """A recording with an id of sixteen equal bytes."""
    head = b"SGRC\x01\x00\x00\x00" + bytes([number] * 16) + struct.pack("<II", 10000, 0)
    return head + struct.pack(f"<{len(values)}i", *values)


def break_line(rng: random.Random, lines: list[str]) -> None:
    """Makes one mistake in a line."""
    place = rng.randrange(len(lines))
    line = lines[place]
    mistake = rng.randrange(9)
    if mistake <= 3 and " = " in line:
        lines[place] = line.split(" = ")[0] + " = " + rng.choice(VALUES)
    elif mistake == 4:
        del lines[place]
    elif mistake == 5:
        lines.insert(place, rng.choice(lines))
    elif mistake == 6 and " = " in line:
        lines[place] = rng.choice(KEYS) + " = " + line.split(" = ")[1]
    elif mistake == 7:
        lines[place] = rng.choice(HEADERS)
    elif mistake == 8:
        at = rng.randint(0, len(line))
        lines[place] = line[:at] + rng.choice("\"'[]{}=,#.\\ \t;x7ü\r") + line[at:]


def move_table(rng: random.Random, lines: list[str]) -> None:
    """Takes a table away, and mostly puts it at the end, once or more often."""
    starts = [at for at, line in enumerate(lines) if line.startswith("[")]
    if starts:
        number = rng.randrange(len(starts))
        table = slice(starts[number], [*starts, len(lines)][number + 1])
        moved = lines[table]
        del lines[table]
        lines += moved * rng.choice((0, 1, 1, 2, 40))


def other_values(rng: random.Random) -> bytes:
    """The configuration with other values that are TOML."""
    lines = BASE.split("\n")
    for _ in range(rng.randint(1, 3)):
        place = rng.choice([at for at, line in enumerate(lines) if " = " in line])
        lines[place] = lines[place].split(" = ")[0] + " = " + rng.choice(SOUND_VALUES)
    return "\n".join(lines).encode()


def broken_text(rng: random.Random) -> bytes:
    """The configuration after some mistakes."""
    if rng.random() < 0.4:
        return other_values(rng)
    lines = BASE.split("\n")
    for _ in range(rng.choice((0, 1, 1, 1, 2, 3))):
        if rng.random() < 0.1:
            move_table(rng, lines)
        else:
            break_line(rng, lines)
    text = rng.choice(("\n", "\n", "\n", "\r\n")).join(lines)
    content = rng.choice(("", "", "", "\ufeff")).encode() + text.encode()
    if rng.random() < 0.03:
        content = content[: rng.randrange(len(content))]
    if rng.random() < 0.03:
        content += b"#" + b"x" * (65536 - len(content) - rng.randint(0, 2))
    if rng.random() < 0.03:
        content = content.replace(b"n", b"\xfc", 1)
    return content


def break_file(rng: random.Random, path: pathlib.Path) -> None:
    """Cuts a file, changes or adds a byte, or takes it away."""
    content = bytearray(path.read_bytes())
    mistake = rng.randrange(6)
    if mistake == 0:
        path.unlink()
        return
    if mistake == 1:
        content = content[: rng.randint(0, len(content))]
    elif mistake == 2:
        content += bytes(rng.randint(1, 5))
    elif mistake == 3 and len(content) > 32:
        content = content[: 32 + 4 * rng.randint(0, (len(content) - 32) // 4)]
    elif content:
        front = 32 if mistake == 4 else len(content)
        content[rng.randrange(min(front, len(content)))] = rng.choice((0, 1, 2, 255))
    path.write_bytes(content)


class NeverFails(unittest.TestCase):
    """Whatever stands in the files, each finding is one line with its place."""

    LINE = re.compile(r"monitor\.(toml|store)(:\d+)?: (fault|warning|note): [^\n]+")

    def test_random_sites(self) -> None:
        for seed in range(SEED, SEED + 300):
            with self.subTest(seed=seed), tempfile.TemporaryDirectory() as name:
                rng, folder = random.Random(seed), pathlib.Path(name)
                (folder / "monitor.toml").write_bytes(broken_text(rng))
                (folder / "monitor.store").write_bytes(sites.store([sites.body(0, 0, 500)]))
                (folder / "north.sgrc").write_bytes(sites.SPAN)
                (folder / "south.sgrc").write_bytes(sites.PIER)
                for path in sorted(folder.iterdir()):
                    if rng.random() < 0.5:
                        break_file(rng, path)
                found = check_folder(folder).findings
                for finding in found:
                    line = str(finding).replace(f"{folder}/", "")
                    self.assertIsNotNone(self.LINE.fullmatch(line), line)
                self.assertEqual(found.verdict is None, found.count(Severity.FAULT) == 0)


class AgreesWithTheProgram(unittest.TestCase):
    """The first fault of a check is what the program tells."""

    def test_random_sites(self) -> None:
        program()
        for seed in range(SEED, SEED + CASES):
            with self.subTest(seed=seed), tempfile.TemporaryDirectory() as folder:
                self.one(random.Random(seed), pathlib.Path(folder))

    def one(self, rng: random.Random, folder: pathlib.Path) -> None:
        for number, name in enumerate(("north", "south"), start=1):
            raws = (*range(-8, 8), 9, -1000, 2**31 - 1, -(2**31))
            values = [rng.choice(raws) for _ in range(rng.choice((0, 5, 200)))]
            (folder / f"{name}.sgrc").write_bytes(recording(values, number))
        (folder / "monitor.toml").write_text(BASE)
        if rng.random() < 0.5:
            self.assertEqual(run(folder, "init").returncode, 0)
            self.assertEqual(run(folder, "count").returncode, 0)
        if rng.random() < 0.7:
            (folder / "monitor.toml").write_bytes(broken_text(rng))
        for name in ("north.sgrc", "south.sgrc", "monitor.store"):
            if rng.random() < 0.2 and (folder / name).exists():
                break_file(rng, folder / name)
        if rng.random() < 0.1:
            first, second = folder / "north.sgrc", folder / "south.sgrc"
            if first.exists() and second.exists():
                content = first.read_bytes()
                first.write_bytes(second.read_bytes())
                second.write_bytes(content)
        checked = check_folder(folder)
        verdict = checked.findings.verdict
        found = (0, "") if verdict is None else (verdict.status, verdict.line)
        self.assertEqual(found, self.told(folder))
        if verdict is None:
            self.assertEqual(self.counted(checked), self.reported(folder))

    def counted(self, checked: Checked) -> list[str]:
        """The first two lines of each gauge's report, by what the check read."""
        lines = []
        for recording in checked.recordings:
            facts = checked.readings[recording.gauge.number]
            used = facts.valid - facts.refused
            lines += [
                f"gauge {recording.gauge.name}",
                f"samples {facts.samples} used {used} missing {facts.missing} refused {facts.refused}",
            ]
        return lines

    def reported(self, folder: pathlib.Path) -> list[str]:
        """The same of the program's report."""
        report = run(folder, "report").stdout.decode().splitlines()
        return [line for line in report if line.startswith(("gauge ", "samples "))]

    def told(self, folder: pathlib.Path) -> tuple[int, str]:
        """What the program tells: of `init` where there is no store, and then of `count`."""
        store = folder / "monitor.store"
        if not store.exists() or store.stat().st_size == 0:
            done = run(folder, "init")
            if done.returncode != 0:
                return done.returncode, done.stderr.decode().splitlines()[-1]
        done = run(folder, "count")
        return (
            done.returncode,
            "" if done.returncode == 0 else done.stderr.decode().splitlines()[-1],
        )


if __name__ == "__main__":
    unittest.main()
