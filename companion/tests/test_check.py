"""`check` over configurations: each mistake of check_mistakes.txt with the exact lines, and the examples."""

from __future__ import annotations

import argparse
import contextlib
import csv
import io
import os
import pathlib
import re
import shutil
import subprocess
import sys
import tempfile
import unittest
from dataclasses import dataclass, field

from monitor_companion import check_command
from monitor_companion.check_command import check_folder
from monitor_companion.refusals import Refusal, Status
from monitor_companion.report_site import read_site
from tests import check_sites as sites
from tests.program import ROOT, program, run

EXAMPLES = ROOT / "examples"


@dataclass
class Mistake:
    """What is taken from the sound configuration, what is put in its place, and what is found."""

    name: str
    edits: list[tuple[list[str], list[str]]] = field(default_factory=list)
    found: list[str] = field(default_factory=list)

    def text(self) -> str:
        """The configuration with the mistake."""
        text = sites.CONFIGURATION
        for old, new in self.edits:
            assert "\n".join(old) in text, self.name
            text = text.replace("\n".join(old), "\n".join(new), 1)
        return text


def mistakes() -> list[Mistake]:
    """The mistakes of the table: a name behind #, old lines behind -, new ones behind +, findings behind >."""
    table = (pathlib.Path(__file__).parent / "check_mistakes.txt").read_text(encoding="utf-8")
    all_mistakes: list[Mistake] = []
    before = ""
    for line in table.splitlines():
        mark, rest = line[:1], line[2:]
        if mark == "#":
            all_mistakes.append(Mistake(rest))
        elif mark == "-":
            if before != "-":
                all_mistakes[-1].edits.append(([], []))
            all_mistakes[-1].edits[-1][0].append(rest)
        elif mark == "+":
            all_mistakes[-1].edits[-1][1].append(rest)
        elif mark == ">":
            all_mistakes[-1].found.append(rest)
        before = mark
    return all_mistakes


class Configurations(unittest.TestCase):
    """Each mistake has its exact lines."""

    def test_there_are_many(self) -> None:
        self.assertGreaterEqual(len([mistake for mistake in mistakes() if mistake.found]), 60)

    def test_each_mistake(self) -> None:
        for mistake in mistakes():
            with self.subTest(mistake.name), tempfile.TemporaryDirectory() as name:
                folder = pathlib.Path(name)
                sites.make(folder, mistake.text())
                self.assertEqual(sites.lines(folder), mistake.found)

    def test_a_line_names_the_key(self) -> None:
        """The line that is named is that of the key, or that of its table where the key is missing."""
        for mistake in mistakes():
            lines = mistake.text().split("\n")
            for found in mistake.found:
                match = re.match(r"monitor\.toml:(\d+): fault: [^;]*?: (\w+) = ", found)
                if match is not None:
                    with self.subTest(found):
                        self.assertTrue(lines[int(match[1]) - 1].startswith(f"{match[2]} ="))

    def test_the_program_tells_the_first_fault(self) -> None:
        program()
        for mistake in mistakes():
            with self.subTest(mistake.name), tempfile.TemporaryDirectory() as name:
                folder = pathlib.Path(name)
                sites.make(folder, mistake.text())
                verdict = check_folder(folder).findings.verdict
                done = run(folder, "init")
                told = done.stderr.decode().splitlines()[-1]
                if verdict is None:
                    self.assertEqual((done.returncode, told), (0, "init 2"))
                else:
                    self.assertEqual((verdict.status, verdict.line), (done.returncode, told))

    def test_bytes_that_are_no_text(self) -> None:
        cases: tuple[tuple[bytes, list[str]], ...] = (
            (
                sites.CONFIGURATION.replace("span-2", "br\xfccke").encode("latin-1"),
                [
                    "monitor.toml:12: fault: no TOML: byte fc is no UTF-8; the file is probably Latin-1: save it as UTF-8"
                ],
            ),
            (
                sites.CONFIGURATION.encode("utf-16"),
                [
                    "monitor.toml:1: fault: no TOML: byte ff is no UTF-8; the file is probably UTF-16: save it as UTF-8"
                ],
            ),
            (
                sites.CONFIGURATION.encode() + b"#" * 65536,
                ["monitor.toml: fault: has 66048 bytes; allowed are 65536"],
            ),
            (b"\xef\xbb\xbf" + sites.CONFIGURATION.encode().replace(b"\n", b"\r\n"), []),
        )
        for content, found in cases:
            with self.subTest(found=found), tempfile.TemporaryDirectory() as name:
                folder = pathlib.Path(name)
                sites.make(folder, content)
                size = (folder / "monitor.toml").stat().st_size
                due = [line.replace("66048", str(size)) for line in found]
                self.assertEqual(sites.lines(folder), due)

    def test_too_many_gauges_and_details(self) -> None:
        gauge = '[[gauge]]\nname = "g{0}"\nfile = "span2.sgrc"\nnum = 210\n'
        detail = '[[detail]]\nname = "d{0}"\ngauge = "span-2"\nkind = "normal"\ncategory = 71\ngamma = 115\n'
        for part, count, found in (
            (
                gauge,
                31,
                "monitor.toml:11: fault: there are 33 gauges; allowed are 1 to 32; part the site in two folders",
            ),
            (
                detail,
                63,
                "monitor.toml:23: fault: there are 65 details; allowed are 0 to 64; part the site in two folders",
            ),
        ):
            with self.subTest(found), tempfile.TemporaryDirectory() as name:
                folder = pathlib.Path(name)
                more = "".join(part.format(number) for number in range(count))
                sites.make(folder, sites.CONFIGURATION + more)
                self.assertEqual(sites.lines(folder)[0], found)

    def test_no_configuration(self) -> None:
        with tempfile.TemporaryDirectory() as name:
            folder = pathlib.Path(name)
            self.assertEqual(
                sites.lines(folder),
                ["monitor.toml: fault: isn't there: --site names the folder that has it"],
            )
            (folder / "monitor.toml").mkdir()
            self.assertEqual(
                sites.lines(folder), ["monitor.toml: fault: can't be read: Is a directory"]
            )

    def test_a_site_is_read_or_refused(self) -> None:
        with tempfile.TemporaryDirectory() as name:
            folder = pathlib.Path(name)
            sites.make(folder)
            site = read_site(folder)
            self.assertEqual(
                (site.grid.top, site.grid.level(-1), site.gauges[0].kpa(-3)), (64000, 63, -630)
            )
            self.assertEqual([detail.gauge for detail in site.details], ["span-2", "pier-3"])
            sites.make(folder, sites.CONFIGURATION.replace("den = 1", "den = 0"))
            with self.assertRaisesRegex(
                Refusal, r"monitor\.toml:20: gauge 1 \"pier-3\": den = 0 is out of range"
            ):
                read_site(folder)


class Words(unittest.TestCase):
    """The command's words, its lines and its status."""

    def run_check(self, *words: str) -> tuple[Status, list[str]]:
        parser = argparse.ArgumentParser()
        check_command.add_arguments(parser)
        out = io.StringIO()
        with contextlib.redirect_stdout(out):
            status = check_command.run(parser.parse_args(words))
        return status, out.getvalue().splitlines()

    def test_clean_warned_and_refused(self) -> None:
        with tempfile.TemporaryDirectory() as name:
            folder = pathlib.Path(name)
            for old, new, status, last in (
                ("", "", Status.DONE, "check: 0 faults, 0 warnings, 0 notes"),
                ("workers", "worker", Status.WARNED, "check: 0 faults, 1 warning, 0 notes"),
                ("den = 1", "den = 0", Status.REFUSED, "check: 1 fault, 0 warnings, 0 notes"),
            ):
                sites.make(folder, sites.CONFIGURATION.replace(old, new, 1))
                found, lines = self.run_check("--site", name)
                self.assertEqual((found, lines[-1]), (status, last))
            self.assertEqual(
                lines[-2], "monitor would end with status 2: config: out of range gauge 1 den"
            )

    def test_an_output_that_was_closed(self) -> None:
        reader, writer = os.pipe()
        os.close(reader)
        with tempfile.TemporaryDirectory() as name, os.fdopen(writer, "wb") as closed:
            sites.make(pathlib.Path(name))
            words = [sys.executable, "-m", "monitor_companion", "check", "--site", name]
            ran = subprocess.run(
                words, cwd=ROOT / "companion", stdout=closed, stderr=subprocess.PIPE, check=False
            )
        told = b"monitor-companion: the output was closed before its end\n"
        self.assertEqual((ran.returncode, ran.stderr), (Status.REFUSED, told))

    def test_what_was_read_is_told(self) -> None:
        with tempfile.TemporaryDirectory() as name:
            folder = pathlib.Path(name)
            sites.make(folder)
            values = [sites.MISSING] * 3 + [1000] * 2 + list(range(-10, 11)) * 5
            (folder / "span2.sgrc").write_bytes(sites.recording(values, 1))
            (folder / "pier3.sgrc").write_bytes(
                sites.recording(sites.noise(2, len(values), -600, 600), 2)
            )
            status, lines = self.run_check("--site", name, "--refused", "10", "--missing", "10%")
            self.assertEqual(status, Status.DONE)
            self.assertEqual(
                lines[0], "grid: 128 classes of 1 N/mm² from -64 to 64 N/mm², reference at 0 N/mm²"
            )
            self.assertEqual(
                lines[1],
                "read span-2: 110 of 110 samples (472 bytes), missing 3 (2.7 %), refused 2 (1.8 %),"
                " rests at 0 N/mm², mostly -2.1 to 210",
            )

    def test_words_that_are_refused(self) -> None:
        for words in (
            ("--limit", "0"),
            ("--limit", "x"),
            ("--refused", "101"),
            ("--missing", "nan"),
        ):
            with self.subTest(words), contextlib.redirect_stderr(io.StringIO()) as told:
                with self.assertRaises(SystemExit):
                    self.run_check(*words)
                self.assertIn(repr(words[1]), told.getvalue())
        with self.assertRaisesRegex(Refusal, "nowhere: is no folder"):
            self.run_check("--site", "nowhere")


class Examples(unittest.TestCase):
    """Nothing is found in the sites of the repository."""

    def test_bridge(self) -> None:
        with tempfile.TemporaryDirectory() as name:
            folder = pathlib.Path(name) / "bridge"
            shutil.copytree(
                EXAMPLES / "bridge", folder, ignore=shutil.ignore_patterns("monitor.store")
            )
            self.assertEqual(sites.lines(folder), [])
            self.assertEqual(run(folder, "init").returncode, 0)
            self.assertEqual(run(folder, "count").returncode, 0)
            checked = check_folder(folder)
            self.assertEqual([str(finding) for finding in checked.findings], [])
            assert checked.store is not None
            self.assertEqual([held.samples for held in checked.store.held], [12000] * 3)
            self.assertEqual(
                [(held.missing, held.refused) for held in checked.store.held], [(7, 1)] * 3
            )

    def test_logger(self) -> None:
        with tempfile.TemporaryDirectory() as name:
            folder = pathlib.Path(name)
            shutil.copy(EXAMPLES / "logger" / "monitor.toml", folder)
            text = (EXAMPLES / "logger" / "export.csv").read_text().splitlines()
            start = next(at for at, line in enumerate(text) if "span2-flange" in line)
            rows = list(csv.DictReader(text[start:]))
            for number, column in enumerate(("span2-flange", "pier-flange"), start=1):
                cells = [row[column].strip() for row in rows]
                values = [sites.MISSING if cell in ("", "NaN") else int(cell) for cell in cells]
                (folder / f"{column}.sgrc").write_bytes(sites.recording(values, number))
            self.assertEqual(sites.lines(folder), [])


if __name__ == "__main__":
    unittest.main()
