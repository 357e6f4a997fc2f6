"""Appends that stop on the way: at each step, at each byte, and what is done then."""

from __future__ import annotations

from collections.abc import Callable
from contextlib import ExitStack
from pathlib import Path
from unittest import mock

from monitor_companion import delivery
from monitor_companion.journal import SiteLock
from monitor_companion.recording import HEAD_BYTES
from monitor_companion.refusals import Status

from tests.test_append import DAY_2, DAY_3, AppendTest


class Stop(Exception):
    """The machine stops here."""


class CutOff(AppendTest):
    """Appends that stop on the way, at each step and each byte."""

    def stopped(self, name: str, calls: int) -> bool:
        """Appends, and stops before the call with this number that changes a file."""
        left = [calls]

        def step(*_: object) -> None:
            left[0] -= 1
            if left[0] < 0:
                raise Stop

        def stopping(original: Callable[..., object]) -> Callable[..., object]:
            def call(*arguments: object) -> object:
                step()
                return original(*arguments)

            return call

        with ExitStack() as stack:
            for name_of in ("begin_journal", "add_entry", "write_samples", "make_recording"):
                replaced = stopping(getattr(delivery, name_of))
                stack.enter_context(mock.patch.object(delivery, name_of, replaced))
            command = "append" if (self.site / "span.sgrc").exists() else "import"
            try:
                self.call(command, name)
            except Stop:
                return True
        return False

    def test_a_stop_at_each_step_of_an_append(self) -> None:
        steps = 0
        before = self.files()
        while True:
            for name, data in before.items():
                (self.site / name).write_bytes(data)
            if not self.stopped("day2.csv", steps):
                break
            if steps:
                self.assertEqual(self.call("append", "day3.csv", "--allow-gaps"), Status.REFUSED)
                self.assertIn("day3.csv: is another export than day2.csv", self.err)
            self.append("day2.csv")
            self.has(25)
            self.append("day3.csv")
            self.has(31)
            steps += 1
        self.assertEqual(steps, 4)

    def test_a_stop_at_each_step_of_an_import(self) -> None:
        steps = 0
        while True:
            for file in self.site.glob("*.sgrc*"):
                file.unlink()
            if not self.stopped("day1.csv", steps):
                break
            self.assertEqual(self.call("import", "day1.csv"), Status.DONE, self.err)
            self.has(10)
            self.append("day2.csv")
            self.has(25)
            steps += 1
        self.assertEqual(steps, 6)

    def test_a_stop_at_each_byte(self) -> None:
        self.append("day2.csv")
        whole = self.files()
        for size in range(HEAD_BYTES + 4 * 10, HEAD_BYTES + 4 * 25):
            (self.site / "pier.sgrc").write_bytes(whole["pier.sgrc"][:size])
            if size % 7 == 0:
                self.assertEqual(self.call("append", "day3.csv"), Status.REFUSED)
            self.append("day2.csv")
            self.assertEqual(self.files(), whole)

    def test_a_cut_journal(self) -> None:
        """A line of the journal without its end means nothing: none of its samples was written."""
        before = self.files()
        self.append("day2.csv")
        after = self.files()
        line = after["span.sgrc.imports"][len(before["span.sgrc.imports"]) :]
        for size in range(0, len(line), 37):
            for name, data in before.items():
                (self.site / name).write_bytes(data)
            (self.site / "span.sgrc.imports").write_bytes(before["span.sgrc.imports"] + line[:size])
            self.append("day2.csv")
            self.assertEqual(self.files(), after)

    def test_other_samples_than_those_that_were_cut_off(self) -> None:
        self.append("day2.csv")
        path = self.site / "pier.sgrc"
        data = path.read_bytes()
        path.write_bytes(data[: HEAD_BYTES + 4 * 12] + b"\x07\0\0\0")
        self.refused(
            "pier.sgrc: doesn't hold the samples of day2.csv at its end", "append", "day2.csv"
        )
        path.write_bytes(data[: HEAD_BYTES + 4 * 12])
        self.refused(
            "day2.csv: gives other samples of pier than the append that was cut off: say the same"
            " options again",
            "append",
            "day2.csv",
            "--missing=-11",
        )

    def test_a_cut_off_export_that_grew(self) -> None:
        self.append("day2.csv")
        for gauge in self.gauges:
            path = self.site / f"{gauge}.sgrc"
            path.write_bytes(path.read_bytes()[: HEAD_BYTES + 4 * 17])
        self.write("day2.csv", DAY_2 + DAY_3.partition("\n")[2])
        self.append("day2.csv")
        self.has(31)

    def test_a_second_name_that_a_stop_left(self) -> None:
        """A recording that was put elsewhere stays when another is made in its place."""
        path, old = self.site / "span.sgrc", self.site / "old.sgrc"
        (self.site / "span.sgrc.new").hardlink_to(path)
        path.rename(old)
        (self.site / "span.sgrc.imports").unlink()
        data = old.read_bytes()
        self.assertEqual(self.call("import", "day1.csv", "--gauge", "span"), Status.DONE, self.err)
        self.assertEqual(old.read_bytes(), data)
        self.has(10)

    def test_two_at_once(self) -> None:
        with SiteLock(Path(self.site)):
            self.assertEqual(self.call("append", "day2.csv"), Status.REFUSED)
        self.assertIn("another import is at work in this site", self.err)
