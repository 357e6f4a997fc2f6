"""`check` over recordings and their readings: each mistake with the exact lines."""

from __future__ import annotations

import os
import unittest
from collections.abc import Sequence
from unittest import mock

from monitor_companion import check_recordings
from tests import check_sites as sites
from tests.check_sites import MISSING, SiteCase, noise, recording, store

SPAN = 'gauge 0 "span-2": span2.sgrc'


class Recordings(SiteCase):
    """Files that are missing, cut, or none."""

    def test_missing(self) -> None:
        self.span.unlink()
        self.finds(f"monitor.toml:13: fault: {SPAN} can't be read: No such file or directory")
        self.verdict(6, "read fault")

    def test_an_export_in_its_place(self) -> None:
        self.span.unlink()
        (self.folder / "span2.csv").write_text("time,span2\n0,1\n")
        self.finds(
            f"monitor.toml:13: fault: {SPAN} can't be read: No such file or directory; span2.csv is there: import it"
        )

    def test_a_name_that_would_end_the_line(self) -> None:
        self.change(('file = "span2.sgrc"', 'file = "a\\nb\\u001b.sgrc"'))
        self.finds(
            'monitor.toml:13: fault: gauge 0 "span-2": a?b?.sgrc can\'t be read: No such file or directory',
            "monitor.toml: note: no gauge counts span2.sgrc",
        )

    def test_a_folder_and_a_pipe(self) -> None:
        self.span.unlink()
        self.span.mkdir()
        self.finds(
            f"monitor.toml:13: fault: {SPAN} is a folder",
            "monitor.toml: note: no gauge counts span2.sgrc",
        )
        self.span.rmdir()
        os.mkfifo(self.span)
        self.finds(
            f"monitor.toml:13: fault: {SPAN} is no plain file",
            "monitor.toml: note: no gauge counts span2.sgrc",
        )

    def test_heads(self) -> None:
        sound = self.span.read_bytes()
        export = b"time,span2\r\n0.00,1\r\n0.05,1\r\n0.10,2\r\n"
        for content, found, told in (
            (b"", "is empty; the head of a recording has 32 bytes", "short"),
            (sound[:31], "has 31 bytes; the head of a recording has 32 bytes", "short"),
            (
                export,
                "doesn't begin with SGRC; it is a text, probably a logger's export: import it",
                "no SGRC",
            ),
            (
                b"\xff\xfe" + sound,
                "doesn't begin with SGRC; it is a text, probably a logger's export: import it",
                "no SGRC",
            ),
            (b"\x1f\x8b" + sound, "doesn't begin with SGRC; it is packed: unpack it", "no SGRC"),
            (
                b"CRGS" + sound[4:],
                "doesn't begin with SGRC; its bytes stand in the other order",
                "no SGRC",
            ),
            (store(), "doesn't begin with SGRC; it is a store", "no SGRC"),
            (b"SGRC\x02" + sound[5:], "is of version 2; allowed is 1", "version 2"),
            (
                sound[:6] + b"\x07" + sound[7:],
                "has 07 in byte 6, which is 0 in a recording",
                "not zero",
            ),
            (
                sound[:31] + b"\x80" + sound[32:],
                "has 80 in byte 31, which is 0 in a recording",
                "not zero",
            ),
        ):
            with self.subTest(found):
                self.span.write_bytes(content)
                self.finds(f"monitor.toml:13: fault: {SPAN} {found}")
                self.verdict(4, f"recording span-2: {told}")

    def test_torn_and_too_long(self) -> None:
        self.span.write_bytes(sites.SPAN + b"\0\0\0")
        self.finds(
            f"monitor.toml:13: fault: {SPAN} ends with 3 of the 4 bytes of a sample; wait until the rest is written"
        )
        self.verdict(5, "recording span-2: ends in 3 odd bytes")
        self.span.write_bytes(sites.SPAN)
        with mock.patch.object(check_recordings, "MOST_SAMPLES", 499):
            self.finds(
                f"monitor.toml:13: fault: {SPAN} has 500 samples; allowed are 499: begin a new one",
                'monitor.toml:18: fault: gauge 1 "pier-3": pier3.sgrc has 500 samples; allowed are 499: begin a new one',
            )
            self.verdict(10, "recording span-2: too long")

    def test_one_id_and_one_file(self) -> None:
        self.span.write_bytes(recording(noise(1), 2))
        self.finds(
            'monitor.toml:18: warning: gauge 1 "pier-3": pier3.sgrc has the id 02020202020202020202020202020202 of'
            ' gauge 0 "span-2" (span2.sgrc); each recording has an id of its own'
        )
        self.span.unlink()
        self.span.hardlink_to(self.folder / "pier3.sgrc")
        self.change(("num = 210", "num = 21"))
        self.finds(
            'monitor.toml:18: warning: gauge 1 "pier-3": pier3.sgrc is the recording of gauge 0 "span-2" too'
        )

    def test_a_shorter_one(self) -> None:
        self.span.write_bytes(recording(noise(1, 450), 1))
        self.finds(f"monitor.toml:13: note: {SPAN} has 450 samples, pier3.sgrc 500")
        self.span.write_bytes(recording(noise(1, 451), 1))
        self.finds()

    def test_periods(self) -> None:
        for period, found in (
            (0, "; 50000 µs are 20 samples a second"),
            (20, ", 50000 samples a second; 50000 µs (20 samples a second) was probably meant"),
            (600_000_000, "; between samples more than a second apart vehicles pass unseen"),
        ):
            with self.subTest(period):
                self.span.write_bytes(recording(noise(1), 1, period))
                several = ", ".join(f"{each} µs" for each in sorted((period, 50000)))
                self.finds(
                    f"monitor.toml:13: warning: {SPAN} has a period of {period} µs{found}",
                    f"monitor.toml: note: the recordings have several periods: {several}",
                )


class ReadingsCase(SiteCase):
    """Readings that the program counts in silence."""

    def test_no_readings(self) -> None:
        silent = (
            'monitor.toml:25: warning: detail 0 "stiffener": its gauge 0 "span-2" has no reading in the classes:'
            " its damage is 0"
        )
        self.span.write_bytes(recording([], 1))
        self.finds(f"monitor.toml:13: warning: {SPAN} has no samples", silent)
        self.put([MISSING] * 100)
        self.finds(f"monitor.toml:13: warning: {SPAN}: all 100 readings are missing", silent)

    def test_missing_and_dead(self) -> None:
        self.put([MISSING] * 30 + noise(1))
        self.finds(f"monitor.toml:13: warning: {SPAN}: 30 of 530 readings are missing (5.6 %)")
        self.put([MISSING] + [5] * 100)
        self.finds(f"monitor.toml:13: warning: {SPAN}: all 100 readings are 5: the gauge is dead")

    def test_marks_of_no_reading(self) -> None:
        self.put(noise(1, 2000) + [-9999])
        self.finds(
            f"monitor.toml:13: warning: {SPAN}: -9999 stands there once, far from all others:"
            " is it the logger's mark for no reading?"
        )
        self.put([32767] * 2 + noise(1, 3000))
        self.finds(
            f"monitor.toml:13: warning: {SPAN}: 32767 stands there 2 times, far from all others:"
            " is it the logger's mark for no reading?"
        )

    def test_dropouts_inside_the_classes(self) -> None:
        # The gauge rests at 37.8 N/mm²; 3 dropouts, of which one has two samples, were written as 0.
        values = [value + 180 for value in noise(1, 1000)]
        for at in (100, 101, 500, 800):
            values[at] = 0
        self.put(values)
        self.finds(
            f"monitor.toml:13: warning: {SPAN}: 0 stands there 4 times between readings far from it:"
            " are these dropouts? They count as cycles"
        )
        values = noise(1, 1000)
        values[300:303] = [-250] * 3
        self.put(values)
        self.finds(
            f"monitor.toml:13: warning: {SPAN}: -250 stands there 3 times, far from all others:"
            " is it the logger's mark for no reading?"
        )

    def test_a_logger_that_clips(self) -> None:
        values = [
            min(value + other, 60)
            for value, other in zip(noise(1, 2000), noise(2, 2000), strict=True)
        ]
        self.put(values)
        count = values.count(60)
        self.assertGreater(count, 200)
        self.finds(
            f"monitor.toml:13: warning: {SPAN}: 60 stands there {count} times, and hardly any reading near it:"
            " does the logger clip?"
        )
        # one that is only pressed rests at its highest reading
        self.put([min(value, 0) for value in noise(1, 2000)])
        self.finds()

    def test_the_end(self) -> None:
        self.put(noise(1) + [7] * 12000)
        self.finds(
            f"monitor.toml:13: warning: {SPAN}: the last 12000 samples (96 %) are one value: did the gauge fail?"
        )
        day = noise(3, 1000)
        self.put(noise(1) + day + day)
        self.finds(
            f"monitor.toml:13: warning: {SPAN}: the last 1000 samples are the same as the 1000 before them:"
            " were they appended twice?"
        )

    def test_refused(self) -> None:
        # 21 of 521 lie above the classes, from 73.5 to 77.7 N/mm²
        self.put(noise(1) + list(range(350, 371)))
        self.finds(
            'monitor.toml:14: warning: gauge 0 "span-2": 21 of 521 readings are refused (4 %), so its table'
            " isn't that of the whole history; its stresses reach from -12.6 to 77.7 N/mm²; the classes reach from"
            " -64 to 64 N/mm²; low = -31000, width = 2 and classes = 128 hold all readings of all gauges"
        )

    def test_no_classes_hold_a_spike(self) -> None:
        self.put(noise(1) + [9_000_000] * 2)
        self.finds(
            'monitor.toml:14: warning: gauge 0 "span-2": 2 of 502 readings are refused (0.39 %), so its table'
            " isn't that of the whole history; its stresses reach from -12.6 to 1890000 N/mm²; the classes reach"
            " from -64 to 64 N/mm²; no classes hold them all: look at what the logger wrote"
        )

    def rests(self, values: Sequence[int], offset: str, place: str, found: str) -> None:
        self.put(values)
        self.change(("num = 210", f"num = 210{offset}"))
        due = f'monitor.toml:{place}: warning: gauge 0 "span-2" rests at {found}'
        self.assertIn(due, sites.lines(self.folder))

    def test_resting_values(self) -> None:
        reach = "the classes reach from -64 to 64 N/mm²"
        still = [0] * 300 + noise(1, 200)
        self.rests(
            [value + 1000 for value in still],
            "",
            "14",
            f"210 N/mm², outside the classes; {reach}; offset = -210000 rests at 0 N/mm²",
        )
        self.rests(
            [value + 1000 for value in still],
            "\noffset = -210",
            "15",
            f"209.79 N/mm², outside the classes; {reach}; offset = -210000 was probably meant (N/mm² in kPa)",
        )
        self.rests(
            [value + 1000 for value in still],
            "\noffset = -1000",
            "15",
            f"209 N/mm², outside the classes; {reach}; offset = -210000 was probably meant"
            " (steps of the logger in kPa)",
        )
        self.rests(
            [value - 1000 for value in still],
            "\noffset = -210000",
            "15",
            f"-420 N/mm², outside the classes; {reach}; offset = 210000 was probably meant"
            " (with its sign turned)",
        )
        self.rests(
            [value + 57 for value in still],
            "\noffset = -12",
            "15",
            "11.958 N/mm²; offset = -12000 was probably meant (N/mm² in kPa)",
        )
        self.rests(
            [value + 290 for value in still],
            "",
            "14",
            f"60.9 N/mm², at the edge of the classes; {reach}; offset = -60900 rests at 0 N/mm²",
        )


if __name__ == "__main__":
    unittest.main()
