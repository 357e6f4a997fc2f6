"""What is read in bulk is what is read cell by cell: the samples, and the refusals."""

from __future__ import annotations

import io
import random
from contextlib import ExitStack
from fractions import Fraction
from pathlib import Path
from unittest import mock

from monitor_companion.dialects import Dialect
from monitor_companion.layout import Wanted, find_layout
from monitor_companion.pieces import START
from monitor_companion.plain_rows import PlainRows
from monitor_companion.profiles import Profile, load_profile
from monitor_companion.readings import SampleCells, missing_spellings
from monitor_companion.refusals import Refusal
from monitor_companion.rows import RowReader

from tests.importing import SiteTest
from tests.make_exports import Export, exports

CHANGES = (
    b",",
    b";",
    b"\t",
    b'"',
    b".",
    b"-",
    b"+",
    b" ",
    b"\n",
    b"\r",
    b"\0",
    b"1",
    b"e",
    b"NaN",
    b"",
)
PROFILES = {"catman.asc": "catman", "toa5.dat": "toa5", "bridge.lvm": "lvm"}


class Same(SiteTest):
    """Changed exports, read both ways."""

    def read(self, path: Path, profile: Profile, rounding: bool) -> tuple[object, ...]:
        """What the rows of an export come to."""
        columns = {"span": "DMS span" if path.name == "catman.asc" else "span", "pier": "pier"}
        wanted = [
            Wanted(g, columns[g], Fraction(1, 10 if g == "span" else 1000)) for g in self.gauges
        ]
        try:
            layout = find_layout(path, profile, wanted)
            missing = missing_spellings(profile.missing, layout.dialect.encoding.inner)
            sinks = [io.BytesIO() for _ in wanted]
            read = RowReader(path, layout, missing, rounding, None).read(START, None, sinks)
        except Refusal as refusal:
            return ("refused", str(refusal))
        times = read.times
        told = [
            (cells.spellings, cells.missing, cells.rounded, cells.furthest, cells.suspected)
            for cells in (column.cells for column in read.columns)
        ]
        return (
            [sink.getvalue() for sink in sinks],
            (read.rows, read.end, read.sha256, read.left),
            None if times is None else (times.first, times.last, times.period, times.where),
            told,
        )

    def changed(self, export: Export, maker: random.Random) -> bytes:
        """An export with up to three changes behind its head."""
        data = export.data
        for _ in range(maker.randrange(4)):
            place = maker.randrange(len(data) // 8, len(data))
            change = maker.choice(CHANGES)
            if maker.random() < 0.2:
                # (Where a number is parted, the parts may be numbers too.)
                place = data.find(b",", place) if b"," in data[place:] else place
            data = data[:place] + change + data[place + maker.randrange(2) :]
        return data

    def test_changed_exports(self) -> None:
        maker = random.Random(3)
        outcomes = {"taken": 0, "refused": 0}
        for export in exports():
            profile = load_profile(PROFILES.get(export.name, "csv"))
            for _ in range(6):
                path = self.site / self.write(export.name, self.changed(export, maker))
                rounding = maker.random() < 0.3
                with mock.patch(
                    "monitor_companion.pieces.BLOCK", maker.choice((150, 701, 10**6))
                ):
                    found = self.read(path, profile, rounding)
                with ExitStack() as stack:
                    for place in (
                        (Dialect, "split_piece"),
                        (SampleCells, "_bulk"),
                        (PlainRows, "columns"),
                    ):
                        stack.enter_context(mock.patch.object(*place, return_value=None))
                    nothing = mock.patch("monitor_companion.times.whole_numbers", return_value=None)
                    stack.enter_context(nothing)
                    plain = mock.patch.object(SampleCells, "_plain_value", return_value=-(2**31))
                    stack.enter_context(plain)
                    self.assertEqual(self.read(path, profile, rounding), found, export.name)
                outcomes["refused" if found[0] == "refused" else "taken"] += 1
        # Both have to come up, else the comparison says little.
        self.assertGreater(min(outcomes.values()), 12, outcomes)
