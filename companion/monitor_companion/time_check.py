"""The times of an export, row after row: period, gaps, repeated rows, times that go back."""

from __future__ import annotations

import operator
from array import array
from collections.abc import Sequence
from dataclasses import dataclass, field
from fractions import Fraction

from monitor_companion.recording import GREATEST_PERIOD
from monitor_companion.refusals import Place, Refusal
from monitor_companion.times import TimeKind, time_text
from monitor_companion.wording import thousandths_text

MICROSECOND = 1000
SHOWN = 3


@dataclass
class TimeCheck:
    """What the times of the rows so far say. All times are in nanoseconds.

    A row belongs to the one before where it is half a period to one and a half behind it.
    """

    file: str
    column: str
    kind: TimeKind
    period: int | None = None
    first: int | None = None
    last: int | None = None
    rows: int = 0
    gaps: int = 0
    lacking: int = 0
    repeated: int = 0
    close: int = 0
    jitter: int = 0
    found: int | None = None
    where: list[str] = field(default_factory=list)

    def take(self, times: array[int], lines: Sequence[int]) -> None:
        """Takes the times of the next rows, which stand in these lines.

        Raises Refusal where a time goes back.
        """
        if not times:
            return
        rows = len(times)
        if self.last is not None:
            times = array("q", (self.last,)) + times
        else:
            self.first = times[0]
        # (The row of `times[place]` stands in `lines[place - before]`.)
        before = len(times) - rows
        # (The differences of 64-bit numbers may need more: they stay a list.)
        steps = list(map(operator.sub, times[1:], times))
        if steps and min(steps) < 0:
            self._refuse_back(steps, times, lines, before)
        self._settle_period(steps)
        if self.period is not None and steps.count(self.period) != len(steps):
            self._examine(steps, times, lines, before)
        self.rows += rows
        self.last = times[-1]

    def _settle_period(self, steps: list[int]) -> None:
        """Finds the period as the middle one of the first steps."""
        if self.found is None and steps:
            self.found = sorted(steps)[len(steps) // 2]
            if self.period is None and self.found > 0:
                self.period = self.found

    def _examine(
        self, steps: list[int], times: array[int], lines: Sequence[int], before: int
    ) -> None:
        """Looks at each step that isn't the period."""
        assert self.period is not None
        period = self.period
        jitter = self.jitter
        for place, step in enumerate(steps, 1):
            if step == period:
                continue
            if period < 2 * step < 3 * period:
                jitter = max(jitter, abs(step - period))
                continue
            self._tell(step, times[place], lines[place - before])
        self.jitter = jitter

    def _refuse_back(
        self, steps: list[int], times: array[int], lines: Sequence[int], before: int
    ) -> None:
        """Refuses the first time that is before the one above it."""
        place = next(place for place, step in enumerate(steps, 1) if step < 0)
        text, above = (time_text(times[at], self.kind) for at in (place, place - 1))
        raise Refusal(
            Place(self.file, lines[place - before], self.column, text),
            f"the time goes back, from {above}: rows stand twice or in disorder",
        )

    def _tell(self, step: int, time: int, line: int) -> None:
        """Notes a step that isn't one period."""
        assert self.period is not None
        text = time_text(time, self.kind)
        if step == 0:
            self.repeated += 1
            what = "the time stands again"
        elif 2 * step >= 3 * self.period:
            self.gaps += 1
            lacking = round(Fraction(step, self.period)) - 1
            self.lacking += lacking
            what = f"about {lacking} rows lack before it"
        else:
            self.close += 1
            what = "less than half a period behind the row before"
        if len(self.where) < SHOWN:
            self.where.append(f"line {line}, {text}: {what}")

    @property
    def faults(self) -> int:
        """How many rows don't stand one period behind the one before."""
        return self.gaps + self.repeated + self.close

    def fault_text(self) -> str:
        """What is wrong with the times, in one line."""
        parts = []
        if self.gaps:
            parts.append(f"{self.gaps} gaps ({self.lacking} rows lack)")
        if self.repeated:
            parts.append(f"{self.repeated} repeated times")
        if self.close:
            parts.append(f"{self.close} rows too close")
        return f"{', '.join(parts)}; {'; '.join(self.where)}"

    def measured(self) -> Fraction | None:
        """The time between two rows: the mean where nothing lacks, else the middle one."""
        if self.first is None or self.last is None or self.rows < 2:
            return None
        if self.faults or not self.jitter:
            return None if self.found is None else Fraction(self.found)
        return Fraction(self.last - self.first, self.rows - 1)

    def microseconds(self) -> int:
        """The period for the recording's head; refused where there is none."""
        measured = self.measured()
        place = Place(self.file, None, self.column)
        if measured is None:
            raise Refusal(place, "the period can't be found from less than two rows: say --period")
        if measured <= 0:
            raise Refusal(place, "most times stand again, so there is no period: say --no-time")
        period = round(measured / MICROSECOND)
        if not 1 <= period <= GREATEST_PERIOD:
            raise Refusal(place, f"its period, {period} µs, has no room in a recording")
        return period

    def check_period(self, period: int) -> None:
        """Refuses an export whose rows come at another rate than `period`, in microseconds."""
        measured = self.measured()
        if measured is None:
            return
        wanted = Fraction(period * MICROSECOND)
        # Times are rounded where they are written; over many rows that makes no difference.
        rounding = 2 * self.jitter + MICROSECOND
        room = wanted / 500 + (rounding if self.faults else rounding / (self.rows - 1))
        if abs(measured - wanted) > room:
            every = thousandths_text(measured / MICROSECOND)
            raise Refusal(
                Place(self.file, None, self.column),
                f"its rows come every {every} µs, and not every {period}",
            )
