"""What an import or an append was asked for."""

from __future__ import annotations

from collections.abc import Sequence
from dataclasses import dataclass, replace
from fractions import Fraction
from pathlib import Path

from monitor_companion.journal import Entry, journal_path, read_journal
from monitor_companion.layout import Wanted
from monitor_companion.profiles import (
    PLAIN,
    ColumnChoice,
    Profile,
    TimeProfile,
    load_profile,
    read_step,
)
from monitor_companion.refusals import Place, Refusal
from monitor_companion.site import FILE_NAME, Gauge


@dataclass(frozen=True)
class Overrides:
    """What the options say of how an export is written; None is left to the profile."""

    encoding: str | None = None
    separator: str | None = None
    decimal: str | None = None
    names: int | None = None
    units: int | None = None
    missing: tuple[str, ...] = ()
    only_missing: tuple[str, ...] | None = None
    time: tuple[str, ...] | None = None
    no_time: bool = False
    time_format: str | None = None
    begins_again: bool = False

    def over(self, profile: Profile) -> Profile:
        """The profile with what the options say."""
        missing = profile.missing if self.only_missing is None else self.only_missing
        return replace(
            profile,
            encoding=self.encoding or profile.encoding,
            separator=self.separator or profile.separator,
            decimal=self.decimal or profile.decimal,
            names=profile.names if self.names is None else self.names,
            units=profile.units if self.units is None else self.units,
            missing=(*missing, *self.missing),
            time=self._time(profile.time),
        )

    def _time(self, time: TimeProfile) -> TimeProfile:
        if self.no_time:
            return replace(time, columns=(), required=False)
        if self.time is not None:
            time = replace(time, columns=(self.time,), required=True)
        return replace(
            time,
            format=self.time_format or time.format,
            begins_again=self.begins_again or time.begins_again,
        )


@dataclass(frozen=True)
class Request:
    """What is asked for; `period` is in microseconds, ids are 32 hexadecimal digits."""

    export: Path
    site: Path
    profile: str | None = None
    overrides: Overrides = Overrides()
    gauges: tuple[str, ...] = ()
    columns: tuple[tuple[str, str], ...] = ()
    steps: tuple[tuple[str, Fraction], ...] = ()
    """Steps of gauges; the name "" stands for all."""
    ids: tuple[tuple[str, str], ...] = ()
    period: int | None = None
    rounding: bool = False
    allow_gaps: bool = False
    adopt: bool = False

    def profile_name(self, gauges: Sequence[Gauge]) -> str:
        """The profile that is said, or the one of the last import, or plain CSV."""
        if self.profile is not None:
            return self.profile
        for gauge in gauges:
            if not self.gauges or gauge.name in self.gauges:
                journal = read_journal(journal_path(gauge.recording))
                if journal is not None and journal.entries and journal.entries[-1].profile:
                    return journal.entries[-1].profile
        return PLAIN

    def loaded(self, name: str) -> Profile:
        """A profile with what the options say."""
        return self.overrides.over(load_profile(name))

    def chosen(self, gauges: Sequence[Gauge], profile: Profile) -> list[Gauge]:
        """The gauges that the export has to have; a name that the site hasn't is refused."""
        known = {gauge.name for gauge in gauges}
        choices = [choice.gauge for choice in profile.columns]
        named = [*self.gauges, *choices, *(gauge for _, gauge in self.columns)]
        named += [gauge for gauge, _ in (*self.steps, *self.ids) if gauge]
        for name in named:
            if name not in known:
                place = Place(str(self.site / FILE_NAME))
                raise Refusal(place, f"has no gauge {name!r}; there are {', '.join(sorted(known))}")
        wanted = set(self.gauges) or set(choices) or known
        return [gauge for gauge in gauges if gauge.name in wanted]

    def wanted(self, gauge: str, profile: Profile, last: Entry | None) -> Wanted:
        """Which column goes to a gauge, and by which step.

        Options go before the profile, the profile before the last import, and that before a column
        that is named like the gauge, by steps of 1. Another step than the last one is refused.
        """
        choice = next(
            (one for one in profile.columns if one.gauge == gauge), ColumnChoice("", gauge)
        )
        column = next((name for name, to in self.columns if to == gauge), choice.column)
        steps = dict(self.steps)
        step = steps.get(gauge) or choice.step or steps.get("")
        if last is not None and last.step:
            kept = read_step(last.step, Place(gauge))
            if step is not None and step != kept:
                place = Place(str(self.export), None, column or gauge)
                raise Refusal(place, f"its step was {last.step} so far, and can't be another now")
            step = kept
        column = column or (last.column if last is not None else "") or gauge
        return Wanted(gauge, column, step or Fraction(1))
