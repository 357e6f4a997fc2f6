"""The options that `import` and `append` have in common."""

from __future__ import annotations

import re
from argparse import ArgumentParser, ArgumentTypeError, Namespace
from fractions import Fraction
from pathlib import Path

from monitor_companion.dialects import DECIMALS, ENCODING_NAMES, SEPARATORS
from monitor_companion.profiles import built_in, check_time_format, read_step
from monitor_companion.recording import GREATEST_PERIOD
from monitor_companion.refusals import Place, Refusal
from monitor_companion.request import Overrides, Request
from monitor_companion.site import add_site_option

PLACE = re.compile(r"#[1-9]\d{0,4}")
ID = re.compile(r"[0-9a-f]{32}")


def add_common(parser: ArgumentParser) -> None:
    """The options of both commands."""
    parser.add_argument("export", metavar="EXPORT", type=Path, help="the logger's file")
    add_site_option(parser)
    parser.add_argument(
        "--profile",
        metavar="NAME",
        help=f"{', '.join(built_in())}, or a TOML file of your own (csv; append: the last one)",
    )
    add_columns(parser)
    parser.add_argument(
        "--round",
        action="store_true",
        help="round to whole steps, and tell how many and by how much",
    )
    parser.add_argument(
        "--allow-gaps",
        action="store_true",
        help="take rows behind gaps, and repeated ones, as they are",
    )
    parser.add_argument(
        "--period", type=period, metavar="US", help="the time between two rows, in microseconds"
    )
    add_dialect(parser)
    add_times(parser)


def add_columns(parser: ArgumentParser) -> None:
    """The options on columns and their steps."""
    parser.add_argument(
        "--gauge",
        action="append",
        default=[],
        metavar="GAUGE",
        help="only this gauge; may be repeated",
    )
    parser.add_argument(
        "--column",
        action="append",
        default=[],
        type=column_choice,
        metavar="NAME=GAUGE",
        help="the column of a gauge, by its name or its place (#2); else that of its name",
    )
    parser.add_argument(
        "--step",
        action="append",
        default=[],
        type=step_choice,
        metavar="[GAUGE=]STEP",
        help="what 1 in the recording means, in the column's unit, such as 0.1 (1)",
    )


def add_dialect(parser: ArgumentParser) -> None:
    """The options on how the export is written."""
    group = parser.add_argument_group("how the export is written, where the profile isn't right")
    group.add_argument("--encoding", choices=list(ENCODING_NAMES))
    group.add_argument("--separator", choices=list(SEPARATORS))
    group.add_argument("--decimal", choices=list(DECIMALS))
    group.add_argument("--names", type=count, metavar="LINE", help="the line of the names; 0: none")
    group.add_argument("--units", type=count, metavar="N", help="rows between names and readings")
    group.add_argument(
        "--missing",
        action="append",
        default=[],
        metavar="TEXT",
        help="one more spelling of no reading; --missing=-9999 for a number",
    )
    group.add_argument(
        "--only-missing",
        action="append",
        metavar="TEXT",
        help="the spellings of no reading, in place of the profile's",
    )


def add_times(parser: ArgumentParser) -> None:
    """The options on times."""
    group = parser.add_argument_group("times")
    group.add_argument(
        "--time",
        action="append",
        metavar="NAME",
        help="the column of the times, by name or place (#1); two are read as one",
    )
    group.add_argument("--no-time", action="store_true", help="the times are not looked at")
    group.add_argument(
        "--time-format",
        type=time_format,
        metavar="FORMAT",
        help="a unit (s, ms, us, ns, min, h, d), or such as '%%d.%%m.%%Y %%H:%%M:%%S'",
    )
    group.add_argument(
        "--times-begin-again",
        action="store_true",
        help="each export counts its times from its own start",
    )


def column_choice(text: str) -> tuple[str, str]:
    """NAME=GAUGE, where NAME may have `=`."""
    name, equals, gauge = text.rpartition("=")
    if not equals or not name or not gauge:
        raise ArgumentTypeError(f"{text!r} isn't NAME=GAUGE")
    if name.startswith("#") and not PLACE.fullmatch(name):
        raise ArgumentTypeError(f"{name!r} is no place: #1 is the first column")
    return name, gauge


def step_choice(text: str) -> tuple[str, Fraction]:
    """GAUGE=STEP, or a step for all."""
    gauge, _, step = text.rpartition("=")
    try:
        return gauge, read_step(step, Place("--step"))
    except Refusal as refusal:
        raise ArgumentTypeError(refusal.why) from refusal


def id_choice(text: str) -> tuple[str, str]:
    """GAUGE=ID."""
    gauge, _, digits = text.rpartition("=")
    if not gauge or not ID.fullmatch(digits):
        raise ArgumentTypeError(f"{text!r} isn't GAUGE=ID with 32 digits, 0 to 9 or a to f")
    return gauge, digits


def count(text: str) -> int:
    """A number of lines."""
    if not text.isdecimal() or int(text) > 1000:
        raise ArgumentTypeError(f"{text!r} is no number from 0 to 1000")
    return int(text)


def period(text: str) -> int:
    """A period in microseconds."""
    if not text.isdecimal() or not 1 <= int(text) <= GREATEST_PERIOD:
        raise ArgumentTypeError(
            f"{text!r} is no number of microseconds from 1 to {GREATEST_PERIOD}"
        )
    return int(text)


def time_format(text: str) -> str:
    """A unit or a format of times."""
    try:
        check_time_format(text)
    except ValueError as error:
        raise ArgumentTypeError(str(error)) from error
    return text


def request_of(arguments: Namespace) -> Request:
    """What the options ask for."""
    overrides = Overrides(
        encoding=arguments.encoding,
        separator=arguments.separator,
        decimal=arguments.decimal,
        names=arguments.names,
        units=arguments.units,
        missing=tuple(arguments.missing),
        only_missing=None if arguments.only_missing is None else tuple(arguments.only_missing),
        time=None if arguments.time is None else tuple(arguments.time),
        no_time=arguments.no_time,
        time_format=arguments.time_format,
        begins_again=arguments.times_begin_again,
    )
    return Request(
        export=arguments.export,
        site=arguments.site,
        profile=arguments.profile,
        overrides=overrides,
        gauges=tuple(arguments.gauge),
        columns=tuple(arguments.column),
        steps=tuple(arguments.step),
        ids=tuple(getattr(arguments, "id", [])),
        period=arguments.period,
        rounding=arguments.round,
        allow_gaps=arguments.allow_gaps,
        adopt=getattr(arguments, "adopt", False),
    )
