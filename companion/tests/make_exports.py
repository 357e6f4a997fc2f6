#!/usr/bin/env python3
"""Makes exports as loggers write them, always the same.

make_exports.py FOLDER          writes all of them but the big one
make_exports.py FOLDER big      writes big.csv: 6 million rows of three columns, 200 MB

Each export comes with what is needed to read it without the companion: `independent` does that, by
decoding the whole file and cutting it at its separators.
"""

from __future__ import annotations

import random
import sys
from collections.abc import Callable
from dataclasses import dataclass, field
from datetime import datetime, timedelta
from decimal import Decimal
from pathlib import Path

ROWS = 400
BIG_ROWS = 6_000_000


@dataclass(frozen=True)
class Export:
    """A file, the words that import it, and how an independent reading takes it."""

    name: str
    data: bytes
    words: tuple[str, ...]
    encoding: str
    separator: str
    head: int
    places: dict[str, int]
    steps: dict[str, Decimal]
    period: int
    missing: frozenset[str] = frozenset({"", "NAN", "NaN"})
    decimal: str = "."


def independent(export: Export, gauge: str) -> list[Decimal | None]:
    """The readings of a column as decimals, None where there is none."""
    lines = export.data.decode(export.encoding).splitlines()[export.head :]
    cells = [
        line.split(export.separator)[export.places[gauge]].strip(' "') for line in lines if line
    ]
    return [
        None if cell in export.missing else Decimal(cell.replace(export.decimal, "."))
        for cell in cells
    ]


@dataclass
class Numbers:
    """Made readings: tenths for one gauge, thousandths for the other, some without a reading."""

    seed: int
    rows: int = ROWS
    random: random.Random = field(init=False)

    def __post_init__(self) -> None:
        self.random = random.Random(self.seed)

    def column(self, places: int, missing: tuple[str, ...] = ("",), mark: str = ".") -> list[str]:
        """Cells of one column, with `places` decimals."""
        cells = []
        for _ in range(self.rows):
            number = Decimal(self.random.randrange(-30_000, 30_000)).scaleb(-places)
            cells.append(f"{number:.{places}f}".replace(".", mark))
        for _ in range(self.rows // 40):
            cells[self.random.randrange(1, self.rows)] = self.random.choice(missing)
        return cells


TENTH, THOUSANDTH = Decimal("0.1"), Decimal("0.001")
STEPS = {"span": TENTH, "pier": THOUSANDTH}
STEP_WORDS = ("--step", "span=0.1", "--step", "pier=0.001")


def seconds(row: int, mark: str = ".") -> str:
    """A time of 20 rows a second."""
    return f"{Decimal(row) / 20:.2f}".replace(".", mark)


def plain() -> Export:
    """Commas and points, columns that nobody asks for, a mark before the text."""
    numbers = Numbers(1)
    span, pier = numbers.column(1), numbers.column(3, ("", "NaN"))
    rows = [
        f"{seconds(n)},{a},note {n},{b}\n" for n, (a, b) in enumerate(zip(span, pier, strict=True))
    ]
    data = "\ufefftime,span,comment,pier\n" + "".join(rows)
    return Export(
        "plain.csv",
        data.encode(),
        STEP_WORDS,
        "utf-8-sig",
        ",",
        1,
        {"span": 1, "pier": 3},
        STEPS,
        50_000,
    )


def catman() -> Export:
    """Semicolons, decimal commas, Latin-1, lines about the measurement, units, dropouts."""
    numbers = Numbers(2)
    span = numbers.column(1, ("OVERFLOW", "---"), ",")
    pier = numbers.column(3, ("OVERFLOW", ""), ",")
    head = (
        "Datum;01.09.2026\r\nOrt;Brücke 14\r\n\r\n"
        "Zeit;DMS span;pier [µm/m];Kraft\r\ns;µm/m;µm/m;kN\r\n"
    )
    rows = [
        f"{seconds(n, ',')};{a};{b};0,5\r\n"
        for n, (a, b) in enumerate(zip(span, pier, strict=True))
    ]
    return Export(
        "catman.asc",
        (head + "".join(rows)).encode("latin-1"),
        ("--profile", "catman", "--column", "DMS span=span", *STEP_WORDS),
        "latin-1",
        ";",
        5,
        {"span": 1, "pier": 2},
        STEPS,
        50_000,
        frozenset({"", "---", "OVERFLOW"}),
        ",",
    )


def toa5() -> Export:
    """Campbell: quotes, units and processing behind the names, CRLF, "NAN"."""
    numbers = Numbers(3)
    span, pier = numbers.column(1, ('"NAN"',)), numbers.column(3, ('"NAN"', '"INF"'))
    head = (
        '"TOA5","CR6","CR6","1234","CR6.Std.10","CPU:bridge.CR6","555","Fast"\r\n'
        '"TIMESTAMP","RECORD","span","pier"\r\n"TS","RN","microstrain","microstrain"\r\n'
        '"","","Smp","Smp"\r\n'
    )
    start = datetime(2026, 9, 1, 23, 59, 50)
    rows = []
    for n, (a, b) in enumerate(zip(span, pier, strict=True)):
        time = start + timedelta(milliseconds=50 * n)
        text = time.strftime("%Y-%m-%d %H:%M:%S") + f".{time.microsecond:06}".rstrip("0").rstrip(
            "."
        )
        rows.append(f'"{text}",{n},{a},{b}\r\n')
    return Export(
        "toa5.dat",
        (head + "".join(rows)).encode(),
        ("--profile", "toa5", *STEP_WORDS),
        "utf-8",
        ",",
        4,
        {"span": 2, "pier": 3},
        STEPS,
        50_000,
        frozenset({"NAN", "INF"}),
    )


def lvm() -> Export:
    """LabVIEW: two heads, tabs, decimal commas, a comment that most rows don't have."""
    numbers = Numbers(4)
    span, pier = numbers.column(1, ("NaN",), ","), numbers.column(3, ("NaN",), ",")
    head = (
        "LabVIEW Measurement\t\r\nWriter_Version\t2\r\nSeparator\tTab\r\nDecimal_Separator\t,\r\n"
        "***End_of_Header***\t\r\n\t\r\nChannels\t2\t\t\r\nSamples\t400\t400\t\r\n"
        "Y_Unit_Label\tStrain\tStrain\t\r\nDelta_X\t0,050000\t0,050000\t\r\n"
        "***End_of_Header***\t\t\t\r\nX_Value\tspan\tpier\tComment\r\n"
    )
    rows = [
        f"{seconds(n, ',')}\t{a}\t{b}{chr(9) + 'lorry' if n % 50 == 7 else ''}\r\n"
        for n, (a, b) in enumerate(zip(span, pier, strict=True))
    ]
    return Export(
        "bridge.lvm",
        (head + "".join(rows)).encode(),
        ("--profile", "lvm", *STEP_WORDS),
        "utf-8",
        "\t",
        12,
        {"span": 1, "pier": 2},
        STEPS,
        50_000,
        decimal=",",
    )


def tabbed(name: str, encoding: str, mark: bytes, end: str) -> Export:
    """Tabs in some encoding, each row ended by `end`."""
    numbers = Numbers(len(name))
    span, pier = numbers.column(1), numbers.column(3)
    rows = [f"{seconds(n)}\t{a}\t{b}{end}" for n, (a, b) in enumerate(zip(span, pier, strict=True))]
    data = mark + (f"Brücke\tµm{end}time\tspan\tpier{end}" + "".join(rows)).encode(encoding)
    decoding = "utf-16" if mark else encoding
    return Export(name, data, STEP_WORDS, decoding, "\t", 2, {"span": 1, "pier": 2}, STEPS, 50_000)


def scientific() -> Export:
    """Exponents, signs, numbers without a digit before or behind the point."""
    spellings = (
        "1.25e2",
        "-1.25E+02",
        "+12.5",
        "125e-1",
        ".5",
        "-.5",
        "5.",
        "0012.5",
        "1e0",
        "0e0",
    )
    rows = [f"{seconds(n)};{spellings[n % 10]};{n}E-3\n" for n in range(ROWS)]
    return Export(
        "scientific.csv",
        ("time;span;pier\n" + "".join(rows)).encode(),
        STEP_WORDS,
        "utf-8",
        ";",
        1,
        {"span": 1, "pier": 2},
        STEPS,
        50_000,
    )


def exports() -> list[Export]:
    """All exports that are imported exactly."""
    return [
        plain(),
        catman(),
        toa5(),
        lvm(),
        tabbed("utf16-le.txt", "utf-16-le", b"\xff\xfe", "\r\n"),
        tabbed("utf16-be.txt", "utf-16-be", b"\xfe\xff", "\n"),
        tabbed("utf16-unmarked.txt", "utf-16-le", b"", "\r\n"),
        tabbed("latin1.txt", "latin-1", b"", "\n"),
        tabbed("cr.txt", "utf-8", b"", "\r"),
        tabbed("crlf.txt", "utf-8", b"", "\r\n"),
        scientific(),
    ]


def write_big(
    path: Path, rows: int = BIG_ROWS, reading: Callable[[random.Random], int] | None = None
) -> None:
    """Writes rows of three columns, about 34 bytes each: readings of a converter, in tenths."""
    maker = random.Random(7)
    take = reading or (lambda source: source.randrange(-30_000, 30_000))
    with path.open("w", encoding="ascii") as file:
        file.write("time,span,pier,web\n")
        for begin in range(0, rows, 10_000):
            lines = []
            for n in range(begin, min(begin + 10_000, rows)):
                a, b, c = take(maker), take(maker), take(maker)
                lines.append(
                    f"{n // 200:08}.{n % 200 * 5:03},{a / 10:.1f},{b / 10:.1f},{c / 10:.1f}\n"
                )
            file.write("".join(lines))


def main() -> None:
    """Writes the exports into a folder."""
    folder = Path(sys.argv[1])
    if sys.argv[2:] == ["big"]:
        write_big(folder / "big.csv")
        return
    for export in exports():
        (folder / export.name).write_bytes(export.data)


if __name__ == "__main__":
    main()
