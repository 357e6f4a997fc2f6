"""A page as its reader has it: elements, tables, and the numbers of the summary."""

from __future__ import annotations

import contextlib
import html.parser
import io
import math
import pathlib
import re
from collections import Counter
from collections.abc import Callable
from decimal import Decimal
from fractions import Fraction

from tests.report_cases import Case, run_command

# Elements of HTML that have no end.
VOID = {"meta", "link", "br"}
GROUPS = "\u202f"
SUPERSCRIPTS = str.maketrans("⁰¹²³⁴⁵⁶⁷⁸⁹", "0123456789")
TEXT = re.compile(r'<text class="(\w+)" x="([\d.]+)" y="([\d.]+)">([^<]+)</text>')
BAR = re.compile(r"M([\d.]+) ([\d.]+)V([\d.]+)H([\d.]+)V[\d.]+Z")
NUMBER = re.compile(r"-?[\d.]+")
# Coordinates are drawn to a tenth of a pixel.
PIXELS = 0.12


class Page(html.parser.HTMLParser):
    """The elements of a page: attributes of each, ids, pictures with their texts, table rows."""

    def __init__(self, text: str) -> None:
        super().__init__(convert_charrefs=True)
        self.open: list[str] = []
        self.faults: list[str] = []
        self.attributes: list[tuple[str, str, str]] = []
        self.elements: Counter[str] = Counter()
        self.texts: dict[str, str] = {}
        self.tables: dict[str, list[list[str]]] = {}
        self._table: list[list[str]] = []
        self._cell: list[str] = []
        self._identities: list[str | None] = []
        self.feed(text)
        self.close()

    def handle_starttag(self, tag: str, attrs: list[tuple[str, str | None]]) -> None:
        named = {name: value or "" for name, value in attrs}
        self.elements[tag] += 1
        self.attributes += [(tag, name, value) for name, value in named.items()]
        if tag == "table":
            self._table = self.tables.setdefault(named["class"], [])
        if tag == "tr":
            self._table.append([])
        if tag in ("td", "th"):
            self._cell = []
        if tag not in VOID and not (self.get_starttag_text() or "").endswith("/>"):
            self.open.append(tag)
            self._identities.append(named.get("id"))

    def handle_endtag(self, tag: str) -> None:
        if not self.open or self.open.pop() != tag:
            self.faults.append(f"</{tag}> at {self.getpos()}")
            return
        self._identities.pop()
        if tag in ("td", "th"):
            self._table[-1].append("".join(self._cell))

    def handle_startendtag(self, tag: str, attrs: list[tuple[str, str | None]]) -> None:
        self.handle_starttag(tag, attrs)

    def handle_data(self, data: str) -> None:
        self._cell.append(data)
        if self._identities and self._identities[-1]:
            self.texts[self._identities[-1]] = self.texts.get(self._identities[-1], "") + data

    def values(self, name: str) -> list[str]:
        """The values of an attribute in all elements."""
        return [value for _, found, value in self.attributes if found == name]


def draw(folder: pathlib.Path, *words: object, reports: tuple[str, ...] = ("report.txt",)) -> str:
    """Draws `page.html`; returns the status and what is told."""
    told = io.StringIO()
    paths = [folder / report for report in reports]
    with contextlib.redirect_stderr(told):
        status = run_command("page", *paths, "--site", folder, "-o", folder / "page.html", *words)
    return f"{status} {told.getvalue()}"


def page_of(folder: pathlib.Path) -> Page:
    return Page((folder / "page.html").read_text(encoding="utf-8"))


def details_of(case: Case) -> list[list[str]]:
    """Detail, gauge, kind, category, factor, and damage in per cent; the worst first."""
    rows = []
    for detail in case.details:
        gauge = case.names[detail.gauge]
        words = detail.line(gauge, case.counts[detail.gauge]).split()
        damage = int(words[3]) + Fraction(words[4])
        percent = f"{Decimal(words[5]) * 100:.7f}"
        factor = f"{detail.gamma // 100}.{detail.gamma % 100:02}"
        row = [words[1], gauge, f"{detail.kind} {detail.category}", factor, percent]
        rows.append((damage, row))
    return [row for _, row in sorted(rows, key=lambda each: -each[0])]


def shown_details(page: Page) -> list[list[str]]:
    rows = [[cell.replace(GROUPS, "") for cell in row] for row in page.tables["details"][1:]]
    return [
        [row[0].removesuffix(" past its life"), *row[1:3], row[3].removeprefix("factor "),
         row[4].removesuffix(" %")]
        for row in rows
    ]  # fmt: skip


def shown_gauges(page: Page) -> list[list[int | str]]:
    """Gauge, samples, missing, refused."""
    rows = [
        [cell.replace(GROUPS, "").split(" ")[0] for cell in row]
        for row in page.tables["gauges"][1:]
    ]
    return [[row[0], int(row[1]), int(row[3]), int(row[4])] for row in rows]


def gauges_of(case: Case) -> list[list[int | str]]:
    return [
        [name, count.samples, count.missing, count.samples - count.missing - len(count.levels)]
        for name, count in zip(case.names, case.counts, strict=True)
    ]


def _value(tick: str) -> float:
    power = re.fullmatch("10([⁰¹²³⁴⁵⁶⁷⁸⁹]+)", tick)
    if power is not None:
        return 10.0 ** int(power[1].translate(SUPERSCRIPTS))
    return float(tick.replace("−", "-"))


class Picture:
    """A picture of the page, with its axes as their ticks tell them."""

    def __init__(self, text: str, identity: str, x_log: bool, y_log: bool) -> None:
        end = text.index("</svg>", text.index(f'id="{identity}-t"'))
        self.text = text[text.index(f'id="{identity}-t"') : end]
        ticks = [(kind, float(x), float(y), t) for kind, x, y, t in TEXT.findall(self.text)]
        # A text at a y tick stands four pixels lower than its line.
        x_ticks = [(_value(text), x) for kind, x, _, text in ticks if kind == "middle"]
        y_ticks = [(_value(text), y - 4) for kind, _, y, text in ticks if kind == "end"]
        self.x, self.y = _axis(x_ticks, x_log), _axis(y_ticks, y_log)

    def bars(self, kind: str) -> list[tuple[float, float, float, float]]:
        """Left, bottom, top and right of each bar of a kind, in pixels."""
        return [
            (float(left), float(bottom), float(top), float(right))
            for path in re.findall(rf'<path class="{kind}" d="([^"]*)"', self.text)
            for left, bottom, top, right in BAR.findall(path)
        ]

    def line(self, kind: str) -> list[list[tuple[float, float]]]:
        """The places of each line of a kind, in pixels."""
        lines = []
        for path in re.findall(rf'<path class="{kind}" d="M([^"]*)"', self.text):
            places = [float(number) for number in NUMBER.findall(path)]
            lines.append(list(zip(places[0::2], places[1::2], strict=True)))
        return lines


def _axis(ticks: list[tuple[float, float]], is_log: bool) -> Callable[[float], float]:
    """The place of a value, by the first and the last tick."""
    (low, start), (high, end) = min(ticks), max(ticks)

    def place(value: float) -> float:
        part = (value - low) / (high - low)
        if is_log:
            part = math.log(value / low) / math.log(high / low)
        return start + part * (end - start)

    return place
