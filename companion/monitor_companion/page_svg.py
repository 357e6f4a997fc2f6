"""Charts as SVG elements: scales, axes with their ticks, step areas, and accessible texts.

Coordinates are floats: they are drawn, and never compared or printed as numbers.
"""

from __future__ import annotations

import math
from collections.abc import Iterable, Sequence
from dataclasses import dataclass, field

from monitor_companion.page_text import MINUS, escaped, plain, power_of_ten

WIDTH = 400
HEIGHT = 300
LEFT = 50
RIGHT = 390
TOP = 10
TICK_GAP = 14
LABEL_DROP = 31
# A tick with more decimals is told as a power of ten.
MOST_DECIMALS = 5


@dataclass(frozen=True)
class Scale:
    """A linear or logarithmic map from values to places."""

    low: float
    high: float
    start: float
    end: float
    is_log: bool = False

    def __call__(self, value: float) -> float:
        low, high = self.low, self.high
        if self.is_log:
            low, high, value = math.log10(low), math.log10(high), math.log10(value)
        return self.start + (value - low) / (high - low) * (self.end - self.start)

    def within(self, value: float) -> float:
        """The place of a value, or of the limit that it passes."""
        return self(min(max(value, self.low), self.high))


Ticks = Sequence[tuple[float, str]]


def round_ticks(low: float, high: float, about: int = 6) -> list[tuple[float, str]]:
    """Ticks at round numbers between two values, about so many."""
    rough = (high - low) / about
    decade: float = 10.0 ** math.floor(math.log10(rough))
    step = next(each * decade for each in (1, 2, 5, 10) if each * decade >= rough * 0.999)
    first, last = math.ceil(low / step - 1e-9), math.floor(high / step + 1e-9)
    return [(at * step, round_text(at * step, step)) for at in range(first, last + 1)]


def round_text(value: float, step: float) -> str:
    """A multiple of a step with the step's decimals, or as a power of ten where these are many."""
    decimals = max(0, -math.floor(math.log10(step) + 1e-9))
    if decimals <= MOST_DECIMALS or not value:
        return plain(0.0) if not value else f"{value:.{decimals}f}".replace("-", MINUS)
    exponent = math.floor(math.log10(abs(value)) + 1e-9)
    return f"{plain(round(value / 10.0**exponent, 3))}×{power_of_ten(exponent)}"


def decade_ticks(low: float, high: float, most: int = 10) -> list[tuple[float, str]]:
    """Ticks at the powers of ten between two values; with many, only each second has a label."""
    first, last = math.ceil(math.log10(low) - 1e-9), math.floor(math.log10(high) + 1e-9)
    labelled = 1 + (last - first) // most
    return [
        (10.0**power, power_of_ten(power) if power % labelled == 0 else "")
        for power in range(first, last + 1)
    ]


def one_two_five_ticks(low: float, high: float) -> list[tuple[float, str]]:
    """Ticks at 1, 2 and 5 times the powers of ten between two values."""
    decades = range(math.floor(math.log10(low)), math.ceil(math.log10(high)) + 1)
    values = [step * 10.0**power for power in decades for step in (1, 2, 5)]
    return [(at, plain(round(at, 9))) for at in values if low * 0.999 <= at <= high * 1.001]


def number(value: float) -> str:
    """A coordinate, with at most one decimal."""
    text = f"{value:.1f}"
    return text.removesuffix(".0")


@dataclass
class Chart:
    """An SVG picture that is told by a title and a description."""

    identity: str
    title: str
    description: str
    x: Scale
    y: Scale
    height: float = HEIGHT
    elements: list[str] = field(default_factory=list)

    def add(self, element: str) -> None:
        self.elements.append(element)

    def line(self, points: Iterable[tuple[float, float]], kind: str, more: str = "") -> None:
        """A line through places."""
        path = "L".join(f"{number(x)} {number(y)}" for x, y in points)
        self.add(f'<path class="{kind}" d="M{path}"{more}/>')

    def words(self, x: float, y: float, text: str, kind: str = "", more: str = "") -> None:
        """A text at a place."""
        shown = f' class="{kind}"' if kind else ""
        self.add(f'<text{shown} x="{number(x)}" y="{number(y)}"{more}>{escaped(text)}</text>')

    def axes(self, x_ticks: Ticks, y_ticks: Ticks, x_label: str, y_label: str) -> None:
        """The frame: grid lines, ticks and their texts, and what the axes mean."""
        left, right = self.x.start, self.x.end
        bottom, top = self.y.start, self.y.end
        lines = [f"M{number(self.x(value))} {number(bottom)}V{number(top)}" for value, _ in x_ticks]
        start, end = number(left), number(right)
        lines += [f"M{start} {number(self.y(value))}H{end}" for value, _ in y_ticks]
        self.add(f'<path class="grid" d="{"".join(lines)}"/>')
        for value, text in x_ticks:
            if text:
                self.words(self.x(value), bottom + TICK_GAP, text, "middle")
        for value, text in y_ticks:
            if text:
                self.words(left - 6, self.y(value) + 4, text, "end")
        self.words((left + right) / 2, bottom + LABEL_DROP, x_label, "middle label")
        middle = (bottom + top) / 2
        turn = f' transform="rotate(-90 12 {number(middle)})"'
        self.words(12, middle, y_label, "middle label", turn)

    def baseline(self) -> None:
        """The two axes as lines, above what was drawn."""
        left, right = number(self.x.start), number(self.x.end)
        bottom, top = number(self.y.start), number(self.y.end)
        self.add(f'<path class="axis" d="M{left} {top}V{bottom}H{right}"/>')

    def text(self) -> str:
        """The picture as an element of a page."""
        name = self.identity
        return (
            f'<svg viewBox="0 0 {WIDTH} {number(self.height)}" role="img" '
            f'aria-labelledby="{name}-t {name}-d">'
            f'<title id="{name}-t">{escaped(self.title)}</title>'
            f'<desc id="{name}-d">{escaped(self.description)}</desc>'
            f"{''.join(self.elements)}</svg>"
        )


def bars_to_right(chart: Chart, bars: Iterable[tuple[float, float, float]], kind: str) -> None:
    """Bars from the left axis: from and to on the y axis, and a value on the x axis."""
    path = []
    for low, high, value in bars:
        bottom, top = chart.y.within(low), chart.y.within(high)
        right = chart.x.within(value)
        left = number(chart.x.start)
        path.append(f"M{left} {number(bottom)}V{number(top)}H{number(right)}V{number(bottom)}Z")
    chart.add(f'<path class="{kind}" d="{"".join(path)}"/>')


def bars_upwards(chart: Chart, bars: Iterable[tuple[float, float, float]], kind: str) -> None:
    """Bars from the bottom axis: from and to on the x axis, and a value on the y axis."""
    path = []
    for low, high, value in bars:
        left, right = chart.x.within(low), chart.x.within(high)
        bottom, top = number(chart.y.start), number(chart.y.within(value))
        path.append(f"M{left:.2f} {bottom}V{top}H{right:.2f}V{bottom}Z")
    chart.add(f'<path class="{kind}" d="{"".join(path)}"/>')


def figure(title: str, picture: str, note: str) -> str:
    """A picture with its title above it and what has to be known below it (HTML)."""
    below = f'<p class="note">{note}</p>' if note else ""
    return f"<figure><figcaption>{escaped(title)}</figcaption>{picture}{below}</figure>"
