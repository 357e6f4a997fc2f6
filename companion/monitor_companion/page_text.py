"""Numbers and texts as a page shows them; rounding is exact, from fractions."""

from __future__ import annotations

import html
from fractions import Fraction

from monitor_companion.report import BILLION

THIN_SPACE = "\u202f"
MINUS = "\u2212"
_SUPERSCRIPTS = str.maketrans("-0123456789", "⁻⁰¹²³⁴⁵⁶⁷⁸⁹")
SECOND = 1_000_000
MINUTE = 60 * SECOND
HOUR = 60 * MINUTE
DAY = 24 * HOUR


def escaped(text: str) -> str:
    """A text that is safe in HTML, also in an attribute."""
    return html.escape(text, quote=True)


def grouped(number: int) -> str:
    """A whole number in groups of three digits."""
    return f"{number:,}".replace(",", THIN_SPACE).replace("-", MINUS)


def fixed(value: Fraction | int, decimals: int) -> str:
    """A number with so many decimals, rounded to the nearest one, halves away from zero."""
    scaled = abs(Fraction(value)) * 10**decimals
    rounded = (2 * scaled.numerator + scaled.denominator) // (2 * scaled.denominator)
    whole, rest = divmod(rounded, 10**decimals)
    sign = MINUS if value < 0 and rounded else ""
    return sign + grouped(whole) + (f".{rest:0{decimals}}" if decimals else "")


def percent_of_life(billionths: int) -> str:
    """A damage in billionths as per cent of the life: the printed digits, moved by two places."""
    whole, rest = divmod(billionths, BILLION // 100)
    return f"{grouped(whole)}.{rest:07}"


def small_percent(value: Fraction, decimals: int) -> str:
    """A share in per cent; what is above 0 and would be shown as 0 is told as less than a step."""
    text = fixed(100 * value, decimals)
    if value and not text.strip("0."):
        return "<" + f"{0:.{decimals - 1}f}1" if decimals > 1 else "<0.1"
    return text


def cycles_text(half_units: int) -> str:
    """Half units as cycles, with one decimal."""
    return f"{grouped(half_units // 2)}.{5 * (half_units % 2)}"


def stress_text(half_stress: int) -> str:
    """Halves of a N/mm² as N/mm², with one decimal."""
    return cycles_text(half_stress)


def plain(value: float) -> str:
    """A number of an axis without needless decimals."""
    return f"{value:g}".replace("-", MINUS)


def power_of_ten(exponent: int) -> str:
    """A decade of an axis: 1, 10 and 100 as they are, the others as powers."""
    if 0 <= exponent <= 2:
        return str(10**exponent)
    return "10" + str(exponent).translate(_SUPERSCRIPTS)


def days(microseconds: int) -> str:
    """A time in days, with four decimals."""
    return fixed(Fraction(microseconds, DAY), 4)


def duration(microseconds: int) -> str:
    """A time in the unit that suits it."""
    for unit, name in ((DAY, "days"), (HOUR, "h"), (MINUTE, "min")):
        if microseconds >= unit:
            return f"{fixed(Fraction(microseconds, unit), 1)} {name}"
    return f"{fixed(Fraction(microseconds, SECOND), 1)} s"
