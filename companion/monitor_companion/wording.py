"""How counts, numbers and texts of unknown length stand in a line."""

from __future__ import annotations

from fractions import Fraction

SHOWN_LENGTH = 60


def counted(number: int, what: str) -> str:
    """A number with its noun: 1 row, 2 rows."""
    return f"{number} {what}" if number == 1 else f"{number} {what}s"


def shortened(text: str) -> str:
    """A text that fits a line: all of it, or the front of a long one."""
    return text if len(text) <= SHOWN_LENGTH else text[: SHOWN_LENGTH - 3] + "..."


def one_line(text: str) -> str:
    """A text without letters that would begin another line; a file may have any letters."""
    return "".join(letter if letter.isprintable() else "?" for letter in text)


def decimal_text(number: Fraction) -> str:
    """A number as a decimal where it has an end, else as a fraction."""
    denominator, twos, fives = number.denominator, 0, 0
    while denominator % 2 == 0:
        denominator, twos = denominator // 2, twos + 1
    while denominator % 5 == 0:
        denominator, fives = denominator // 5, fives + 1
    if denominator != 1:
        return f"{number.numerator}/{number.denominator}"
    places = max(twos, fives)
    digits = str(abs(number.numerator) * 10**places // number.denominator).rjust(places + 1, "0")
    sign = "-" if number < 0 else ""
    return sign + (digits if places == 0 else f"{digits[:-places]}.{digits[-places:]}")


def thousandths_text(number: Fraction) -> str:
    """A number as a decimal, rounded where it has more than three decimals."""
    return decimal_text(Fraction(round(number * 1000), 1000))
