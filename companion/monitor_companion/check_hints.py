"""What was probably meant by a value of a configuration that is no good there."""

from __future__ import annotations

import datetime
import json
import re
from collections.abc import Sequence
from decimal import Decimal
from fractions import Fraction

from monitor_companion.wording import decimal_text, shortened

KPA_PER_STEP = 500


def shown(value: object) -> str:
    """Returns a value as a configuration writes it, cut where it is long."""
    if isinstance(value, bool):
        text = "true" if value else "false"
    elif isinstance(value, str):
        text = json.dumps(value, ensure_ascii=False)
    elif isinstance(value, list):
        text = "[...]" if value else "[]"
    elif isinstance(value, dict):
        text = "{...}" if value else "{}"
    else:
        text = str(value)
    return shortened(text)


def kind_of(value: object) -> str:
    """Returns what kind of value it is, in words."""
    if isinstance(value, bool):
        return "true or false"
    if isinstance(value, int):
        return "a whole number"
    if isinstance(value, Decimal):
        return "a number with a point"
    if isinstance(value, str):
        return "a text"
    if isinstance(value, list):
        return "an array"
    if isinstance(value, datetime.date | datetime.time):
        return "a date or time"
    return "a table"


def number_of(value: object) -> Decimal | None:
    """Returns the number that a value is, or that a text spells."""
    if isinstance(value, bool):
        return None
    if isinstance(value, int):
        return Decimal(value)
    if isinstance(value, Decimal):
        return value if value.is_finite() and abs(value.adjusted()) < 20 else None
    if isinstance(value, str) and re.fullmatch(r"\s*[-+]?\d{1,12}(?:[.,]\d{1,12})?\s*", value):
        return Decimal(value.strip().replace(",", "."))
    return None


def _whole(number: Decimal) -> int | None:
    return int(number) if number == number.to_integral_value() else None


def meant_number(key: str, value: object) -> str:
    """Returns what was probably meant by a value of another kind where a whole number belongs."""
    if isinstance(value, list) and len(value) == 1:
        return meant_number(key, value[0])
    number = number_of(value)
    if number is None:
        return ""
    in_units = isinstance(value, Decimal) or key in ("low", "gamma")
    special = _meant_in_units(key, number) if in_units else ""
    if special:
        return special
    whole = _whole(number)
    return f"{key} = {whole}" if whole is not None else ""


def _meant_in_units(key: str, number: Decimal) -> str:
    """Returns the whole number of a decimal one that was given in N/mm² or as a factor."""
    if key == "gamma" and number < 10 and _whole(number * 100) is not None:
        return f"gamma = {int(number * 100)} (hundredths)"
    if key in ("low", "offset") and 0 < abs(number) < 1000 and _whole(number * 1000) is not None:
        return f"{key} = {int(number * 1000)} ({decimal_text(Fraction(number))} N/mm² in kPa)"
    if key == "width" and number > 0 and _whole(number * 2) is not None:
        return f"width = {int(number * 2)} ({decimal_text(Fraction(number))} N/mm² in steps of 0.5 N/mm²)"
    if key == "num" and _whole(number) is None:
        return _meant_gain(number)
    return ""


def _meant_gain(number: Decimal) -> str:
    """Returns numerator and denominator of a gain; a small one of steel is probably in N/mm²."""
    if Decimal("0.15") <= abs(number) <= Decimal("0.25") and _whole(number * 1000) is not None:
        return f"num = {int(number * 1000)} ({decimal_text(Fraction(number))} N/mm² a step in kPa)"
    gain = Fraction(number)
    if gain.denominator <= 10**6:
        return f"num = {gain.numerator} and den = {gain.denominator}"
    return ""


def meant_width(value: int, classes: int | None) -> str:
    """Returns the width that was probably meant by one that is too great."""
    if value > 0 and value % KPA_PER_STEP == 0:
        return f"width = {value // KPA_PER_STEP} ({value} kPa in steps of 500 kPa)"
    if classes is not None and 1 <= value <= 2000:
        return f"with width = {value} classes is at most {2000 // value + 1}"
    return ""


def meant_kpa(key: str, value: int) -> str:
    """Returns the kPa that were probably meant by a number beyond 10^9."""
    if value % 1000 == 0 and abs(value) // 1000 <= 10**9:
        return f"{key} = {value // 1000} (Pa in kPa)"
    return ""


def meant_reference(classes: int | None, width: int | None, low: int | None) -> str:
    """Returns the boundary at 0 N/mm², where the grid has one."""
    if classes is None or width is None or low is None:
        return ""
    zero = -low // (width * KPA_PER_STEP)
    if not 1 <= zero <= classes - 1:
        return ""
    return f"reference = {zero} (the boundary at 0 N/mm²)"


def meant_gamma(value: int, factors: Sequence[int]) -> str:
    """Returns the partial factor that was probably meant."""
    if value in (1, 15, 35):
        return f"gamma = {100 + (value if value > 1 else 0)}"
    if value in (1000, 1150, 1350):
        return f"gamma = {value // 10} (hundredths)"
    above = [factor for factor in sorted(factors) if factor >= value]
    return f"the next one above is {above[0]}" if above and value > 0 else ""


def meant_category(value: int, allowed: Sequence[int]) -> str:
    """Returns the next category below, which is the safe one."""
    below = [category for category in allowed if category < value]
    return f"the next one below is {max(below)}" if below else ""


def meant_name(value: str) -> str:
    """Returns a name that is allowed and like this one."""
    for letter, plain_letters in (
        ("ä", "ae"),
        ("ö", "oe"),
        ("ü", "ue"),
        ("ß", "ss"),
        ("é", "e"),
        ("è", "e"),
    ):
        value = value.replace(letter, plain_letters)
    name = re.sub(r"[^A-Za-z0-9_-]+", "-", value).strip("-")[:32]
    return f'name = "{name}"' if name else ""
