"""The words of a configuration, and which of them was probably meant by another one."""

from __future__ import annotations

import difflib
from collections.abc import Iterable

from monitor_companion.wording import shortened

# The parts in the order in which the program reads them, and the keys of each in theirs.
KEYS = {
    "grid": ("classes", "width", "low", "reference"),
    "count": ("block", "workers"),
    "gauge": ("name", "file", "num", "den", "offset"),
    "detail": ("name", "gauge", "kind", "category", "gamma"),
}
ARRAYS = ("gauge", "detail")

# Other words for a key, as people write them.
_OTHER_WORDS = {
    "grid": {
        "bins": "classes",
        "levels": "classes",
        "number": "classes",
        "step": "width",
        "class_width": "width",
        "lower": "low",
        "min": "low",
        "minimum": "low",
        "start": "low",
        "ref": "reference",
        "boundary": "reference",
        "zero": "reference",
    },
    "count": {
        "threads": "workers",
        "jobs": "workers",
        "cpus": "workers",
        "size": "block",
        "samples": "block",
    },
    "gauge": {
        "label": "name",
        "path": "file",
        "filename": "file",
        "recording": "file",
        "gain": "num",
        "factor": "num",
        "scale": "num",
        "numerator": "num",
        "nom": "num",
        "denominator": "den",
        "divisor": "den",
        "denom": "den",
        "zero": "offset",
        "shift": "offset",
    },
    "detail": {
        "label": "name",
        "sensor": "gauge",
        "channel": "gauge",
        "stress": "kind",
        "type": "kind",
        "class": "category",
        "cat": "category",
        "fat": "category",
        "factor": "gamma",
        "partial_factor": "gamma",
        "safety": "gamma",
        "gamma_mf": "gamma",
    },
}
_KINDS = {
    "sigma": "normal",
    "axial": "normal",
    "bending": "normal",
    "direct": "normal",
    "tension": "normal",
    "compression": "normal",
    "tau": "shear",
    "torsion": "shear",
}


def nearest(word: str, known: Iterable[str]) -> str | None:
    """Returns the known word that is most like this one, where one is like it."""
    words = list(known)
    lower = {other.lower(): other for other in reversed(words)}
    if word.lower() in lower:
        return lower[word.lower()]
    close = difflib.get_close_matches(word.lower(), lower, n=1, cutoff=0.6)
    return lower[close[0]] if close else None


def header(part: str) -> str:
    """Returns the header of a part: `[grid]`, `[[gauge]]`."""
    return f"[[{part}]]" if part in ARRAYS else f"[{part}]"


def header_of(key: str, value: object) -> str:
    """Returns how a key outside all parts stands there, cut where it is long."""
    key = shortened(key)
    if isinstance(value, list):
        return f"[[{key}]]"
    return f"[{key}]" if isinstance(value, dict) else key


def meant_key(part: str, word: str) -> str | None:
    """Returns what was probably meant by a key that a part doesn't have."""
    word = word.strip().replace("-", "_")
    here = _OTHER_WORDS[part].get(word.lower()) or nearest(word, KEYS[part])
    if here is not None:
        return here
    for other, keys in KEYS.items():
        if word.lower() in keys and other != part:
            return f"{word.lower()} of {header(other)}"
    return None


def meant_part(word: str) -> str | None:
    """Returns what was probably meant by a key or table outside all parts."""
    part = nearest(word, KEYS)
    if part is not None:
        return header(part)
    for other, keys in KEYS.items():
        if word.lower() in keys:
            return f"{word.lower()} of {header(other)}"
    plain = {
        "classes": "[grid]",
        "sensor": "[[gauge]]",
        "channel": "[[gauge]]",
        "weld": "[[detail]]",
    }
    near = nearest(word, plain)
    return plain[near] if near is not None else None


def meant_kind(word: str) -> str | None:
    """Returns the kind of stress that was probably meant."""
    return _KINDS.get(word.lower()) or nearest(word, ("normal", "shear"))
