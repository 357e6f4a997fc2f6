"""One table of a configuration: reads its keys, and tells what is wrong with each."""

from __future__ import annotations

from collections.abc import Callable, Sequence
from dataclasses import dataclass
from typing import TypeAlias

from monitor_companion import check_hints as hints
from monitor_companion import check_words as words
from monitor_companion.check_findings import Findings
from monitor_companion.check_toml import Node
from monitor_companion.curves import CATEGORIES, Kind
from monitor_companion.refusals import Place
from monitor_companion.wording import shortened

CONFIG_STATUS = 2
MAX_NAME, MAX_FILE_NAME = 32, 255
_NAME_LETTERS = frozenset("abcdefghijklmnopqrstuvwxyzABCDEFGHIJKLMNOPQRSTUVWXYZ0123456789-_")
_NAMES = f"1 to {MAX_NAME} ASCII letters, digits, - or _"

# Of each name the number of the first table that has it, and the line.
TakenNames: TypeAlias = dict[str, tuple[int, int | None]]


def _no_hint(value: int) -> str:
    return ""


def _listed(numbers: Sequence[int]) -> str:
    return " ".join(str(number) for number in numbers)


@dataclass(frozen=True)
class Part:
    """A table: `title` is what findings call it, `told` what the program does."""

    title: str
    told: str
    node: Node
    file: str
    findings: Findings

    def tell_part(self, told: str, line: int | None, text: str, meant: str) -> None:
        """Tells a fault of a part itself."""
        if meant:
            text += f"; {meant} was probably meant"
        self.findings.fault(Place(self.file, line), text, CONFIG_STATUS, f"config: {told}")

    def _line(self, key: str) -> int | None:
        below = self.node.members.get(key)
        return below.line if below is not None else self.node.line

    def _tell(self, what: str, key: str, text: str, allowed: str, meant: str = "") -> None:
        tail = f"; {meant}" if meant else ""
        if meant and "=" in meant.split("(")[0] and not meant.startswith("with "):
            tail += " was probably meant"
        line = f"config: {what} {self.told} {key}"
        place = Place(self.file, self._line(key))
        self.findings.fault(
            place, f"{self.title}: {text}; allowed is {allowed}{tail}", CONFIG_STATUS, line
        )

    def _missing(self, key: str, allowed: str) -> None:
        part = self.told.split(" ")[0]
        for other in self.node.members:
            if other not in words.KEYS[part] and words.meant_key(part, other) == key:
                self._tell(
                    "missing", key, f"{key} is missing, {shortened(other)} is there", allowed
                )
                return
        self._tell("missing", key, f"{key} is missing", allowed)

    def _number(self, key: str, allowed: str) -> int | None:
        """Returns a whole number, or None after a fault."""
        node = self.node.members.get(key)
        if node is None:
            self._missing(key, allowed)
            return None
        value = node.value
        if not isinstance(value, int) or isinstance(value, bool):
            text = f"{key} = {hints.shown(value)} is {hints.kind_of(value)}"
            self._tell("wrong kind", key, text, allowed, hints.meant_number(key, value))
            return None
        return value

    def whole(
        self,
        key: str,
        low: int,
        high: int,
        default: int | None = None,
        because: str = "",
        meant: Callable[[int], str] = _no_hint,
    ) -> int | None:
        """Returns a whole number within limits, or its default, or None after a fault."""
        allowed = f"a whole number from {low} to {high}{because}"
        if key not in self.node.members and default is not None:
            return default
        value = self._number(key, allowed)
        if value is not None and not low <= value <= high:
            text = f"{key} = {value} is out of range"
            self._tell("out of range", key, text, allowed, meant(value))
            return None
        return value

    def choice(
        self, key: str, numbers: Sequence[int], of: str = "", meant: Callable[[int], str] = _no_hint
    ) -> int | None:
        """Returns one of some numbers, or None after a fault."""
        allowed = f"one of {_listed(numbers)}{of}"
        value = self._number(key, allowed)
        if value is not None and value not in numbers:
            text = f"{key} = {value} is none of them"
            self._tell("out of range", key, text, allowed, meant(value))
            return None
        return value

    def text(self, key: str, allowed: str) -> str | None:
        """Returns a text, or None after a fault."""
        node = self.node.members.get(key)
        if node is None:
            self._missing(key, allowed)
            return None
        if not isinstance(node.value, str):
            text = f"{key} = {hints.shown(node.value)} is {hints.kind_of(node.value)}"
            meant = ""
            if isinstance(node.value, int) and not isinstance(node.value, bool):
                meant = f'{key} = "{node.value}"'
            self._tell("wrong kind", key, text, allowed, meant)
            return None
        return node.value

    def name(self, key: str) -> str | None:
        """Returns a name, or None after a fault."""
        value = self.text(key, _NAMES)
        if value is None:
            return None
        text = f"{key} = {hints.shown(value)}"
        if not value:
            self._tell("out of range", key, f"{text} is empty", _NAMES)
            return None
        if len(value.encode()) > MAX_NAME and set(value) <= _NAME_LETTERS:
            self._tell("out of range", key, f"{text} has {len(value)} letters", _NAMES)
            return None
        if not set(value) <= _NAME_LETTERS or len(value) > MAX_NAME:
            letter = next(letter for letter in value if letter not in _NAME_LETTERS)
            text += f" has {hints.shown(letter)}"
            self._tell("out of range", key, text, _NAMES, hints.meant_name(value))
            return None
        return value

    def file_name(self, key: str) -> str | None:
        """Returns the name of a file, or None after a fault."""
        allowed = f"a path of 1 to {MAX_FILE_NAME} bytes"
        value = self.text(key, allowed)
        if value is None:
            return None
        length = len(value.encode())
        if not 1 <= length <= MAX_FILE_NAME:
            self._tell(
                "out of range", key, f"{key} = {hints.shown(value)} has {length} bytes", allowed
            )
            return None
        return value

    def kind(self) -> Kind | None:
        """Returns the kind of stress, or None after a fault."""
        allowed = " or ".join(f'"{kind.value}"' for kind in Kind)
        value = self.text("kind", allowed)
        if value is None:
            return None
        for kind in Kind:
            if value == kind.value:
                return kind
        near = words.meant_kind(value)
        meant = f'kind = "{near}"' if near is not None else ""
        self._tell(
            "out of range", "kind", f"kind = {hints.shown(value)} is no kind", allowed, meant
        )
        return None

    def category(self, kind: Kind | None) -> int | None:
        """Returns the category of this kind, or None after a fault."""
        if kind is None:
            union = {number for each in CATEGORIES.values() for number in each}
            return self.choice("category", sorted(union, reverse=True))
        own = CATEGORIES[kind]

        def meant(value: int) -> str:
            for other in Kind:
                if other is not kind and value in CATEGORIES[other]:
                    return f'{value} is a category of {other.value} stress: kind = "{other.value}"'
            return hints.meant_category(value, own)

        return self.choice("category", own, f" for {kind.value} stress", meant)

    def unless_taken(self, name: str, number: int, names: TakenNames) -> str | None:
        """Returns the name where none before has it, and keeps it; None after a fault."""
        if name not in names:
            names[name] = (number, self._line("name"))
            return name
        part = self.told.split(" ")[0]
        first, line = names[name]
        where = "" if line is None else f" in line {line}"
        text = f"{self.title}: name = {hints.shown(name)} is that of {part} {first}{where} already"
        place = Place(self.file, self._line("name"))
        told = f"config: double {part} {first} {number}"
        self.findings.fault(place, f"{text}; two {part}s have two names", CONFIG_STATUS, told)
        return None

    def tell_no_gauge(self, number: int, gauge: str, gauges: TakenNames) -> None:
        """Tells that a detail's gauge isn't there."""
        near = words.nearest(gauge, gauges)
        tail = f'; gauge = "{near}" was probably meant' if near is not None else ""
        known = " ".join(f'"{name}"' for name in gauges) or "none"
        text = f"{self.title}: gauge = {hints.shown(gauge)} is no gauge"
        text += f"; allowed is one of {known}{tail}"
        place = Place(self.file, self._line("gauge"))
        self.findings.fault(place, text, CONFIG_STATUS, f"config: no such gauge, detail {number}")

    def tell_unknown(self, key: str, node: Node, title: str, meant: str | None) -> None:
        """Warns of a key that means nothing."""
        shown = shortened(key) if title else words.header_of(key, node.value)
        front = f"{title}: " if title else ""
        kind = "part" if shown.startswith("[") else "key"
        tail = f"; {meant} was probably meant" if meant is not None else ""
        text = f"{front}{shown} is no known {kind} and means nothing{tail}"
        self.findings.warn(Place(self.file, node.line), text)
