"""The configuration of a site, `monitor.toml`, by all rules of the program, with its keys' lines.

Every command reads it here. The faults stand in the order in which the program looks for them, so
the first is what it tells.
"""

from __future__ import annotations

import argparse
import pathlib
from collections.abc import Iterator, Mapping
from dataclasses import dataclass, field
from decimal import Decimal
from typing import TypeAlias

from monitor_companion import check_hints as hints
from monitor_companion import check_words as words
from monitor_companion.check_findings import Findings
from monitor_companion.check_toml import Node, NotToml, read_toml
from monitor_companion.curves import PARTIAL_FACTORS, Curve
from monitor_companion.refusals import Place
from monitor_companion.report import MAX_CLASSES, MAX_DETAILS, MAX_GAUGES
from monitor_companion.site_parts import CONFIG_STATUS, Part, TakenNames

FILE_NAME = "monitor.toml"
MAX_BYTES = 65_536
MIN_CLASSES, MAX_SPAN = 2, 2000
MAX_KPA, MAX_NUM, MAX_DEN = 10**9, 10**9, 10**6
MAX_BLOCK, DEFAULT_BLOCK, MAX_WORKERS, DEFAULT_WORKERS = 4096, 1024, 8, 4

# The line of each key of a table, and its own behind the empty key; None where it isn't known.
Lines: TypeAlias = Mapping[str, int | None]


def add_site_option(parser: argparse.ArgumentParser) -> None:
    """The option that all commands have."""
    parser.add_argument(
        "--site",
        type=pathlib.Path,
        default=pathlib.Path(),
        metavar="DIR",
        help="the folder with monitor.toml (the current one)",
    )


def line_of(lines: Lines, key: str) -> int | None:
    """Returns the line of a key, or that of its table where it is left out."""
    return lines.get(key, lines.get(""))


@dataclass(frozen=True)
class Grid:
    """The stress classes: `width` in steps of 500 kPa, `low` in kPa, `reference` a boundary."""

    classes: int
    width: int
    low: int
    reference: int
    lines: Lines = field(default_factory=dict, compare=False)

    @property
    def step(self) -> int:
        """The width of a class in kPa."""
        return hints.KPA_PER_STEP * self.width

    @property
    def top(self) -> int:
        """The upper end of the last class in kPa, which doesn't belong to it."""
        return self.low + self.classes * self.step

    def level(self, stress: int) -> int:
        """Returns the class of a stress in kPa; below 0 or from `classes` on there is none."""
        return (stress - self.low) // self.step

    def stress(self, boundary: int) -> Decimal:
        """Returns the stress in N/mm² of the boundary below a class."""
        return Decimal(self.low + boundary * self.step) / 1000


@dataclass(frozen=True)
class Gauge:
    """A gauge: its stress in kPa is `floor(raw * num / den) + offset`. `number` counts from 0."""

    number: int
    name: str
    file: str
    num: int
    den: int
    offset: int
    lines: Lines = field(default_factory=dict, compare=False)
    folder: pathlib.Path = pathlib.Path()

    @property
    def title(self) -> str:
        """What findings call it."""
        return f'gauge {self.number} "{self.name}"'

    @property
    def front(self) -> str:
        """What findings of its recording begin with."""
        return f"{self.title}: {self.file}"

    @property
    def recording(self) -> pathlib.Path:
        """Where its file is."""
        return self.folder / self.file

    def kpa(self, raw: int) -> int:
        """Returns the stress of a raw value in kPa."""
        return raw * self.num // self.den + self.offset


@dataclass(frozen=True)
class Detail:
    """A weld detail: `gauge` is a gauge's name. `number` counts from 0."""

    number: int
    name: str
    gauge: str
    curve: Curve
    lines: Lines = field(default_factory=dict, compare=False)

    @property
    def title(self) -> str:
        """What findings call it."""
        return f'detail {self.number} "{self.name}"'


@dataclass(frozen=True)
class Site:
    """What of a configuration is sound: all of it, where no fault was found."""

    path: pathlib.Path
    grid: Grid | None
    block: int
    gauges: tuple[Gauge, ...]
    details: tuple[Detail, ...]
    lines: Lines = field(default_factory=dict, compare=False)
    # how many tables there are, sound ones and others
    gauge_tables: int = 0
    detail_tables: int = 0

    def place(self, line: int | None = None) -> Place:
        """Returns a place in the configuration."""
        return Place(str(self.path), line)


def read_gauges(folder: pathlib.Path) -> tuple[Gauge, ...]:
    """Returns the gauges by their names and files alone, as if a raw value were a stress in kPa.

    So samples are kept whatever else the configuration says. Raises `Refusal`.
    """
    findings = Findings()
    root = _root(folder, findings)
    gauges = [] if root is None else _gauges(root, with_gains=False)[0]
    findings.refuse()
    return tuple(gauges)


def check_site(folder: pathlib.Path, findings: Findings) -> Site | None:
    """Returns what is sound of a folder's configuration, or None where it can't be read."""
    root = _root(folder, findings)
    if root is None:
        return None
    grid = _grid(root)
    block = _block(root)
    gauges, gauge_names = _gauges(root, with_gains=True)
    details = _details(root, gauge_names)
    _tell_unknown(root)
    return Site(
        folder / FILE_NAME,
        grid,
        block,
        tuple(gauges),
        tuple(details),
        _lines(root.node.members.get("count")),
        _tables(root.node, "gauge"),
        _tables(root.node, "detail"),
    )


def _tables(root: Node, part: str) -> int:
    return len(root.members[part].items) if part in root.members else 0


def _root(folder: pathlib.Path, findings: Findings) -> Part | None:
    """Reads the file, and returns its table."""
    path = folder / FILE_NAME
    place = Place(str(path))
    try:
        with path.open("rb") as file:
            content = file.read(MAX_BYTES + 1)
    except OSError as error:
        text = f"can't be read: {error.strerror}"
        if isinstance(error, FileNotFoundError):
            text = "isn't there: --site names the folder that has it"
        findings.fault(place, text, 6, "read fault")
        return None
    if len(content) > MAX_BYTES:
        text = f"has {path.stat().st_size} bytes; allowed are {MAX_BYTES}"
        findings.fault(place, text, CONFIG_STATUS, "config: too long")
        return None
    try:
        return Part("the configuration", "", read_toml(content), str(path), findings)
    except NotToml as error:
        column = "" if error.column is None else f" in column {error.column}"
        place = Place(str(path), error.line)
        findings.fault(place, f"no TOML{column}: {error.why}", CONFIG_STATUS, "config: not TOML")
        return None


def _lines(node: Node | None) -> Lines:
    if node is None:
        return {}
    return {"": node.line} | {key: below.line for key, below in node.members.items()}


def _table(root: Part, name: str, needed: bool) -> Part | None:
    """Returns a part that is one table."""
    title = words.header(name)
    node = root.node.members.get(name)
    if node is None:
        if needed:
            _tell_missing(root, name, f"missing {name}")
        return None
    if not isinstance(node.value, dict):
        meant = title if isinstance(node.value, list) else ""
        text = f"{title}: {name} is {hints.kind_of(node.value)}; a table belongs here"
        root.tell_part(f"wrong kind {name}", node.line, text, meant)
        return None
    return Part(title, name, node, root.file, root.findings)


def _tell_missing(root: Part, name: str, told: str) -> None:
    """Tells that a part is missing, and what may stand in its place."""
    title = words.header(name)
    near = next((key for key in root.node.members if words.meant_part(key) == title), None)
    text, line = f"{title} is missing", None
    if near is not None:
        node = root.node.members[near]
        line = node.line
        text += f", {words.header_of(near, node.value)} is there"
    root.tell_part(told, line, text, "")


def _grid(root: Part) -> Grid | None:
    part = _table(root, "grid", needed=True)
    if part is None:
        return None
    classes = part.whole("classes", MIN_CLASSES, MAX_CLASSES)
    # Where the classes are wrong, the width is held against the widest that there is.
    widest = MAX_SPAN // (classes - 1) if classes is not None else MAX_SPAN
    because = "" if classes is None else f", since (classes - 1) * width is at most {MAX_SPAN}"
    width = part.whole(
        "width", 1, widest, because=because, meant=lambda value: hints.meant_width(value, classes)
    )
    low = part.whole("low", -MAX_KPA, MAX_KPA, meant=lambda value: hints.meant_kpa("low", value))
    most = classes - 1 if classes is not None else MAX_CLASSES - 1
    reference = part.whole(
        "reference", 1, most, meant=lambda value: hints.meant_reference(classes, width, low)
    )
    if classes is None or width is None or low is None or reference is None:
        return None
    return Grid(classes, width, low, reference, _lines(part.node))


def _block(root: Part) -> int:
    """Returns the samples of a block; the other key of its table is of the program alone."""
    part = _table(root, "count", needed=False)
    if part is None:
        return DEFAULT_BLOCK
    block = part.whole("block", 1, MAX_BLOCK, DEFAULT_BLOCK)
    part.whole("workers", 1, MAX_WORKERS, DEFAULT_WORKERS)
    return block or DEFAULT_BLOCK


def _items(root: Part, name: str, least: int, most: int) -> list[Node]:
    """Returns the tables of a part that has several."""
    title = words.header(name)
    node = root.node.members.get(name)
    if node is None:
        if least:
            _tell_missing(root, name, f"missing {name} 0")
        return []
    if not isinstance(node.value, list):
        meant = title if isinstance(node.value, dict) else ""
        text = f"{title}: {name} is {hints.kind_of(node.value)}; an array of tables belongs here"
        root.tell_part(f"wrong kind {name} 0", node.line, text, meant)
        return []
    if not least <= len(node.items) <= most:
        text = f"there are {len(node.items)} {name}s; allowed are {least} to {most}"
        advice = "" if not node.items else "; part the site in two folders"
        root.tell_part(f"out of range {name} 0", node.line, text + advice, "")
    return node.items


def _several(root: Part, name: str, least: int, most: int) -> Iterator[tuple[int, Part]]:
    """Yields each table of a part that has several, with its number."""
    for number, node in enumerate(_items(root, name, least, most)):
        if isinstance(node.value, dict):
            title = _title(name, number, node)
            yield number, Part(title, f"{name} {number}", node, root.file, root.findings)
        else:
            text = f"{name} {number} is {hints.kind_of(node.value)}; a table belongs here"
            root.tell_part(f"wrong kind {name} {number}", node.line, text, "")


def _title(part: str, number: int, table: Node) -> str:
    """Returns what findings call a table of a part that has several."""
    own = table.members.get("name")
    name = f" {hints.shown(own.value)}" if own is not None and isinstance(own.value, str) else ""
    return f"{part} {number}{name}"


def _gauges(root: Part, *, with_gains: bool) -> tuple[list[Gauge], TakenNames]:
    """Returns the sound gauges, and all names that a gauge has."""
    folder = pathlib.Path(root.file).parent
    gauges: list[Gauge] = []
    names: TakenNames = {}
    for number, part in _several(root, "gauge", 1, MAX_GAUGES):
        name = part.name("name")
        file = part.file_name("file")
        gain = _gain(part) if with_gains else (1, 1, 0)
        if name is not None:
            name = part.unless_taken(name, number, names)
        if name is not None and file is not None and gain is not None:
            gauges.append(Gauge(number, name, file, *gain, _lines(part.node), folder))
    return gauges, names


def _gain(part: Part) -> tuple[int, int, int] | None:
    """Returns numerator, denominator and offset of a gauge."""
    num = part.whole("num", -MAX_NUM, MAX_NUM)
    den = part.whole("den", 1, MAX_DEN, 1)
    offset = part.whole(
        "offset", -MAX_KPA, MAX_KPA, 0, meant=lambda value: hints.meant_kpa("offset", value)
    )
    return None if num is None or den is None or offset is None else (num, den, offset)


def _details(root: Part, gauges: TakenNames) -> list[Detail]:
    details: list[Detail] = []
    names: TakenNames = {}
    # Where a gauge's own name is wrong, that is the fault, and its details are right.
    are_all_named = 0 < len(gauges) == _tables(root.node, "gauge")
    for number, part in _several(root, "detail", 0, MAX_DETAILS):
        name = part.name("name")
        gauge = part.text("gauge", "the name of a gauge")
        kind = part.kind()
        category = part.category(kind)
        gamma = part.choice(
            "gamma", PARTIAL_FACTORS, meant=lambda value: hints.meant_gamma(value, PARTIAL_FACTORS)
        )
        if gauge is not None and gauge not in gauges and are_all_named:
            part.tell_no_gauge(number, gauge, gauges)
        if name is not None:
            name = part.unless_taken(name, number, names)
        if name is None or kind is None or category is None or gamma is None:
            continue
        if gauge is not None and gauge in gauges:
            curve = Curve(kind, category, gamma)
            details.append(Detail(number, name, gauge, curve, _lines(part.node)))
    return details


def _tell_unknown(root: Part) -> None:
    """Warns of each key that means nothing."""
    for key, node in root.node.members.items():
        if key in words.KEYS:
            tables = node.items if key in words.ARRAYS else [node]
            for number, table in enumerate(tables):
                if isinstance(table.value, dict):
                    _tell_unknown_keys(root, key, number, table)
        else:
            root.tell_unknown(key, node, "", words.meant_part(key))


def _tell_unknown_keys(root: Part, part: str, number: int, table: Node) -> None:
    title = _title(part, number, table) if part in words.ARRAYS else words.header(part)
    for key, node in table.members.items():
        if key not in words.KEYS[part]:
            root.tell_unknown(key, node, title, words.meant_key(part, key))
