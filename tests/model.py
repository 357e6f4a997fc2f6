"""An independent count for the test scripts: whole lists, one plain loop a rule, from docs/RULES.md and docs/FORMATS.md alone.

Nothing here is joined, cut into blocks, or counted by the four-point method.
"""

import struct
from fractions import Fraction

MISSING = -(2**31)


def recording(raws, number=0x11, period=10000):
    """The bytes of a recording."""
    head = b"SGRC" + bytes([1, 0, 0, 0]) + bytes([number] * 16) + struct.pack("<II", period, 0)
    return head + struct.pack("<%di" % len(raws), *raws)


def turning_points(levels):
    """The first level, the last one, and each that is above or below both neighbours, plateaus taken as one."""
    flat = [x for i, x in enumerate(levels) if i == 0 or x != levels[i - 1]]
    return [
        x
        for i, x in enumerate(flat)
        if i in (0, len(flat) - 1) or (x > flat[i - 1]) == (x > flat[i + 1])
    ]


def half_units(points):
    """Half cycles by pair of levels: the first range that a following one reaches is counted and taken out, until none is left."""
    left = list(points)
    counted = {}

    def count(a, b, halves):
        pair = (min(a, b), max(a, b))
        counted[pair] = counted.get(pair, 0) + halves

    start = 2
    while True:
        for i in range(start, len(left)):
            if abs(left[i] - left[i - 1]) >= abs(left[i - 1] - left[i - 2]):
                break
        else:
            break
        if i == 2:
            count(left[0], left[1], 1)
            del left[0]
        else:
            count(left[i - 2], left[i - 1], 2)
            del left[i - 2 : i]
        # No earlier range is reached now that was not before.
        start = max(2, i - 3)
    for a, b in zip(left, left[1:]):
        count(a, b, 1)
    return counted


def turned(levels):
    """From the first greatest level to the end, then from the beginning to that level."""
    at = levels.index(max(levels))
    return levels[at:] + levels[: at + 1]


def repeating_cycles(levels):
    """Cycles by pair of levels in a history that repeats: of the turned history the first range that a following one reaches is one
    cycle and is taken out, until none is left."""
    left = turning_points(turned(levels)) if levels else []
    counted = {}
    i = 2
    while i < len(left):
        if abs(left[i] - left[i - 1]) >= abs(left[i - 1] - left[i - 2]):
            pair = (min(left[i - 2 : i]), max(left[i - 2 : i]))
            counted[pair] = counted.get(pair, 0) + 1
            del left[i - 2 : i]
            # No earlier range is reached now that was not before.
            i = max(2, i - 3)
        else:
            i += 1
    return counted


def by_range(pairs):
    ranges = {}
    for (lo, hi), halves in pairs.items():
        ranges[hi - lo] = ranges.get(hi - lo, 0) + halves
    return ranges


def halved(n):
    return "%d.%d" % (n // 2, 5 * (n % 2))


class Grid:
    def __init__(self, classes, width, low, reference):
        self.classes, self.width, self.low, self.reference = classes, width, low, reference

    def level(self, gain, raw):
        """The class, or None where there is none."""
        num, den, offset = gain
        level = (raw * num // den + offset - self.low) // (500 * self.width)
        return level if 0 <= level < self.classes else None

    def ranges(self, ranges):
        """Lines of ranges and cycles, the greatest first."""
        return [
            halved(k * self.width) + " " + halved(ranges[k]) for k in sorted(ranges, reverse=True)
        ]


class Count:
    """What a gauge's raw values come to."""

    def __init__(self, grid, gain, raws):
        self.grid = grid
        self.samples = len(raws)
        self.missing = raws.count(MISSING)
        self.levels = [
            level
            for level in (grid.level(gain, raw) for raw in raws if raw != MISSING)
            if level is not None
        ]
        self.points = turning_points(self.levels)
        self.pairs = half_units(self.points)

    def table(self):
        used = len(self.levels)
        refused = self.samples - used - self.missing
        first = "samples %d used %d missing %d refused %d" % (
            self.samples,
            used,
            self.missing,
            refused,
        )
        return [first, "rainflow"] + self.grid.ranges(by_range(self.pairs))

    def crossings(self):
        """From the reference on the rises over a boundary, below it the falls."""
        counts = {}
        for a, b in zip(self.points, self.points[1:]):
            for boundary in range(min(a, b) + 1, max(a, b) + 1):
                if (a < b) == (boundary >= self.grid.reference):
                    counts[boundary] = counts.get(boundary, 0) + 1
        return counts

    def extremes(self, is_peak):
        counts = {}
        for a, b, c in zip(self.points, self.points[1:], self.points[2:]):
            if (b > a and b > c) == is_peak and (b >= self.grid.reference) == is_peak:
                counts[b] = counts.get(b, 0) + 1
        return counts

    def simple_ranges(self):
        counts = {}
        for a, b in zip(self.points, self.points[1:]):
            counts[abs(a - b)] = counts.get(abs(a - b), 0) + 1
        return counts

    def text(self, name):
        def each(counts):
            return ["%d %d" % (k, counts[k]) for k in sorted(counts)]

        lines = ["gauge " + name] + self.table()
        lines += ["matrix"]
        lines += ["%d %d %s" % (lo, hi, halved(n)) for (lo, hi), n in sorted(self.pairs.items())]
        lines += ["crossings"] + each(self.crossings())
        lines += ["peaks"] + each(self.extremes(True))
        lines += ["valleys"] + each(self.extremes(False))
        lines += ["ranges"] + self.grid.ranges(self.simple_ranges())
        return lines

    def repeat_text(self, name):
        """The cycles of the history as one that repeats."""
        halves = {pair: 2 * n for pair, n in repeating_cycles(self.levels).items()}
        return ["repeat " + name] + self.grid.ranges(by_range(halves))


class Detail:
    def __init__(self, name, gauge, kind, category, gamma):
        self.name, self.gauge, self.kind = name, gauge, kind
        self.category, self.gamma = category, gamma

    def share(self, stress):
        """The damage of half a cycle of a stress range in N/mm2, by the equations of EN 1993-1-9, section 7."""
        factored = stress * Fraction(self.gamma, 100)
        category = Fraction(self.category)
        if self.kind == "shear":
            if factored < Fraction(457, 1000) * category:
                return Fraction(0)
            return factored**5 / (2 * 2 * 10**6 * category**5)
        knee = Fraction(737, 1000) * category
        if factored >= knee:
            return factored**3 / (2 * 2 * 10**6 * category**3)
        if factored >= Fraction(549, 1000) * knee:
            return factored**5 / (2 * 5 * 10**6 * knee**5)
        return Fraction(0)

    def line(self, gauge, count):
        """The damage: Annex A's sum over the rainflow table."""
        width = Fraction(count.grid.width, 2)
        damage = sum(
            (halves * self.share(k * width) for k, halves in by_range(count.pairs).items()),
            Fraction(0),
        )
        forty = 40 * self.category
        den = 4000000 * forty**5 if self.kind == "shear" else 2500 * (737 * forty) ** 5
        num = damage * den
        assert num.denominator == 1
        whole, rest = divmod(int(num), den)
        ninths = -(-int(num) * 10**9 // den)
        return "detail %s %s %d %d/%d %d.%09d" % (
            self.name,
            gauge,
            whole,
            rest,
            den,
            ninths // 10**9,
            ninths % 10**9,
        )


def report(names, counts, details):
    """The report of gauges with these names and counts; a detail has the number of its gauge."""
    lines = []
    for name, count in zip(names, counts):
        lines += count.text(name)
    lines += [d.line(names[d.gauge], counts[d.gauge]) for d in details]
    return text_of(lines)


def window_of(bodies, period, start, first, last):
    """Which samples of a gauge a window counts, of bodies from where to where: from the first start to the last end of those that lie
    inside, 0 to 0 where none does. Instants are nanoseconds, the period is microseconds."""
    inside = [(a, b) for a, b in bodies if first <= start + 1000 * period * a and start + 1000 * period * b <= last]
    return (inside[0][0], inside[-1][1]) if inside else (0, 0)


def window_report(names, windows, counts, details):
    """What `window` prints of gauges with these names, windows and counts of their samples."""
    lines = []
    for name, (first, end), count in zip(names, windows, counts):
        lines += ["window %s %d %d" % (name, first, end)] + count.text(name)
    lines += [d.line(names[d.gauge], counts[d.gauge]) for d in details]
    return text_of(lines)


def seen_faults(told, names, starts):
    """What is wrong with the lines by which a `watch` that ended well tells what its watcher saw, of gauges of which so many samples were
    held when it began. They are the last lines. Of each gauge, in order, the numbers ascend strictly; each is what was held at the
    beginning or what a line of this gauge acknowledged, and the last is what is held at the end."""
    lines = told.splitlines()
    first = next((at for at, line in enumerate(lines) if line.startswith("seen ")), len(lines))
    seen = [tuple(line.split(" ")) for line in lines[first:]]
    if any(len(it) != 3 or it[0] != "seen" for it in seen):
        return ["another line behind the first of them"]
    faults = [] if [name for _, name, _ in seen] == [name for name in names for it in seen if it[1] == name] else ["the order of the gauges"]
    for name, start in zip(names, starts):
        acknowledged = [int(line.split(" ")[2]) for line in lines[:first] if line.startswith("held %s " % name)]
        numbers = [int(number) for _, other, number in seen if other == name]
        if numbers != sorted(set(numbers)):
            faults.append("%s: %s don't ascend" % (name, numbers))
        if not set(numbers) <= {start, *acknowledged}:
            faults.append("%s: %s are not all of %s" % (name, numbers, [start, *acknowledged]))
        if numbers[-1:] != (acknowledged or [start])[-1:]:
            faults.append("%s: %s end otherwise than %s" % (name, numbers, [start, *acknowledged]))
    return faults


def repeat(names, counts):
    """What `repeat` prints of gauges with these names and counts."""
    return text_of(line for name, count in zip(names, counts) for line in count.repeat_text(name))


def text_of(lines):
    return "".join(line + "\n" for line in lines)
