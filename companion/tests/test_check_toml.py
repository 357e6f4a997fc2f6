"""Lines of keys: the scanner against `tomllib`, over examples and random texts."""

from __future__ import annotations

import datetime
import random
import tomllib
import unittest
from decimal import Decimal

from monitor_companion.check_scanner import Scanner, Unscannable
from monitor_companion.check_toml import Node, NotToml, joined, read_toml
from tests import check_sites as sites

KEYS = ("a", "b-2", "c_3", '"d e"', "'f.g'", '"\\u00fc"', "7", "a.b", "x . y")
VALUES = (
    "1",
    "-0x1",
    "1_0",
    "1.5",
    "1e3",
    "inf",
    "true",
    '""',
    '"a#b"',
    '"q\\"]"',
    "'c:\\d'",
    '"""\nx"y""\\"""""',
    "'''it''s\n'''",
    "[]",
    "[1, 2,]",
    "[ # one\n 1,\n\n 2 ]",
    '[["a", "]"], [{ b = 1 }]]',
    "{}",
    "{ x = 1, y.z = 2 }",
    "1979-05-27",
    "1979-05-27 07:32:00",
    "07:32:00.5",
    "1979-05-27T00:32:00-07:00",
)
LATER = (
    ("a = { b = 1,\n  c = 2, # two\n}\n", {"a": {"b": 1, "c": 2}}),
    ("a = [{ b = 1, }, {\n}]\n", {"a": [{"b": 1}, {}]}),
    ('a = "\\x41\\e\\\\x41"\n', {"a": "A\x1b\\x41"}),
    ("a = '\\x41'\n", {"a": "\\x41"}),
    ("a = 07:32\n", {"a": datetime.time(7, 32)}),
    ("a = 1979-05-27 07:32\n", {"a": datetime.datetime(1979, 5, 27, 7, 32)}),
)


def random_text(rng: random.Random) -> str:
    """Lines of TOML, some of which don't go together."""
    lines = []
    for _ in range(rng.randint(0, 12)):
        key, value = rng.choice(KEYS), rng.choice(VALUES)
        form = rng.randrange(8)
        if form == 0:
            lines.append(f"[{key}]" + rng.choice(("", " # x", "  ")))
        elif form == 1:
            lines.append(f"[[ {key} ]]")
        elif form == 2:
            lines.append(rng.choice(("", "# = [", "  ", "#")))
        else:
            lines.append(
                f"{rng.choice(('', ' '))}{key}{rng.choice((' = ', '='))}{value}{rng.choice(('', ' # c'))}"
            )
    if rng.random() < 0.3 and lines:
        place = rng.randrange(len(lines))
        at = rng.randint(0, len(lines[place]))
        lines[place] = lines[place][:at] + rng.choice("\"'[]{}=,#.\\ x7") + lines[place][at:]
    return "\n".join(lines) + rng.choice(("", "\n"))


class Lines(unittest.TestCase):
    """The scanner finds the keys that `tomllib` finds, each in its line."""

    def test_lines_of_the_sound_site(self) -> None:
        root = read_toml(sites.CONFIGURATION.encode())
        lines = sites.CONFIGURATION.split("\n")
        found = [(key, node) for table in self.tables(root) for key, node in table.members.items()]
        self.assertEqual(len(found), 4 + 2 + 3 + 5 + 5 + 5)
        for key, node in found:
            assert node.line is not None
            self.assertTrue(lines[node.line - 1].startswith(f"{key} = "))
        gauges = root.members["gauge"]
        self.assertEqual(
            [lines[item.line - 1] for item in gauges.items if item.line], ["[[gauge]]"] * 2
        )

    def tables(self, root: Node) -> list[Node]:
        several = [*root.members["gauge"].items, *root.members["detail"].items]
        return [root.members["grid"], root.members["count"], *several]

    def test_random_texts(self) -> None:
        """Each text that `tomllib` takes is scanned, with the same keys and items."""
        rng = random.Random(3)
        taken = 0
        for _ in range(4000):
            text = random_text(rng)
            try:
                table = tomllib.loads(text)
            except tomllib.TOMLDecodeError:
                continue
            taken += 1
            scanner = Scanner(text)
            try:
                mark = scanner.document()
            except Unscannable:
                self.fail(f"not scanned: {text!r}")
            self.assertIsNotNone(joined(table, mark), repr(text))
            self.assertEqual(scanner.older_text(), text)
        self.assertGreater(taken, 800)

    def test_lines_inside_values(self) -> None:
        root = read_toml(b'x = [\n  { a = 1 },\n\n  { b = """\n""", c = 2 },\n]\ny.z = 1\n')
        first, second = root.members["x"].items
        self.assertEqual(
            (first.members["a"].line, second.members["b"].line, second.members["c"].line), (2, 4, 5)
        )
        self.assertEqual(root.members["y"].members["z"].line, 7)

    def test_what_differs_is_not_joined(self) -> None:
        mark = Scanner("a = 1\nb = [1]\n").document()
        self.assertIsNotNone(joined({"a": 1, "b": [1]}, mark))
        for other in ({"a": 1}, {"a": 1, "b": [1, 2]}, {"a": {}, "b": 1}, {"a": [1], "b": [1]}):
            self.assertIsNone(joined(other, mark))


class Forms(unittest.TestCase):
    """What TOML 1.1 has and `tomllib` hasn't, and what the program refuses beside it."""

    def test_later_forms(self) -> None:
        for text, value in LATER:
            with self.subTest(text):
                if "'" not in text:
                    with self.assertRaises(tomllib.TOMLDecodeError):
                        tomllib.loads(text)
                self.assertEqual(read_toml(text.encode()).value, value)

    def test_numbers_keep_their_digits(self) -> None:
        root = read_toml(b"a = 0.1000000000000000055511151231257827\n")
        self.assertEqual(root.value, {"a": Decimal("0.1000000000000000055511151231257827")})

    def test_refused(self) -> None:
        for content, line, column, why in (
            (
                b"a = 1\nb = 9223372036854775808\n",
                2,
                None,
                "9223372036854775808 is no whole number of 64 bits",
            ),
            (b"a = 1e400\n", 1, None, "1E+400 is greater than any number of 64 bits"),
            (b"a = " + b"[" * 81 + b"]" * 81, 1, None, "values are nested deeper than 80"),
            (b"\na = [1\n", 2, None, "unclosed array"),
            (
                b"a = 1\rb = 2\n",
                1,
                6,
                "expected newline or end of document after a statement;"
                " its lines end in a carriage return alone: save the file with line feeds",
            ),
            (
                b'a = 1\nb = "x\\q"\n',
                2,
                9,
                "unescaped '\\' in a string; a path has slashes: b = \"x/q\" was probably meant",
            ),
        ):
            with self.subTest(why), self.assertRaises(NotToml) as refused:
                read_toml(content)
            found = refused.exception
            self.assertEqual((found.line, found.column, found.why), (line, column, why))
        self.assertEqual(read_toml(b"a = " + b"[" * 80 + b"]" * 80).line, 1)


if __name__ == "__main__":
    unittest.main()
