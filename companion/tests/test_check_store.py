"""`check` over stores: what differs from them, and what is wrong with them."""

from __future__ import annotations

import hashlib
import struct
import unittest

from monitor_companion.check_command import check_folder, summary
from tests import check_sites as sites
from tests.check_sites import CONFIGURATION, SiteCase, body, noise, recording, store

NEW = "begin a new store (rename monitor.store, then init and count)"
SPAN = 'gauge 0 "span-2": span2.sgrc'


class Stores(SiteCase):
    """What differs from the store, and what is wrong with it."""

    def setUp(self) -> None:
        super().setUp()
        self.store.write_bytes(store([body(0, 0, 500), body(1, 0, 400), body(1, 400, 500)]))

    def test_a_sound_store(self) -> None:
        self.finds()
        checked = check_folder(self.folder)
        assert checked.store is not None
        self.assertEqual([held.samples for held in checked.store.held], [500, 500])
        self.assertIn(", held 500,", summary(checked)[1])

    def test_a_warning_that_needs_a_new_store(self) -> None:
        values = [value + 290 for value in noise(1)]
        self.put(values)
        found = sites.lines(self.folder)
        self.assertIn("rests at", found[-2])
        due = f"monitor.store: note: classes and gains are fixed in a store: to change them, {NEW}"
        self.assertEqual(found[-1], due)

    def test_the_grid(self) -> None:
        self.change(
            ("classes = 128", "classes = 160"),
            ("width = 2", "width = 3"),
            ("low = -64000", "low = -120000"),
            ("reference = 64", "reference = 80"),
        )
        self.finds(
            *(
                f"monitor.toml:{line}: fault: [grid]: {key} = {now}, but monitor.store was made with {kept};"
                f" put {key} = {kept} back, or {NEW}"
                for line, key, kept, now in (
                    (2, "classes", 128, 160),
                    (3, "width", 2, 3),
                    (4, "low", -64000, -120000),
                    (5, "reference", 64, 80),
                )
            )
        )
        self.verdict(3, "store: classes was 128, is 160")

    def test_gains(self) -> None:
        self.change(
            ("num = 210", "num = 205"), ("den = 1", "den = 2"), ("offset = 0", "offset = -350")
        )
        self.finds(
            *(
                f"monitor.toml:{line}: fault: {gauge}: {key} = {now}, but monitor.store was made with {kept}"
                f" for its gauge {number}; put {key} = {kept} back, or {NEW}"
                for line, gauge, number, key, kept, now in (
                    (14, 'gauge 0 "span-2"', 0, "num", 210, 205),
                    (20, 'gauge 1 "pier-3"', 1, "den", 1, 2),
                    (21, 'gauge 1 "pier-3"', 1, "offset", 0, -350),
                )
            )
        )
        self.verdict(3, "store: num 0 was 210, is 205")

    def test_gauges_in_another_order(self) -> None:
        start, end = CONFIGURATION.index("[[gauge]]"), CONFIGURATION.index("[[detail]]")
        first, second = CONFIGURATION[start:end].split("[[gauge]]\n")[1:]
        turned = f"[[gauge]]\n{second}[[gauge]]\n{first}"
        (self.folder / "monitor.toml").write_text(
            CONFIGURATION[:start] + turned + CONFIGURATION[end:]
        )
        order = 'put the gauges in the order of the store again: "span-2", "pier-3"'
        self.assertEqual(
            sites.lines(self.folder)[0],
            'monitor.toml:14: fault: gauge 0 "pier-3": num = 21, but monitor.store was made with 210'
            f" for its gauge 0; {order}",
        )
        self.verdict(3, "store: num 0 was 210, is 21")

    def test_files_in_another_order(self) -> None:
        self.change(("num = 210", "num = 21"))
        content = bytearray(self.store.read_bytes())
        content[22 + 20 : 22 + 28] = struct.pack(">q", 21)
        self.store.write_bytes(content)
        self.span.write_bytes(sites.PIER)
        (self.folder / "pier3.sgrc").write_bytes(sites.SPAN)
        order = "put the gauges or their files in the order of the store again, by their files: pier3.sgrc, span2.sgrc"
        self.finds(
            f"monitor.toml:13: fault: {SPAN} has the id {'02' * 16}, but monitor.store was made for {'01' * 16}; {order}",
            'monitor.toml:18: fault: gauge 1 "pier-3": pier3.sgrc has the id'
            f" {'01' * 16}, but monitor.store was made for {'02' * 16}; {order}",
        )
        self.verdict(4, f"recording span-2: id was {'01' * 16}, is {'02' * 16}")

    def test_more_and_fewer_gauges(self) -> None:
        self.store.write_bytes(store(ids=(1,)))
        self.finds(
            'monitor.toml: fault: 2 gauges, but monitor.store was made for 1 (new: "pier-3"); give new gauges a folder'
            f" and a store of their own, or {NEW}"
        )
        self.verdict(3, "store: gauges was 1, is 2")
        self.store.write_bytes(store(ids=(1, 2, 3)))
        self.finds(
            "monitor.toml: fault: 2 gauges, but monitor.store was made for 3; put the missing [[gauge]] back in its"
            f" place, or {NEW}"
        )

    def test_other_recordings(self) -> None:
        self.span.write_bytes(recording(noise(1), 7, 10000))
        self.finds(
            f"monitor.toml:13: fault: {SPAN} has the id {'07' * 16}, but monitor.store was made for {'01' * 16};"
            f" put the recording of that id in its place, or {NEW}",
            f"monitor.toml:13: fault: {SPAN} has a period of 10000 µs, but monitor.store was made for 50000 µs;"
            f" put that recording in its place, or {NEW}",
            "monitor.toml: note: the recordings have several periods: 10000 µs, 50000 µs",
        )
        self.verdict(4, f"recording span-2: id was {'01' * 16}, is {'07' * 16}")

    def test_fewer_samples_than_held(self) -> None:
        self.span.write_bytes(recording(noise(1)[:499], 1))
        self.finds(
            f"monitor.toml:13: fault: {SPAN} has 499 samples, but 500 are held in monitor.store; a recording may only"
            " grow: put the longer one back"
        )
        self.verdict(4, "recording span-2: 500 held, 499 there")

    def test_no_store(self) -> None:
        content = self.store.read_bytes()
        head = 22 + 2 * 40 + 1
        tail = "; delete it where nothing was counted, or take its last copy"
        for changed, found in (
            (content[:21], "has 21 bytes, fewer than a store's head"),
            (b"\x00" + content[1:], "was not finished by init"),
            (sites.SPAN, "doesn't begin as a store"),
            (content[: head - 1], f"has {head - 1} bytes, fewer than the head of 2 gauges"),
            (
                content[:5] + b"\x01" + content[6:8] + b"\x00\x81" + content[10:],
                "is of version 1 with 129 classes",
            ),
        ):
            with self.subTest(found):
                self.store.write_bytes(changed)
                self.finds(f"monitor.store: fault: {found}{tail}")
                self.verdict(3, "store: not a store")

    def test_a_later_version(self) -> None:
        content = self.store.read_bytes()
        self.store.write_bytes(content[:5] + b"\x03" + content[6:])
        self.finds(
            "monitor.store: fault: is of version 3; allowed are 1 and 2; is it of a later monitor?"
        )
        self.verdict(3, "store: version 3")

    def test_an_empty_store_is_none(self) -> None:
        self.store.write_bytes(b"")
        self.finds()

    def test_damage(self) -> None:
        sound = [body(0, 0, 500), body(1, 0, 500)]
        head = 22 + 2 * 40
        whole = store(sound)
        longest = 5 * 128 * 128 + 33 * 128 + 44
        for content, number, why in (
            (whole[: head + 3], 0, "the store ends in its length"),
            (
                whole[:head] + b"\x01\x00\x10\x00\x00" + whole[head:],
                0,
                f"its 1048576 bytes are more than a body has ({longest})",
            ),
            (whole[:-1], 1, "the store ends in it"),
            (store([body(5, 0, 1)]), 0, "there is no gauge 5"),
            (store([body(0, 0, 0)]), 0, "it has no samples"),
            (
                store([sound[0], body(0, 400, 600)]),
                1,
                "it begins at sample 400 of gauge 0, of which 500 are held",
            ),
            (store([b"\0" * 10]), 0, "it is shorter than a body"),
            (
                store([struct.pack(">HQQQQQQ", 0, 0, 5, 1, 1, 1, 0)]),
                0,
                "its numbers of samples don't add up",
            ),
        ):
            with self.subTest(why):
                self.store.write_bytes(content)
                self.finds(
                    f"monitor.store: fault: body {number} is damaged: {why};"
                    " take the last copy of the store, and count on"
                )
                self.verdict(3, f"store: damaged at {number}")

    def test_another_digest(self) -> None:
        content = bytearray(store([body(0, 0, 500)]))
        place = 22 + 2 * 40 + 1
        content[place + 10] ^= 1
        self.store.write_bytes(content)
        framed = bytes(content[place:-33])
        kept, found = bytes(content[-33:-1]).hex(), hashlib.sha256(framed).hexdigest()
        self.finds(
            "monitor.store: fault: body 0 is damaged: its digest is another;"
            " take the last copy of the store, and count on"
        )
        self.verdict(3, f"store: damaged at 0, kept {kept}, found {found}")


if __name__ == "__main__":
    unittest.main()
