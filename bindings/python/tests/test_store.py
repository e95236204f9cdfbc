"""What a store answers."""

from __future__ import annotations

import random
import re
import threading
from pathlib import Path
from typing import Any, Callable

import mtrecover
from mtrecover import _library
from tests.files import Folders, log, mark, part, put, remove

FRUIT = [
    put(1, b"fig", {0: b"green"}), put(2, b"pear", {3: b""}), put(3, b"fig", {1: b"ripe"}), put(4, b"kiwi", {0: b"soft"}),
    put(5, b"plum", {0: b"blue"}), remove(6, b"plum"), put(7, b"lime", {0: b"sour", 63: b"\x00\xff"}), mark(9),
]


class Stores(Folders):
    def store(self) -> mtrecover.Store:
        store = mtrecover.open(self.folder(a=log(*FRUIT)))
        self.addCleanup(store.close)
        return store

    def test_a_key_has_its_columns(self) -> None:
        self.assertEqual(self.store()[b"fig"], {0: b"green", 1: b"ripe"})
        self.assertEqual(self.store()[b"lime"], {0: b"sour", 63: b"\x00\xff"})

    def test_keys_may_be_any_bytes(self) -> None:
        store = self.store()
        self.assertEqual(store[bytearray(b"pear")], {3: b""})
        self.assertIn(memoryview(b"pear"), store)

    def test_an_absent_key(self) -> None:
        store = self.store()
        with self.assertRaises(KeyError):
            store[b"plum"]
        self.assertNotIn(b"plum", store)
        self.assertIsNone(store.get(b"plum"))
        self.assertIsNone(store.get(b""))

    def test_text_is_no_key(self) -> None:
        store: Any = self.store()
        with self.assertRaises(TypeError):
            store["fig"]
        with self.assertRaises(TypeError):
            "fig" in store

    def test_it_is_a_mapping_in_order(self) -> None:
        store = self.store()
        self.assertEqual(list(store), [b"fig", b"kiwi", b"lime", b"pear"])
        self.assertEqual(len(store), 4)
        self.assertEqual(list(store.values())[1], {0: b"soft"})
        self.assertEqual(dict(store), dict(store.items()))
        self.assertEqual(store, self.store())

    def test_slices(self) -> None:
        store = self.store()
        self.assertEqual(list(store[b"kiwi":b"pear"]), [b"kiwi", b"lime"])
        self.assertEqual(list(store[b"kiwi\0":]), [b"lime", b"pear"])
        self.assertEqual(list(store[:b"g"]), [b"fig"])
        self.assertEqual(list(store[:]), list(store))
        self.assertEqual(list(store[b"z":b"a"]), [])
        self.assertEqual(list(store[:b""]), [])
        with self.assertRaises(ValueError):
            store[::2]

    def test_ranges_have_all_keys_evenly(self) -> None:
        store = self.store()
        for n, lengths in [(1, [4]), (3, [2, 1, 1]), (6, [1, 1, 1, 1, 0, 0])]:
            ranges = store.ranges(n)
            self.assertEqual([len(keys) for keys in ranges], lengths)
            self.assertEqual([pair for keys in ranges for pair in keys.items()], list(store.items()))
        with self.assertRaises(ValueError):
            store.ranges(0)

    def test_a_range_is_a_mapping(self) -> None:
        middle = self.store()[b"g":b"m"]
        self.assertEqual(len(middle), 2)
        self.assertEqual(middle[b"lime"][0], b"sour")
        self.assertNotIn(b"fig", middle)
        self.assertIsNone(middle.get(b"m"))
        self.assertEqual(list(middle[b"a":b"l"]), [b"kiwi"])
        self.assertEqual(list(middle[b"l":]), [b"lime"])

    def test_prefixes(self) -> None:
        keys = [b"", b"\xff", b"\xff\xff", b"a", b"ab", b"ab\xff", b"ab\xff\xff", b"ac", b"b"]
        records = [put(time, key, {0: b"x"}) for time, key in enumerate(keys, 1)]
        with mtrecover.open(self.folder(a=log(*records, mark(99)))) as store:
            for prefix in [*keys, b"ab\xffx", b"c"]:
                self.assertEqual(list(store.prefix(prefix)), sorted(key for key in keys if key.startswith(prefix)))
            self.assertEqual(list(store[b"ab":].prefix(b"a")), [b"ab", b"ab\xff", b"ab\xff\xff", b"ac"])

    def test_the_report(self) -> None:
        report = self.store().report
        self.assertEqual((report.cutoff, report.last, report.version, report.checkpoint), (9, 9, 7, None))
        self.assertEqual((report.logs, report.writers, report.records, report.marks, report.torn), (1, 1, 8, 1, 0))
        self.assertEqual((report.survivors, report.early, report.late, report.keys), (7, 0, 0, 4))
        self.assertEqual((report.skipped, report.nameless, report.ends), ((), (), (len(log(*FRUIT)),)))

    def test_a_report_with_a_checkpoint(self) -> None:
        parts = {"part-1": part(7, 5, 8, {b"plum": {0: b"sweet"}}), "part-2": b"", "part-3": part(8, 5, 8, {})[:-1]}
        with mtrecover.open(self.folder(a=log(mark(4), mark(9)) + b"\0", **parts)) as store:
            report = store.report
            self.assertEqual(dict(store), {b"plum": {0: b"sweet"}})
        self.assertEqual((report.checkpoint, report.begin, report.entries), (7, 5, 1))
        self.assertEqual((report.skipped, report.nameless, report.torn), ((8,), (1,), 1))

    def test_files_have_numbers(self) -> None:
        folder = self.folder(b=log(), a=log(), part=b"")
        (folder / "notes").touch()
        with mtrecover.open(str(folder)) as store:
            self.assertEqual(store.logs, (folder / "a.mtl", folder / "b.mtl"))
            self.assertEqual(store.parts, (folder / "part.mtc",))

    def test_a_closed_store_answers_nothing(self) -> None:
        with mtrecover.open(self.folder(a=log(*FRUIT))) as store:
            keys, pears = iter(store), store.prefix(b"pear")
            next(keys)
        store.close()
        asks: list[Callable[[], object]] = [
            lambda: store[b"fig"], lambda: b"fig" in store, lambda: list(store), lambda: list(pears),
        ]
        for ask in asks:
            with self.assertRaisesRegex(ValueError, "closed"):
                ask()
        self.assertEqual(store.report.keys, 4)

    def test_a_range_keeps_its_store(self) -> None:
        pears = mtrecover.open(self.folder(a=log(*FRUIT))).prefix(b"pear")
        self.assertEqual(list(pears), [b"pear"])

    def test_words_of_it(self) -> None:
        store = self.store()
        self.assertEqual(repr(store), "<mtrecover.Store of 4 keys>")
        self.assertEqual(repr(store[b"a":]), "<mtrecover.Range b'a' to None>")


class Many(Folders):
    """A store of more pairs than come out of the tree at a time, against a dict."""

    def setUp(self) -> None:
        rng = random.Random(1)
        self.model: dict[bytes, mtrecover.Columns] = {}
        records = []
        for time in range(1, 3001):
            key = rng.choice([b"", b"key", bytes(rng.randrange(30))]) + b"%d" % rng.randrange(1500)
            if rng.random() < 0.2:
                self.model.pop(key, None)
                records.append(remove(time, key))
            else:
                columns = {number: rng.randbytes(rng.choice([0, 3, 100])) for number in rng.sample(range(64), 3)}
                self.model.setdefault(key, {}).update(columns)
                records.append(put(time, key, columns))
        self.model[b"long"] = {0: bytes(65_535), 1: b"x" * 65_535}
        records.append(put(3001, b"long", self.model[b"long"]))
        self.rng, self.path = rng, self.folder(a=log(*records, mark(3002)))

    def test_it_is_the_dict(self) -> None:
        for threads in 1, 2, 64:
            with mtrecover.open(self.path, threads=threads) as store:
                self.assertEqual(list(store.items()), sorted(self.model.items()))

    def test_ranges_are_those_of_the_dict(self) -> None:
        keys = sorted(self.model)
        with mtrecover.open(self.path) as store:
            for _ in range(100):
                start, stop = self.rng.choice(keys), self.rng.choice(keys) + self.rng.choice([b"", b"\0"])
                wanted = [key for key in keys if start <= key < stop]
                self.assertEqual(list(store[start:stop]), wanted)

    def test_threads_share_a_store(self) -> None:
        with mtrecover.open(self.path) as store:
            wrong: list[bytes] = []

            def ask(seed: int) -> None:
                rng, keys = random.Random(seed), sorted(self.model)
                for key in rng.choices(keys, k=2000):
                    if store[key] != self.model[key] or next(iter(store[key:])) != key:
                        wrong.append(key)

            threads = [threading.Thread(target=ask, args=(seed,)) for seed in range(4)]
            for thread in threads:
                thread.start()
            for thread in threads:
                thread.join()
            self.assertEqual(wrong, [])


class Library(Folders):
    def test_its_version(self) -> None:
        self.assertGreaterEqual(mtrecover.version(), (3, 4, 4))

    def test_the_package_declares_the_headers_arguments(self) -> None:
        """The functions that the package calls have as many arguments as in the header, where that is there."""
        header = Path(__file__).parents[3] / "include/mtrecover.h"
        if not header.exists():
            self.skipTest("mtrecover.h is not there")
        found = re.findall(r"^\w+ (mtr_\w+)\(([^)]*)\);", re.sub(r"/\*.*?\*/", "", header.read_text(), flags=re.S), re.M)
        counts = {name: len(arguments.split(",")) for name, arguments in found}
        declared = {name: len(arguments) for name, arguments in _library._FUNCTIONS.items()}
        self.assertEqual({name: counts.get(name) for name in declared}, declared)
