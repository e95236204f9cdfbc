"""The examples, as they are run."""

from __future__ import annotations

import os
import subprocess
import sys
from importlib.util import find_spec
from pathlib import Path

from tests.files import Folders, log, mark, put, remove

EXAMPLES = Path(__file__).parent.parent / "examples"


class Examples(Folders):
    def setUp(self) -> None:
        records = [put(1, b"fig", {0: b"green"}), put(2, b"kiwi", {1: b"soft"}), put(3, b"pear", {0: b"long"})]
        self.old = self.folder(a=log(*records, mark(4)))
        later = [remove(5, b"kiwi"), put(6, b"lime", {0: b"sour"}), put(7, b"fig", {1: b"ripe"}), mark(8)]
        self.new = self.folder(a=log(*records, mark(4), *later))

    def printed(self, example: str, *words: object) -> str:
        env = {**os.environ, "PYTHONPATH": str(EXAMPLES.parent)}
        ran = subprocess.run([sys.executable, EXAMPLES / example, *map(str, words)], capture_output=True, text=True, env=env)
        self.assertEqual((ran.returncode, ran.stderr), (0, ""))
        return ran.stdout

    def test_what_changed(self) -> None:
        lines = [
            "b'fig' {0: b'green'} -> {0: b'green', 1: b'ripe'}",
            "b'kiwi' {1: b'soft'} -> None",
            "b'lime' None -> {0: b'sour'}",
        ]
        self.assertEqual(self.printed("what_changed.py", self.old, self.new).splitlines(), lines)
        self.assertEqual(self.printed("what_changed.py", self.old, self.old), "")

    def test_keys_by_size(self) -> None:
        self.assertEqual(self.printed("keys_by_size.py", self.new, 2), "12 b'fig'\n8 b'lime'\n")

    def test_as_frame(self) -> None:
        if not find_spec("pandas"):
            self.skipTest("pandas is not there")
        lines = [line.split() for line in self.printed("as_frame.py", self.new).splitlines()]
        self.assertEqual(lines[:2], [["0", "1"], ["b'fig'", "b'green'", "b'ripe'"]])
        self.assertEqual([line[0] for line in lines[2:]], ["b'lime'", "b'pear'"])
