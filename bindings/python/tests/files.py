"""Logs and parts as bytes, by docs/FORMATS.md."""

from __future__ import annotations

import struct
import tempfile
import unittest
from pathlib import Path

from mtrecover import Columns


def framed(body: bytes) -> bytes:
    length = struct.pack(">I", len(body))
    return length + body + length


def change(version: int, key: bytes, columns: Columns) -> bytes:
    numbers = b"".join(struct.pack(">BH", number, len(value)) + value for number, value in sorted(columns.items()))
    return struct.pack(">QH", version, len(key)) + key + (bytes([len(columns)]) + numbers if columns else b"")


def put(time: int, key: bytes, columns: Columns) -> bytes:
    return framed(struct.pack(">BQ", 1, time) + change(time, key, columns))


def remove(time: int, key: bytes) -> bytes:
    return framed(struct.pack(">BQ", 2, time) + change(time, key, {}))


def mark(time: int) -> bytes:
    return framed(struct.pack(">BQ", 3, time))


def log(*records: bytes, start: int = 0) -> bytes:
    return b"MTL2" + struct.pack(">Q", start) + b"".join(records)


def part(number: int, begin: int, end: int, entries: dict[bytes, Columns]) -> bytes:
    head = b"MTC2" + struct.pack(">IQHH", number, begin, 0, 1)
    bodies = b"".join(framed(change(1, key, columns)) for key, columns in entries.items())
    return head + bodies + struct.pack(">IQI", 0, end, len(entries))


class Folders(unittest.TestCase):
    """Tests over folders, which are gone after each."""

    def folder(self, **files: bytes) -> Path:
        """Returns a folder with these logs, and parts, whose names begin with `part`."""
        made = tempfile.TemporaryDirectory()
        self.addCleanup(made.cleanup)
        for name, content in files.items():
            Path(made.name, name + (".mtc" if name.startswith("part") else ".mtl")).write_bytes(content)
        return Path(made.name)
