"""The store, and what it answers.

The flat form of a pair, which the library gives, big-endian:

    length  version  key length  key  count  (number  value length  value) * count  length
    4       8        2                1       1       2                             4
"""

from __future__ import annotations

import threading
from collections.abc import ItemsView, Iterator, Mapping, ValuesView
from ctypes import byref, c_size_t, c_uint64
from dataclasses import dataclass
from pathlib import Path
from struct import Struct
from typing import Callable, Dict, Optional, overload

from mtrecover._library import ABSENT, DONE, NUMBERS, Place, RawReport, done, lib, written

Columns = Dict[int, bytes]
"""The columns of a key: a value by its number, 0 to 63."""

# How many bytes of pairs are copied out of the tree at a time, and how many the longest key has that cuts a store.
ROOM, LONGEST_CUT = 1 << 16, 4097
# The length and version that a pair begins with, and the length of its key; those of a column.
_HEAD, _COLUMN, _TRAILER = Struct(">4x8xH"), Struct(">BH"), 4
NONE = 2**64 - 1


@dataclass(frozen=True)
class Report:
    """What recovery found."""

    cutoff: int
    """The timestamp below which updates survive."""
    last: int
    """The greatest timestamp in the logs."""
    version: int
    """The greatest version of the logs' complete records and of the checkpoint's entries, or 0."""
    checkpoint: Optional[int]
    """The number of the chosen checkpoint, if there is one."""
    begin: int
    """The timestamp from which updates survive: where that checkpoint begins, or 0."""
    entries: int
    """The entries of that checkpoint."""
    logs: int
    """Log files."""
    writers: int
    """Logs, where a worker's segments are one."""
    records: int
    """Complete records, marks included."""
    marks: int
    """Marks among them."""
    torn: int
    """Log files that end in a torn tail."""
    holes: int
    """Log files before which updates may be missing."""
    skipped: tuple[int, ...]
    """The numbers of invalid checkpoints."""
    nameless: tuple[int, ...]
    """The positions of the parts that name no checkpoint."""
    early: int
    """Updates below `begin`."""
    late: int
    """Updates at or past the cutoff."""
    survivors: int
    """Updates and entries that survive."""
    keys: int
    """Keys of the store."""
    layers: int
    """Layers of its tree."""
    ends: tuple[int, ...]
    """Where the complete records of each log file end, in bytes; in format 4, of the text in its blocks."""


class Tree:
    """The place of a store, which one call at a time is given."""

    def __init__(self, place: Place):
        self.place, self.lock = place, threading.Lock()

    def close(self) -> None:
        with self.lock:
            self.place.free()

    def call(self, function: Callable[..., int], *arguments: object) -> int:
        """Returns the status of this call over the store. ValueError: it is closed."""
        with self.lock:
            if not self.place.free.alive:
                raise ValueError("the store is closed")
            return function(self.place.at, *arguments)

    def pair(self, key: bytes) -> Optional[Columns]:
        flat = written(lambda *out: self.call(lib.mtr_pair, key, len(key), *out), 1 << 12)
        return None if flat is None else next(pairs_in(flat))[1]

    def cut(self, i: int, n: int) -> bytes:
        """Returns the key at which range i of n ranges of all pairs begins."""
        return written(lambda *out: self.call(lib.mtr_cut_key, i, n, *out), LONGEST_CUT) or b""

    def pairs(self, start: bytes, stop: Optional[bytes]) -> Iterator[tuple[bytes, Columns]]:
        """Yields the pairs whose keys are at or after `start` and below `stop`, in order."""
        if stop == b"":  # which would be no end
            return
        pairs, end = byref(c_size_t()), stop or b""
        while True:
            flat = written(lambda *out: self.call(lib.mtr_dump_until, start, len(start), end, len(end), *out, pairs), ROOM)
            if flat is None:
                return
            for key, columns in pairs_in(flat):
                yield key, columns
            start = key + b"\0"

    def report(self) -> Report:
        raw = RawReport()
        done(self.call(lib.mtr_get_report, byref(raw)))
        numbers = {name: getattr(raw, name) for name in NUMBERS}
        numbers["checkpoint"] = None if raw.checkpoint == NONE else raw.checkpoint
        numbers["skipped"] = self.numbers(lib.mtr_report_skipped)
        numbers["nameless"] = self.numbers(lib.mtr_report_nameless)
        return Report(**numbers, ends=self.numbers(lib.mtr_report_end))

    def numbers(self, function: Callable[..., int]) -> tuple[int, ...]:
        """Returns the numbers of a list of the report."""
        found: list[int] = []
        number = c_uint64()
        while (status := self.call(function, len(found), byref(number))) != ABSENT:
            done(status)
            found.append(number.value)
        return tuple(found)


def pairs_in(flat: bytes) -> Iterator[tuple[bytes, Columns]]:
    """Yields the pairs that these bytes are the flat forms of."""
    at = 0
    while at < len(flat):
        (length,) = _HEAD.unpack_from(flat, at)
        at += _HEAD.size
        key = flat[at : at + length]
        count, at = flat[at + length], at + length + 1
        columns: Columns = {}
        for _ in range(count):
            number, length = _COLUMN.unpack_from(flat, at)
            at += _COLUMN.size
            columns[number] = flat[at : at + length]
            at += length
        yield key, columns
        at += _TRAILER


def _key(key: object) -> bytes:
    if not isinstance(key, (bytes, bytearray, memoryview)):
        raise TypeError(f"keys are bytes, not {type(key).__name__}")
    return bytes(key)


def _after(prefix: bytes) -> Optional[bytes]:
    """Returns the first key after all keys with this prefix, if there is one."""
    front = prefix.rstrip(b"\xff")
    return front[:-1] + bytes([front[-1] + 1]) if front else None


class Range(Mapping[bytes, Columns]):
    """The pairs of a store whose keys lie in a range, in order. A slice is a range of the keys from its start, up to but not
    its stop. `len` of a range goes through it."""

    def __init__(self, tree: Tree, start: bytes = b"", stop: Optional[bytes] = None):
        self._tree, self._start, self._stop = tree, start, stop

    @overload
    def __getitem__(self, key: bytes) -> Columns: ...

    @overload
    def __getitem__(self, key: slice) -> Range: ...

    def __getitem__(self, key: bytes | slice) -> Columns | Range:
        if isinstance(key, slice):
            if key.step is not None:
                raise ValueError("a range of keys has no step")
            start = b"" if key.start is None else _key(key.start)
            return self._within(start, None if key.stop is None else _key(key.stop))
        wanted = _key(key)
        columns = self._tree.pair(wanted) if self._has(wanted) else None
        if columns is None:
            raise KeyError(key)
        return columns

    def __contains__(self, key: object) -> bool:
        wanted = _key(key)
        return self._has(wanted) and self._tree.call(lib.mtr_exists, wanted, len(wanted)) == DONE

    def __iter__(self) -> Iterator[bytes]:
        return (key for key, _ in self._pairs())

    def __len__(self) -> int:
        return sum(1 for _ in self)

    def items(self) -> ItemsView[bytes, Columns]:
        return _Items(self)

    def values(self) -> ValuesView[Columns]:
        return _Values(self)

    def prefix(self, prefix: bytes) -> Range:
        """Returns the range of the keys that begin with these bytes."""
        return self._within(_key(prefix), _after(_key(prefix)))

    def __repr__(self) -> str:
        return f"<mtrecover.{type(self).__name__} {self._start!r} to {self._stop!r}>"

    def _within(self, start: bytes, stop: Optional[bytes]) -> Range:
        stops = [end for end in (stop, self._stop) if end is not None]
        return Range(self._tree, max(start, self._start), min(stops, default=None))

    def _has(self, key: bytes) -> bool:
        return self._start <= key and (self._stop is None or key < self._stop)

    def _pairs(self) -> Iterator[tuple[bytes, Columns]]:
        return self._tree.pairs(self._start, self._stop)


class Store(Range):
    """A recovered store, which does not change: the range of all its keys. It frees its memory at the end of a `with`, by
    `close`, or with the last of its ranges."""

    report: Report
    """What recovery found."""
    logs: tuple[Path, ...]
    """The files of the logs, which are numbered from 0 in this order."""
    parts: tuple[Path, ...]
    """The files of the parts, likewise."""

    def __init__(self, place: Place, logs: tuple[Path, ...], parts: tuple[Path, ...]):
        super().__init__(Tree(place))
        self.report, self.logs, self.parts = self._tree.report(), logs, parts

    def __len__(self) -> int:
        return self.report.keys

    def __repr__(self) -> str:
        return f"<mtrecover.Store of {len(self)} keys>"

    def ranges(self, n: int) -> list[Range]:
        """Returns n ranges that have all keys, one after the other: each equally many, or one more."""
        if n < 1:
            raise ValueError("ranges are 1 or more")
        cuts = [self._tree.cut(i, n) for i in range(n)]
        return [Range(self._tree, start, stop) for start, stop in zip(cuts, [*cuts[1:], None])]

    def close(self) -> None:
        """Frees the store. From then on it answers ValueError, and so do its ranges."""
        self._tree.close()

    def __enter__(self) -> Store:
        return self

    def __exit__(self, *_: object) -> None:
        self.close()


class _Items(ItemsView[bytes, Columns]):
    _mapping: Range

    def __iter__(self) -> Iterator[tuple[bytes, Columns]]:
        return self._mapping._pairs()


class _Values(ValuesView[Columns]):
    _mapping: Range

    def __iter__(self) -> Iterator[Columns]:
        return (columns for _, columns in self._mapping._pairs())
