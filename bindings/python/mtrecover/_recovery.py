"""From a folder to its store."""

from __future__ import annotations

import builtins
import os
from collections.abc import Iterable
from concurrent.futures import ThreadPoolExecutor
from ctypes import byref
from pathlib import Path
from typing import Callable, Optional

from mtrecover._library import ABSENT, FAULT, Place, RawFault, done, lib, written
from mtrecover._store import Store

# How many bytes of a file are read at a time.
CHUNK = 1 << 20
# The kinds of faults, but for those of devices, since a file that cannot be read raises OSError; and what is wrong with records.
KINDS = {1: "no logs", 2: "header", 3: "record", 6: "gap", 9: "doubled", 10: "torn"}
WHATS = dict(enumerate(["length", "trailer", "kind", "frame", "version", "key", "columns", "clock", "checksum"], 1))


class Fault(Exception):
    """Why there is no store: the one fault that the rules give these logs and parts."""

    kind: str
    """One of "no logs", "header", "record", "gap", "doubled", "torn"."""
    log: Optional[int]
    """The number of the log, but for "no logs"."""
    path: Optional[Path]
    """The log's file, likewise."""
    record: Optional[int]
    """Of "record": how many complete records precede it."""
    what: Optional[str]
    """Of "record": one of "length", "trailer", "kind", "frame", "version", "key", "columns", "clock", "checksum"."""

    def __init__(self, raw: RawFault, logs: tuple[Path, ...]):
        self.kind = KINDS.get(raw.kind, f"kind {raw.kind}")
        is_record = self.kind == "record"
        self.log = None if self.kind == "no logs" else raw.index
        self.path = None if self.log is None else logs[self.log]
        self.record = raw.record if is_record else None
        self.what = WHATS.get(raw.what, f"what {raw.what}") if is_record else None
        words = written(lambda *out: lib.mtr_fault_text(byref(raw), *out), 128) or b""
        super().__init__(words.decode() + (f" ({self.path.name})" if self.path else ""))


def open(folder: str | os.PathLike[str], *, threads: int = 4) -> Store:
    """Recovers the store of a folder, by so many threads, 1 to 64. Names that end in `.mtl` are logs, in `.mtc` parts of
    checkpoints; others are ignored.

    Raises Fault if the logs and parts have one, OSError if a file cannot be read, MemoryError, and ValueError for another
    number of threads."""
    if not 1 <= threads <= 64:
        raise ValueError("threads are 1 to 64")
    names = sorted(os.listdir(folder), key=os.fsencode)
    logs = tuple(Path(folder, name) for name in names if name.endswith(".mtl"))
    parts = tuple(Path(folder, name) for name in names if name.endswith(".mtc"))
    place = Place()
    with ThreadPoolExecutor(threads) as pool:
        for feed in pool.map(_fed, [lib.mtr_feed_log] * len(logs) + [lib.mtr_feed_part] * len(parts), logs + parts):
            done(lib.mtr_add(place.at, feed.at))
        fault = RawFault()
        status = lib.mtr_prepare(place.at, threads, byref(fault))
        if status == FAULT:
            raise Fault(fault, logs)
        done(status)
        _do_step(place, pool)
        done(lib.mtr_replay(place.at))
        _do_step(place, pool)
        done(lib.mtr_assemble(place.at))
    return Store(place, logs, parts)


def _fed(begin: Callable[..., int], path: Path) -> Place:
    """Returns a log or part with the bytes of this file, up to its first fault."""
    feed = Place()
    done(begin(feed.at))
    with builtins.open(path, "rb", buffering=0) as file:
        while chunk := file.read(CHUNK):
            status = lib.mtr_feed(feed.at, chunk, len(chunk))
            if status == FAULT:
                break
            done(status)
    return feed


def _do_step(job: Place, pool: ThreadPoolExecutor) -> None:
    """Hands out the tasks of a step to threads, and takes them back when they are done."""
    tasks = []
    task = Place()
    while (status := lib.mtr_hire(job.at, task.at)) != ABSENT:
        done(status)
        tasks.append(task)
        task = Place()
    _all_done(pool.map(lambda task: int(lib.mtr_work(task.at)), tasks))
    _all_done(lib.mtr_join(job.at, task.at) for task in tasks)


def _all_done(statuses: Iterable[int]) -> None:
    for status in statuses:
        done(status)
