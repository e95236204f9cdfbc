"""Logs, parts and folders, for the scripts that try commands which write files. Their argument is [TIMES]."""
import os
import struct
import subprocess
import sys
from functools import lru_cache
from pathlib import Path
from typing import NamedTuple

from lib.blocks import LOG, PART, opened, text_of
from lib.counting import TOP, program
from lib.formats import ERASE, GREATEST, MARK, PUT, REMOVE, Update
from lib.torture import after_calls, told_calls

TIMES = int(sys.argv[1]) if len(sys.argv) > 1 else 300
KEYS = [b"", b"a", b"b", b"aaaaaaaa", b"aaaaaaaab", b"aaaaaaaaaaaaaaaac"]


# ---- Logs ----


def end_of(part):
    """Returns the end of the checkpoint of this part, if it is complete."""
    part = text_of(part)
    return struct.unpack_from(">Q", part, len(part) - 12)[0] if len(part) >= 32 else GREATEST


class Log(NamedTuple):
    form: int
    start: int
    writer: object  # the number of the worker of a segment, or the name of another log
    segment: int
    kinds: list
    times: list
    ends: list  # the byte at which each record ends; in format 4, of the text in the blocks

    def last(self):
        return max(self.times, default=self.start)

    def last_update(self):
        return max([time for kind, time in zip(self.kinds, self.times) if kind != MARK], default=-1)

    def size(self):
        """Returns the number of bytes up to the end of the last complete record."""
        return self.ends[-1] if self.ends else 20 if self.form > 2 else 12

    def is_behind(self, other):
        """Whether this is an earlier segment of the other's log."""
        return self.writer == other.writer and self.segment < other.segment

    def is_ended(self):
        return self.times[-1:] == [GREATEST]


@lru_cache(4096)
def read_log(name, content):
    form, content = content[3] - ord("0"), text_of(content)
    (start,) = struct.unpack_from(">Q", content, 4)
    writer, segment, at = (*struct.unpack_from(">II", content, 12), 20) if form > 2 else (name, 0, 12)
    log = Log(form, start, writer, segment, [], [], [])
    while at + 4 <= len(content):
        (length,) = struct.unpack_from(">I", content, at)
        if length < 9 or at + length + 8 > len(content):
            break
        kind, time = struct.unpack_from(">BQ", content, at + 4)
        at += length + 8
        log.kinds.append(kind)
        log.times.append(time)
        log.ends.append(at)
    return log


def whole_records(name, content):
    """Returns a log without its torn tail or end, and any other file as it is."""
    if name.endswith(".mtl") and content.startswith(LOG):
        return content[: [44, *opened(content).ends][-1]]
    return content[: read_log(name, content).size()] if name.endswith(".mtl") else content


def columns_after(updates):
    """Returns the columns of a key after these updates of it, in order."""
    columns = {}
    for update in updates:
        if update.kind == REMOVE:
            columns = {}
        elif update.kind == ERASE:
            columns = {number: value for number, value in columns.items() if number not in update.columns}
        else:
            columns.update(update.columns)
    return tuple(sorted(columns.items()))


def dump_lines(store):
    """Returns what `dump` prints of a store that has these columns of each key."""
    values = {key: "".join(f" {number}={value.hex()}" for number, value in columns) for key, columns in store.items() if columns}
    return "".join(f"{key.hex()}:{values[key]}\n" for key in sorted(values)).encode()


def dump_of(updates):
    """Returns what `dump` prints of a store that these updates make."""
    keys = {update.key for update in updates}
    return dump_lines({key: columns_after(update for update in updates if update.key == key) for key in keys})


# ---- Random updates ----


def random_columns(rng, most):
    return tuple((number, bytes([rng.randrange(256)])) for number in sorted(rng.sample(range(4), rng.randint(1, most))))


def random_update(rng, form, timestamp, version):
    kind = rng.choice([PUT, PUT, PUT, REMOVE] + [ERASE] * (form > 1))
    columns = random_columns(rng, 3)
    return Update(timestamp, version, kind, rng.choice(KEYS), columns if kind == PUT else tuple(n for n, _ in columns))


# ---- Programs and folders ----


def run(*words, **env):
    ran = subprocess.run([program("mtrecover"), *words], capture_output=True, env={**os.environ, **env}, timeout=600)
    return ran.returncode, ran.stdout, ran.stderr


def share(items, place, places):
    """Returns one of some even shares of a list."""
    return items[len(items) * place // places : len(items) * (place + 1) // places]


def dump(folder):
    return run("dump", folder, "--workers", "1")


def is_out(out, store):
    """Whether a new folder is no store, or this one."""
    if not out.exists():
        return True
    dumped = dump(out)
    return dumped == store or dumped[0::2] == (1, b"mtrecover: no logs\n")


# ---- Programs whose calls are told ----


def run_told(work, tells, folder, *words):
    """Runs a program. Returns how it ended, and its calls that changed this folder, as those of a disk."""
    told = work / "told"
    told.unlink(missing_ok=True)
    ran = run(*words, LD_PRELOAD=tells, TORTURE_FOLDER=str(folder.resolve()), TORTURE_LIST=str(told))
    return ran, [call for call in told_calls(told) if call[0] != "begin_sync"]


def left_amid(disk, calls, rng):
    """Returns the disk that a crash leaves in the midst of these calls."""
    return after_calls(disk, calls[: rng.randint(0, len(calls))]).crash(rng)
