"""What this package needs of mtrecover.h, as it is."""

from __future__ import annotations

import ctypes
import os
import weakref
from ctypes import POINTER, byref, c_bool, c_char_p, c_size_t, c_uint32, c_uint64, c_void_p
from typing import Any, Callable, NamedTuple

DONE, MEMORY, WRONG, ABSENT, SHORT, FAULT = range(6)

NAME = "libmtrecover.so.1"


class RawPlace(ctypes.Structure):
    _fields_ = [("at", c_void_p), ("full", c_bool)]


class RawFault(ctypes.Structure):
    _fields_ = [("kind", c_uint32), ("what", c_uint32), ("index", c_uint64), ("record", c_uint64)]


# The numbers of a report, in their order.
NUMBERS = (
    "cutoff", "last", "version", "checkpoint", "begin", "entries", "logs", "writers", "records", "marks", "torn", "holes",
    "skipped", "nameless", "early", "late", "survivors", "keys", "layers",
)


class RawReport(ctypes.Structure):
    _fields_ = [(name, c_uint64) for name in NUMBERS]


class RawVersions(ctypes.Structure):
    _fields_ = [("library", c_uint32), ("log_format", c_uint32), ("part_format", c_uint32)]


_PLACE, _BYTES = POINTER(RawPlace), [c_char_p, c_size_t]
_OUT = [c_void_p, c_size_t, POINTER(c_size_t)]
# The arguments of each function. All but mtr_free and mtr_version answer a status.
_FUNCTIONS: dict[str, list[Any]] = {
    "mtr_feed_log": [_PLACE],
    "mtr_feed_part": [_PLACE],
    "mtr_feed": [_PLACE, *_BYTES],
    "mtr_add": [_PLACE, _PLACE],
    "mtr_prepare": [_PLACE, c_uint32, POINTER(RawFault)],
    "mtr_hire": [_PLACE, _PLACE],
    "mtr_work": [_PLACE],
    "mtr_join": [_PLACE, _PLACE],
    "mtr_replay": [_PLACE],
    "mtr_assemble": [_PLACE],
    "mtr_get_report": [_PLACE, POINTER(RawReport)],
    "mtr_report_end": [_PLACE, c_size_t, POINTER(c_uint64)],
    "mtr_report_skipped": [_PLACE, c_size_t, POINTER(c_uint64)],
    "mtr_report_nameless": [_PLACE, c_size_t, POINTER(c_uint64)],
    "mtr_exists": [_PLACE, *_BYTES],
    "mtr_pair": [_PLACE, *_BYTES, *_OUT],
    "mtr_dump_until": [_PLACE, *_BYTES, *_BYTES, *_OUT, POINTER(c_size_t)],
    "mtr_cut_key": [_PLACE, c_size_t, c_size_t, *_OUT],
    "mtr_free": [_PLACE],
    "mtr_fault_text": [POINTER(RawFault), *_OUT],
    "mtr_version": [POINTER(RawVersions)],
}


def _load() -> ctypes.CDLL:
    folder = os.environ.get("MTRECOVER_LIB")
    try:
        library = ctypes.CDLL(os.path.join(folder, NAME) if folder else NAME)
    except OSError as error:
        raise ImportError(f"{error}: install {NAME}, or name its folder in MTRECOVER_LIB") from error
    for name, arguments in _FUNCTIONS.items():
        function = getattr(library, name)
        function.argtypes, function.restype = arguments, c_uint32
    library.mtr_free.restype = library.mtr_version.restype = None
    return library


lib = _load()


class Place:
    """A place of the library. What it holds is freed with it, or by `free`."""

    def __init__(self) -> None:
        self.at = byref(RawPlace())
        self.free = weakref.finalize(self, lib.mtr_free, self.at)


def done(status: int) -> None:
    """Raises MemoryError unless the call succeeded, which has no other reason to fail."""
    if status == MEMORY:
        raise MemoryError("out of memory")
    if status != DONE:
        raise RuntimeError(f"status {status}")


def written(call: Callable[..., int], room: int) -> bytes | None:
    """Returns what a call writes that is told where, for how many bytes there is room, and where to note their number; None if
    it answers ABSENT. It is called again if it needs more room."""
    count = c_size_t()
    while True:
        out = ctypes.create_string_buffer(room)
        status = call(out, room, byref(count))
        if status == ABSENT:
            return None
        if status != SHORT:
            done(status)
            return ctypes.string_at(out, count.value)
        room = count.value


class Version(NamedTuple):
    """What a library is: its version, and the greatest formats of logs and parts that it knows."""

    library: int
    log_format: int
    part_format: int


def version() -> Version:
    """Returns what the library is that is loaded."""
    raw = RawVersions()
    lib.mtr_version(byref(raw))
    return Version(raw.library, raw.log_format, raw.part_format)
