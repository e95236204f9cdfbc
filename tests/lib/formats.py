"""Logs and parts as bytes, by docs/FORMATS.md."""
import struct
from typing import NamedTuple

PUT, REMOVE, MARK, ERASE = 1, 2, 3, 4
# The formats of logs and parts.
FORMS, PART_FORMS = (1, 2, 3, 4), (1, 2, 4)
GREATEST = 2**64 - 1


class Update(NamedTuple):
    timestamp: int
    version: int
    kind: int
    key: bytes
    columns: tuple  # of a number and a value; of a number, in an erase


def framed(body):
    length = struct.pack(">I", len(body))
    return length + body + length


def columns_bytes(columns):
    return bytes([len(columns)]) + b"".join(struct.pack(">BH", number, len(value)) + value for number, value in columns)


def record(update):
    body = struct.pack(">BQQH", update.kind, update.timestamp, update.version, len(update.key)) + update.key
    if update.kind == PUT:
        body += columns_bytes(update.columns)
    elif update.kind == ERASE:
        body += bytes([len(update.columns), *update.columns])
    return framed(body)


def mark(timestamp):
    return framed(struct.pack(">BQ", MARK, timestamp))


def header(form, start, worker=0, segment=0):
    return b"MTL%d" % form + struct.pack(">Q", start) + (struct.pack(">II", worker, segment) if form == 3 else b"")


def part(form, number, begin, place, parts, entries, end):
    """Returns a part's bytes. Its entries are versions, keys and columns."""
    head = b"MTC%d" % form + struct.pack(">IQHH", number, begin, place, parts)
    bodies = [struct.pack(">QH", version, len(key)) + key + columns_bytes(columns) for version, key, columns in entries]
    return head + b"".join(map(framed, bodies)) + struct.pack(">IQI", 0, end, len(entries))
