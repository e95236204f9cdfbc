"""Files of format 4: blocks with checksums around a log or a part. And what the bytes of a log of any format are. By
docs/FORMATS.md, with no code of the programs."""
import struct
from functools import lru_cache
from typing import NamedTuple

from lib.formats import ERASE, MARK, PUT, REMOVE, Update, header

POLYNOMIAL = 0x82F63B78
MOST_BODY = 2**23
LOG, PART = b"MTL4", b"MTC4"
# How a file ends: with a whole block, with what a crash may leave, or before blocks that go on.
WHOLE, TORN, DAMAGED = "whole", "torn", "damaged"

# ---- Checksums ----


def shifted(byte):
    for _ in range(8):
        byte = byte >> 1 ^ (POLYNOMIAL if byte & 1 else 0)
    return byte


TABLE = [shifted(byte) for byte in range(256)]


def crc32c(content, crc=0):
    """Returns the checksum of bytes, or goes on from that of the bytes before them."""
    crc ^= 0xFFFFFFFF
    for byte in content:
        crc = crc >> 8 ^ TABLE[(crc ^ byte) & 0xFF]
    return crc ^ 0xFFFFFFFF


def little(crc):
    return struct.pack("<I", crc)


def with_crc(content):
    return content + little(crc32c(content))


# ---- Making files ----


def sealed_header(text, salt, workers):
    """Returns the header of the file in which this log of format 3, or part of format 2, stands."""
    if text.startswith(b"MTL3"):
        start, worker, segment = struct.unpack_from(">QII", text, 4)
        return with_crc(struct.pack(">4sQIIIIIQ", LOG, salt, 0, worker, 0, segment, workers, start))
    number, begin, place, parts = struct.unpack_from(">IQHH", text, 4)
    return with_crc(struct.pack(">4sQIHHIQ", PART, salt, number, place, parts, 1, begin))


def mark_of(header):
    return header[-4:]


def head(mark, length):
    return with_crc(mark + struct.pack(">I", length))


def block(mark, body):
    begun = head(mark, len(body))
    return begun + body + little(crc32c(body, crc32c(begun[:8])))


def sealed(text, salt, workers=1, ends=None):
    """Returns the file of this text, with a block up to each of these places of it, or one block."""
    header = sealed_header(text, salt, workers)
    ends = [20, *([len(text)] if ends is None else ends)]
    return header + b"".join(block(mark_of(header), text[a:b]) for a, b in zip(ends, ends[1:]))


def new_log(form, start, worker, segment, salt, workers=1):
    """Returns the bytes of a log of any format without records."""
    return sealed(header(3, start, worker, segment), salt, workers, []) if form == 4 else header(form, start, worker, segment)


def appended(log, records):
    """Returns what a write call appends to a log with these bytes."""
    return block(mark_of(log[:44]), records) if log.startswith(LOG) else records


# ---- Reading files ----


class Opened(NamedTuple):
    """What stands in the blocks before the first place without one, where each of these ends, and how the file ends."""

    text: bytes
    ends: list
    state: str


def header_of(content):
    """Returns the length of the header and the text's header, or None."""
    size = {LOG: 44, PART: 36}.get(content[:4])
    if size is None or len(content) < size or with_crc(content[: size - 4]) != content[:size]:
        return None
    if size == 44:
        _, _, zero, worker, other, segment, _, start = struct.unpack(">4sQIIIIIQ", content[:40])
        return None if zero or other else (size, b"MTL3" + struct.pack(">QII", start, worker, segment))
    _, _, number, place, parts, one, begin = struct.unpack(">4sQIHHIQ", content[:32])
    return None if one != 1 else (size, b"MTC2" + struct.pack(">IQHH", number, begin, place, parts))


def length_at(mark, content, at):
    """Returns the length in the head at this place, or None if none stands there."""
    begun = content[at : at + 8]
    length = int.from_bytes(begun[4:], "big")
    is_head = begun[:4] == mark and length <= MOST_BODY and content[at : at + 12] == with_crc(begun)
    return length if is_head else None


def has_head(mark, content, at):
    """Whether a head stands at this place or behind it."""
    while (at := content.find(mark, at)) >= 0:
        if length_at(mark, content, at) is not None:
            return True
        at += 1
    return False


@lru_cache(64)
def opened(content):
    """Returns what a file of format 4 is, or None if it has no header."""
    found = header_of(content)
    if found is None:
        return None
    at, text = found
    mark, ends = content[at - 4 : at], []
    while at < len(content):
        length = length_at(mark, content, at)
        if length is None:
            behind = at + 1 if len(content) - at >= 12 else len(content)
        else:
            behind = at + 16 + length
            if block(mark, content[at + 12 : behind - 4]) == content[at:behind]:
                text += content[at + 12 : behind - 4]
                at = behind
                ends.append(at)
                continue
        return Opened(text, ends, DAMAGED if has_head(mark, content, behind) else TORN)
    return Opened(text, ends, WHOLE)


def text_of(content):
    """Returns the text of a file of any format. Of one of format 4 without a header it is nothing."""
    if not content.startswith((LOG, PART)):
        return content
    file = opened(content)
    return file.text if file else b""


# ---- Reading logs ----

# By docs/FORMATS.md: the greatest kind, L of a record, key, column number and count, of each format.
LIMITS = {1: (3, 1_049_652, 1024, 15, 16), 2: (4, 4_198_548, 4096, 63, 64), 3: (4, 4_198_548, 4096, 63, 64)}


class Reading(NamedTuple):
    """A log's header and records, a mark as an update of no key; or how it is faulty."""

    form: int
    start: int
    records: list
    is_torn: bool
    fault: str = None

    def last(self):
        return max([self.start, *(update.timestamp for update in self.records)])


def read_log(content):
    """Returns what the bytes of a log of any format are."""
    state = WHOLE
    if content.startswith(LOG):
        form, file = 4, opened(content)
        if file is None:
            return Reading(4, 0, [], False, "header")
        content, state = file.text, file.state
    else:
        form = {b"MTL1": 1, b"MTL2": 2, b"MTL3": 3}.get(content[:4])
        if form is None or len(content) < (20 if form == 3 else 12):
            return Reading(0, 0, [], False, "header")
    reading = read_text(content)
    if not reading.fault and state == DAMAGED:
        return reading._replace(form=form, fault=f"record {len(reading.records)}: checksum")
    return reading._replace(form=form, is_torn=reading.is_torn or state == TORN)


def read_text(content):
    form, (start,) = content[3] - ord("0"), struct.unpack_from(">Q", content, 4)
    at, records, last = 20 if form == 3 else 12, [], 0
    while at < len(content):
        fault, update = record_at(form, content, at, last)
        if fault:
            is_torn = fault == TORN
            return Reading(form, start, records, is_torn, None if is_torn else f"record {len(records)}: {fault}")
        at += 8 + int.from_bytes(content[at : at + 4], "big")
        last = update.timestamp
        records.append(update)
    return Reading(form, start, records, False)


def record_at(form, content, at, last):
    """Returns the first fault of the record at this place, or that it is torn, or None; and the record."""
    kinds, longest, long_key, greatest, most = LIMITS[form]
    length = int.from_bytes(content[at : at + 4], "big")
    if len(content) - at < 4:
        return TORN, None
    if not 9 <= length <= longest:
        return "length", None
    if len(content) - at < length + 8:
        return TORN, None
    body = content[at + 4 : at + 4 + length]
    if content[at + 4 + length : at + 8 + length] != content[at : at + 4]:
        return "trailer", None
    if not 1 <= body[0] <= kinds:
        return "kind", None
    update = update_of(body)
    if update is None:
        return "frame", None
    numbers = [column[0] if update.kind == PUT else column for column in update.columns]
    is_rising = all(a < b for a, b in zip(numbers, numbers[1:])) and all(number <= greatest for number in numbers)
    if update.kind != MARK and update.version == 0:
        return "version", None
    if len(update.key) > long_key:
        return "key", None
    if update.kind in (PUT, ERASE) and not (1 <= len(numbers) <= most and is_rising):
        return "columns", None
    return ("clock", None) if update.timestamp < last else (None, update)


def update_of(body):
    """Returns the update that a body has by its lengths and its count, or None if they do not end with it."""
    kind, (timestamp,) = body[0], struct.unpack_from(">Q", body, 1)
    if kind == MARK:
        return Update(timestamp, 0, MARK, b"", ()) if len(body) == 9 else None
    if len(body) < 19:
        return None
    version, size = struct.unpack_from(">QH", body, 9)
    key, rest = body[19 : 19 + size], body[19 + size :]
    if len(key) < size or (kind == REMOVE and rest) or (kind != REMOVE and not rest):
        return None
    if kind == REMOVE:
        return Update(timestamp, version, kind, key, ())
    if kind == ERASE:
        return Update(timestamp, version, kind, key, tuple(rest[1:])) if len(rest) == rest[0] + 1 else None
    columns = columns_of(rest)
    return None if columns is None else Update(timestamp, version, kind, key, columns)


def columns_of(content):
    """Returns the columns in these bytes, or None if their count and lengths do not end with them."""
    count, rest, columns = content[0], content[1:], []
    for _ in range(count):
        end = 3 + int.from_bytes(rest[1:3], "big")
        if len(rest) < max(end, 3):
            return None
        columns.append((rest[0], rest[3:end]))
        rest = rest[end:]
    return None if rest else tuple(columns)


# ---- Reading parts ----


class Part(NamedTuple):
    """A part's header, and its entries and end if it is complete."""

    number: int
    begin: int
    place: int
    parts: int
    entries: list = None
    end: int = None


def read_part(content):
    """Returns what the bytes of a part of any format are, or None if they have no header."""
    if content.startswith(PART):
        file = opened(content)
        if file is None:
            return None
        head = Part(*struct.unpack_from(">IQHH", file.text, 4))
        return entries_of(2, file.text, head) if file.state == WHOLE else head
    form = {b"MTC1": 1, b"MTC2": 2}.get(content[:4])
    if form is None or len(content) < 20:
        return None
    return entries_of(form, content, Part(*struct.unpack_from(">IQHH", content, 4)))


def entries_of(form, content, head):
    """Returns the part with its entries and end, or as it is if it is not complete."""
    _, longest, long_key, greatest, most = LIMITS[form]
    at, entries = 20, []
    while content[at : at + 4] != bytes(4):
        length = int.from_bytes(content[at : at + 4], "big")
        body = content[at + 4 : at + 4 + length]
        if not 14 <= length <= longest - 9 or content[at + 4 + length : at + 8 + length] != content[at : at + 4]:
            return head
        version, size = struct.unpack_from(">QH", body)
        key, rest = body[10 : 10 + size], body[10 + size :]
        columns = columns_of(rest) if rest else None
        numbers = [number for number, _ in columns or ()]
        is_rising = all(a < b for a, b in zip(numbers, numbers[1:])) and max(numbers, default=greatest + 1) <= greatest
        if version == 0 or size > long_key or not is_rising or len(numbers) > most:
            return head
        entries.append((version, key, columns))
        at += length + 8
    if len(content) != at + 16:
        return head
    end, count = struct.unpack_from(">QI", content, at + 4)
    return head._replace(entries=entries, end=end) if count == len(entries) else head
