"""Damages of one store: what is lost once an operator has done what docs/RUNBOOK.md says, beside the least that could be lost.

The operator knows the page, what programs print, and the names of the server's files, but no byte of them. The least is counted by
a model that knows each update, and looks for its bytes in what is left."""
import random
import re
import shutil
import struct
from functools import lru_cache
from typing import NamedTuple

from lib.blocks import header_of, length_at, read_part, sealed
from lib.counting import count
from damage import BEAT, PLAIN, WORKERS, make_store, store_of
from lib.formats import PUT, Update, columns_bytes, framed, header, mark, record
from page import AS_TEXT, BROKEN, FIRST, LATE, MOVE, NO_LOGS, TORN, WAYS, lines_of, name_of, shell
from lib.stores import dump, dump_lines, run
from lib.torture import files_of, lay

# Losing more than so many times the least needs a rule that forbids to lose less.
MOST = 1.2
# More steps than any folder takes.
MOST_STEPS = 8
# A commit: the server then marks its logs. The most marks that resume takes for a crash are then those of 400 updates.
COMMIT = 25


class Damage(NamedTuple):
    title: str
    change: object  # changes a folder's files, by their names
    ways: str = ""  # which lines of the page the operator then follows, in order
    rule: str = ""  # why more is lost than the least
    unseen: str = ""  # why nothing tells of a loss


# ---- The store ----


class Files(dict):
    """A folder's files, which damage changes."""

    def __init__(self, store, files):
        super().__init__(files)
        self.store = store

    def at(self, name, share):
        """Returns the record of a log that begins at this share of its bytes, or behind it."""
        log = self.store.log(name)
        return next(lying for lying in log.records if lying.begin >= len(log.content) * share and lying.update)

    def flip(self, name, at, bit):
        content = bytearray(self[name])
        content[at] ^= 1 << bit
        self[name] = bytes(content)

    def put(self, name, at, new):
        self[name] = self[name][:at] + new + self[name][at + len(new) :]


def make(rng):
    """Returns the files of a store after a crash, which cut off the last record of a log."""
    store = make_store(rng, COMMIT)
    torn = record(Update(store.log("w1-0.mtl").last() + 1, 1, PUT, b"torn", ((0, b"hello"),)))
    return Files(store, {**store.files(), "w1-0.mtl": store.log("w1-0.mtl").content + torn[:-7]})


# So many records are in a block.
IN_A_BLOCK = 10


def in_blocks(files):
    """Returns the files with their logs in format 4, under the names that keepers give them."""
    store, others = files.store, {name: content for name, content in files.items() if not name.endswith(".mtl")}
    logs = {}
    for log in store.logs:
        worker, segment = log.head.worker % PLAIN, log.head.segment
        begun = header(3, log.head.start, worker, segment)
        ends = [len(begun) + lying.end() - len(log.head.content()) for lying in log.records]
        text = begun + log.content[len(log.head.content()) :]
        cuts = [*ends[IN_A_BLOCK - 1 : -1 : IN_A_BLOCK], ends[-1]]
        logs[f"{worker}-{segment}.mtl"] = sealed(text, 1000 * worker + segment, len(WORKERS), cuts)
    return Files(store, {**logs, **others})


# ---- Damages ----


def flip(name, share, place, bit):
    """Flips a bit of the byte at this place of a record; of its trailer's, counted from its end."""

    def change(files):
        lying = files.at(name, share)
        files.flip(name, (lying.end() if place < 0 else lying.begin) + place, bit)

    return change


def flip_key(files):
    lying = files.at("w0-0.mtl", 0.5)
    files.flip("w0-0.mtl", lying.begin + lying.content.index(lying.update.key) + 5, 1)


def flip_head(name, at, bit):
    return lambda files: files.flip(name, at, bit)


def zeros(name, begin, number):
    return lambda files: files.put(name, begin, bytes(number))


def page_at(files, name, share):
    return int(len(files[name]) * share) // 4096 * 4096


def cut_at(name, share):
    def change(files):
        files[name] = files[name][: int(len(files[name]) * share)]

    return change


def older(name, share, to=None):
    """A file is as it was before, or a copy from then is beside it."""

    def change(files):
        files[to or name] = files[name][: files.at(name, share).begin]

    return change


def zero_tail(files):
    name = "w5-1.mtl"
    begin = page_at(files, name, 0.7)
    files.put(name, begin, bytes(len(files[name]) - begin))


def zero_page(files):
    files.put("w1-0.mtl", page_at(files, "w1-0.mtl", 0.4), bytes(4096))


def append(name, content):
    def change(files):
        files[name] += content

    return change


def without_a_byte(files):
    at = len(files["w1-0.mtl"]) * 9 // 20
    files["w1-0.mtl"] = files["w1-0.mtl"][:at] + files["w1-0.mtl"][at + 1 :]


def swap(a, b):
    def change(files):
        files[a], files[b] = files[b], files[a]

    return change


def gone(*names):
    def change(files):
        for name in names:
            del files[name]

    return change


def gone_all(files):
    gone(*[name for name in files if name.endswith(".mtl")])(files)


def copied(name, to):
    def change(files):
        files[to] = files[name]

    return change


def renamed(name, to):
    def change(files):
        files[to] = files.pop(name)

    return change


def emptied(files):
    files["w2-0.mtl"] = b""


def old_parts(files):
    """Parts of another checkpoint with the same number."""
    for name in [name for name in files if name.endswith(".mtc")]:
        begin = int.from_bytes(files[name][8:16], "big") - 9
        files["old-" + name] = files[name][:8] + begin.to_bytes(8, "big") + files[name][16:]


def as_text(files):
    files["w0-0.mtl"] = files["w0-0.mtl"].replace(b"\n", b"\r\n")


def other_store(updates, last):
    """A log of another store, whose clock ends here, with a mark after each commit."""
    step, content = last // updates, header(1, 0)
    for n in range(1, updates + 1):
        content += record(Update(step * n, n, PUT, b"other%06d" % n, ((0, b"other"),)))
        content += mark(step * n) if n % COMMIT == 0 else b""
    content += mark(last)
    return lambda files: files.update({"w9-0.mtl": content})


def longer_old(files):
    """Beside a segment is an old copy of it, with late updates that a start dropped."""
    older("w4-2.mtl", 0.9, "w4-2-old.mtl")(files)
    last = files.store.log("w4-2.mtl").last()
    dropped = (record(Update(last + n, last + n, PUT, b"dropped%04d" % n, ((0, bytes(200)),))) for n in range(1, 500))
    append("w4-2-old.mtl", b"".join(dropped))(files)


def ends_in_zeros(files):
    """The last record of a log is damaged, and its last byte is zero, but no power cut left that."""
    last = files.store.log("w0-0.mtl").last() + 1
    update = Update(last, last, PUT, b"k", ((0, bytes(256 - 24)),))
    append("w0-0.mtl", record(update)[:-2] + b"\5\0")(files)


def three_at_once(files):
    for name, share in ("w0-0.mtl", 0.3), ("w2-0.mtl", 0.5), ("w5-0.mtl", 0.8):
        files.put(name, files.at(name, share).begin, bytes(100))


def repeated_page(files):
    """A page stands in another one's place. Returns the place where it should be alone, and the page that is gone."""
    name = "w1-0.mtl"
    a, b = page_at(files, name, 0.3), page_at(files, name, 0.6)
    page, lost = files[name][a : a + 4096], files[name][b : b + 4096]
    files.put(name, b, page)
    return a, lost


def swapped_pages(files):
    files.put("w1-0.mtl", *repeated_page(files))


def entry(key, version, columns):
    return framed(struct.pack(">QH", version, len(key)) + key + columns_bytes(columns))


def flip_entry(name, truth):
    """Flips a bit of the length of an entry that the store has as it is: of the first one past the middle that does not go on in
    the next block."""

    def change(files):
        of_keys = sorted((key, of_key) for key, of_key in truth.entries.items() if truth.store.get(key) == of_key[1])
        places = [files[name].find(entry(key, *of_key)) for key, of_key in of_keys[len(of_keys) // 2 :]]
        files.flip(name, next(place for place in places if place >= 0) + 3, 3)

    return change


# Why more is lost than the least, or nothing tells of it.
VALUE, MISSING = "formats 1 to 3 have no checksum", "a missing log is not missed"
BLOCK, ORDER = "a block counts as a whole", "timestamps of a log never fall"

DAMAGES = [
    Damage("a bit of a length", flip("w0-0.mtl", 0.4, 3, 3), "record"),
    Damage("a length past the end", flip("w2-0.mtl", 0.9, 1, 5), "1 log torn"),
    Damage("a bit of a trailer", flip("w2-0.mtl", 0.6, -1, 0), "record"),
    Damage("a bit of a key", flip_key, rule=VALUE, unseen=VALUE),
    Damage("a high bit of a timestamp", flip("w0-0.mtl", 0.5, 5, 4), "record"),
    Damage("a low bit of a timestamp", flip("w0-0.mtl", 0.5, 11, 3), "record"),
    Damage("a high bit of a version", flip("w0-0.mtl", 0.5, 13, 7), unseen=VALUE),
    Damage("a bit of the last mark", lambda files: files.flip("w0-0.mtl", len(files["w0-0.mtl"]) - 12, 4)),
    Damage("header lost", zeros("w2-0.mtl", 0, 512), "header"),
    Damage("header of a segment lost", zeros("w4-1.mtl", 0, 4096), "header"),
    Damage("half of a middle segment", cut_at("w4-1.mtl", 0.5), "torn"),
    Damage("a log cut at 70 %", cut_at("w2-0.mtl", 0.7), "late"),
    Damage("a tail of zeros", zero_tail, "zeros, late"),
    Damage("a page of zeros", zero_page, "record"),
    Damage("zeros behind the end", append("w0-0.mtl", bytes(4096)), "zeros"),
    Damage("a byte gone", without_a_byte, "record"),
    Damage("segments swapped", swap("w4-1.mtl", "w4-2.mtl")),
    Damage("logs swapped", swap("w0-0.mtl", "w2-0.mtl")),
    Damage("a log gone", gone("w2-0.mtl"), unseen=MISSING),
    Damage("the first segment gone", gone("w5-0.mtl"), "gap"),
    Damage("a middle segment gone", gone("w4-1.mtl"), "gap"),
    Damage("the last segment gone", gone("w4-2.mtl"), "late"),
    Damage("a log twice", copied("w0-0.mtl", "w0-0-copy.mtl")),
    Damage("an old copy beside a log", older("w0-0.mtl", 0.5, "w0-0-old.mtl"), "not ours"),
    Damage("a segment twice", copied("w4-1.mtl", "w4-1-copy.mtl"), "doubled"),
    Damage("an old copy of a segment", older("w4-1.mtl", 0.5, "w4-1-old.mtl"), "doubled"),
    Damage("a longer old copy of a segment", longer_old, "doubled"),
    Damage("a trailer that ends in zeros", ends_in_zeros, "record"),
    Damage("a folder named as a log", lambda files: files.update({"x.mtl": None}), "a folder"),
    Damage("a folder named as a part", lambda files: files.update({"x.mtc": None}), "a folder"),
    Damage("all logs gone", gone_all, NO_LOGS),
    Damage("an empty log", emptied, "header"),
    Damage("two checkpoints of one number", old_parts),
    Damage("a part gone", gone("c3-1.mtc")),
    Damage("a part cut", cut_at("c3-1.mtc", 0.5)),
    Damage("copied as text", as_text, "as text"),
    Damage("another store's log", other_store(2000, 80_000), "not ours"),
    Damage("a stray log with an old clock", other_store(1, 100), "not ours"),
    Damage("an older log", older("w1-0.mtl", 0.7), "late"),
    Damage("a copy that did not end", renamed("w5-1.mtl", ".w5-1.mtl.Ab3dEf"), "ignored"),
    Damage("a bit of a segment's worker", flip_head("w4-1.mtl", 15, 3), "gap, late"),
    Damage("a bit of a last segment's number", flip_head("w4-2.mtl", 19, 5), "gap"),
    Damage("a bit of a last segment's worker", flip_head("w5-1.mtl", 15, 1), "gap"),
    Damage("a bit of a first segment's worker", flip_head("w5-0.mtl", 15, 3), "gap"),
    Damage("a bit of `from`", flip_head("w4-2.mtl", 7, 6)),
    Damage("format 1 reads as 3", flip_head("w0-0.mtl", 3, 1), "record"),
    Damage("format 2 reads as 0", flip_head("w2-0.mtl", 3, 1), "header"),
    Damage("garbage behind the end", append("w5-1.mtl", random.Random(1).randbytes(5000)), "record"),
    Damage("three logs damaged", three_at_once, "record, record, record"),
    Damage("two pages swapped", swapped_pages, "record", rule=ORDER),
    Damage("a page in another's place", repeated_page, "record"),
]


# Of logs in format 4.
IN_BLOCKS = [
    Damage("format 4: a bit of the magic", flip_head("4-1.mtl", 3, 0), "header"),
    Damage("a bit of the salt", flip_head("4-1.mtl", 6, 3), "header"),
    Damage("a bit of the worker", flip_head("4-1.mtl", 19, 1), "header"),
    Damage("a bit of a last segment's number", flip_head("4-2.mtl", 27, 4), "header"),
    Damage("a bit of a first segment's workers", flip_head("0-0.mtl", 31, 2), "header"),
    Damage("a bit of `from`", flip_head("5-1.mtl", 38, 5), "header"),
    Damage("a bit of the mark", flip_head("5-0.mtl", 41, 6), "header"),
    Damage("`from` and workers lost", zeros("4-1.mtl", 28, 12), "header"),
    Damage("header of a segment lost", zeros("4-1.mtl", 0, 512), "header", rule=BLOCK),
    Damage("header of a last segment lost", zeros("4-2.mtl", 0, 512), "header", rule=BLOCK),
    Damage("a middle segment gone", gone("4-1.mtl"), "gap"),
    Damage("a worker's logs gone", gone("2-0.mtl")),
]


# ---- The least loss ----


def text_of(content):
    """Returns what is in the blocks of a file, whatever their checksums say of it."""
    found = header_of(content)
    if not found:
        return content
    at, text = found[0], b""
    mark = content[at - 4 : at]
    while (length := length_at(mark, content, at)) is not None:
        text += content[at + 12 : at + 12 + length]
        at += length + 16
    return text


def differing(a, b):
    """Returns the keys that two stores do not have alike."""
    return {key for key in a.keys() | b.keys() if a.get(key) != b.get(key)}


class Truth:
    """What a whole store has: updates, and of each key that the checkpoint has a version and columns."""

    def __init__(self, updates, begin, entries):
        self.begin, self.entries = begin, entries
        self.store = store_of([update for update in updates if update.timestamp >= begin], entries)
        self.lines = by_key(dump_lines(self.store))
        self.known = {record(update): update for update in updates}
        self.known.update({entry(key, *of_key): key for key, of_key in entries.items()})
        self.longest = max(map(len, self.known))
        self.left_in = lru_cache(None)(self.read)

    def read(self, content):
        """Returns the updates, and the keys of entries, whose bytes are in these, wherever they lie, as they are or as text."""
        text, left, at = text_of(content), set(), 0
        while at < len(text):
            end = at + 8 + int.from_bytes(text[at : at + 4], "big")
            what = self.known.get(text[at:end]) if end <= at + self.longest else None
            at = at + 1 if what is None else end
            if what is not None:
                left.add(what)
        return left | (self.read(text.replace(b"\r\n", b"\n")) if b"\r\n" in text else set())

    def least(self, files):
        """Returns how many keys are lost even if all counts that is left in these files, from the checkpoint's begin on or, if an
        entry is lost, with all before it."""
        left = set().union(*(self.left_in(content) for content in files.values() if content))
        entries = {key: of_key for key, of_key in self.entries.items() if key in left}
        updates = [what for what in left if isinstance(what, Update)]
        begins = {self.begin, 0 if len(entries) < len(self.entries) else self.begin}
        choices = [[update for update in updates if update.timestamp >= begin] for begin in begins]
        return min(len(differing(self.store, store_of(choice, entries))) for choice in choices)

    def lost(self, dumped):
        """Returns how many keys a dump does not have alike."""
        return len(differing(self.lines, by_key(dumped)))


def by_key(dumped):
    return {line.split(b":")[0]: line for line in dumped.splitlines()}


# ---- The operator ----


def looks_at(folder):
    """Returns of each file which one it is, and when it was written."""
    return {path.name: (path.stat().st_ino, path.stat().st_mtime_ns) for path in folder.iterdir()}


def most(ways):
    """Returns the first of these ways with the most survivors."""
    return max(ways, key=lambda way: int(way.get("survivors", -1)))


def is_zeros(log):
    """Whether most of what follows the records of a log are zeros, and no record does."""
    return "next" not in log and int(log["zeros"]) * 2 > int(log["left"])


def records_of(path):
    """Returns the records of a log, without their numbers and places."""
    return {line.split(b" # ")[0] for line in run("records", path)[1].splitlines()}


class Step(NamedTuple):
    way: str
    command: str
    names: list  # each F of the command


class Operator:
    """Does what the page says with the folder DIR of a server whose files have these names, until it has no more to say."""

    def __init__(self, files, names, work):
        self.names, self.work, self.dir = names, work, work / "DIR"
        lay(self.dir, {name: content for name, content in files.items() if content is not None})
        for name in files.keys() - files_of(self.dir).keys():
            (self.dir / name).mkdir()
        shutil.rmtree(work / "AWAY", ignore_errors=True)
        shutil.rmtree(work / "BACKUP", ignore_errors=True)
        shell(work, FIRST)

    def follow(self):
        """Returns the ways. Each command is given twice, and must leave the same. A cut of a file that was repaired reads that."""
        ways, touched = [], set()
        for _ in range(MOST_STEPS):
            step = self.next_step()
            if not step:
                break
            ways.append(step.way)
            for name in step.names:
                command = step.command.replace("/F", f"/{name}")
                command = command.replace("BACKUP/", "DIR/") if name in touched and "mtrecover cut" in command else command
                ended = shell(self.work, command)
                count(f"{command}: {ended}", ended[0] == 0)
                if "mv -n " not in command:
                    once, looks = files_of(self.dir), looks_at(self.dir)
                    again = shell(self.work, command)[0]
                    count(f"{command}, again", again == (3 if step.way == NO_LOGS else 0) and files_of(self.dir) == once)
                    if command.startswith("mtrecover cut"):
                        count(f"{command}, again: each file stays", looks_at(self.dir) == looks)
                touched.add(name)
        return ways

    def next_step(self):
        status, printed, said = run("check", self.dir, "--verbose")
        said = said.decode()
        logs, ways = lines_of(printed, "log"), lines_of(printed, "way")
        ignored = re.search(r"(?m)^mtrecover: \d+ names? ignored, as (\S+): ", said)
        if ignored:
            (name,) = [name for name in self.names if name in ignored[1]]
            return Step("ignored", f"mv -n DIR/{ignored[1]} DIR/F", [name])
        if "mtrecover: no logs\n" in said:
            return Step(NO_LOGS, WAYS[NO_LOGS][0], [""])
        fault = re.search(r"(?m)^mtrecover: ((log|part) (\d+): .*)$", said)
        if fault:
            return self.step_of_fault(fault[1], lines_of(printed, fault[2])[int(fault[3])], logs, ways, said)
        for log in logs:
            if log["state"] == "torn" and "next" in log:
                return Step(TORN, WAYS[TORN][0], [log["file"]])
        ends = [way for way in ways if way["way"] == "end"]
        refused = run("resume", self.dir, "--dry-run")[2].decode()
        if " marks at or past the cutoff; " in refused:
            strangers = [log["file"] for log in logs if log["file"] not in self.names]
            if strangers:
                return Step("not ours", MOVE, strangers)
            names = [logs[int(number)]["file"] for number in ends[0]["logs"].split(",")]
            return Step("late", WAYS[LATE][-1].replace(" T ", f" {ends[0]['end']} "), names)
        return None

    def step_of_fault(self, fault, log, logs, ways, said):
        name, what = log["file"], name_of(fault)
        broken = re.search(r"(?m)^hint: (\S+): it is broken: ", said)
        if f"hint: {name}: each line feed" in said:
            return Step("as text", WAYS[AS_TEXT][0], [name])
        if fault.endswith(("length", "trailer")) and is_zeros(log):
            return Step("zeros", WAYS["zeros"][0], [name])
        if what in ("record", "checksum"):
            skip = most([way for way in ways[::-1] if way["way"] in ("skip", "cut")])["way"] == "skip"
            return Step("record", WAYS[what][0] if skip else WAYS[what][0].replace(" --skip", ""), [name])
        stray = re.search(r"(?m)^hint: (\S+): without it checkpoint ", said)
        if what == "gap" and stray and stray[1] not in self.names:
            return Step("not ours", MOVE, [stray[1]])
        if what == "gap" and broken:
            return Step("broken", WAYS[BROKEN][0], [broken[1]])
        if what in ("header", "gap"):
            way = most([way for way in ways if way["way"] == "header"])
            end = f" --end {way['end']}" if "end" in way else ""
            return Step(what, WAYS["header"][0].replace(" H ", f" {way['header']}{end} "), [name])
        if what == "doubled":
            both = [one for one in logs if [one.get(of) for of in ("worker", "segment")] == [log["worker"], log["segment"]]]
            return Step("doubled", MOVE, [self.surplus([one["file"] for one in both])])
        if log.get("reason") == "is":
            return Step("a folder", MOVE, [name])
        return Step(what, WAYS[what][0], [name])

    def surplus(self, both):
        """Returns which of two files is moved away: the one all of whose records the other one has, and more; otherwise the one
        that has none of the server's names."""
        has = {name: records_of(self.dir / name) for name in both}
        strangers = [name for name in both if name not in self.names]
        less = [name for name in both if all(has[name] < has[other] for other in both if other != name)]
        return (less or strangers)[0]


# ---- Trying ----


def try_loss(damage, truth, files, names, work):
    """Damages the files, follows the page, and resumes. Returns the fields of a line."""
    damaged = Files(files.store, files)
    damage.change(damaged)
    least = truth.least(damaged)
    operator = Operator(damaged, names, work)
    in_haste(damage, truth, damaged, work)
    said = run("report", operator.dir, "--strict")[2].decode().splitlines()[0].removeprefix("mtrecover: ")
    ways = operator.follow()
    lost = truth.lost(dump(operator.dir)[1])
    is_told = go_on(damage, truth, operator.dir, lost)
    count(f"{damage.title}: the ways: {ways}", ", ".join(ways) == damage.ways)
    count(f"{damage.title}: {lost} lost, {least} at the least", lost <= MOST * least or damage.rule)
    count(f"{damage.title}: told", is_told or not lost or damage.unseen)
    return damage.title, said, damage.ways, least, lost, "told" if is_told else "", damage.rule or damage.unseen


def resume(folder, *words):
    """Resumes. Whatever it refuses, it must change nothing. Returns its status."""
    before = files_of(folder)
    status = run("resume", folder, *words)[0]
    count(f"resume {words}: nothing is changed", status == 0 or files_of(folder) == before)
    return status


def in_haste(damage, truth, files, work):
    """Resumes at once. What that loses must be told before or after it."""
    folder = lay(work / "HASTE", {name: content for name, content in files.items() if content is not None})
    status = resume(folder)
    count(f"{damage.title}: refused in haste", status != 0 or "late" not in damage.ways)
    if status == 0:
        is_told = run("report", folder, "--strict")[0]
        count(f"{damage.title}: in haste", is_told or not truth.lost(dump(folder)[1]) or damage.unseen)


def go_on(damage, truth, folder, lost):
    """Resumes, and accepts what was lost. Returns whether that is told then."""
    if resume(folder) == 5:
        count(f"{damage.title}: accepted", resume(folder, "--accept-loss") == 0)
    count(f"{damage.title}: the store stays", truth.lost(dump(folder)[1]) == lost)
    return run("report", folder, "--strict")[0] == 4


def try_saving(files, work):
    """Saves what can be read of a file, and takes it, as the page says. Once saved it stays, whatever is in the folder then."""
    folder, name = lay(work / "DIR", files), "w1-0.mtl"
    lay(work / "BACKUP", {})
    save = WAYS["source failed"][0].replace("/F", f"/{name}")
    for bad in files[name], b"repaired":
        (folder / name).write_bytes(bad)
        count(save, shell(work, save)[0] == 0 and files_of(work / "BACKUP") == {f"{name}.dd": files[name]})
    take = next(code for code in WAYS["source failed"] if code.startswith("cp ")).replace("/F", f"/{name}")
    for _ in range(2):
        count(take, shell(work, take)[0] == 0 and files_of(folder) == dict(files))


def updates_of(store):
    return [update for log in store.logs for update in log.updates()]


def try_losses(work):
    form = "{:34}{:38.36}{:24}{:>6}{:>6}  {:5} {}"
    print(form.format("damage", "it says", "the page's ways", "least", "lost", "", "").rstrip())

    def try_each(damages, truth, files):
        for damage in damages:
            print(form.format(*try_loss(damage, truth, files, files.keys(), work)).rstrip(), flush=True)

    files = make(random.Random(0))
    store, checkpoint = files.store, files.store.checkpoint
    try_each(DAMAGES, Truth(updates_of(store), checkpoint.begin, checkpoint.entries), files)
    try_each(IN_BLOCKS, Truth(updates_of(store), checkpoint.begin, checkpoint.entries), in_blocks(files))
    # Parts that old logs were deleted for, and that of a fresh start, in format 4.
    pruned = Files(store.pruned(), store.pruned().files())
    try_saving(pruned, work)
    truth = Truth(updates_of(pruned.store), checkpoint.begin, checkpoint.entries)
    of_parts = [
        Damage("a bit of a length in a part", flip_entry("c3-1.mtc", truth), "broken"),
        Damage("a line feed behind a part", append("c3-1.mtc", b"\n"), "broken"),
        Damage("a stray log with an old clock", other_store(1, 100), "not ours"),
    ]
    try_each(of_parts, truth, pruned)
    shutil.rmtree(work / "OUT", ignore_errors=True)
    count("a fresh start", run("checkpoint", lay(work / "DIR", files), work / "OUT")[0] == 0)
    fresh = Files(None, files_of(work / "OUT"))
    truth = Truth([], 0, {key: (version, columns) for version, key, columns in read_part(fresh["1-0.mtc"]).entries})
    try_each([Damage("the same in format 4", flip_entry("1-0.mtc", truth), "broken", rule=BLOCK)], truth, fresh)
