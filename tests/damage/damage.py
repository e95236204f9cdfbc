"""Stores to damage: their files, each update and where it lies, what damage leaves of a log, and what recovery must find in that.
This is a model of its own of docs/RULES.md and docs/FORMATS.md."""
from bisect import bisect_right
from typing import NamedTuple

from lib.formats import ERASE, PUT, REMOVE, Update, header, mark, part, record
from lib.stores import columns_after, dump_lines, share

# How many updates a store has, those at which its checkpoint begins and ends, and that at which the last worker is added.
UPDATES = 20_000
BEGINS, ENDS, ADDED = UPDATES * 15 // 100, UPDATES * 25 // 100, UPDATES // 2
# Each worker's format, and the updates at which its next segment begins.
WORKERS = [(1, []), (1, []), (2, []), (2, []), (3, [UPDATES // 10, UPDATES * 6 // 10]), (3, [UPDATES // 2]), (3, []), (2, [])]
# The workers of logs that are no segments have numbers from here on.
PLAIN = 100
# After so many updates each log gets a mark.
BEAT = 400
# The checkpoint's number, and the number of its parts.
NUMBER, PARTS = 3, 3
# By docs/FORMATS.md: the least L of a record, and the greatest of each format.
LEAST, GREATEST = 9, {1: 1_049_652, 2: 4_198_548, 3: 4_198_548}
# So many records in a row are records, whatever follows them.
ENOUGH = 8


class Head(NamedTuple):
    """A log's header. A log that is no segment has a worker here too, past those of segments, and a segment."""

    form: int
    start: int
    worker: int
    segment: int = 0

    def content(self):
        return header(*self)


class Lying(NamedTuple):
    """A record, and where it lies. A mark has no update."""

    timestamp: int
    update: object
    content: bytes
    begin: int = 0

    def end(self):
        return self.begin + len(self.content)


def new_record(timestamp, update=None):
    return Lying(timestamp, update, record(update) if update else mark(timestamp))


class Log(NamedTuple):
    name: str
    head: Head
    records: list
    content: bytes

    def updates(self):
        return [lying.update for lying in self.records if lying.update]

    def versions(self):
        return versions_of(self.records)

    def last(self):
        return max(self.head.start, self.records[-1].timestamp if self.records else 0)

    def of(self, records, **head):
        """Returns a log of these records, with what is given in the header."""
        return log_of(self.name, self.head._replace(**head), records)

    def below(self, timestamp, **head):
        return self.of([lying for lying in self.records if lying.timestamp < timestamp], **head)

    def and_then(self, timestamp, update=None):
        """Returns the log with one more record: this update, or a mark."""
        return self.of([*self.records, new_record(timestamp, update)])

    def is_before(self, other):
        """Whether this is an earlier segment of the other's worker."""
        return self.head.worker == other.head.worker and self.head.segment < other.head.segment


def versions_of(records):
    return {lying.update.version for lying in records if lying.update}


def log_of(name, head, records):
    lying, at = [], len(head.content())
    for one in records:
        lying.append(one._replace(begin=at))
        at += len(one.content)
    return Log(name, head, lying, head.content() + b"".join(one.content for one in records))


class Checkpoint(NamedTuple):
    begin: int
    end: int
    entries: dict  # of each key a version and columns
    files: dict


class Store(NamedTuple):
    logs: list  # in the order of their names
    checkpoint: Checkpoint

    def files(self):
        return {**{log.name: log.content for log in self.logs}, **self.checkpoint.files}

    def log(self, name):
        return next(log for log in self.logs if log.name == name)

    def without(self, name):
        return self._replace(logs=[log for log in self.logs if log.name != name])

    def having(self, *logs):
        """Returns the store with these logs, in place of those of their names if there are some."""
        names = [log.name for log in logs]
        others = [log for log in self.logs if log.name not in names]
        return self._replace(logs=sorted([*others, *logs], key=lambda log: log.name))

    def versions(self):
        return {version for log in self.logs for version in log.versions()}

    def pruned(self):
        """Returns the store without logs that the checkpoint makes useless: a first segment, and a log that is now a new one."""
        old, begin = self.log("w0-0.mtl"), self.checkpoint.begin
        new = old.of([lying for lying in old.records if lying.timestamp >= begin], start=begin)
        return self.without("w4-0.mtl").having(new)


# ---- A store that is written ----


def random_update(rng, form, timestamp, version):
    kind = rng.choices([PUT, REMOVE, ERASE], [16, 1, 2 if form > 1 else 0])[0]
    numbers = sorted(rng.sample(range(4), rng.randint(1, 2))) if kind != REMOVE else ()
    if kind == PUT:
        numbers = [(number, bytes(rng.randrange(256) for _ in range(rng.choice([0, 1, 8, 8, 24, 200])))) for number in numbers]
    return Update(timestamp, version, kind, b"key%04d" % rng.randrange(5000), tuple(numbers))


def make_store(rng, beat=BEAT):
    """Writes a store by docs/DURABILITY.md, with a mark in each log after so many updates. These have the versions from 1 to UPDATES."""
    clock, history, workers = 1, [], {}
    for done in range(UPDATES):
        if done == BEGINS:
            begin = clock = clock + 1
        if done == ENDS:
            end = clock
        for worker, (form, follow) in enumerate(WORKERS):
            files = workers.setdefault(worker, [])
            if done in follow or done == (ADDED if worker == len(WORKERS) - 1 else 0):
                clock += 1
                if files:
                    files[-1][1].append(new_record(clock))
                files.append((Head(form, clock if files else 0, worker + PLAIN * (form < 3), len(files)), [new_record(clock)]))
        if done % beat == beat - 1:
            clock = mark_all(workers, clock)
        clock += rng.choice([0, 1, 1, 2])
        head, records = rng.choice([files for files in workers.values() if files])[-1]
        history.append(random_update(rng, head.form, clock, done + 1))
        records.append(new_record(clock, history[-1]))
    mark_all(workers, clock)
    logs = [log_of(f"w{head.worker % PLAIN}-{head.segment}.mtl", head, records) for files in workers.values() for head, records in files]
    return Store(logs, make_checkpoint(history, begin, end))


def mark_all(workers, clock):
    """Appends a mark past all updates to each worker's last file, and returns its timestamp."""
    for files in workers.values():
        if files:
            files[-1][1].append(new_record(clock + 1))
    return clock + 1


def make_checkpoint(history, begin, end):
    """Reads the keys one after the other, while updates go on."""
    of_keys = {}
    for update in history[:ENDS]:
        of_keys.setdefault(update.key, []).append(update)
    entries = {}
    for nth, key in enumerate(sorted(of_keys)):
        done = BEGINS + (ENDS - BEGINS) * nth // len(of_keys)
        read = [update for update in of_keys[key] if update.version <= done]
        columns = columns_after(read)
        if columns:
            entries[key] = read[-1].version, columns
    lines = [(version, key, columns) for key, (version, columns) in entries.items()]
    files = {
        f"c{NUMBER}-{place}.mtc": part(1 + place % 2, NUMBER, begin, place, PARTS, share(lines, place, PARTS), end)
        for place in range(PARTS)
    }
    return Checkpoint(begin, end, entries, files)


# ---- What damage leaves of a log ----


class Left(NamedTuple):
    """What is left of a log. Records that are intact have the places where they lie now."""

    log: Log
    content: bytes
    has_head: bool
    front: list  # those directly behind the header
    later: list  # those that go on after damage
    touched: set  # the versions of updates that are not kept: a byte changed or went, or they lie out of order
    state: str  # as `check` has it

    def end(self):
        return self.front[-1].end() if self.front else len(self.log.head.content()) * self.has_head

    def kept(self):
        """Returns as many of these as possible whose timestamps never fall."""
        return longest_chain(self.front + self.later)

    def cut(self):
        return self.log.of(self.front)

    def skipped(self):
        return self.log.of(self.kept())

    def spans(self):
        """Returns what a cut skips: from, to, and how many records are kept before it."""
        spans, at = [], len(self.log.head.content()) * self.has_head
        for count, lying in enumerate(self.kept()):
            if lying.begin > at:
                spans.append((at, lying.begin, count))
            at = lying.end()
        return spans + [(at, len(self.content), len(self.kept()))] * (at < len(self.content))

    def is_faulty(self):
        """Whether a record is damaged."""
        return self.state not in ("header", "torn", "whole")

    def seems_torn(self):
        """Whether it looks torn, but records follow."""
        return self.state == "torn" and bool(self.later)


def left_of(log, content, place=lambda at: at, has_head=None):
    """Returns what is left of a log if these are now its bytes, and what lay at a place now lies at another one, or nowhere."""
    head = log.head.content()
    has_head = content.startswith(head) if has_head is None else has_head
    runs, intact, end = [], set(), None
    places = [(at, lying) for lying in log.records if (at := place(lying.begin)) is not None]
    for at, lying in sorted(places, key=lambda one: one[0]):
        if not content.startswith(lying.content, at):
            continue
        if at != end:
            runs.append([])
        runs[-1].append(lying._replace(begin=at))
        end = runs[-1][-1].end()
        intact |= {lying.update.version} if lying.update else set()
    front = runs.pop(0) if has_head and runs and runs[0][0].begin == len(head) else []
    later = [lying for run in runs if goes_on(log, content, run) for lying in run]
    left = Left(log, content, has_head, front, later, log.versions() - intact, "header")
    moved = versions_of(front + later) - versions_of(left.kept())
    left = left._replace(touched=left.touched | moved)
    return left._replace(state=state_of(log.head.form, content[left.end() :])) if has_head else left


def longest_chain(records):
    """Returns as many of these records as possible, in order, whose timestamps never fall: of equally many those that the programs
    choose."""
    ends, places, before = [], [], []
    for place, lying in enumerate(records):
        rank = bisect_right(ends, lying.timestamp)
        before.append(places[rank - 1] if rank else None)
        ends[rank : rank + 1], places[rank : rank + 1] = [lying.timestamp], [place]
    chain, place = [], places[-1] if places else None
    while place is not None:
        chain.append(records[place])
        place = before[place]
    return chain[::-1]


def goes_on(log, content, run):
    """Whether so many records are intact that they count, or they end the log, but for a torn tail."""
    return len(run) >= ENOUGH or state_of(log.head.form, content[run[-1].end() :]) in ("whole", "torn")


def state_of(form, rest):
    """Returns what follows complete records: nothing, a torn tail, or a record whose length or trailer is wrong."""
    length = int.from_bytes(rest[:4], "big")
    if not rest:
        return "whole"
    if len(rest) < 4:
        return "torn"
    if not LEAST <= length <= GREATEST[form]:
        return "length"
    if len(rest) < length + 8:
        return "torn"
    return "trailer" if rest[length + 4 : length + 8] != rest[:4] else "another fault"


# ---- What recovery must find ----


class Found(NamedTuple):
    """What recovery finds where there is no fault."""

    report: dict
    caveats: str
    holes: dict  # the last timestamp before a hole, by the name of the file after it
    surviving: list
    entries: dict

    def dump(self, *more):
        """Returns what `dump` prints, if these updates count too."""
        return dump_lines(store_of([*self.surviving, *more], self.entries))

    def counted(self):
        """Returns the versions of the updates that survive, or that the checkpoint has."""
        return {update.version for update in self.surviving} | stood_for(self.entries)

    def cutoff(self):
        return self.report["cutoff"]


def stood_for(entries):
    """Returns the versions of the updates from before the checkpoint's begin, if it is chosen."""
    return set(range(1, BEGINS + 1)) if entries else set()


def answer_of(store, lefts, bad_parts):
    """Returns the fault that recovery must name, or None, and what it finds. Of some logs only this is left, and parts are bad,
    with these states."""
    states = {left.log.name: left.state for left in lefts}
    now = store.having(*(left.cut() for left in lefts))
    chosen = now.checkpoint if not bad_parts and now.checkpoint.end < min(lasts_of(now.logs)) else None
    begin = chosen.begin if chosen else 0
    faults = [[], [], []]
    for position, log in enumerate(now.logs):
        state = states.get(log.name, "whole")
        if state == "header":
            faults[0].append(f"log {position}: header")
        elif state not in ("whole", "torn"):
            faults[0].append(f"log {position}: record {len(log.records)}: {state}")
        if state == "torn" and any(log.is_before(other) for other in now.logs):
            faults[1].append(f"log {position}: torn")
        earlier = [other.head.segment for other in now.logs if other.is_before(log)]
        if log.head.segment - 1 not in earlier if earlier else log.head.start > begin:
            faults[2].append(f"log {position}: gap")
    first = [fault for some in faults for fault in some][:1]
    torn = list(states.values()).count("torn")
    return (first[0], None) if first else (None, found_in(now, chosen, torn, bad_parts))


def heads_for(logs, log, is_headless):
    """Returns the headers that `check` tries for the one of these logs that has lost its own, or has a gap before it."""
    others = [other for other in logs if other.head.form == 3 and other.name != log.name]
    places = {other.head[2:] for other in others}
    if is_headless:
        return [*heads_beside(others, places), Head(3, 0, min(set(range(PLAIN)) - {worker for worker, _ in places}), 0)]
    start, worker, segment = log.head[1:]
    earlier = [number + 1 for other, number in places if other == worker and number < segment]
    head = log.head._replace(segment=max(earlier)) if earlier else log.head._replace(start=0)
    before = [other for other in others if other.head.segment + 1 == segment and other.head.worker != worker]
    return [head, *(log.head._replace(worker=other.head.worker) for other in before if other.last() == start)]


def heads_beside(logs, places):
    """Returns the headers of segments that are missing directly behind or before one of these logs, but behind a missing one."""
    heads = []
    for log in logs:
        worker, segment = log.head[2:]
        if (worker, segment + 1) not in places:
            heads.append(Head(3, log.last(), worker, segment + 1))
        if segment and not places & {(worker, segment - 1), (worker, segment - 2)}:
            heads.append(Head(3, 0, worker, segment - 1))
    return heads


def lasts_of(logs):
    """Returns the last timestamp of each file's worker."""
    return [max(other.last() for other in logs if other.head.worker == log.head.worker) for log in logs]


def found_in(store, chosen, torn, bad_parts):
    cutoff, begin, entries = min(lasts_of(store.logs)), 0, {}
    if chosen:
        begin, entries = chosen.begin, chosen.entries
    records = sum(len(log.records) for log in store.logs)
    updates = [update for log in store.logs for update in log.updates()]
    surviving = [update for update in updates if begin <= update.timestamp < cutoff]
    late = sum(update.timestamp >= cutoff for update in updates)
    nameless = [place for place, name in enumerate(sorted(store.checkpoint.files)) if bad_parts.get(name) == "nameless"]
    report = {
        "logs": len(store.logs),
        "writers": len({log.head.worker for log in store.logs}),
        "records": records,
        "marks": records - len(updates),
        "torn": torn,
        "cutoff": cutoff,
        "checkpoint": NUMBER if chosen else "none",
        "begin": begin,
        "skipped": NUMBER if bad_parts else "none",
        "nameless": ",".join(map(str, nameless)) or "none",
        "entries": len(entries),
        "survivors": len(surviving) + len(entries),
        "early": len(updates) - len(surviving) - late,
        "late": late,
        "keys": len(store_of(surviving, entries)),
    }
    holes = holes_in(store.logs, begin, cutoff)
    caveats = [
        plural(torn, "log torn", "logs torn"),
        plural(len(holes), "hole between segments", "holes between segments"),
        plural(late, "update late", "updates late"),
        plural(bool(bad_parts), "checkpoint skipped", "checkpoints skipped"),
        plural(len(nameless), "part nameless", "parts nameless"),
    ]
    return Found(report, ", ".join(filter(None, caveats)), holes, surviving, entries)


def plural(number, one, many):
    return f"{number:d} {one if number == 1 else many}" if number else ""


def holes_in(logs, begin, cutoff):
    lasts = {log.head[2:]: log.last() for log in logs}
    holes = {}
    for log in logs:
        last = lasts.get((log.head.worker, log.head.segment - 1), cutoff)
        if last < min(cutoff, log.head.start) and log.head.start > begin:
            holes[log.name] = last
    return holes


def store_of(updates, entries):
    """Returns the columns of each key that has one. An entry resets its key, and no two updates of a key share a version."""
    changes = {key: [Update(0, version, PUT, key, columns)] for key, (version, columns) in entries.items()}
    for update in sorted(updates, key=lambda update: update.version):
        if update.version > entries.get(update.key, (0,))[0]:
            changes.setdefault(update.key, []).append(update)
    columns = {key: columns_after(of_key) for key, of_key in changes.items()}
    return {key: of_key for key, of_key in columns.items() if of_key}
