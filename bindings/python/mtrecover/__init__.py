"""Reads a key-value store from its logs and checkpoints.

    import mtrecover

    with mtrecover.open("examples/store") as store:
        store[b"fig"]                  # {0: b"green", 1: b"ripe"}
        len(store), b"plum" in store   # (4, False)
        list(store[b"g":b"m"])         # [b"kiwi", b"lime"]
        store.report.cutoff            # 40

`open` recovers the folder's store, or raises its one `Fault`. A `Store` is a mapping of keys to their columns, in the order of
keys, byte by byte; slices of it, and `prefix`, are mappings too. All of it is in memory, and nothing changes the folder.

The store is the one that the rules define for exactly these bytes: the functions of libmtrecover.so.1 that this package calls
are proved. That it calls them as they ask for is tested. The library is looked for in the folder MTRECOVER_LIB, if that
is set, else where the system keeps libraries.

Threads: any thread may use a store and its ranges, by one call at a time, which a lock sees to. Each iterator belongs to one
thread. `open` starts threads, and ends them.

What became of each update of a key, and what is wrong with each file, the library does not tell. `mtrecover history --json` and
`mtrecover check --json` print them.
"""

from mtrecover._library import Version, version
from mtrecover._recovery import Fault, open
from mtrecover._store import Columns, Range, Report, Store

__all__ = ["Columns", "Fault", "Range", "Report", "Store", "Version", "open", "version"]
