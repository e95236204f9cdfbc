#!/usr/bin/env python3
"""What changed between two backups: what_changed.py OLD NEW. Each line has a key, and the columns that it had and has."""

from __future__ import annotations

import heapq
import sys
from itertools import groupby

import mtrecover


def changes(old: mtrecover.Store, new: mtrecover.Store) -> None:
    for key, _ in groupby(heapq.merge(old, new)):
        was, now = old.get(key), new.get(key)
        if was != now:
            print(key, was, "->", now)


if __name__ == "__main__":
    with mtrecover.open(sys.argv[1]) as old, mtrecover.open(sys.argv[2]) as new:
        changes(old, new)
