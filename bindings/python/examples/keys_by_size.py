#!/usr/bin/env python3
"""The keys with the most bytes, values included: keys_by_size.py FOLDER COUNT."""

from __future__ import annotations

import heapq
import sys

import mtrecover


def size(pair: tuple[bytes, mtrecover.Columns]) -> int:
    key, columns = pair
    return len(key) + sum(map(len, columns.values()))


if __name__ == "__main__":
    with mtrecover.open(sys.argv[1]) as store:
        for pair in heapq.nlargest(int(sys.argv[2]), store.items(), key=size):
            print(size(pair), pair[0])
