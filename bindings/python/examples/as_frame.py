#!/usr/bin/env python3
"""A store as a frame of pandas: as_frame.py FOLDER. It has a row for each key, and a column for each number."""

from __future__ import annotations

import sys

import pandas

import mtrecover


def frame(store: mtrecover.Range) -> pandas.DataFrame:
    return pandas.DataFrame.from_dict(dict(store.items()), orient="index").sort_index(axis="columns")


if __name__ == "__main__":
    with mtrecover.open(sys.argv[1]) as store:
        print(frame(store).to_string())
