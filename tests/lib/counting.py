"""Counts what holds, for the scripts whose last line is 'N passed, M failed', and finds what they need."""
import os
import shutil
import subprocess
import sys
from functools import lru_cache
from pathlib import Path

TOP = Path(__file__).resolve().parents[2]
# Folders that are tried lie in memory if they can, where a sync takes no time.
MEMORY = "/dev/shm" if Path("/dev/shm").is_dir() else None

counts = {True: 0, False: 0}


def count(told, holds):
    counts[bool(holds)] += 1
    if not holds:
        print(f"{told}: FAILED", flush=True)


def end():
    print(f"{counts[True]} passed, {counts[False]} failed")
    sys.exit(counts[False] != 0)


def cannot_run(why):
    """Ends a test that lacks something, before it tries anything."""
    print(f"cannot run: {why}")
    sys.exit(3)


def need(*tools):
    """Ends the test if one of these tools is not on PATH."""
    for tool in tools:
        if not shutil.which(tool):
            cannot_run(f"no {tool} on PATH")


@lru_cache
def built(name, given):
    """Returns the path of a program or of the library for C: the one that this variable of the environment names, or else the one in
    out/. Ends the test if that is missing or older than its sources."""
    path = os.environ.get(given)
    if not path and subprocess.run([TOP / "tools/program", "is-current", name]).returncode != 0:
        cannot_run(f"out/{name} is missing, or older than its sources")
    return Path(path or TOP / "out" / name).resolve()


def built_server(path):
    """Returns the path of a server that tests/bindings built over the library."""
    library, path = archive(), Path(path)
    if not path.exists() or path.stat().st_mtime < library.stat().st_mtime:
        cannot_run(f"{path} is missing, or older than the library: tests/bindings builds it")
    return path.resolve()


def program(name):
    """Returns the path of mtrecover or mtdump: $MTRECOVER or $MTDUMP, or else the proved one in out/."""
    return built(name, name.upper())


def archive():
    """Returns the path of the library for C: $ARCHIVE, or else the proved one in out/."""
    return built("libmtrecover.a", "ARCHIVE")
