#!/usr/bin/env python3
"""Counts the commits a second of REPLACEs on a directory on a disk, in units of 1, 16 and 2,000.

A unit is sent once the one before it is answered, so each unit is written out and synced by itself.
Beside them stands how often a second the disk itself can sync an append of a unit's size, as this script
does it in the same run. The folder of the directory has to be on a disk: in a file system in memory a
sync does nothing.
"""

import argparse
import os
import subprocess
import sys
import tempfile
import time
from pathlib import Path

from requests import KEYS, PROGRAM, is_built, replace

sys.path.append(str(Path(__file__).resolve().parent.parent / "tests"))

from iproto import SEED, input_unit  # noqa: E402
from program import environment  # noqa: E402

UNITS = (1, 16, 2_000)
SECONDS = 5
# The size of a REPLACE's row, and of a block's head.
ROW_BYTES, HEAD_BYTES = 18, 19


def disk_rate(folder, size):
    """How often a second so many bytes can be appended to a file and synced."""
    with tempfile.TemporaryFile(dir=folder, buffering=0) as file:
        count, clock = 0, time.monotonic()
        while time.monotonic() - clock < SECONDS:
            file.write(bytes(size))
            os.fdatasync(file.fileno())
            count += 1
        return count / (time.monotonic() - clock)


def read_unit(output):
    """Reads an output unit."""
    size = int.from_bytes(output.read(8)[4:], "big")
    if len(output.read(size)) < size or size == 0:
        sys.exit("the output ended before the reply to a unit")


def commit_rate(folder, count):
    """How many commits a second the program makes in units of so many."""
    with tempfile.TemporaryDirectory(dir=folder) as here:
        process = subprocess.Popen(
            [PROGRAM, "trace", "DIR"],
            stdin=subprocess.PIPE,
            stdout=subprocess.PIPE,
            cwd=here,
            env=environment(SEED),
        )
        unit = input_unit(b"".join(replace(at, at % KEYS, at) for at in range(count)))
        units, clock = 0, time.monotonic()
        while time.monotonic() - clock < SECONDS:
            process.stdin.write(unit)
            process.stdin.flush()
            read_unit(process.stdout)
            units += 1
        seconds = time.monotonic() - clock
        process.stdin.close()
        if process.wait() != 0:
            sys.exit(f"the run ended with status {process.returncode}")
        return units * count / seconds


def main():
    parser = argparse.ArgumentParser(description=__doc__.splitlines()[0])
    parser.add_argument("--folder", default=".", help="a folder on the disk, in which the directories are made")
    options = parser.parse_args()
    if not is_built():
        sys.exit("the program is not built")
    for count in UNITS:
        syncs = disk_rate(options.folder, HEAD_BYTES + count * ROW_BYTES)
        commits = commit_rate(options.folder, count)
        print(f"units of {count:,}: {commits:,.0f} commits a second, {commits / count:,.0f} units; the disk syncs {syncs:,.0f} times a second", flush=True)


if __name__ == "__main__":
    main()
