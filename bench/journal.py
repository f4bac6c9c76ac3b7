#!/usr/bin/env python3
"""Counts what a commit costs when it is written and when it is read again.

For each size a run commits that many REPLACEs, and a further run on the same directory, with no
input, reads them again. Their instructions under valgrind's callgrind, less those of a run without
commits, are divided by the number of commits. Then strace counts the system calls of a run whose
units have one commit each.
"""

import argparse
import re
import sys

from requests import input_unit, instructions_in, is_built, new_folder, replace, traced, units

SIZES = (1_000, 10_000, 100_000)
UNITS = 1_000


def commits(count):
    """REPLACEs of so many keys."""
    return [replace(key, key, key) for key in range(count)]


def measure(count, base):
    """Prints what a commit costs among so many."""
    with new_folder() as folder:
        written, _ = instructions_in(units(commits(count)), folder)
        read, _ = instructions_in(b"", folder)
    print(
        f"  {count:>7,} commits: {(written - base) / count:>10,.1f} instructions to write one,"
        f" {(read - base) / count:>10,.1f} to read one",
        flush=True,
    )


def count_calls():
    """Prints how many system calls a unit of one commit makes."""
    given = b"".join(map(input_unit, commits(UNITS)))
    with new_folder() as folder:
        ended = traced(["strace", "-f", "-c"], given, folder)
    report = ended.stderr.decode(errors="replace")
    calls = {name: int(n) for n, name in re.findall(r"(\d+)(?: +\d+)? (\w+)$", report, re.M)}
    total = calls.pop("total", 0)
    if ended.returncode != 0 or not total:
        sys.exit(f"the run ended with status {ended.returncode}:\n{report}")
    print(f"{UNITS:,} units of one commit: {total / UNITS:.2f} system calls a unit")
    for name, count in sorted(calls.items(), key=lambda call: -call[1]):
        if count >= UNITS / 2:
            print(f"  {name}: {count:,}")


def main():
    parser = argparse.ArgumentParser(description=__doc__.splitlines()[0])
    parser.add_argument("--sizes", type=int, nargs="+", default=SIZES, help="numbers of commits")
    options = parser.parse_args()
    if not is_built():
        sys.exit("the program is not built")
    with new_folder() as folder:
        base, _ = instructions_in(b"", folder)
    print(f"a run without commits: {base:,} instructions")
    for count in options.sizes:
        measure(count, base)
    count_calls()


if __name__ == "__main__":
    main()
