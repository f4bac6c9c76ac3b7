#!/usr/bin/env python3
"""Counts what requests cost in a space with one index and with three, and what a tuple takes in memory.

A tuple has a key, a text of 8 characters and a small number. The one index is a tree, and then a hash index.
With three indexes there is beside the primary one a unique index of the texts, a tree and then a hash index,
and an index of the numbers that isn't unique. Requests of each type are asked among few tuples and among many,
as in `requests.py`, by valgrind's callgrind.

For memory so many tuples are put in a space with the index of the numbers beside the primary one. The next
run opens the directory, and its resident bytes, less those of a run on an empty directory, are divided by
the number of tuples.
"""

import argparse
import re
import subprocess
import sys
from pathlib import Path

from requests import (
    PROGRAM,
    SEED,
    TUPLES,
    check_tuples,
    environment,
    input_unit,
    is_built,
    measure_among,
    new_folder,
    packets_in,
    read_reply,
    request,
    traced,
    units,
)

from iproto import DATA, Wide, pack  # found by `requests`

SPACE, INDEXES = 512, 288
# It takes the place of the primary index.
PRIMARY_HASH = [SPACE, 0, "primary", "hash", {}, [[0, "unsigned"]]]
BY_TEXT = [SPACE, 1, "text", "tree", {"unique": True}, [[1, "string"]]]
BY_TEXT_HASH = [SPACE, 1, "text", "hash", {}, [[1, "string"]]]
BY_NUMBER = [SPACE, 2, "number", "tree", {"unique": False}, [[2, "unsigned"]]]
MANY = 1_000_000
# An odd number, by whose multiples each key has a text of its own, in another order.
SPREAD = 2_654_435_761
NUMBERS = 1_000


def row(key, more=0):
    """The tuple of a key, whose number may be greater. Tuples have one length."""
    return [Wide(key, 4), f"{key * SPREAD % 2**32:08x}", Wide(key * SPREAD % NUMBERS + more, 2)]


def ask(name, sync, **fields):
    return request(name, Wide(sync, 4), space=SPACE, **fields)


# The requests of each type by a sync and a key. An INSERT's key lies behind the one that is there.
ADD_ONE = [["+", 2, 1]]
TYPES = {
    "INSERT": lambda sync, key: ask("INSERT", sync, tuple=row(key + 1)),
    "REPLACE": lambda sync, key: ask("REPLACE", sync, tuple=row(key, 1)),
    "UPDATE": lambda sync, key: ask("UPDATE", sync, key=[Wide(key, 4)], operations=ADD_ONE),
    "DELETE": lambda sync, key: ask("DELETE", sync, key=[Wide(key, 4)]),
    "UPSERT": lambda sync, key: ask("UPSERT", sync, tuple=row(key), operations=ADD_ONE),
    "SELECT": lambda sync, key: ask("SELECT", sync, limit=10, key=[Wide(key, 4)]),
}


def filling(tuples, *indexes):
    """The requests that make these indexes, and so many tuples of the even keys from 0 on."""
    dropped = [request("DELETE", 0, space=INDEXES, key=index[:2]) for index in indexes if index == PRIMARY_HASH]
    made = dropped + [request("INSERT", 0, space=INDEXES, tuple=index) for index in indexes]
    return made + [ask("INSERT", at, tuple=row(2 * at)) for at in range(tuples)]


def measure_requests(sizes):
    """Prints the table of each number of indexes."""
    for name, indexes in (
        ("one index", ()),
        ("one hash index", (PRIMARY_HASH,)),
        ("three indexes", (BY_TEXT, BY_NUMBER)),
        ("three indexes, one a hash index", (BY_TEXT_HASH, BY_NUMBER)),
    ):
        print(f"{name}: ", end="")
        measure_among(sizes, TYPES, lambda tuples: filling(tuples, *indexes))


def answer(process, asked):
    """What a run answers to a unit with a request."""
    process.stdin.write(input_unit(asked))
    process.stdin.flush()
    size = int.from_bytes(process.stdout.read(8)[4:], "big")
    return process.stdout.read(size)


def resident(folder, tuples):
    """The resident bytes of a run that has opened a directory of so many tuples."""
    process = subprocess.Popen(
        [PROGRAM, "trace", "DIR"],
        stdin=subprocess.PIPE,
        stdout=subprocess.PIPE,
        cwd=folder,
        env=environment(SEED),
    )
    # The directory is open once this is answered.
    answer(process, request("PING", 1))
    found = re.search(r"VmRSS:\s+(\d+) kB", Path(f"/proc/{process.pid}/status").read_text())
    last = answer(process, ask("SELECT", 2, offset=max(tuples - 1, 0), limit=2, key=[]))
    process.stdin.close()
    status = process.wait()
    counted = [len(read_reply(one).body[DATA]) for one in packets_in(last)]
    if status != 0 or found is None or counted != [min(tuples, 1)]:
        sys.exit(f"the run on {tuples:,} tuples ended with status {status}, and behind all but one it found {counted}")
    return int(found.group(1)) * 1024


def measure_memory(tuples):
    """Prints the resident bytes of a tuple among so many."""
    with new_folder() as folder:
        empty = resident(folder, 0)
    with new_folder() as folder:
        written = traced([], units(filling(tuples, BY_NUMBER)), folder)
        if written.returncode != 0:
            sys.exit(f"the run that writes the journal ended with status {written.returncode}:\n{written.stderr}")
        full = resident(folder, tuples)
    print(f"{tuples:,} tuples of {len(pack(row(0))):,} bytes with two indexes, opened from a journal:")
    print(f"  {(full - empty) / tuples:,.1f} resident bytes a tuple; an empty database has {empty:,}")


def main():
    parser = argparse.ArgumentParser(description=__doc__.splitlines()[0])
    parser.add_argument("--tuples", type=int, nargs="+", default=TUPLES, help="numbers of tuples of the tables")
    parser.add_argument("--many", type=int, default=MANY, help="the number of tuples in memory")
    parser.add_argument("--part", choices=("requests", "memory"), help="only this part")
    options = parser.parse_args()
    check_tuples(parser, options.tuples)
    if options.many < 1:
        parser.error("there is 1 tuple in memory at least")
    if not is_built():
        sys.exit("the program is not built")
    if options.part != "memory":
        measure_requests(options.tuples)
    if options.part != "requests":
        measure_memory(options.many)


if __name__ == "__main__":
    main()
