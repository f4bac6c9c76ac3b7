#!/usr/bin/env python3
"""Counts the instructions that the built program spends on transactions, by valgrind's callgrind.

Statements: SELECT, REPLACE and UPDATE over 1,000 keys, outside of transactions and in transactions of 10, of
which one is open at a time. The instructions of all requests are divided by the statements, once with BEGIN
and COMMIT and once without. Without them a statement is what transactions that are rolled back cost more than
empty ones.

Commits: COMMITs of 1, 10 and 100 rows, and a REPLACE outside of transactions, beside up to 1,000 open
transactions, each of which has read 1 or 10 ranges of other keys. A COMMIT is what transactions cost more that
end in one than those that end in a ROLLBACK, and then what a ROLLBACK costs that finds no transaction.

Copies: a COMMIT of 1 row and a REPLACE among 1,000 tuples and among 100,000, with no other transaction open. A
ratio near 1 says that nothing of the state is copied. Then a commit that overlaps a reader, for which the state is
copied: what it costs more than one beside the reader, with the release of the copy.

Kept: the most resident bytes of a run in which one reader stays in its view while others come, are overlapped by a
commit and go. A state is to be kept no longer than some view reads it.

At last REPLACE and SELECT with no transaction open, as `requests.py` measures them.
"""

import argparse
import os
import subprocess
import sys
import tempfile
from itertools import chain

from requests import (
    ADD_ONE,
    KEYS,
    MORE,
    PROGRAM,
    SEED,
    STEP,
    TUPLES,
    TYPES_ASKED,
    check_tuples,
    cost_among,
    environment,
    filling,
    instructions,
    is_built,
    measure,
    new_folder,
    replace,
    select,
    setting,
    units,
)

from iproto import Wide, request  # found by `requests`

# Who makes what is measured: a connection, and its stream where it is in a transaction. Others read from these on.
WRITER, STREAM, READERS = 1, 1, 2
# How many statements a transaction has, and how many transactions a run.
STATEMENTS, TRANSACTIONS = 10, 1_000
# How many transactions are open, of which a connection has so many at most, and how many ranges each has read.
OPEN, OPEN_PER_CONNECTION, RANGES = (0, 1, 100, 1_000), 64, (1, 10)
# The rows of a COMMIT, and how many COMMITs of so many a run has.
ROWS = {1: 100, 10: 20, 100: 4}
# How many requests a run has that each are measured alone.
REQUESTS = 200
# The keys that are written beside open transactions. What these read lies behind, each time so many keys.
WRITTEN, READ = KEYS // 2, 10
# How many copies of the state a run makes.
COPIES = 2
# How many readers come and go beside one that stays, and among how many tuples.
PASSING, KEPT_AMONG = (0, 1, 100), 10_000
# The input that sets the keys.
SET = (WRITER, [replace(key, key, 0) for key in range(KEYS)])


def control(name, sync, stream=STREAM):
    """A BEGIN, COMMIT or ROLLBACK."""
    return request(name, Wide(sync, 4), stream)


def update(sync, key, stream=None):
    """An UPDATE that adds 1 to a tuple's number."""
    return request("UPDATE", Wide(sync, 4), stream, space=512, key=[key], operations=ADD_ONE)


# The statements that are measured, by a number, a key and a stream.
TYPES = {
    "SELECT": lambda at, key, stream: select(at, key, stream=stream),
    "REPLACE": lambda at, key, stream: replace(at, key, at, stream),
    "UPDATE": update,
}


def joined(pieces):
    return list(chain.from_iterable(pieces))


def transactions(pieces, end="COMMIT"):
    """A transaction of each piece's statements, one after the other."""
    return joined([control("BEGIN", at), *piece, control(end, at)] for at, piece in enumerate(pieces))


def writes(count, rows, tuples=WRITTEN, spacing=1, stream=STREAM):
    """So many pieces of so many REPLACEs, each piece of different keys among so many tuples."""
    keys = [spacing * (at * STEP % tuples) for at in range(count * rows)]
    made = [replace(at, Wide(key, 4), at, stream) for at, key in enumerate(keys)]
    return [made[at : at + rows] for at in range(0, len(made), rows)]


def total(*parts):
    """How many instructions a run takes on these parts. Each is a connection and its requests, none refused."""
    taken, answered = instructions(b"".join(units(asked, connection) for connection, asked in parts))
    count = sum(len(asked) for _, asked in parts)
    if answered != count:
        print(f"    only {answered:,} of {count:,} requests have a reply that is no refusal")
    return taken


def growth(parts, pieces):
    """What one of these pieces costs behind the parts: all of them less their first half."""
    half = len(pieces) // 2
    first, both = (total(*parts, (WRITER, joined(some))) for some in (pieces[:half], pieces))
    return (both - first) / (len(pieces) - half)


def idle_cost(parts):
    """What a ROLLBACK costs behind these parts that finds no transaction."""
    return growth(parts, [[control("ROLLBACK", at)] for at in range(REQUESTS)])


def commit_cost(parts, pieces, idle):
    """What a COMMIT of one of these pieces costs behind the parts."""
    back, done = (total(*parts, (WRITER, transactions(pieces, end))) for end in ("ROLLBACK", "COMMIT"))
    return (done - back) / len(pieces) + idle


# ---- statements


def tens(asks, count, stream=None):
    """The statements of so many transactions. Those of one have different keys."""
    made = [asks(at, at * STEP % KEYS, stream) for at in range(STATEMENTS * count)]
    return [made[at : at + STATEMENTS] for at in range(0, len(made), STATEMENTS)]


def measure_statements(count):
    """Prints what a statement costs outside of transactions and in one, and the ratios."""
    empty = total(SET, (WRITER, transactions([[]] * count, "ROLLBACK")))
    print(f"a statement, in instructions, {STATEMENTS} in a transaction that is the only one open:")
    print(f"  {'':<8}{'outside':>12}{'in one':>12}{'ratio':>8}{'without BEGIN and COMMIT':>26}{'ratio':>8}")
    for name, asks in TYPES.items():
        inside = tens(asks, count, STREAM)
        outside = growth([SET], tens(asks, count)) / STATEMENTS
        whole = growth([SET], [transactions([piece]) for piece in inside]) / STATEMENTS
        alone = (total(SET, (WRITER, transactions(inside, "ROLLBACK"))) - empty) / (count * STATEMENTS)
        print(
            f"  {name:<8}{outside:>12,.1f}{whole:>12,.1f}{whole / outside:>8.3f}{alone:>26,.1f}{alone / outside:>8.3f}",
            flush=True,
        )


# ---- commits


def readers(count, ranges):
    """So many open transactions, each of which has read so many ranges of keys that aren't written."""
    parts = []
    for first in range(0, count, OPEN_PER_CONNECTION):
        asked = []
        for reader in range(first, min(first + OPEN_PER_CONNECTION, count)):
            stream = reader - first + 1
            asked.append(control("BEGIN", reader, stream))
            for at in range(reader * ranges, (reader + 1) * ranges):
                key = WRITTEN + at * STEP % (KEYS - WRITTEN - READ)
                asked.append(select(at, key, "GE", READ, stream))
        parts.append((READERS + first // OPEN_PER_CONNECTION, asked))
    return parts


def measure_commits():
    """Prints what a COMMIT and a REPLACE cost beside open transactions that they don't overlap."""
    print("a commit beside open transactions that have read other keys, in instructions:")
    columns = "".join(f"{f'COMMIT of {rows}':>16}" + (f"{'a row':>14}" if rows > 1 else "") for rows in ROWS)
    print(f"  {'open':>6}{'ranges':>8}{columns}{'REPLACE':>14}")
    for count in OPEN:
        for ranges in RANGES if count else (0,):
            parts = [SET, *readers(count, ranges)]
            idle = idle_cost(parts)
            costs = {rows: commit_cost(parts, writes(commits, rows), idle) for rows, commits in ROWS.items()}
            alone = growth(parts, writes(REQUESTS, 1, stream=None))
            columns = "".join(
                f"{cost:>16,.1f}" + (f"{cost / rows:>14,.1f}" if rows > 1 else "") for rows, cost in costs.items()
            )
            print(f"  {count:>6,}{ranges:>8}{columns}{alone:>14,.1f}", flush=True)


# ---- copies


def beside_reader(at, read):
    """A REPLACE of the key 0 beside a transaction that has read a key and is rolled back after it."""
    begin, end = control("BEGIN", at), control("ROLLBACK", at)
    return [begin, select(at, Wide(read, 4), stream=STREAM), replace(at, Wide(0, 4), at), end]


def copy_cost(tuples):
    """What a commit costs more that overlaps a reader than one beside it."""
    parts = [(WRITER, filling(tuples))]
    beside, over = (total(*parts, (WRITER, joined(beside_reader(at, key) for at in range(COPIES)))) for key in (2, 0))
    return (over - beside) / COPIES


def measure_copies(sizes):
    """Prints what commits cost among few tuples and among many, and the ratio of the most to the fewest."""
    sizes = sorted(sizes)
    idle = idle_cost([SET])
    rows = {
        "COMMIT of 1 row": lambda tuples: commit_cost([(WRITER, filling(tuples))], writes(MORE, 1, tuples, 2), idle),
        "REPLACE": lambda tuples: cost_among(TYPES_ASKED["REPLACE"], tuples, filling),
        "over a reader, more than beside": copy_cost,
    }
    print("a commit among so many tuples, in instructions:")
    print(f"  {'':<32}" + "".join(f"{f'{tuples:,}':>16}" for tuples in sizes) + f"{'ratio':>10}")
    for name, cost in rows.items():
        costs = [cost(tuples) for tuples in sizes]
        columns = "".join(f"{one:>16,.1f}" for one in costs)
        print(f"  {name:<32}{columns}{costs[-1] / costs[0]:>10.3f}", flush=True)
    few, many = sizes[0], sizes[-1]
    if few < many:
        print(f"  a copied tuple: {(costs[-1] - costs[0]) / (many - few):,.1f}")


# ---- kept states


def most_resident(given):
    """The most resident bytes of a run on this input."""
    with new_folder() as folder, tempfile.TemporaryFile() as file:
        file.write(given)
        file.seek(0)
        process = subprocess.Popen(
            [PROGRAM, "trace", "DIR"], stdin=file, stdout=subprocess.DEVNULL, cwd=folder, env=environment(SEED)
        )
        _, status, usage = os.wait4(process.pid, 0)
    if status != 0:
        sys.exit(f"the run ended with status {status}")
    return usage.ru_maxrss * 1024


def measure_kept():
    """Prints the most resident bytes beside a reader that stays, while so many others come and go."""
    staying = [control("BEGIN", 0), select(0, Wide(0, 4), stream=STREAM)]
    parts = [(WRITER, filling(KEPT_AMONG)), (READERS, staying), (WRITER, [replace(0, Wide(0, 4), 1)])]
    print(f"the most resident bytes among {KEPT_AMONG:,} tuples, where a reader stays in its view and others pass:")
    for passing in PASSING:
        others = joined(beside_reader(at, 0) for at in range(passing))
        taken = most_resident(b"".join(units(asked, connection) for connection, asked in (*parts, (WRITER, others))))
        print(f"  {passing:>6,} pass: {taken:,}", flush=True)


# ---- no transaction


def measure_requests(count):
    """Prints what a REPLACE and a SELECT cost with no transaction open."""
    base, _ = instructions(setting())
    for shape in ("replaces", "selects"):
        measure(shape, (count,), base)


def main():
    parser = argparse.ArgumentParser(description=__doc__, formatter_class=argparse.RawDescriptionHelpFormatter)
    parts = ("statements", "commits", "copies", "kept", "requests")
    parser.add_argument("--part", choices=parts, action="append", help="only this part")
    parser.add_argument("--tuples", type=int, nargs="+", default=TUPLES, help="numbers of tuples among which is copied")
    options = parser.parse_args()
    check_tuples(parser, options.tuples)
    if not is_built():
        sys.exit("the program is not built")
    for part in options.part or parts:
        if part == "statements":
            measure_statements(TRANSACTIONS)
        elif part == "commits":
            measure_commits()
        elif part == "copies":
            measure_copies(options.tuples)
        elif part == "kept":
            measure_kept()
        else:
            measure_requests(TRANSACTIONS)


if __name__ == "__main__":
    main()
