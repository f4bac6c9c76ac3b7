#!/usr/bin/env python3
"""Counts the instructions that the built program spends on a request, by valgrind's callgrind.

Each input sets 1,000 keys, and then has pairs of a REPLACE and a SELECT of one key, or of one of
these alone. What the setting alone costs is taken off, and the rest is divided by the number of the
pairs' requests. A
server whose work on a request doesn't grow with the number of requests has a ratio near 1.

Then the cut is measured: what a byte costs more that comes in a unit of its own, beside what a unit
costs that brings an empty-bodied PING. Allocations are counted, by valgrind's memcheck. At last requests
of each type are asked of a space with few tuples and of one with many, once and twice as many of them.
What the latter cost more is divided by their number: where a request finds its tuple by going down a tree,
it costs little more among many.
"""

import argparse
import re
import subprocess
import sys
import tempfile
from pathlib import Path

ROOT = Path(__file__).resolve().parent.parent
sys.path.append(str(ROOT / "tests"))

from iproto import (  # noqa: E402
    GREETING_BYTES,
    MAX_UNIT_BYTES,
    SEED,
    TYPE,
    Wide,
    input_unit,
    output_units,
    packet,
    packets_in,
    read_reply,
    request,
)
from program import environment, is_built  # noqa: E402

PROGRAM = ROOT / "crates" / "mx_program" / "out" / "mx_program"
KEYS = 1000
# Without a common factor with KEYS, so that steps of it come to every key.
STEP = 389
SIZES = (1_000, 10_000, 100_000)
# As many connections as take turns.
CONNECTIONS = 1000
# As many requests have a unit where they are of one type alone.
BATCH = 2_000
SHAPES = {
    "replaces": "REPLACE alone, 1,000 keys, units of 2,000 requests",
    "selects": "SELECT of one key alone, 1,000 keys, units of 2,000 requests",
    "keys": "units of 16 MiB, 1,000 keys",
    "key": "units of 16 MiB, one key",
    "units": "a unit per pair",
    "connections": "a unit per pair, 1,000 connections in turn",
    "bytes": "a unit per byte",
}
# How many tuples a space has before requests of one type are asked of it, and by how many of these the runs differ.
TUPLES = (1_000, 100_000)
MORE = 250
# The requests of each type by a sync and a key. An INSERT's key lies behind the one that is there.
ADD_ONE = [["+", 1, 1]]
TYPES_ASKED = {
    "INSERT": lambda sync, key: insert(sync, key + 1, 0),
    "REPLACE": lambda sync, key: request("REPLACE", Wide(sync, 4), space=512, tuple=[Wide(key, 4), 0]),
    "UPDATE": lambda sync, key: request("UPDATE", Wide(sync, 4), space=512, key=[Wide(key, 4)], operations=ADD_ONE),
    "DELETE": lambda sync, key: request("DELETE", Wide(sync, 4), space=512, key=[Wide(key, 4)]),
    "UPSERT": lambda sync, key: request("UPSERT", Wide(sync, 4), space=512, tuple=[Wide(key, 4)], operations=ADD_ONE),
    "SELECT": lambda sync, key: request("SELECT", Wide(sync, 4), space=512, limit=10, key=[Wide(key, 4)]),
}
# A PING without a sync and without a body, its size in one byte.
PING = packet({TYPE: 64}, width=0)


def replace(sync, key, value, stream=None):
    """A REPLACE of [key, value]. Syncs have one width, so that requests of one key have one length."""
    return request("REPLACE", Wide(sync, 4), stream, space=512, tuple=[key, value])


def insert(sync, key, value):
    """An INSERT of [key, value]. Keys have one width, so that requests have one length among few and many."""
    return request("INSERT", Wide(sync, 4), space=512, tuple=[Wide(key, 4), value])


def select(sync, key, iterator="EQ", limit=10, stream=None):
    """A SELECT of so many tuples at most by an iterator, from this key on."""
    return request("SELECT", Wide(sync, 4), stream, space=512, limit=limit, iterator=iterator, key=[key])


def units(pieces, connection=1):
    """As few units of a connection as hold the pieces, each of which is whole packets."""
    made, held = [], bytearray()
    for piece in pieces:
        if len(held) + len(piece) > MAX_UNIT_BYTES:
            made.append(input_unit(held, connection))
            held = bytearray()
        held += piece
    if held:
        made.append(input_unit(held, connection))
    return b"".join(made)


def batches(pieces, count):
    """So many pieces joined, again and again."""
    pieces = list(pieces)
    return [b"".join(pieces[at : at + count]) for at in range(0, len(pieces), count)]


def setting(keys=KEYS):
    """The input that sets so many keys."""
    return units(replace(key, key, 0) for key in range(keys))


def pairs(shape, count):
    """The bytes of each pair of requests."""
    for at in range(count):
        key = 0 if shape == "key" else at * STEP % KEYS
        sync = KEYS + 2 * at
        first = select(sync, key) if shape == "selects" else replace(sync, key, at)
        second = replace(sync + 1, key, at) if shape == "replaces" else select(sync + 1, key)
        yield first + second


def requests(shape, count):
    """The input with this many pairs."""
    asked = pairs(shape, count)
    if shape == "connections":
        made = b"".join(input_unit(pair, at % CONNECTIONS) for at, pair in enumerate(asked))
    elif shape == "units":
        made = b"".join(map(input_unit, asked))
    elif shape == "bytes":
        made = b"".join(input_unit(bytes([byte])) for pair in asked for byte in pair)
    elif shape in ("replaces", "selects"):
        made = b"".join(map(input_unit, batches(asked, BATCH // 2)))
    else:
        made = units(asked)
    return setting() + made


def answers(output):
    """How many replies that aren't refusals the output has, each behind its connection's greeting."""
    sent = {}
    for connection, content in output_units(output):
        sent.setdefault(connection, bytearray()).extend(content)
    replies = (read_reply(one) for content in sent.values() for one in packets_in(content[GREETING_BYTES:]))
    return sum(reply.error is None for reply in replies)


def new_folder():
    """A folder for a run's directory, in memory where the system has a file system there."""
    memory = Path("/dev/shm")
    return tempfile.TemporaryDirectory(dir=memory if memory.is_dir() else None)


def traced(tool, given, folder):
    """Runs the program under a tool on this input, with its directory in this folder."""
    with tempfile.TemporaryFile() as file:
        file.write(given)
        file.seek(0)
        return subprocess.run(
            [*tool, PROGRAM, "trace", "DIR"],
            stdin=file,
            capture_output=True,
            cwd=folder,
            env=environment(SEED),
        )


def instructions_in(given, folder):
    """How many instructions a run on this input takes in a folder, and how many replies it has."""
    ended = traced(["valgrind", "--tool=callgrind", "--callgrind-out-file=/dev/null"], given, folder)
    report = ended.stderr.decode(errors="replace")
    collected = re.search(r"Collected : (\d+)", report)
    if ended.returncode != 0 or collected is None:
        sys.exit(f"the run ended with status {ended.returncode}:\n{report}")
    return int(collected.group(1)), answers(ended.stdout) if ended.stdout else 0


def instructions(given):
    """The same in a new folder."""
    with new_folder() as folder:
        return instructions_in(given, folder)


def allocations_in(given):
    """How many allocations a run on this input makes."""
    with new_folder() as folder:
        report = traced(["valgrind", "--tool=memcheck"], given, folder).stderr.decode(errors="replace")
    total = re.search(r"total heap usage: ([\d,]+) allocs", report)
    if total is None:
        sys.exit(f"valgrind tells no allocations:\n{report}")
    return int(total.group(1).replace(",", ""))


def measure_allocations(count):
    """Prints how many allocations a REPLACE and a SELECT make, of requests of one type alone."""
    base = allocations_in(setting())
    print(f"allocations, at {2 * count:,} requests:")
    for shape in ("replaces", "selects"):
        made = allocations_in(requests(shape, count)) - base
        print(f"  {SHAPES[shape]}: {made / (2 * count):,.2f} a request", flush=True)


def measure(shape, sizes, base):
    """Prints a line for each size, and the ratio of the largest to the smallest."""
    print(f"{SHAPES[shape]}:")
    costs = []
    for count in sorted(sizes):
        total, answered = instructions(requests(shape, count))
        costs.append((total - base) / (2 * count))
        print(f"  {count:>7,} pairs: {costs[-1]:>12,.1f} instructions a request", flush=True)
        if answered != KEYS + 2 * count:
            print(f"    only {answered:,} of {KEYS + 2 * count:,} requests have a reply of tuples")
    if len(costs) > 1 and costs[0] > 0:
        print(f"  largest to smallest: {costs[-1] / costs[0]:.3f}")


def measure_cut(count, base):
    """Prints what a byte costs more in a unit of its own, and what a unit of a PING costs."""
    whole, _ = instructions(requests("keys", count))
    cut, _ = instructions(requests("bytes", count))
    size = sum(map(len, pairs("keys", count)))
    pings, _ = instructions(setting() + input_unit(PING) * size)
    print(f"the cut, at {count:,} pairs of {size:,} bytes:")
    print(f"  a byte in a unit of its own: {(cut - whole) / size:,.1f} instructions more")
    print(f"  a unit of a PING: {(pings - base) / size:,.1f} instructions", flush=True)


def filling(tuples):
    """The requests that make so many tuples, of the even keys from 0 on."""
    return [insert(at, 2 * at, 0) for at in range(tuples)]


def cost_among(asks, tuples, filling):
    """What a request costs among so many tuples. Both runs ask some, so that both leave memory alike at their end."""
    pieces, filled = [asks(tuples + at, 2 * (at * STEP % tuples)) for at in range(2 * MORE)], filling(tuples)
    totals = []
    for asked in (pieces[:MORE], pieces):
        total, answered = instructions(units(filled) + units(asked))
        totals.append(total)
        if answered != len(filled) + len(asked):
            print(f"    only {answered:,} of {len(filled) + len(asked):,} requests have a reply that is no refusal")
    return (totals[1] - totals[0]) / MORE


def measure_among(sizes, types=TYPES_ASKED, filling=filling):
    """Prints what a request of each type costs among so many tuples, and the ratio of the most to the fewest."""
    sizes = sorted(sizes)
    print("a request of one key among so many tuples, in instructions:")
    print(f"  {'':<8}" + "".join(f"{f'{tuples:,}':>12}" for tuples in sizes) + f"{'ratio':>8}")
    for name, asks in types.items():
        costs = [cost_among(asks, tuples, filling) for tuples in sizes]
        ratio = costs[-1] / costs[0]
        print(f"  {name:<8}" + "".join(f"{cost:>12,.1f}" for cost in costs) + f"{ratio:>8.3f}", flush=True)


def check_tuples(parser, sizes):
    """Checks that each request of a type has a key of its own, which a DELETE finds once."""
    if any(count < 2 * MORE or count % STEP == 0 for count in sizes):
        parser.error(f"a number of tuples is {2 * MORE} at least, and no multiple of {STEP}")


def main():
    parser = argparse.ArgumentParser(description=__doc__.splitlines()[0])
    parser.add_argument("--shape", choices=SHAPES, action="append", help="only this shape")
    parser.add_argument("--sizes", type=int, nargs="+", default=SIZES, help="numbers of pairs")
    parser.add_argument("--among", action="store_true", help="only the table of requests among tuples")
    parser.add_argument("--tuples", type=int, nargs="+", default=TUPLES, help="its numbers of tuples")
    options = parser.parse_args()
    if any(count < 1 for count in options.sizes):
        parser.error("a size is 1 at least")
    check_tuples(parser, options.tuples)
    if not is_built():
        sys.exit("the program is not built")
    if options.among:
        measure_among(options.tuples)
        return
    base, _ = instructions(setting())
    print(f"setting {KEYS:,} keys: {base:,} instructions")
    for shape in options.shape or SHAPES:
        measure(shape, options.sizes, base)
    if not options.shape:
        measure_cut(min(options.sizes), base)
        measure_allocations(min(options.sizes))
        measure_among(options.tuples)


if __name__ == "__main__":
    main()
