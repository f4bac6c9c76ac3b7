#!/usr/bin/env python3
"""Counts the instructions that the built program spends on a SELECT, by valgrind's callgrind.

Each input sets keys, and then has SELECTs, once and twice as many. What the latter costs more is
divided by the number of SELECTs. First they begin at a key in the middle of 1,000 and go up, by
limits of 1, 10 and 100, by the primary index and by another one. Then single keys are looked up by
the primary index, by a primary hash index and by another hash index, the same ones among 1,000 keys
and among 16,000: where a look-up goes down a tree it costs little more among 16 times as many, and
where it finds its key by the hash no more. At last the first keys are asked of all by a primary hash
index, which reads them all.
"""

import argparse
import math
import sys

from requests import KEYS, STEP, Wide, instructions, is_built, replace, request, units

LIMITS = (1, 10, 100)
MORE_KEYS = 16 * KEYS
# With one of these a tuple's second field is its key again.
BY_TREE = [512, 1, "again", "tree", {}, [[1, "unsigned"]]]
BY_HASH = [512, 1, "again", "hash", {}, [[1, "unsigned"]]]
# It takes the place of the primary index.
PRIMARY_HASH = [512, 0, "primary", "hash", {}, [[0, "unsigned"]]]


def select(sync, key, index, iterator="EQ", limit=1):
    """A SELECT of so many tuples at most, by the primary index or by another one."""
    named = {} if index in (None, PRIMARY_HASH) else {"index": 1}
    return request("SELECT", Wide(sync, 4), space=512, limit=limit, iterator=iterator, key=key, **named)


def setting(keys, index):
    """The requests that make an index, where there is one, and set so many keys."""
    if index is None:
        return [replace(key, key, 0) for key in range(keys)]
    dropped = [request("DELETE", 0, space=288, key=index[:2])] if index == PRIMARY_HASH else []
    made = request("INSERT", 0, space=288, tuple=index)
    return [*dropped, made, *(replace(key, key, key) for key in range(keys))]


def cost(keys, index, selects):
    """What one of these SELECTs costs after so many keys were set."""
    before = setting(keys, index)
    totals = []
    for asked in (selects, selects + selects):
        total, answered = instructions(units(before) + units(asked))
        if answered != len(before) + len(asked):
            print(f"    only {answered:,} of {len(before) + len(asked):,} requests have a reply of tuples")
        totals.append(total)
    once, twice = totals
    return (twice - once) / len(selects)


def measure_limits(count, name, index):
    """Prints what a SELECT costs by each limit, and what a tuple adds."""
    print(f"GE of key {KEYS // 2:,} among {KEYS:,} keys, by {name}:")
    costs = {}
    for limit in LIMITS:
        costs[limit] = cost(KEYS, index, [select(sync, [KEYS // 2], index, "GE", limit) for sync in range(count)])
        print(f"  limit {limit:>3}: {costs[limit]:>10,.1f} instructions a SELECT", flush=True)
    few, many = min(LIMITS), max(LIMITS)
    print(f"  a tuple more: {(costs[many] - costs[few]) / (many - few):,.1f} instructions")


def measure_look_ups(count, name, index):
    """Prints what a look-up costs among few keys and among many, and how it grows."""
    print(f"EQ of one key, by {name}:")
    look_ups = [select(at, [at * STEP % KEYS], index) for at in range(count)]
    few, many = cost(KEYS, index, look_ups), cost(MORE_KEYS, index, look_ups)
    for keys, one in ((KEYS, few), (MORE_KEYS, many)):
        print(f"  {keys:>6,} keys: {one:>10,.1f} instructions a SELECT")
    doublings = math.log2(MORE_KEYS / KEYS)
    print(f"  twice as many keys: {(many - few) / doublings:,.1f} instructions more")
    print(f"  most to fewest: {many / few:.3f}")


def measure_all(count):
    """Prints what the first keys of a primary hash index cost, by each limit."""
    for keys in (KEYS, MORE_KEYS):
        print(f"ALL of {keys:,} keys by a primary hash index:")
        for limit in LIMITS:
            asked = [select(sync, [], PRIMARY_HASH, "ALL", limit) for sync in range(count)]
            print(f"  limit {limit:>3}: {cost(keys, PRIMARY_HASH, asked):>12,.1f} instructions a SELECT", flush=True)


def main():
    parser = argparse.ArgumentParser(description=__doc__.splitlines()[0])
    parser.add_argument("--count", type=int, default=KEYS, help="how many SELECTs a run has")
    count = parser.parse_args().count
    if count < 1:
        parser.error("a run has 1 SELECT at least")
    if not is_built():
        sys.exit("the program is not built")
    measure_limits(count, "the primary index", None)
    measure_limits(count, "another unique index", BY_TREE)
    measure_look_ups(count, "the primary index", None)
    measure_look_ups(count, "a primary hash index", PRIMARY_HASH)
    measure_look_ups(count, "another hash index", BY_HASH)
    measure_all(count)


if __name__ == "__main__":
    main()
