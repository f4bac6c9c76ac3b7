#!/usr/bin/env python3
"""Counts the instructions of applying update operations to a tuple.

`mx_measure` reads the operations once and applies them as often as its argument says. What it takes
for many times, less what it takes for none, is divided by the times. All is counted by valgrind's
callgrind.
"""

from measured import build, instructions

from iproto import pack  # found by `measured`

TIMES = 1_000
# A name, the tuple, and its operations.
INPUTS = (
    ("`+` on 3 fields", [1, 2, 3], [["+", 1, 1]]),
    ("`+` on 1,000 fields", list(range(1000)), [["+", 1, 1]]),
    ("`=` on 1,000 fields", list(range(1000)), [["=", 1, 1]]),
    ("100 `+` on 3 fields", [1, 2, 3], [["+", 1, 1]] * 100),
    ("4,000 `+` on 3 fields", [1, 2, 3], [["+", 1, 1]] * 4000),
    ("4,000 `=` on 1,000 fields", list(range(1000)), [["=", 1, 1]] * 4000),
)


def main():
    build()
    for name, fields, operations in INPUTS:
        given = pack(fields) + pack(operations)
        taken = instructions(given, TIMES, "apply") - instructions(given, 0, "apply")
        print(f"{name}: {taken / TIMES:,.0f} instructions", flush=True)


if __name__ == "__main__":
    main()
