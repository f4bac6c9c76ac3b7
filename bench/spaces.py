#!/usr/bin/env python3
"""Counts the instructions of a SELECT by a full key in a state with one space, and with more.

`mx_measure` makes a state of the spaces that its input describes, puts a tuple into one of them, and
asks for it as often as its argument says: it looks up the space, its index, and the tuple, as the
engine does. What it takes for many times, less what it takes for none, is divided by the times. The
seven spaces are those of a new database. All is counted by valgrind's callgrind.
"""

from measured import build, instructions

from iproto import pack  # found by `measured`

TIMES = 1_000
MANY = 1_000
# The first number that a space of a user may have.
USER = 512
OWNER = 1
# The spaces of a new database: a number, a name, the parts of the primary key.
FIRST = (
    (272, "_schema", [[0, "string"]]),
    (280, "_space", [[0, "unsigned"]]),
    (281, "_vspace", [[0, "unsigned"]]),
    (288, "_index", [[0, "unsigned"], [1, "unsigned"]]),
    (289, "_vindex", [[0, "unsigned"], [1, "unsigned"]]),
    (320, "_cluster", [[0, "unsigned"]]),
    (USER, "test", [[0, "unsigned"]]),
)
USERS = [(USER + at, f"space_{at}", [[0, "unsigned"]]) for at in range(MANY)]
# A name, the spaces, the number of the one with the tuple, and the type of the primary indexes.
STATES = (
    ("one space", FIRST[-1:], USER, "tree"),
    ("the last of seven spaces", FIRST, USER, "tree"),
    (f"the first of {MANY:,} spaces", USERS, USER, "tree"),
    (f"the last of {MANY:,} spaces", USERS, USER + MANY - 1, "tree"),
    ("one space with a hash index", FIRST[-1:], USER, "hash"),
)


def given(spaces, number, kind):
    """The program's input: the space's number, rows of spaces and of their indexes, a tuple and its key."""
    rows = [[at, OWNER, name, "memtx", 0, {}, []] for at, name, _ in spaces]
    indexes = [[at, 0, "primary", kind, {"unique": True}, parts] for at, _, parts in spaces]
    return b"".join(map(pack, (number, rows, indexes, [7, "value"], [7])))


def main():
    build()
    costs = []
    for name, spaces, number, kind in STATES:
        asked = given(spaces, number, kind)
        many, none = instructions(asked, TIMES, "select", prints=b"1"), instructions(asked, 0, "select", prints=b"0")
        costs.append((many - none) / TIMES)
        print(f"{name}: {costs[-1]:,.1f} instructions a SELECT, ratio {costs[-1] / costs[0]:.3f}", flush=True)


if __name__ == "__main__":
    main()
