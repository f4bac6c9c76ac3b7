#!/usr/bin/env python3
"""Asks the built program for what it refuses, and compares each reply, byte for byte, with the one that is expected.

A line is printed for each check that fails, and the status is 0 only where none does.
"""

import re
import sys
import tempfile
from itertools import combinations
from pathlib import Path

import schema_cases
from program import ROOT, expect, run_checks
from refusal_cases import (
    EACH,
    EACH_OF_OTHER_NODE,
    LADDERS,
    LEADER_WRITES,
    NO_SPACES,
    PAIRS,
    PAIRS_OF_OTHER_NODE,
    PAIRS_WITHIN,
    SCHEMA_WRITES,
    STAGES,
    SYSTEM_WRITES,
    UNCHANGED,
    UNMET,
    UNTRIED,
)
from steps import (
    MOST,
    READ_ONLY,
    begin,
    commit,
    converse,
    delete,
    files_of,
    insert,
    journal_name,
    make_other_node,
    replace,
    select,
    update,
    upsert,
)

SECONDS = 60
REFUSALS = ROOT / "crates" / "mx_base" / "src" / "refusal.rt"


def climb(name, ladder):
    fields, steps = {}, [insert([1, MOST]), insert([2, "b"])]
    for changes, reply in ladder:
        fields = fields | changes
        steps.append((name, fields, reply))
    converse(steps)


def each_number_is_met():
    """Checks that each number that the program has for a refusal ends a row, or is known as unmet."""
    numbers = re.findall(r"Refusal::\w+.* => (\d+),", REFUSALS.read_text())
    met = {steps[-1][2][0] for steps in (*EACH, *EACH_OF_OTHER_NODE)}
    expect("numbers of refusals", sorted(map(int, numbers)), sorted(met | UNMET))


def each_pair_of_stages_is_tried():
    pairs = {f"{first} before {second}" for first, second in combinations(STAGES, 2)}
    expect("pairs that aren't tried", UNTRIED, pairs - {row[0] for row in (*PAIRS, *PAIRS_OF_OTHER_NODE)})


def first_comes_before_second(setting, step, changes, second):
    """Asks for what is refused twice, and again without the first fault."""
    name, fields, _ = step
    mended = fields | changes
    converse([*setting, step, (mended.pop("type", name), mended, second)])


def both_nodes_refuse(setting, step, refusal):
    """Asks a writable node, and one that isn't and refuses so."""
    converse([*setting, step])
    converse_with_other_node([*setting, (*step[:2], refusal)])


def refused_writes_change_nothing():
    with tempfile.TemporaryDirectory(prefix="vurandy-") as folder:
        converse([*SCHEMA_WRITES, *SYSTEM_WRITES, *LEADER_WRITES, *NO_SPACES, *UNCHANGED], Path(folder))
        # Nor is there a row of them, so that the next journal has the same name.
        converse(UNCHANGED, Path(folder))
        expect("journals", [journal_name(0)], files_of(Path(folder)))


def converse_with_other_node(steps):
    """Asks these steps of a node that isn't writable, and checks each reply."""
    with tempfile.TemporaryDirectory(prefix="vurandy-") as folder:
        make_other_node(Path(folder))
        converse(steps, Path(folder))


def other_nodes_take_no_writes():
    converse_with_other_node(
        (
            # The space isn't looked for.
            insert([], READ_ONLY, 513),
            replace([], READ_ONLY, 513),
            update([], [], READ_ONLY, 513),
            delete([], READ_ONLY, 513),
            upsert([], [], READ_ONLY, 513),
            insert([1], READ_ONLY),
            replace([1], READ_ONLY),
            update([1], [], READ_ONLY),
            delete([1], READ_ONLY),
            upsert([1], [], READ_ONLY),
            # Nor do its transactions, which may read and commit.
            begin(),
            insert([1], READ_ONLY, stream=1),
            select([], stream=1),
            delete([1], READ_ONLY, stream=1),
            commit(),
            *UNCHANGED,
        )
    )


CHECKS = (
    ("each number of a refusal is met", each_number_is_met),
    *((f"refusal {steps[-1][2]}", converse, steps) for steps in EACH),
    *((f"refusal {steps[-1][2]}", converse_with_other_node, steps) for steps in EACH_OF_OTHER_NODE),
    ("each pair of stages is tried", each_pair_of_stages_is_tried),
    *((pair, first_comes_before_second, *row) for pair, *row in (*PAIRS, *PAIRS_WITHIN)),
    *((pair, both_nodes_refuse, *row) for pair, *row in PAIRS_OF_OTHER_NODE),
    *(
        (f"order of the refusals of {name}", climb, name.split()[0], ladder)
        for name, ladder in (LADDERS | schema_cases.LADDERS).items()
    ),
    ("refused writes change nothing", refused_writes_change_nothing),
    ("other nodes take no writes", other_nodes_take_no_writes),
)


if __name__ == "__main__":
    sys.exit(run_checks("refusal_program", CHECKS, SECONDS))
