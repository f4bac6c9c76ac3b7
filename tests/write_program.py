#!/usr/bin/env python3
"""Asks the built program to write, and compares each reply, byte for byte, with the one that is expected.

A line is printed for each check that fails, and the status is 0 only where none does.
"""

import sys
import tempfile
from pathlib import Path

import schema_cases
from iproto import Spelled, Wide
from operation_cases import SHAPES, UPDATES, UPDATES_FROM_ONE, UPSERTS
from program import run_checks
from steps import (
    DUPLICATE,
    FLOAT,
    KEY_CHANGED,
    LEADER,
    LONGEST,
    MAX_ROW_BODY,
    MOST,
    NO_FIELD,
    NOT_UNSIGNED,
    ROW_TOO_LONG,
    SETTINGS,
    TEST,
    block,
    converse,
    delete,
    duplicate,
    expect_journals,
    field_type,
    filling,
    has_tuples,
    insert,
    is_refusal,
    key_changed,
    key_count,
    key_type,
    no_index,
    replace,
    select,
    too_long,
    update,
    upsert,
)

SECONDS = 60
SCRATCH = Path(tempfile.mkdtemp(prefix="vurandy-"))


def new_folder():
    """A folder of its own for a check, in which a run makes its directory."""
    return Path(tempfile.mkdtemp(dir=SCRATCH))


# ---- conversations, each in a new directory

CONVERSATIONS = {
    "INSERT": (
        has_tuples(),
        insert([1, "a"]),
        select([1], [1, "a"]),
        insert([1, "b"], DUPLICATE),
        insert([1, "a"], DUPLICATE),
        # A key is known by its value.
        insert([Wide(1, 8), "b"], DUPLICATE),
        has_tuples([1, "a"]),
        insert([MOST]),
        insert([Wide(2, 4, signed=True), FLOAT, {"a": [None, True, b"\0"]}]),
        insert(Spelled(bytes.fromhex("dc000100"))),
        has_tuples(
            Spelled(bytes.fromhex("dc000100")),
            [1, "a"],
            [Wide(2, 4, signed=True), FLOAT, {"a": [None, True, b"\0"]}],
            [MOST],
        ),
        insert([MOST, 1], DUPLICATE),
        insert([0], DUPLICATE),
        # Refused by what it is, not by what is there.
        insert([], NO_FIELD),
        insert(["1"], NOT_UNSIGNED),
        insert([-1], NOT_UNSIGNED),
        insert([None], NOT_UNSIGNED),
        insert([1, LONGEST], DUPLICATE),
        insert([1, LONGEST + b"a"], too_long([1, LONGEST + b"a"])),
        select([1], [1, "a"]),
    ),
    "REPLACE": (
        replace([1, "a"]),
        select([1], [1, "a"]),
        replace([1, "b"]),
        has_tuples([1, "b"]),
        replace([Wide(1, 8), "c"]),
        has_tuples([Wide(1, 8), "c"]),
        replace([2]),
        insert([2, 1], DUPLICATE),
        has_tuples([Wide(1, 8), "c"], [2]),
        replace([], NO_FIELD),
        replace(["1"], NOT_UNSIGNED),
        replace([1, LONGEST]),
        replace([1, LONGEST + b"a"], too_long([1, LONGEST + b"a"])),
        has_tuples([1, LONGEST], [2]),
    ),
    "DELETE": (
        delete([1], []),
        insert([1, "a"]),
        insert([Wide(2, 2), "b"]),
        insert([3]),
        delete([4], []),
        delete([Wide(1, 8, signed=True)], [[1, "a"]]),
        delete([1], []),
        has_tuples([Wide(2, 2), "b"], [3]),
        insert([1, "c"]),
        delete([2], [[Wide(2, 2), "b"]]),
        delete([3], [[3]], index=0),
        has_tuples([1, "c"]),
        delete([], key_count(0, 1)),
        delete([1, 2], key_count(2, 1)),
        delete(["1"], key_type(0)),
        delete([-1], key_type(0)),
        delete([1], no_index(1), index=1),
        has_tuples([1, "c"]),
        delete([1], [[1, "c"]]),
        has_tuples(),
    ),
    "UPDATE": (
        # Where there is no tuple no operation is applied.
        update([1], [["=", 1, 2]], []),
        update([1], [["+", 9, 1]], []),
        update([1], [["=", 0, "a"]], []),
        has_tuples(),
        insert([1, 5]),
        insert([2, "b"]),
        update([Wide(1, 8)], [["+", 1, 1]], [[1, 6]]),
        update([1], [["+", 1, 1]], [[1, 7]], index=0, base=0),
        update([1], [["=", 0, 3]], KEY_CHANGED),
        # The key is judged before the other tuple is found.
        update([1], [["=", 0, 2]], KEY_CHANGED),
        update([1], [["=", 0, "a"]], NOT_UNSIGNED),
        update([1], [["=", 0, -1]], NOT_UNSIGNED),
        update([1], [["#", 0, 1]], KEY_CHANGED),
        update([1], [["#", 0, 2]], NO_FIELD),
        update([2], [["#", 0, 1]], NOT_UNSIGNED),
        update([], [], key_count(0, 1)),
        update([1, 2], [], key_count(2, 1)),
        update(["1"], [], key_type(0)),
        update([1], [], no_index(1), index=1),
        has_tuples([1, 7], [2, "b"]),
        # A key that is only spelled otherwise isn't changed.
        update([1], [["=", 0, Wide(1, 2)]], [[Wide(1, 2), 7]]),
        has_tuples([Wide(1, 2), 7], [2, "b"]),
    ),
    "UPSERT": (
        upsert([1, MOST], [["+", 1, 1], ["=", 2, "x"]]),
        has_tuples([1, MOST]),
        # An operation that fails is skipped, and those behind it are applied.
        upsert([1, 0], [["+", 1, 1], ["=", 2, "x"]]),
        has_tuples(Spelled(bytes.fromhex("9301cfffffffffffffffffa178"))),
        upsert([Wide(1, 8)], [["=", 9, 0], ["-", 1, 1], ["&", 2, 1], ["=", -1, "y"], [":", 0, 0, 0, ""]]),
        has_tuples([1, MOST - 1, "y"]),
        # The operations' result is judged, and so is the tuple that was sent, though it isn't put.
        upsert([1], [["=", 0, 2]], KEY_CHANGED),
        upsert([1], [["=", 0, "a"]], NOT_UNSIGNED),
        upsert([1], [["#", 0, 3]], NO_FIELD),
        upsert([], [["=", 1, 2]], NO_FIELD),
        upsert(["1"], [["=", 1, 2]], NOT_UNSIGNED),
        upsert([1, LONGEST + b"a"], [["=", 1, 2]], too_long([1, LONGEST + b"a"])),
        has_tuples([1, MOST - 1, "y"]),
        # The tuple is put as it was sent, whatever the operations would do to it.
        upsert(Spelled(bytes.fromhex("dc000202cc05")), [["=", 0, 7], ["#", 0, 9]]),
        upsert([3], []),
        has_tuples([1, MOST - 1, "y"], Spelled(bytes.fromhex("dc000202cc05")), [3]),
        # Without an operation that can be applied the array's head becomes the shortest.
        upsert([2], []),
        upsert([3, 4], [["+", 9, 1]]),
        has_tuples([1, MOST - 1, "y"], Spelled(bytes.fromhex("9202cc05")), [3]),
    ),
    "tuples that become too long": (
        insert([1]),
        update([1], [["=", 1, LONGEST + b"a"]], too_long([1, LONGEST + b"a"])),
        upsert([1], [["=", 1, LONGEST + b"a"]], too_long([1, LONGEST + b"a"])),
        has_tuples([1]),
        # What it is on the way doesn't count.
        update([1], [["=", 1, LONGEST + b"a"], ["=", 1, "b"]], [[1, "b"]]),
        upsert([1], [["=", 1, LONGEST + b"a"], ["=", 1, "c"]]),
        has_tuples([1, "c"]),
        update([1], [["=", 1, LONGEST]], [[1, LONGEST]]),
        update([1], [["=", 2, None]], too_long([1, LONGEST, None])),
        upsert([1], [["=", 2, None]], too_long([1, LONGEST, None])),
        update([1], [["#", 1, 1], ["=", 1, None]], [[1, None]]),
        upsert([1], [["=", 1, LONGEST]]),
        has_tuples([1, LONGEST]),
        delete([1], [[1, LONGEST]]),
        upsert([1, LONGEST], []),
        has_tuples([1, LONGEST]),
    ),
    "settings": (
        select([], LEADER, space=SETTINGS),
        insert(["a", 1], space=SETTINGS),
        insert(["a", 2], duplicate("primary", "_schema"), space=SETTINGS),
        update(["a"], [["+", 1, 1]], [["a", 2]], space=SETTINGS),
        upsert(["a"], [["+", 1, 1]], space=SETTINGS),
        upsert(["b", 1], [["+", 1, 1]], space=SETTINGS),
        replace(["c", 1], space=SETTINGS),
        replace(["c", 2], space=SETTINGS),
        # Its key is a text that begins with that of the leader, and one that the leader's begins with.
        insert(["leaders"], space=SETTINGS),
        insert(["lead"], space=SETTINGS),
        select([], ["a", 3], ["b", 1], ["c", 2], ["lead"], LEADER, ["leaders"], space=SETTINGS),
        update(["d"], [["=", 1, 1]], [], space=SETTINGS),
        update(["a"], [["=", 0, "b"]], key_changed("_schema"), space=SETTINGS),
        update(["a"], [["=", 0, 1]], field_type(0, "string"), space=SETTINGS),
        insert([1], field_type(0, "string"), space=SETTINGS),
        insert([b"a"], field_type(0, "string"), space=SETTINGS),
        insert([], NO_FIELD, space=SETTINGS),
        update([1], [], key_type(0, "string"), space=SETTINGS),
        delete([b"a"], key_type(0, "string"), space=SETTINGS),
        delete(["b"], [["b", 1]], space=SETTINGS),
        delete([Spelled(bytes.fromhex("da0001") + b"a")], [["a", 3]], space=SETTINGS),
        delete(["a"], [], space=SETTINGS),
        select([], ["c", 2], ["lead"], LEADER, ["leaders"], space=SETTINGS),
        # The space `test` has none of it.
        has_tuples(),
    ),
}


# ---- update operations


def after(before, result):
    """A SELECT of the key 1 after this result, which is a refusal or the new tuple."""
    return select([1], before if is_refusal(result) else result)


def updated(base, before, operations, result):
    """An UPDATE of a tuple of the key 1."""
    reply = result if is_refusal(result) else [result]
    return [replace(before), update([1], operations, reply, base=base), after(before, result)]


def upserted(base, before, operations, result):
    """An UPSERT of the same tuple. It skips an operation for which an UPDATE is refused."""
    if is_refusal(result) and result[0] in (29, 95):
        result = before
    refusal = result if is_refusal(result) else None
    return [replace(before), upsert([1], operations, refusal, base=base), after(before, result)]


def operations_are_applied(base, rows):
    steps = [step for row in rows for step in updated(base, *row)]
    # A refusal of several operations by one of them says nothing of the others: UPSERTS has those.
    rows = [row for row in rows if not is_refusal(row[2]) or len(row[1]) == 1]
    converse(steps + [step for row in rows for step in upserted(base, *row)])


def upserts_skip_what_fails():
    converse([step for row in UPSERTS for step in upserted(0, *row)])


def shapes_are_refused():
    # Whether the tuple is there doesn't matter, nor would the UPSERT apply any operation.
    steps = [insert([1, 5])]
    for operations, refusal in SHAPES:
        steps += [update([key], operations, refusal) for key in (1, 2)]
        steps += [upsert([key], operations, refusal) for key in (1, 2)]
    converse([*steps, has_tuples([1, 5])])


# ---- the length of a journal's row


def row_body_may_have_its_length():
    tuple_, key = [1, 0], [1]
    in_update, in_upsert = {"space": TEST, "key": key}, {"space": TEST, "tuple": tuple_}
    longest = filling("UPDATE", in_update, MAX_ROW_BODY, 1, ["=", 1, "a"])
    longer = filling("UPDATE", in_update, MAX_ROW_BODY + 1, 1, ["=", 1, "b"])
    folder = new_folder()
    steps = [
        # Without a tuple there is no row.
        update(key, longer, []),
        upsert(tuple_, filling("UPSERT", in_upsert, MAX_ROW_BODY + 1, 1), ROW_TOO_LONG),
        has_tuples(),
        upsert(tuple_, filling("UPSERT", in_upsert, MAX_ROW_BODY, 1)),
        update(key, longer, ROW_TOO_LONG),
        has_tuples(tuple_),
        update(key, longest, [[1, "a"]]),
        # The row is judged and not the request: it has neither defaults nor longer spellings of the key.
        update([Wide(1, 8)], longest, [[1, "a"]], index=0, base=0),
        update([Wide(1, 8)], longer, ROW_TOO_LONG, index=0, base=0),
        upsert(tuple_, filling("UPSERT", in_upsert, MAX_ROW_BODY + 1, 1, ["=", 1, "c"]), ROW_TOO_LONG),
        has_tuples([1, "a"]),
        upsert(tuple_, filling("UPSERT", in_upsert, MAX_ROW_BODY, 1, ["=", 1, "d"])),
        has_tuples([1, "d"]),
        # A base of 1 is in the row too.
        update(key, filling("UPDATE", {**in_update, "base": 1}, MAX_ROW_BODY, 2, ["=", 2, "e"]), [[1, "e"]], base=1),
        update(key, filling("UPDATE", in_update, MAX_ROW_BODY, 2, ["=", 2, "f"]), ROW_TOO_LONG, base=1),
        has_tuples([1, "e"]),
    ]
    converse(steps, folder)
    converse([has_tuples([1, "e"])], folder)


# ---- what a further run finds


# One step a run: the step, the type of its row and its body, if it leaves one, and the tuples that the next
# run finds, of `test` and beside the leader's of 272.
RUNS = (
    (insert([1, "a"]), "02", "8210cd0200219201a161", [[1, "a"]], []),
    (insert([1, "a"], DUPLICATE), None, None, [[1, "a"]], []),
    (replace([2, "b"]), "03", "8210cd0200219202a162", [[1, "a"], [2, "b"]], []),
    (replace([Wide(1, 2), 5]), "03", "8210cd02002192cd000105", [[Wide(1, 2), 5], [2, "b"]], []),
    (update([3], [["=", 1, 1]], []), None, None, [[Wide(1, 2), 5], [2, "b"]], []),
    (update([1], [["=", 0, 3]], KEY_CHANGED), None, None, [[Wide(1, 2), 5], [2, "b"]], []),
    # The row has the key in its shortest spelling, and no base where it is 0.
    (
        update([Wide(1, 8)], [["+", 1, Wide(2, 4)]], [[Wide(1, 2), 7]], index=0, base=0),
        "04",
        "8310cd0200209101219193a12b01ce00000002",
        [[Wide(1, 2), 7], [2, "b"]],
        [],
    ),
    (
        update([Wide(2, 1)], [[":", 2, 2, 0, "c"], ["!", -1, 9]], [[2, "bc", 9]], base=1),
        "04",
        "8410cd020015012091022192" "95a13a020200a163" "93a121ff09",
        [[Wide(1, 2), 7], [2, "bc", 9]],
        [],
    ),
    (update([2], [], [[2, "bc", 9]]), "04", "8310cd02002091022190", [[Wide(1, 2), 7], [2, "bc", 9]], []),
    (delete([3], []), None, None, [[Wide(1, 2), 7], [2, "bc", 9]], []),
    (delete([Wide(2, 4)], [[2, "bc", 9]]), "05", "8210cd0200209102", [[Wide(1, 2), 7]], []),
    (
        upsert([Wide(4, 1), "d"], [["+", 9, 9]]),
        "09",
        "8310cd02002192cc04a164" "289193a12b0909",
        [[Wide(1, 2), 7], [Wide(4, 1), "d"]],
        [],
    ),
    (
        upsert([1, 0], [["+", 3, 1], ["-", 2, 10]], base=1),
        "09",
        "8410cd02001501" "21920100" "289293a12b030193a12d020a",
        [[Wide(1, 2), -3], [Wide(4, 1), "d"]],
        [],
    ),
    (insert(["a", 1], space=SETTINGS), "02", "8210cd01102192a16101", [[Wide(1, 2), -3], [Wide(4, 1), "d"]], [["a", 1]]),
    (
        update(["a"], [["^", 1, 3]], [["a", 2]], SETTINGS),
        "04",
        "8310cd01102091a161219193a15e0103",
        [[Wide(1, 2), -3], [Wide(4, 1), "d"]],
        [["a", 2]],
    ),
    (
        upsert(["b"], [], space=SETTINGS),
        "09",
        "8310cd01102191a1622890",
        [[Wide(1, 2), -3], [Wide(4, 1), "d"]],
        [["a", 2], ["b"]],
    ),
    (
        delete([Spelled(b"\xd9\x01a")], [["a", 2]], SETTINGS),
        "05",
        "8210cd01102091a161",
        [[Wide(1, 2), -3], [Wide(4, 1), "d"]],
        [["b"]],
    ),
    (delete([4], [[Wide(4, 1), "d"]]), "05", "8210cd0200209104", [[Wide(1, 2), -3]], [["b"]]),
    (delete([1], [[Wide(1, 2), -3]]), "05", "8210cd0200209101", [], [["b"]]),
)


def rows_are_found_again():
    folder, tuples, settings = new_folder(), [], []
    journals, lsn = {0: []}, 0
    for step, kind, body, next_tuples, next_settings in RUNS:
        found = [has_tuples(*tuples), select([], *settings, LEADER, space=SETTINGS)]
        converse([*found, step], folder)
        if body is not None:
            journals[lsn].append(block(bytes.fromhex(f"8300{kind}020103{lsn + 1:02x}" + body)))
            lsn += 1
            journals[lsn] = []
        tuples, settings = next_tuples, next_settings
    converse([has_tuples(*tuples), select([], *settings, LEADER, space=SETTINGS)], folder)
    expect_journals(folder, journals)


# ---- the order of keys


def texts_are_in_order():
    # Around the lengths by which keys are kept and compared: with zeros at their ends, and where one begins another.
    texts = {"a" * size for size in range(42)}
    texts |= {"a" * size + end for size in (0, 5, 6, 7, 8, 13, 14, 15, 16, 28, 29, 30, 31) for end in ("\0", "\0\0", "b", "\u00e9")}
    rows = sorted([*([text] for text in texts), LEADER], key=lambda row: row[0].encode())
    gone = sorted(texts)[::2]
    folder = new_folder()
    mixed = sorted(texts, key=lambda text: text[::-1])
    converse([*(insert([text], space=SETTINGS) for text in mixed), select([], *rows, space=SETTINGS)], folder)
    kept = [row for row in rows if row[0] not in gone]
    converse([*(delete([text], [[text]], space=SETTINGS) for text in gone), select([], *kept, space=SETTINGS)], folder)


def spaces_are_found_again():
    folder = new_folder()
    converse(schema_cases.KEPT, folder)
    converse(schema_cases.FOUND_AGAIN, folder)


CHECKS = (
    *((f"conversation of {name}", converse, steps) for name, steps in CONVERSATIONS.items()),
    *((f"conversation of {name}", converse, steps) for name, steps in schema_cases.CONVERSATIONS.items()),
    ("rows of spaces and indexes", converse, schema_cases.ROWS),
    *((f"operations by {name}", operations_are_applied, 0, rows) for name, rows in UPDATES.items()),
    *((f"operations by {name} from 1 on", operations_are_applied, 1, rows) for name, rows in UPDATES_FROM_ONE.items()),
    ("upserts skip what fails", upserts_skip_what_fails),
    ("shapes are refused", shapes_are_refused),
    ("a row's body may have its length", row_body_may_have_its_length),
    ("rows are found again", rows_are_found_again),
    ("spaces are found again", spaces_are_found_again),
    ("texts are in order", texts_are_in_order),
)


if __name__ == "__main__":
    sys.exit(run_checks("write_program", CHECKS, SECONDS, SCRATCH))
