#!/usr/bin/env python3
"""Asks the built program for transactions in streams, and compares each reply, byte for byte, with the one that is
expected, and the journals with the rows that are due.

A line is printed for each check that fails, and the status is 0 only where none does.
"""

import sys
import tempfile
from collections import Counter, deque
from itertools import repeat
from pathlib import Path
from random import Random

from iproto import (
    SYNC,
    TYPE,
    Spelled,
    Wide,
    close_unit,
    input_unit,
    ok_reply,
    output_unit,
    output_units,
    packet,
    request,
    tuples_reply,
)
from program import GREETING, output_of, run_checks
from schema_cases import BY_NAME, FIRST, OWN, PRIMARY
from steps import (
    ALL_OF_CONNECTION,
    ALL_OPEN,
    CLUSTER,
    CONFLICT,
    DUPLICATE,
    IN_TRANSACTION,
    INDEXES,
    MAX_ROW_BODY,
    MOST,
    NOT_MESSAGEPACK,
    OK,
    ROW_TOO_LONG,
    SHOWN_INDEXES,
    SHOWN_SPACES,
    SPACE_ROWS,
    SPACES,
    SYSTEM_WRITE,
    TEST,
    TRANSACTION_OPEN,
    add_index,
    add_space,
    asked_by,
    begin,
    block,
    close,
    commit,
    converse,
    delete,
    drop_index,
    drop_space,
    due_to,
    expect_bytes,
    expect_journals,
    filling,
    has_tuples,
    illegal,
    index_row,
    insert,
    replace,
    rollback,
    rows_of,
    select,
    space_exists,
    space_row,
    transaction,
    update,
    upsert,
)

SECONDS = 60
SCRATCH = Path(tempfile.mkdtemp(prefix="vurandy-"))
# Limits of a transaction. Each row counts as 32 bytes more than its body has.
MAX_ROWS, MAX_BYTES, ROW_BYTES = 4_096, 4_194_304, 32
# A packet that is none.
NO_PACKET = bytes.fromhex("06 8200400107 c1")


def new_folder():
    """A folder of its own for a check, in which a run makes its directory."""
    return Path(tempfile.mkdtemp(dir=SCRATCH))


def bad_packet(connection):
    """A step with a packet that isn't MessagePack, which ends its connection."""
    return select([Spelled(b"\xc1")], NOT_MESSAGEPACK, connection=connection)


# ---- conversations, each in a new directory

ALL_BEGUN = tuple(begin(stream, connection=connection) for connection in range(1, 17) for stream in range(1, 65))
# A transaction of stream 1 that has read a key and has a row, when the key is put.
DOOMED = (begin(), select([50], stream=1), insert([60], stream=1), insert([50], connection=2))
OWN_ROW = space_row(OWN, "own")
SECOND = index_row(TEST, 1, "second", [[1, "string"]])

CONVERSATIONS = {
    "a row in a gap that was read conflicts": (
        insert([10], connection=2),
        insert([20], connection=2),
        begin(),
        select([10], [10], [20], iterator="GE", limit=2, stream=1),
        insert([30], stream=1),
        insert([15], connection=2),
        commit(reply=CONFLICT),
        select([30]),
        commit(),
    ),
    "a row behind the last one that was read doesn't conflict": (
        insert([10], connection=2),
        insert([20], connection=2),
        begin(),
        select([10], [10], [20], iterator="GE", limit=2, stream=1),
        insert([30], stream=1),
        insert([25], connection=2),
        commit(),
        has_tuples([10], [20], [25], [30]),
    ),
    "a read view lasts until its first write": (
        insert([1, "a"], connection=2),
        begin(),
        select([1], [1, "a"], stream=1),
        replace([1, "b"], connection=2),
        select([1], [1, "a"], stream=1),
        replace([2], CONFLICT, stream=1),
        select([1], CONFLICT, stream=1),
        rollback(),
        select([1], [1, "b"], stream=1),
    ),
    "a read view commits": (
        insert([1, "a"], connection=2),
        begin(),
        select([1], [1, "a"], stream=1),
        replace([1, "b"], connection=2),
        select([1], [1, "a"], stream=1),
        commit(),
        select([1], [1, "b"], stream=1),
    ),
    "an INSERT that fails has read its key": (
        insert([1], connection=2),
        begin(),
        insert([30], stream=1),
        insert([1], DUPLICATE, stream=1),
        delete([1], [[1]], connection=2),
        commit(reply=CONFLICT),
        has_tuples(),
    ),
    "64 transactions of a connection and 1,024 in all may be open": (
        *ALL_BEGUN,
        begin(1, ALL_OPEN, connection=17),
        begin(65, ALL_OF_CONNECTION),
        replace([1], connection=17),
        rollback(9, connection=3),
        begin(1, connection=17),
        # All are open again, and the stream comes before the connection, and this before all.
        begin(64, TRANSACTION_OPEN),
        begin(9, ALL_OPEN, connection=3),
        begin(1, TRANSACTION_OPEN, connection=17),
        # A commit frees a place as a rollback does, and so does a close.
        commit(64),
        begin(2, connection=17),
        begin(64, ALL_OPEN),
        close(2),
        begin(64),
        begin(65, ALL_OF_CONNECTION),
        begin(65, connection=2),
    ),
    "a dropped index dooms a read view": (
        add_index(BY_NAME),
        replace([1, "a"]),
        replace([2, "b"]),
        begin(),
        select([1], [1, "a"], stream=1),
        replace([1, "z"], connection=2),
        delete([TEST, 1], [BY_NAME], INDEXES, connection=2),
        select([1], CONFLICT, stream=1),
    ),
    "a stream has one transaction": (
        begin(),
        insert([1], stream=1),
        begin(reply=TRANSACTION_OPEN),
        select([1], [1], stream=1),
        begin(2),
        begin(1, connection=2),
        commit(),
        begin(),
        begin(reply=TRANSACTION_OPEN),
        rollback(),
        begin(),
    ),
    "BEGIN, COMMIT and ROLLBACK need a stream": (
        *(step(stream, illegal(0x0A)) for stream in (None, 0) for step in (begin, commit, rollback)),
        begin(MOST),
        replace([1], stream=MOST),
        select([1]),
        commit(MOST),
        select([1], [1]),
    ),
    "a stream may be spelled in any width": (
        begin(Wide(7, 8)),
        replace([1], stream=Wide(7, 1)),
        begin(7, TRANSACTION_OPEN),
        select([1]),
        commit(Wide(7, 4, signed=True)),
        select([1], [1]),
    ),
    "there is one level of isolation, under five numbers": (
        *(step for level in range(5) for step in (begin(isolation=level), begin(reply=TRANSACTION_OPEN), rollback())),
        *(begin(reply=illegal(0x59), isolation=level) for level in (5, -1, "a", None)),
        # How long it may take isn't looked at.
        begin(timeout="a while"),
        begin(2, timeout=-1, isolation=2),
    ),
    "COMMIT and ROLLBACK without a transaction change nothing": (
        commit(),
        rollback(),
        insert([1], stream=1),
        rollback(),
        commit(),
        begin(2),
        commit(),
        insert([2], stream=2),
        rollback(),
        commit(1, connection=2),
        commit(2, connection=2),
        has_tuples([1]),
        commit(2),
        commit(2),
        rollback(2),
        has_tuples([1], [2]),
    ),
    "requests without a space are answered in any transaction": (
        *DOOMED,
        ("PING", {"stream": 1}, OK),
        ("NOP", {"stream": 1}, OK),
        (8, {"stream": 1}, (48, "Unknown request type 8")),
        (7, {"stream": 1}, (5, "Unsupported: authentication")),
        commit(reply=CONFLICT),
    ),
    "rows of spaces and indexes aren't written in a transaction": (
        begin(),
        insert([1], stream=1),
        *(
            step
            for space, row, key in ((SPACES, OWN_ROW, [OWN]), (INDEXES, SECOND, [TEST, 1]))
            for step in (
                insert(row, IN_TRANSACTION, space, stream=1),
                replace(row, IN_TRANSACTION, space, stream=1),
                update(key, [], IN_TRANSACTION, space, stream=1),
                delete(key, IN_TRANSACTION, space, stream=1),
                upsert(row, [], IN_TRANSACTION, space, stream=1),
                # Nothing else of it is looked at.
                insert([], IN_TRANSACTION, space, stream=1),
                insert([1], IN_TRANSACTION, space, stream=1),
                delete(["a", "b", "c"], IN_TRANSACTION, space, stream=1, index=9),
            )
        ),
        # What the database shows or writes itself is refused as elsewhere.
        *(insert([1], SYSTEM_WRITE, space, stream=1) for space in (SHOWN_SPACES, SHOWN_INDEXES, CLUSTER)),
        select([TEST], SPACE_ROWS[-1], space=SPACES, stream=1),
        insert([2], stream=1),
        insert(OWN_ROW, space=SPACES, stream=2),
        commit(),
        has_tuples([1], [2]),
        insert(PRIMARY, space=INDEXES, stream=1),
    ),
    "a schema row in a transaction doesn't doom it": (
        insert([1]),
        begin(),
        select([1], [1], stream=1),
        delete([1], [[1]], connection=2),
        delete([TEST, 0], IN_TRANSACTION, INDEXES, stream=1),
        select([1], [1], stream=1),
        commit(),
    ),
    "a COMMIT that conflicts ends its transaction": (
        *DOOMED,
        select([60], CONFLICT, stream=1),
        replace([70], CONFLICT, stream=1),
        insert(OWN_ROW, IN_TRANSACTION, SPACES, stream=1),
        begin(reply=TRANSACTION_OPEN),
        commit(reply=CONFLICT),
        commit(),
        has_tuples([50]),
        begin(),
        select([60], stream=1),
        insert([60], stream=1),
        commit(),
        has_tuples([50], [60]),
    ),
    "a doomed transaction is rolled back": (
        *DOOMED,
        rollback(),
        rollback(),
        commit(),
        has_tuples([50]),
        begin(),
        insert([60], stream=1),
        commit(),
        has_tuples([50], [60]),
    ),
    "a close rolls back": (
        begin(1),
        begin(2),
        insert([1], stream=1),
        insert([2], stream=2),
        begin(1, connection=2),
        insert([3], stream=1, connection=2),
        close(),
        select([], connection=3),
        begin(1),
        begin(2),
        select([], stream=1),
        commit(1),
        commit(2),
        commit(1, connection=2),
        has_tuples([3]),
    ),
    "a close conflicts with nobody, and ends what is doomed": (
        *DOOMED,
        begin(1, connection=3),
        select([70], stream=1, connection=3),
        insert([80], stream=1, connection=3),
        begin(1, connection=4),
        insert([70], stream=1, connection=4),
        close(4),
        commit(1, connection=3),
        close(),
        commit(),
        begin(),
        select([60], stream=1),
        has_tuples([50], [80]),
    ),
    "streams are free again on a connection that opens anew": (
        *(begin(stream) for stream in range(1, 65)),
        begin(65, ALL_OF_CONNECTION),
        close(),
        *(begin(stream) for stream in range(1, 65)),
        begin(65, ALL_OF_CONNECTION),
    ),
    "a packet that is none rolls back": (
        begin(1),
        begin(2),
        insert([5], stream=1),
        insert([6], stream=2),
        bad_packet(1),
        select([], connection=2),
        begin(1, connection=2),
        close(),
        begin(1),
        begin(2),
        select([5], stream=1),
        insert([7], stream=1),
        commit(1),
        commit(2),
        has_tuples([7]),
    ),
    "the end of a connection frees its places at once": (
        *ALL_BEGUN,
        begin(1, ALL_OPEN, connection=17),
        bad_packet(3),
        *(begin(stream, connection=17) for stream in range(1, 65)),
        begin(65, ALL_OF_CONNECTION, connection=17),
        begin(1, ALL_OPEN, connection=18),
    ),
    "a commit of rows doesn't change the version of the schema": (
        begin(1),
        replace([1], stream=1),
        begin(1, connection=2),
        add_space(FIRST),
        select([1], [1], stream=1),
        commit(1),
        begin(1),
        replace([2], stream=1),
        add_index(PRIMARY),
        insert([3], connection=2),
        add_space(FIRST, space_exists("first")),
        insert(OWN_ROW, IN_TRANSACTION, SPACES, stream=1),
        insert([7], space=OWN, stream=1),
        commit(1),
        commit(1, connection=2),
        begin(1),
        begin(reply=TRANSACTION_OPEN),
        select([], [7], space=OWN, stream=1),
        drop_index(OWN, 0, [PRIMARY]),
        select([], CONFLICT, space=OWN, stream=1),
        commit(reply=CONFLICT),
        drop_space(OWN, [FIRST]),
        drop_space(OWN, []),
        rollback(),
        has_tuples([1], [2], [3]),
    ),
    "requests outside of transactions commit beside them": (
        insert([1, "a"], connection=2),
        begin(1),
        begin(2),
        begin(3),
        select([1], [1, "a"], stream=1),
        select([1], [1, "a"], stream=2),
        insert([7], stream=2),
        select([5], stream=3),
        insert([8], stream=3),
        # On the same connection, in a stream without a transaction.
        replace([1, "b"], stream=4),
        select([1], [1, "a"], stream=1),
        select([7], CONFLICT, stream=2),
        select([1], [1, "b"], stream=3),
        update([1], [["=", 1, "c"]], [[1, "c"]], connection=2),
        upsert([4], [], connection=2),
        select([], [1, "a"], stream=1),
        select([4], [4], connection=3),
        # Stream 3 has read the key 1 by now.
        commit(3, CONFLICT),
        delete([1], [[1, "c"]]),
        select([1], [1, "a"], stream=1),
        commit(1),
        commit(2, CONFLICT),
        has_tuples([4]),
    ),
}

# ---- replies and journals whose bytes are spelled by hand


def output_is(folder, units, *expected):
    """Checks the whole output of these units."""
    expect_bytes("output", b"".join(expected), output_of(folder, units))


def by_hand(digits):
    return bytes.fromhex(digits)


def a_packet_that_is_none_rolls_back():
    folder = new_folder()
    refused = by_hand("ce00000033 8300ce0000801401cf000000000000000705ce00000000 8131b9")
    output_is(
        folder,
        (
            input_unit(request("BEGIN", 1, 1) + request("REPLACE", 2, 1, space=TEST, tuple=[5])),
            # What stands behind it isn't read, nor is what comes before the close.
            input_unit(NO_PACKET + request("COMMIT", 3, 1)),
            input_unit(request("COMMIT", 4, 1)),
            input_unit(request("SELECT", 5, space=TEST, key=[5]), 2),
            close_unit(),
            input_unit(request("COMMIT", 6, 1) + request("BEGIN", 7, 1)),
        ),
        output_unit(GREETING + ok_reply(1) + tuples_reply(2, [5])),
        output_unit(refused + b"Packet is not MessagePack"),
        by_hand("00000001 00000000"),
        output_unit(GREETING + tuples_reply(5), 2),
        output_unit(GREETING + ok_reply(6) + ok_reply(7)),
    )
    expect_journals(folder, {0: []})
    converse([has_tuples()], folder)


# Requests, and the type, the sync and the body of the reply in hexadecimal digits.
REFUSED = (
    (request("SELECT", 9, space=513, key=[]), "8024", "09", "8131b8", "Space 513 does not exist"),
    (packet({SYNC: 1}), "8030", "01", "8131b6", "Unknown request type 0"),
    (request("SELECT", 2, space=TEST), "8045", "02", "8131b0", "Missing key 0x20"),
    (request("BEGIN", 3, 0), "8001", "03", "8131b9", "Illegal value of key 0x0a"),
    (packet({TYPE: 14, SYNC: 4}), "8001", "04", "8131b9", "Illegal value of key 0x0a"),
    (request("COMMIT", 5, 0), "8001", "05", "8131b9", "Illegal value of key 0x0a"),
    (request("ROLLBACK", 6), "8001", "06", "8131b9", "Illegal value of key 0x0a"),
)


def refusals_are_exact():
    for asked, kind, sync, body, text in REFUSED:
        head = by_hand(f"8300ce0000{kind}01cf00000000000000{sync}05ce00000000{body}")
        size = by_hand("ce") + (len(head) + len(text)).to_bytes(4, "big")
        output_is(new_folder(), [input_unit(asked)], output_unit(GREETING + size + head + text.encode()))


def replies_of_a_transaction_are_exact():
    begun, ended = (
        by_hand(f"ce00000018 8300ce0000000001cf00000000000000{sync}05ce00000000 80") for sync in ("01", "03")
    )
    refused = by_hand("ce0000003d 8300ce0000804f01cf000000000000000405ce00000000 8131d922")
    output_is(
        new_folder(),
        (
            input_unit(by_hand("07 83000e01010a05") + by_hand("11 83000301020a05 8210cd0200219201a161")),
            input_unit(by_hand("07 83000f01030a05")),
            input_unit(request("BEGIN", 1, 5) + request("BEGIN", 4, 5)),
        ),
        output_unit(GREETING + begun + tuples_reply(2, [1, "a"])),
        output_unit(ended),
        output_unit(begun + refused + b"Transaction is open in this stream"),
    )


def later_commits_stand_behind_earlier_ones():
    folder = new_folder()
    steps = (
        begin(),
        begin(1, connection=2),
        replace([1, "a"], stream=1),
        replace([1, "b"], stream=1, connection=2),
        commit(),
        commit(1, connection=2),
        select([1], [1, "b"]),
    )
    converse(steps, folder)
    rows = [block(by_hand(f"8300030201030{lsn} 8210cd020021 9201a1{text}")) for lsn, text in ((1, "61"), (2, "62"))]
    expect_journals(folder, {0: rows})
    converse([select([1], [1, "b"])], folder)
    expect_journals(folder, {0: rows, 2: []})


def a_transaction_is_one_block():
    folder = new_folder()
    in_second = (insert([2], stream=2), update([2], [["=", 1, "b"]], [[2, "b"]], stream=2), upsert([5], [], stream=2))
    in_second += (delete([5], [[5]], stream=2),)
    alone, in_first = insert([4], stream=7), replace([1, "a"], stream=1)
    steps = (
        begin(1),
        begin(2),
        begin(3),
        in_first,
        in_second[0],
        replace([3], stream=3),
        alone,
        in_second[1],
        # What finds no tuple leaves no row, and what is refused doesn't either.
        delete([9], [], stream=2),
        insert([2], DUPLICATE, stream=2),
        *in_second[2:],
        commit(2),
        rollback(3),
        commit(1),
        begin(3),
        commit(3),
    )
    converse(steps, folder)
    rows = [transaction(1, alone), transaction(2, *in_second), transaction(6, in_first)]
    expect_bytes(
        "the block of four rows",
        block(
            by_hand("84000202010302 0800 8210cd0200219102")
            + by_hand("84000402010303 0801 8310cd02002091022191 93a13d01a162")
            + by_hand("84000902010304 0802 8310cd020021910528 90")
            + by_hand("85000502010305 08030901 8210cd0200209105")
        ),
        rows[1],
    )
    expect_journals(folder, {0: rows})
    converse([has_tuples([1, "a"], [2, "b"], [4])], folder)


# ---- limits


def a_transaction_may_have_its_rows():
    folder = new_folder()
    rows = [[key, "a"] for key in range(MAX_ROWS)]
    puts = [replace(row, stream=1) for row in rows]
    converse([begin(), *puts, commit(), begin(), insert([MAX_ROWS], stream=1), commit()], folder)
    blocks = [transaction(1, *puts), transaction(MAX_ROWS + 1, insert([MAX_ROWS]))]
    expect_journals(folder, {0: blocks})
    converse([has_tuples(*rows, [MAX_ROWS])], folder)
    expect_journals(folder, {0: blocks, MAX_ROWS + 1: []})


def a_row_more_is_refused():
    folder = new_folder()
    rows = [[key, "a"] for key in range(MAX_ROWS)]
    more, new = [MAX_ROWS], [[1, "b"]]
    steps = [
        begin(),
        *(insert(row, stream=1) for row in rows),
        replace(more, ROW_TOO_LONG, stream=1),
        replace([1, "b"], ROW_TOO_LONG, stream=1),
        insert(more, ROW_TOO_LONG, stream=1),
        update([1], [["=", 1, "b"]], ROW_TOO_LONG, stream=1),
        upsert([1], [], ROW_TOO_LONG, stream=1),
        delete([1], ROW_TOO_LONG, stream=1),
        # What leaves no row, and what is refused before.
        delete(more, [], stream=1),
        update(more, [["=", 1, "b"]], [], stream=1),
        insert([1], DUPLICATE, stream=1),
        # Another transaction isn't limited by it.
        begin(2),
        replace([9_999], stream=2),
        commit(2),
        select([], *rows, [9_999], stream=1),
        commit(),
        update([1], [["=", 1, "b"]], new, stream=1),
    ]
    converse(steps, folder)
    found = [*rows[:1], *new, *rows[2:], [9_999]]
    converse([has_tuples(*found)], folder)


def long_update(size, text):
    """An UPDATE of the key 1 in stream 1 that sets a text, by a row whose body has so many bytes."""
    operations = filling("UPDATE", {"space": TEST, "key": [1]}, size, 1, ["=", 1, text])
    return update([1], operations, [[1, text]], stream=1)


def refused(step, refusal):
    """The same step with a refusal."""
    return *step[:2], refusal


def a_row_may_have_its_length():
    folder = new_folder()
    steps = (
        insert([1, 0]),
        begin(),
        refused(long_update(MAX_ROW_BODY + 1, "a"), ROW_TOO_LONG),
        select([1], [1, 0], stream=1),
        long_update(MAX_ROW_BODY, "b"),
        refused(long_update(MAX_ROW_BODY + 1, "c"), ROW_TOO_LONG),
        select([1], [1, "b"], stream=1),
        # Two of them fill the transaction.
        long_update(MAX_ROW_BODY, "d"),
        replace([2], ROW_TOO_LONG, stream=1),
        delete([1], ROW_TOO_LONG, stream=1),
        delete([2], [], stream=1),
        select([], [1, "d"], stream=1),
        select([], [1, 0], connection=2),
        commit(),
        has_tuples([1, "d"]),
    )
    converse(steps, folder)
    converse([has_tuples([1, "d"])], folder)


def a_transaction_may_have_its_bytes():
    folder = new_folder()
    # The body of a REPLACE of [2] has 8 bytes.
    left = MAX_BYTES - (8 + ROW_BYTES) - (MAX_ROW_BODY + ROW_BYTES) - ROW_BYTES
    steps = (
        insert([1, 0]),
        begin(),
        replace([2], stream=1),
        long_update(MAX_ROW_BODY, "a"),
        refused(long_update(left + 1, "b"), ROW_TOO_LONG),
        select([], [1, "a"], [2], stream=1),
        long_update(left, "c"),
        replace([3], ROW_TOO_LONG, stream=1),
        delete([2], ROW_TOO_LONG, stream=1),
        select([], [1, "c"], [2], stream=1),
        commit(),
        replace([3], stream=1),
        begin(),
        refused(long_update(MAX_ROW_BODY + 1, "d"), ROW_TOO_LONG),
        replace([4], stream=1),
        commit(),
        has_tuples([1, "c"], [2], [3], [4]),
    )
    converse(steps, folder)
    converse([has_tuples([1, "c"], [2], [3], [4])], folder)


# ---- what isn't committed at the end

LEFT_OPEN = (
    begin(1),
    replace([1], stream=1),
    begin(1, connection=2),
    replace([2], stream=1, connection=2),
    begin(2),
    insert([3], stream=2),
    rollback(2),
    select([]),
)


def the_end_of_the_input_rolls_back():
    folder = new_folder()
    converse(LEFT_OPEN, folder)
    expect_journals(folder, {0: []})
    converse([has_tuples(), begin(1), insert([4], stream=1), commit(1), *LEFT_OPEN[:-1]], folder)
    expect_journals(folder, {0: [transaction(1, insert([4]))]})
    converse([has_tuples([4]), begin(1), replace([4, "b"], stream=1)], folder)
    converse([has_tuples([4])], folder)


def a_malformed_unit_rolls_back():
    folder = new_folder()
    units = [input_unit(packet_, connection) for connection, packet_ in asked_by(LEFT_OPEN)]
    output_of(folder, [*units, b"\x05"], 1, f"BadInput {len(b''.join(units))}")
    expect_journals(folder, {0: []})
    converse([has_tuples()], folder)


def a_commit_that_is_cut_off_commits_nothing():
    folder = new_folder()
    given = request("BEGIN", 1, 1) + request("REPLACE", 2, 1, space=TEST, tuple=[1]) + request("COMMIT", 3, 1)[:-1]
    replies = output_unit(GREETING + ok_reply(1) + tuples_reply(2, [1]))
    # By the end of the input, and by a close.
    output_is(folder, [input_unit(given)], replies)
    again = (close_unit(), input_unit(request("COMMIT", 4, 1)))
    output_is(folder, [input_unit(given), *again], replies, output_unit(GREETING + ok_reply(4)))
    expect_journals(folder, {0: []})
    converse([has_tuples()], folder)


# ---- packets in pieces, and several in one

ASKED_BY_TWO = (
    insert([10]),
    insert([20], connection=2),
    begin(1),
    begin(1, connection=2),
    begin(2),
    select([], [10], [20], stream=1),
    replace([1, "a"], stream=2),
    replace([1, "b"], stream=1, connection=2),
    commit(1, connection=2),
    select([], [10], [20], stream=1),
    select([], [1, "b"], [10], [20], connection=2),
    commit(2),
    insert([30], CONFLICT, stream=1),
    select([30], CONFLICT, stream=1),
    rollback(1),
    begin(1, connection=2),
    upsert([2, 0], [["+", 1, 1]], stream=1, connection=2),
    begin(1),
    delete([10], [[10]], stream=1, connection=2),
    select([2], stream=1),
    commit(1, connection=2),
    insert([3], CONFLICT, stream=1),
    commit(1, CONFLICT),
    has_tuples([1, "a"], [2, 0], [20]),
)


def cut(asked, sizes):
    """The units of packets that come in pieces of these sizes.

    Between two pieces of a packet comes one of each other connection's next packet, but never its last byte, so that
    the packets are whole in their order.
    """
    waiting, sent = {connection: deque() for connection, _ in asked}, Counter()
    for connection, packet_ in asked:
        waiting[connection].append(packet_)
    for connection, packet_ in asked:
        while sent[connection] < len(packet_):
            for one, packets in waiting.items():
                most = len(packets[0]) - (one != connection) if packets else 0
                end = min(sent[one] + next(sizes), most)
                if end > sent[one]:
                    yield input_unit(packets[0][sent[one] : end], one)
                    sent[one] = end
        waiting[connection].popleft()
        sent[connection] = 0


def random_sizes(seed):
    random = Random(seed)
    while True:
        yield random.randrange(1, 16)


def packets_may_come_in_pieces(sizes):
    folder, asked = new_folder(), asked_by(ASKED_BY_TWO)
    due, seen = {1: GREETING, 2: GREETING}, {1: b"", 2: b""}
    for (connection, _), replies in zip(asked, due_to(ASKED_BY_TWO)):
        due[connection] += b"".join(replies)
    for connection, content in output_units(output_of(folder, cut(asked, sizes))):
        seen[connection] += content
    for connection, replies in due.items():
        expect_bytes(f"replies of connection {connection}", replies, seen[connection])
    converse([has_tuples([1, "a"], [2, 0], [20])], folder)


ASKED_AT_ONCE = (
    begin(1),
    begin(2),
    insert([1], stream=1),
    insert([2], stream=2),
    select([1], stream=2),
    select([2]),
    commit(1),
    insert([3], CONFLICT, stream=2),
    commit(2, CONFLICT),
    begin(2),
    insert([2], stream=2),
    commit(2),
    begin(2),
    insert([4], stream=2),
    rollback(2),
    has_tuples([1], [2]),
    begin(1),
    insert([5], stream=1),
)


def packets_may_come_at_once():
    folder = new_folder()
    asked = b"".join(packet_ for _, packet_ in asked_by(ASKED_AT_ONCE))
    due = b"".join(content for contents in due_to(ASKED_AT_ONCE) for content in contents)
    output_is(folder, [input_unit(asked)], output_unit(GREETING + due))
    expect_journals(folder, {0: [block(rows_of(1, insert([1])) + rows_of(2, insert([2])))]})
    converse([has_tuples([1], [2])], folder)


CHECKS = (
    *((f"conversation: {name}", converse, steps) for name, steps in CONVERSATIONS.items()),
    ("a packet that is none rolls back", a_packet_that_is_none_rolls_back),
    ("refusals are exact", refusals_are_exact),
    ("replies of a transaction are exact", replies_of_a_transaction_are_exact),
    ("later commits stand behind earlier ones", later_commits_stand_behind_earlier_ones),
    ("a transaction is one block", a_transaction_is_one_block),
    ("a transaction may have its rows", a_transaction_may_have_its_rows),
    ("a row more is refused", a_row_more_is_refused),
    ("a row may have its length", a_row_may_have_its_length),
    ("a transaction may have its bytes", a_transaction_may_have_its_bytes),
    ("the end of the input rolls back", the_end_of_the_input_rolls_back),
    ("a malformed unit rolls back", a_malformed_unit_rolls_back),
    ("a COMMIT that is cut off commits nothing", a_commit_that_is_cut_off_commits_nothing),
    ("packets may come byte by byte", packets_may_come_in_pieces, repeat(1)),
    *(("packets may come in pieces", packets_may_come_in_pieces, random_sizes(seed)) for seed in range(8)),
    ("packets may come at once", packets_may_come_at_once),
)


if __name__ == "__main__":
    sys.exit(run_checks("streams_program", CHECKS, SECONDS, SCRATCH))
