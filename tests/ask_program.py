#!/usr/bin/env python3
"""Asks the built program on its connections, and prints a line for each check.

Each answer is compared, byte for byte, with the one that is expected. It ends with status 0 only where
all checks pass.
"""

import subprocess
import sys
import tempfile

from iproto import (
    KEYS,
    SEED,
    STREAM,
    SYNC,
    TYPE,
    Pairs,
    Spelled,
    Wide,
    close_unit,
    contents,
    error_reply,
    id_reply,
    input_unit,
    ok_reply,
    output_unit,
    packet,
    request,
    tuples_reply,
)
from program import GREETING, PROGRAM, TRACE, environment, is_built

SECONDS = 20
TUPLE = [1, "a"]
REPLACE = request("REPLACE", 1, space=512, tuple=TUPLE)
SELECT = request("SELECT", 2, space=512, limit=10, iterator="EQ", key=[1])
# A PING without a sync and without a body, and its reply.
PING = packet({TYPE: 64}, width=0)
PONG = ok_reply()
NO_PACKET = (20, "Packet is not MessagePack")
UUID = "00010203-0405-4607-8809-0a0b0c0d0e0f"
# What the server says when it ends connection 1.
ENDED = output_unit(b"")


def spelled(digits):
    """A value by the hexadecimal digits of its spelling."""
    return Spelled(bytes.fromhex(digits))


def ask_in(folder, units):
    """What the program answers to these units in a folder's directory, and its status."""
    ended = subprocess.run(
        [PROGRAM, *TRACE],
        input=b"".join(units),
        capture_output=True,
        cwd=folder,
        env=environment(SEED),
        timeout=SECONDS,
    )
    return ended.stdout, ended.returncode


def ask(units):
    """The same in a new directory."""
    with tempfile.TemporaryDirectory() as folder:
        return ask_in(folder, units)


def compare(answered, expected, status=0, what=""):
    """Checks an output and a status."""
    output, ended = answered
    assert ended == status, f"{what}: status {ended}"
    assert output == b"".join(expected), f"{what}: {output[-200:].hex()}"


def expect(units, expected, status=0, what=""):
    """Checks the whole output of these units, and the status."""
    compare(ask(units), expected, status, what)


def any_cut_gives_the_same_bytes():
    asked, expected = REPLACE + SELECT, GREETING + tuples_reply(1, TUPLE) + tuples_reply(2, TUPLE)
    for cut in range(1, len(asked)):
        output, status = ask([input_unit(asked[:cut]), input_unit(asked[cut:])])
        assert status == 0, f"cut at {cut}: status {status}"
        assert b"".join(contents(output)) == expected, f"cut at {cut}"


# Requests with sync 1, and the number and the text that refuse them.
REFUSED = (
    (request("SELECT", 1, space=513, key=[]), 36, "Space 513 does not exist"),
    (request("REPLACE", 1, space=7, tuple=[1]), 36, "Space 7 does not exist"),
    (packet({SYNC: 1}), 48, "Unknown request type 0"),
    (packet({TYPE: 2**64 - 1, SYNC: 1}), 48, "Unknown request type 18446744073709551615"),
    (packet({TYPE: 8, SYNC: 1}, {}), 48, "Unknown request type 8"),
    (packet({TYPE: "a", SYNC: 1}), 1, "Illegal value of key 0x00"),
    (packet({TYPE: 7, SYNC: 1}, {}), 5, "Unsupported: authentication"),
    # The type comes before the header's other keys, these before the body's, and these in ascending order.
    (packet({STREAM: -1, TYPE: 8, SYNC: 1}), 48, "Unknown request type 8"),
    (packet({STREAM: -1, TYPE: 7, SYNC: 1}), 5, "Unsupported: authentication"),
    (packet({STREAM: -1, TYPE: 1, SYNC: 1}), 1, "Illegal value of key 0x0a"),
    (request("SELECT", 1, key=7, index=-1), 69, "Missing key 0x10"),
    (request("SELECT", 1, key=7, index=-1, space=513), 1, "Illegal value of key 0x11"),
    (request("SELECT", 1, key=7, space=513), 1, "Illegal value of key 0x20"),
    (request("SELECT", 1, space=512), 69, "Missing key 0x20"),
    (packet({TYPE: 1, SYNC: 1}, {}), 69, "Missing key 0x10"),
    (request("SELECT", 1, space=512, iterator=7, key=[]), 1, "Illegal value of key 0x14"),
    # What comes first is reported: the space, the index, the number of parts, and the part.
    (request("SELECT", 1, space=513, index=1, key=[-1, 1]), 36, "Space 513 does not exist"),
    (request("SELECT", 1, space=512, index=1, key=[-1, 1]), 35, 'No index 1 in space "test"'),
    (request("SELECT", 1, space=512, index=2**32 - 1, key=[]), 35, 'No index 4294967295 in space "test"'),
    (request("SELECT", 1, space=280, index=1, key=[]), 35, 'No index 1 in space "_space"'),
    (request("SELECT", 1, space=289, index=2, key=[0, 0]), 18, "Key part 1: string expected"),
    (request("REPLACE", 1, space=280, tuple=[1]), 5, "Unsupported: change of a schema row in place"),
    (request("REPLACE", 1, space=281, tuple=[1]), 5, "Unsupported: write to a system space"),
    (request("REPLACE", 1, space=272, tuple=["leader", 2]), 5, "Unsupported: write to a system space"),
    (request("SELECT", 1, space=512, key=[-1, 1]), 19, "Key of 2 parts, index of 1"),
    (request("SELECT", 1, space=512, key=[1, 1]), 19, "Key of 2 parts, index of 1"),
    (request("SELECT", 1, space=512, iterator="GE", key=spelled("dc0003 01 02 03")), 19, "Key of 3 parts, index of 1"),
    (request("SELECT", 1, space=512, key=[-1]), 18, "Key part 0: unsigned expected"),
    (request("SELECT", 1, space=512, key=["1"]), 18, "Key part 0: unsigned expected"),
    (request("SELECT", 1, space=512, limit=0, iterator="LT", key=[None]), 18, "Key part 0: unsigned expected"),
    (request("REPLACE", 1, space=513, tuple=[]), 36, "Space 513 does not exist"),
    (request("REPLACE", 1, space=512, tuple=[]), 39, "Field 0 is missing"),
    (request("REPLACE", 1, space=512, tuple=[-1]), 23, "Field 0: unsigned expected"),
    (request("REPLACE", 1, space=512, tuple=["a", 1]), 23, "Field 0: unsigned expected"),
    # Transactions need a stream.
    (request("BEGIN", 1), 1, "Illegal value of key 0x0a"),
    (request("BEGIN", 1, 0), 1, "Illegal value of key 0x0a"),
    (request("BEGIN", 1, isolation=5), 1, "Illegal value of key 0x59"),
    (request("COMMIT", 1), 1, "Illegal value of key 0x0a"),
    (request("ROLLBACK", 1), 1, "Illegal value of key 0x0a"),
    # What isn't built yet: links, and an acknowledgement.
    (packet({TYPE: 65, SYNC: 1}, {0x24: UUID}), 48, "Unknown request type 65"),
    (packet({TYPE: 66, SYNC: 1}, {0x24: UUID, 0x25: UUID, KEYS["vclock"]: {}}), 48, "Unknown request type 66"),
    (packet({TYPE: 0, SYNC: 1}, {KEYS["vclock"]: {}}), 48, "Unknown request type 0"),
)


def refusals_have_their_numbers():
    for asked, number, text in REFUSED:
        expect([input_unit(asked)], [output_unit(GREETING + error_reply(1, number, text))], what=asked.hex())


# Requests and their replies. Numbers are spelled longer than they have to be, and keys come in any order.
LONGER = [Wide(1, 8), "b"]
EXCHANGES = (
    (
        packet({TYPE: Wide(3, 1), SYNC: Wide(1, 2)}, {KEYS["tuple"]: LONGER, KEYS["space"]: Wide(512, 4)}),
        tuples_reply(1, LONGER),
    ),
    (packet({SYNC: 2, STREAM: 7, TYPE: 1}, {KEYS["key"]: [Wide(1, 1)], KEYS["space"]: 512}), tuples_reply(2, LONGER)),
    (request("SELECT", 3, space=512, key=[2]), tuples_reply(3)),
    (request("SELECT", 4, space=512, limit=0, key=[1]), tuples_reply(4)),
    # A key that comes twice: the last pair counts.
    (
        packet({TYPE: 1, SYNC: 5}, Pairs([(KEYS["space"], 7), (KEYS["key"], [1]), (KEYS["space"], 512)])),
        tuples_reply(5, LONGER),
    ),
    (request("ID", 6, version=4, features=[0, 1, 2, 3, 4]), id_reply(6)),
    (packet({TYPE: 64, SYNC: 7}, width=0), ok_reply(7)),
    (packet({TYPE: 12}, width=1), PONG),
    # A transaction. Its stream is one number in any spelling, and how long it may take isn't looked at.
    (
        packet({STREAM: Wide(9, 8), SYNC: 8, TYPE: 14}, {KEYS["timeout"]: None, KEYS["isolation"]: Wide(4, 2)}),
        ok_reply(8),
    ),
    (request("REPLACE", 9, stream=Wide(9, 1), space=512, tuple=[5]), tuples_reply(9, [5])),
    (request("SELECT", 10, space=512, key=[5]), tuples_reply(10)),
    (request("PING", 11, stream=9), ok_reply(11)),
    (packet({TYPE: Wide(15, 4), SYNC: 12, STREAM: 9}, width=0), ok_reply(12)),
    (request("SELECT", 13, stream=9, space=512, key=[5]), tuples_reply(13, [5])),
    (packet({TYPE: 16, SYNC: 14, STREAM: 9}, {}, width=2), ok_reply(14)),
)


def answers_are_exact():
    asked, expected = map(b"".join, zip(*EXCHANGES))
    expect([input_unit(asked)], [output_unit(GREETING + expected)])


# Tuples of a number and a letter. Some keys are spelled longer than they have to be.
A, B, C = [Wide(1, 2), "a"], [3, "b"], [Wide(200, 2, signed=True), "c"]
D, E = [300, "d"], [2**64 - 1, "e"]
# The order in which they are put; the first tuple of key 1 gives way to the second.
PUT = (D, [1, "x"], B, E, C, A)

# The body of a SELECT, and the tuples that it finds.
SELECTED = (
    # EQ, which is the iterator where none is named.
    (dict(limit=99, offset=0, iterator="EQ", key=[]), (A, B, C, D, E)),
    (dict(key=[]), (A, B, C, D, E)),
    (dict(key=[3]), (B,)),
    (dict(iterator="EQ", key=[Wide(3, 8)]), (B,)),
    (dict(iterator="EQ", key=[2]), ()),
    (dict(offset=4, key=[]), (E,)),
    (dict(offset=1, key=[3]), ()),
    (dict(limit=2, iterator="REQ", key=[]), (E, D)),
    (dict(offset=3, iterator="REQ", key=[]), (B, A)),
    (dict(iterator="REQ", key=[200]), (C,)),
    (dict(iterator="ALL", key=[4]), (C, D, E)),
    (dict(limit=1, offset=1, iterator="ALL", key=[3]), (C,)),
    (dict(iterator="LT", key=[3]), (A,)),
    (dict(limit=1, iterator="LT", key=[]), (E,)),
    (dict(offset=1, iterator="LT", key=[300]), (B, A)),
    (dict(iterator="LT", key=[0]), ()),
    (dict(limit=2, iterator="LE", key=[300]), (D, C)),
    (dict(iterator="LE", key=[4]), (B, A)),
    (dict(iterator="LE", key=[0]), ()),
    (dict(iterator="GE", key=[200]), (C, D, E)),
    (dict(iterator="GE", key=[301]), (E,)),
    (dict(limit=1, offset=1, iterator="GE", key=[200]), (D,)),
    (dict(iterator="GT", key=[200]), (D, E)),
    (dict(limit=3, offset=1, iterator="GT", key=[]), (B, C, D)),
    (dict(iterator="GT", key=[2**64 - 1]), ()),
    # No tuple is wanted, and more are passed over than there are.
    (dict(limit=0, iterator="GT", key=[1]), ()),
    (dict(limit=2**32 - 1, offset=2**32 - 1, iterator="GE", key=[]), ()),
)


def selects_go_by_each_iterator():
    asked = b"".join(request("SELECT", 2, space=512, **fields) for fields, _ in SELECTED)
    expected = b"".join(tuples_reply(2, *tuples) for _, tuples in SELECTED)
    puts = b"".join(request("REPLACE", 1, space=512, tuple=tuple_) for tuple_ in PUT)
    put = b"".join(tuples_reply(1, tuple_) for tuple_ in PUT)
    with tempfile.TemporaryDirectory() as folder:
        answered = ask_in(folder, [input_unit(puts + asked)])
        compare(answered, [output_unit(GREETING + put + expected)], what="at first")
        # The next run finds the same.
        answered = ask_in(folder, [input_unit(asked)])
        compare(answered, [output_unit(GREETING + expected)], what="again")


def replace_unit(tuple_):
    """A unit with a REPLACE of a tuple, with sync 1."""
    return input_unit(request("REPLACE", 1, space=512, tuple=tuple_))


def a_tuple_may_have_a_mebibyte():
    longest = [1, b"a" * 1_048_569]
    expect([replace_unit(longest)], [output_unit(GREETING + tuples_reply(1, longest))])
    expected = error_reply(1, 203, "Tuple of 1048577 bytes, 1048576 allowed")
    expect([replace_unit([1, b"a" * 1_048_570])], [output_unit(GREETING + expected)])
    # Its length is judged before its key is looked for.
    expect([replace_unit([b"a" * 1_048_571])], [output_unit(GREETING + expected)])


def a_result_may_have_sixteen_mebibytes():
    tuples = [[key, b"a" * 1_048_569] for key in range(16)]
    small = [16]
    select = input_unit(request("SELECT", 2, space=512, key=[]))
    first = input_unit(request("SELECT", 3, space=512, limit=16, key=[]))
    given = [*map(replace_unit, tuples), select, replace_unit(small), select, first]
    expected = [output_unit(tuples_reply(1, tuple_)) for tuple_ in tuples]
    expected[0] = output_unit(GREETING + tuples_reply(1, tuples[0]))
    expected += [output_unit(tuples_reply(2, *tuples)), output_unit(tuples_reply(1, small))]
    expected += [output_unit(error_reply(2, 207, "Result is longer than 16777216 bytes"))]
    expected += [output_unit(tuples_reply(3, *tuples))]
    expect(given, expected)


def nested(levels):
    """A tuple of a key and so many arrays, one inside the other."""
    value = 1
    for _ in range(levels):
        value = [value]
    return [1, value]


def nesting_ends_at_64_levels():
    # The body's map and the tuple are levels too.
    expect([replace_unit(nested(62))], [output_unit(GREETING + tuples_reply(1, nested(62)))])
    asked = request("REPLACE", 1, space=512, tuple=nested(63)) + SELECT
    expect([input_unit(asked)], [output_unit(GREETING + error_reply(1, *NO_PACKET)), ENDED])


def connections_share_the_database():
    given = [input_unit(PING, 1023), input_unit(REPLACE), input_unit(SELECT, 1023), close_unit(), input_unit(SELECT)]
    expected = [
        output_unit(GREETING + PONG, 1023),
        output_unit(GREETING + tuples_reply(1, TUPLE)),
        output_unit(tuples_reply(2, TUPLE), 1023),
        output_unit(GREETING + tuples_reply(2, TUPLE)),
    ]
    expect(given, expected)


# Packets that end their connection, in hexadecimal digits, and the sync of their refusal.
NO_PACKETS = (
    ("0682004001" "07c1", 7),
    # No request has the type either.
    ("0682000801" "07c1", 7),
    ("0581004080" "80", 0),
    ("0140", 0),
    ("00", 0),
    ("ce00200001", 0),
    ("d005", 0),
)


def a_packet_that_is_none_ends_its_connection():
    for bad, sync in NO_PACKETS:
        # What comes after the end is dropped, up to the close; then the connection is a new one.
        given = [input_unit(PING + bytes.fromhex(bad) + PING), input_unit(PING), close_unit(), close_unit()]
        given += [input_unit(b""), input_unit(PING)]
        expected = error_reply(sync, *NO_PACKET)
        expect(given, [output_unit(GREETING + PONG + expected), ENDED, output_unit(GREETING + PONG)], what=bad)


def a_packet_that_is_cut_off_gets_no_reply():
    expect([input_unit(PING + REPLACE[:-1])], [output_unit(GREETING + PONG)])


MALFORMED = (
    "020000000000000000",
    "05",
    "000000040000000000",
    "01000000010000000100",
    "000000000101000001",
    "0000000001000000",
    "000000000100000001",
)


def malformed_units_end_the_run():
    for bad in MALFORMED:
        expect([input_unit(PING), bytes.fromhex(bad)], [output_unit(GREETING + PONG)], status=1, what=bad)


CHECKS = (
    any_cut_gives_the_same_bytes,
    refusals_have_their_numbers,
    answers_are_exact,
    selects_go_by_each_iterator,
    a_tuple_may_have_a_mebibyte,
    a_result_may_have_sixteen_mebibytes,
    nesting_ends_at_64_levels,
    connections_share_the_database,
    a_packet_that_is_none_ends_its_connection,
    a_packet_that_is_cut_off_gets_no_reply,
    malformed_units_end_the_run,
)


def main():
    if not is_built():
        sys.exit("the program is not built")
    failed = 0
    for check in CHECKS:
        name = check.__name__.replace("_", " ")
        try:
            check()
            print(f"ok      {name}", flush=True)
        except (AssertionError, OSError, subprocess.TimeoutExpired) as error:
            failed += 1
            print(f"FAILED  {name}: {error}", flush=True)
    print(f"{len(CHECKS) - failed} passed, {failed} failed")
    return failed > 0


if __name__ == "__main__":
    sys.exit(main())
