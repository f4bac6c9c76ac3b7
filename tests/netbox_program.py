#!/usr/bin/env python3
"""Talks with the built program as Tarantool's net.box does, over TCP by tools/listen.py.

The packets that net.box sends are sent from here, and each reply is compared with the one that is expected.
Where `tarantool` is on the path, it then runs netbox.lua. A line is printed for each check that fails, and
the status is 0 only where none does.
"""

import re
import shutil
import subprocess
import sys
import tempfile
from pathlib import Path

from iproto import (
    DATA,
    SCHEMA,
    STREAM,
    SYNC,
    TYPE,
    Spelled,
    error_reply,
    id_reply,
    ok_reply,
    packet,
    read_reply,
    request,
    tuples_reply,
)
from program import GREETING, Listening, exchange, expect, receive, run_checks
from steps import DUPLICATE, INDEX_ROWS, INDEXES, SHOWN_INDEXES, SHOWN_SPACES, SPACE_ROWS, TEST, index_row

SECONDS = 60
# The status of netbox.lua where it can't connect without the space of collations.
NO_COLLATIONS = 77
SCRIPT = Path(__file__).resolve().parent / "netbox.lua"
# The limit of a request that has none.
ALL = 2**32 - 1
# The seconds that a transaction may take, where none are given: the float 3153600000.
TIMEOUT = Spelled(bytes.fromhex("cb41e77f03c0000000"))
BY_NAME = index_row(TEST, 1, "name", [[1, "string"]])


def select(sync, key, space=TEST, index=0, iterator="EQ", limit=ALL, stream=None):
    """A SELECT with its keys in net.box's order."""
    fields = {"space": space, "index": index, "iterator": iterator, "offset": 0, "limit": limit, "key": key}
    return request("SELECT", sync, stream, **fields)


# What net.box sends, each packet with the reply. First comes what it sends at its connect: ID and two SELECTs.
PACKETS = (
    (request("ID", 1, version=4, features=[0, 1, 2, 3, 4]), id_reply(1)),
    (request("SELECT", 2, space=SHOWN_SPACES, limit=ALL, key=[]), tuples_reply(2, *SPACE_ROWS)),
    (request("SELECT", 3, space=SHOWN_INDEXES, limit=ALL, key=[]), tuples_reply(3, *INDEX_ROWS)),
    # Earlier versions name index and iterator.
    (select(4, [], space=SHOWN_SPACES, iterator="ALL"), tuples_reply(4, *SPACE_ROWS)),
    (select(5, [], space=SHOWN_INDEXES, iterator="ALL"), tuples_reply(5, *INDEX_ROWS)),
    (request("PING", 6), ok_reply(6)),
    # Some send the version of the schema that they know, which is skipped.
    (packet({TYPE: 64, SYNC: 7, SCHEMA: 80}), ok_reply(7)),
    (packet({TYPE: 2, SYNC: 8, SCHEMA: 80}, {0x10: TEST, 0x21: [1, "a", 5]}), tuples_reply(8, [1, "a", 5])),
    (request("INSERT", 9, space=TEST, tuple=[1, "b"]), error_reply(9, *DUPLICATE)),
    (request("REPLACE", 10, space=TEST, tuple=[2, "b"]), tuples_reply(10, [2, "b"])),
    # A `get` asks for two tuples, so that it can say that there are more than one.
    (select(11, [1], limit=2), tuples_reply(11, [1, "a", 5])),
    (select(12, [3], limit=2), tuples_reply(12)),
    (select(13, [], iterator="ALL"), tuples_reply(13, [1, "a", 5], [2, "b"])),
    # Fields count from 1.
    (
        request("UPDATE", 14, space=TEST, index=0, base=1, key=[1], operations=[["+", 3, 2], ["=", 2, "c"]]),
        tuples_reply(14, [1, "c", 7]),
    ),
    (request("UPSERT", 15, space=TEST, base=1, tuple=[1, "x", 0], operations=[["-", 3, 1]]), tuples_reply(15)),
    (request("UPSERT", 16, space=TEST, base=1, tuple=[3, "d", 0], operations=[["-", 3, 1]]), tuples_reply(16)),
    (request("DELETE", 17, space=TEST, index=0, key=[2]), tuples_reply(17, [2, "b"])),
    # In a stream.
    (request("INSERT", 18, stream=1, space=TEST, tuple=[4, "e"]), tuples_reply(18, [4, "e"])),
    (select(19, [], stream=1, iterator="GE"), tuples_reply(19, [1, "c", 6], [3, "d", 0], [4, "e"])),
    # A reply with another version of the schema makes net.box ask for the schema again.
    (request("INSERT", 20, space=INDEXES, tuple=BY_NAME), tuples_reply(20, BY_NAME, schema=1)),
    (request("SELECT", 21, space=SHOWN_SPACES, limit=ALL, key=[]), tuples_reply(21, *SPACE_ROWS, schema=1)),
    (request("SELECT", 22, space=SHOWN_INDEXES, limit=ALL, key=[]), tuples_reply(22, *INDEX_ROWS, BY_NAME, schema=1)),
    (select(23, ["d"], index=1, limit=2), tuples_reply(23, [3, "d", 0], schema=1)),
    # A transaction in a stream, whose timeout is a float.
    (packet({TYPE: 14, SYNC: 24, STREAM: 1}, {0x56: TIMEOUT, 0x59: 0}), ok_reply(24, schema=1)),
    (request("REPLACE", 25, stream=1, space=TEST, tuple=[5, "f"]), tuples_reply(25, [5, "f"], schema=1)),
    (select(26, [5], limit=2), tuples_reply(26, schema=1)),
    (packet({TYPE: 15, SYNC: 27, STREAM: 1}), ok_reply(27, schema=1)),
    (select(28, [5], limit=2), tuples_reply(28, [5, "f"], schema=1)),
    (packet({TYPE: 16, SYNC: 29, STREAM: 1}), ok_reply(29, schema=1)),
)
# The spaces of a new database as net.box has them: number, engine and number of fields, and of each index the
# number, the type, whether it is unique, and the type of each part and its field, counted from 1.
BY_NUMBER = (0, "TREE", True, [("unsigned", 1)])
OF_SPACES = {"primary": BY_NUMBER, "name": (2, "TREE", True, [("string", 3)])}
OF_INDEXES = {
    "primary": (0, "TREE", True, [("unsigned", 1), ("unsigned", 2)]),
    "name": (2, "TREE", True, [("unsigned", 1), ("string", 3)]),
}
SCHEMA_READ = {
    "_schema": (272, "memtx", 0, {"primary": (0, "TREE", True, [("string", 1)])}),
    "_space": (280, "memtx", 0, OF_SPACES),
    "_vspace": (281, "memtx", 0, OF_SPACES),
    "_index": (288, "memtx", 0, OF_INDEXES),
    "_vindex": (289, "memtx", 0, OF_INDEXES),
    "_cluster": (320, "memtx", 0, {"primary": BY_NUMBER, "uuid": (1, "TREE", True, [("string", 2)])}),
    "test": (512, "memtx", 0, {"primary": BY_NUMBER}),
}


def schema_in(spaces, indexes):
    """The schema that net.box reads out of these rows, by the places of their fields."""
    indexes_of = {row[0]: {} for row in spaces}
    for row in indexes:
        parts = [(part[1], part[0] + 1) for part in row[5]]
        indexes_of[row[0]][row[2]] = row[1], row[3].upper(), row[4]["unique"], parts
    return {row[2]: (row[0], row[3], row[4], indexes_of[row[0]]) for row in spaces}


def greeting_is_read():
    """Checks the greeting by the form by which net.box reads a version, an instance and a salt."""
    first = rb"Tarantool (\d+)\.(\d+)\.(\d+) \(Binary\) [0-9a-f]{8}(-[0-9a-f]{4}){3}-[0-9a-f]{12} *\n"
    assert re.fullmatch(first + rb"[A-Za-z0-9+/]{43}= *\n", GREETING), f"the greeting is {GREETING!r}"


def packets_are_answered(run):
    with run.connect() as client:
        for asked, reply in PACKETS:
            exchange(client, asked, reply)


def packets_may_come_at_once(run):
    """Sends what comes at a connect in one piece, and reads the schema out of the replies."""
    with run.connect() as client:
        client.sendall(b"".join(asked for asked, _ in PACKETS[:3]))
        replies = []
        for _ in range(3):
            size = receive(client, 5)
            replies.append(read_reply(size + receive(client, int.from_bytes(size[1:], "big"))))
    expect("errors", [None] * 3, [reply.error for reply in replies])
    expect("schema", SCHEMA_READ, schema_in(*(reply.body[DATA] for reply in replies[1:])))


def script_runs(run, tarantool):
    ended = subprocess.run([tarantool, SCRIPT, str(run.port)], stdout=subprocess.PIPE, text=True)
    if ended.returncode == NO_COLLATIONS:
        print("skipped: this net.box asks for space 277, the collations, which isn't served")
        return
    expect("status and output", (0, ""), (ended.returncode, ended.stdout))


def listening(check, *given):
    """Makes a check of a run that listens, on a new directory."""
    with tempfile.TemporaryDirectory(prefix="vurandy-") as folder, Listening(Path(folder) / "DIR") as run:
        check(run, *given)


def main():
    checks = [
        ("the greeting is read", greeting_is_read),
        ("packets are answered", listening, packets_are_answered),
        ("packets may come at once", listening, packets_may_come_at_once),
    ]
    tarantool = shutil.which("tarantool")
    if tarantool:
        checks.append(("netbox.lua runs", listening, script_runs, tarantool))
    else:
        print("skipped: tarantool isn't on the path")
    return run_checks("netbox_program", checks, SECONDS)


if __name__ == "__main__":
    sys.exit(main())
