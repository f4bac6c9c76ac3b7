"""Requests and what they are answered, as tests of the built program say them.

A step is the name of a request or the number of its type, the fields of its body, and its reply: a list of tuples,
`OK`, or the number and the text of a refusal. Its stream, if it has one, and its connection, if that isn't 1, stand
among the fields. `CLOSE` closes a connection. What is expected is worked out by hand.
"""

import tempfile
from pathlib import Path

from iproto import (
    KEYS,
    OPERATIONS,
    TYPE,
    TYPES,
    Spelled,
    Wide,
    error_reply,
    ok_reply,
    pack,
    request,
    tuples_reply,
)
from program import answers, expect

MAX_TUPLE = 1_048_576
MAX_ROW_BODY = 2_097_120
MAX_OPERATIONS = 4_000
# The greatest and the least number.
MOST, LEAST = 2**64 - 1, -(2**63)
# A tuple of a small number and these bytes is the longest.
LONGEST = b"a" * (MAX_TUPLE - 7)
# Values that are kept as they are spelled: a float, an extension, a long text and a long number.
FLOAT, EXTENSION = Spelled(bytes.fromhex("cb3ff0000000000000")), Spelled(bytes.fromhex("d40100"))
LONG_TEXT, LONG_NUMBER = Spelled(bytes.fromhex("d90161")), Wide(5, 8)
# How many bytes of a packet a message shows.
SHOWN_BYTES = 100

SETTINGS, SPACES, SHOWN_SPACES, INDEXES, SHOWN_INDEXES, CLUSTER, TEST = 272, 280, 281, 288, 289, 320, 512
LEADER = ["leader", 1]
SPACE_NAMES = {
    SETTINGS: "_schema",
    SPACES: "_space",
    SHOWN_SPACES: "_vspace",
    INDEXES: "_index",
    SHOWN_INDEXES: "_vindex",
    CLUSTER: "_cluster",
    TEST: "test",
}
PRIMARY_PARTS = {
    SETTINGS: [[0, "string"]],
    INDEXES: [[0, "unsigned"], [1, "unsigned"]],
    SHOWN_INDEXES: [[0, "unsigned"], [1, "unsigned"]],
}
# The index beside the primary one: its number, its name and its parts.
OTHER_INDEXES = {
    SPACES: (2, "name", [[2, "string"]]),
    SHOWN_SPACES: (2, "name", [[2, "string"]]),
    INDEXES: (2, "name", [[0, "unsigned"], [2, "string"]]),
    SHOWN_INDEXES: (2, "name", [[0, "unsigned"], [2, "string"]]),
    CLUSTER: (1, "uuid", [[1, "string"]]),
}


def space_row(space, name):
    """The row of 280 of a space."""
    return [space, 1, name, "memtx", 0, {}, []]


def index_row(space, index, name, parts):
    """The row of 288 of a unique tree index."""
    return [space, index, name, "tree", {"unique": True}, parts]


def index_rows(space):
    """The rows of 288 of a space's indexes."""
    primary = index_row(space, 0, "primary", PRIMARY_PARTS.get(space, [[0, "unsigned"]]))
    return [primary, *([index_row(space, *OTHER_INDEXES[space])] if space in OTHER_INDEXES else [])]


SPACE_ROWS = [space_row(space, name) for space, name in SPACE_NAMES.items()]
INDEX_ROWS = [row for space in SPACE_NAMES for row in index_rows(space)]

# ---- refusals


def unknown_type(kind):
    return 48, f"Unknown request type {kind}"


def illegal(key):
    return 1, f"Illegal value of key 0x{key:02x}"


def missing(key):
    return 69, f"Missing key 0x{key:02x}"


def no_space(space):
    return 36, f"Space {space} does not exist"


def no_index(index, space="test"):
    return 35, f'No index {index} in space "{space}"'


def not_unique(index, space="test"):
    return 41, f'Index "{index}" of space "{space}" is not unique'


def key_count(given, parts):
    return 19, f"Key of {given} parts, index of {parts}"


def key_type(part, kind="unsigned"):
    return 18, f"Key part {part}: {kind} expected"


def bad_argument(place):
    return 29, f"Update operation {place}: bad argument"


def overflow(place):
    return 95, f"Update operation {place}: integer overflow"


def too_long(tuple_):
    return 203, f"Tuple of {len(pack(tuple_))} bytes, {MAX_TUPLE} allowed"


def field_count(fields, expected):
    return 38, f"Tuple of {fields} fields, {expected} expected"


def field_missing(field):
    return 39, f"Field {field} is missing"


def field_type(field, kind="unsigned"):
    return 23, f"Field {field}: {kind} expected"


def key_changed(space="test"):
    return 94, f'Primary key of space "{space}" is changed'


def duplicate(index="primary", space="test"):
    return 3, f'Duplicate key in unique index "{index}" of space "{space}"'


def space_exists(name):
    return 10, f'Space "{name}" exists'


def still_indexed(name):
    return 11, f'Space "{name}" still has indexes'


def primary_last(name):
    return 17, f'Primary index of space "{name}" has to be dropped last'


BAD_SPACE, BAD_INDEX = (9, "Bad space row"), (14, "Bad index row")
UNKNOWN_OPERATOR = (28, "Unknown update operator")
IN_TRANSACTION = (5, "Unsupported: schema statement in a transaction")
IN_PLACE = (5, "Unsupported: change of a schema row in place")
SYSTEM_WRITE = (5, "Unsupported: write to a system space")
HASH_ITERATOR = (5, "Unsupported: iterator of a hash index")
TRANSACTION_OPEN = (79, "Transaction is open in this stream")
CONFLICT = (97, "Transaction has been aborted by conflict")
ALL_OPEN = (201, "All 1024 transactions are open")
ALL_OF_CONNECTION = (204, "All 64 transactions of the connection are open")
ROW_TOO_LONG, RESULT_TOO_LONG = (202, "Transaction is too long"), (207, "Result is longer than 16777216 bytes")
READ_ONLY, NOT_MESSAGEPACK = (7, "Node is read-only, the writable node is 1"), (20, "Packet is not MessagePack")
# Those of a field, a key and a space that many tables have.
NO_FIELD, NOT_UNSIGNED = field_missing(0), field_type(0)
DUPLICATE, KEY_CHANGED, NO_SPACE = duplicate(), key_changed(), no_space(513)


# ---- steps

OK, CLOSE = {}, "CLOSE"


def begin(stream=1, reply=OK, **fields):
    """A BEGIN in a stream, or in none for None."""
    return "BEGIN", {"stream": stream, **fields}, reply


def commit(stream=1, reply=OK, **fields):
    return "COMMIT", {"stream": stream, **fields}, reply


def rollback(stream=1, reply=OK, **fields):
    return "ROLLBACK", {"stream": stream, **fields}, reply


def close(connection=1):
    """The connection closes. No reply is expected."""
    return CLOSE, {"connection": connection}, None


def insert(tuple_, reply=None, space=TEST, **fields):
    """An INSERT, whose reply is the tuple where no other is expected."""
    return "INSERT", {"space": space, "tuple": tuple_, **fields}, [tuple_] if reply is None else reply


def replace(tuple_, reply=None, space=TEST, **fields):
    """A REPLACE, whose reply is the tuple where no other is expected."""
    return "REPLACE", {"space": space, "tuple": tuple_, **fields}, [tuple_] if reply is None else reply


def update(key, operations, reply, space=TEST, **fields):
    return "UPDATE", {"space": space, "key": key, "operations": operations, **fields}, reply


def delete(key, reply, space=TEST, **fields):
    return "DELETE", {"space": space, "key": key, **fields}, reply


def upsert(tuple_, operations, refusal=None, space=TEST, **fields):
    """An UPSERT, whose reply has no tuple where no refusal is expected."""
    return "UPSERT", {"space": space, "tuple": tuple_, "operations": operations, **fields}, refusal or []


def select(key, *tuples, space=TEST, **fields):
    """A SELECT that finds these tuples, by the iterator EQ where no other is named, or its refusal alone."""
    reply = tuples[0] if tuples and is_refusal(tuples[0]) else list(tuples)
    return "SELECT", {"space": space, "key": key, **fields}, reply


def has_tuples(*tuples):
    """A SELECT of all tuples of the space `test`."""
    return select([], *tuples)


def add_space(row, refusal=None):
    """The row of a space is added."""
    return insert(row, refusal, SPACES)


def add_index(row, refusal=None):
    """The row of an index is added."""
    return insert(row, refusal, INDEXES)


def drop_space(space, reply):
    """The row of a space is taken out."""
    return delete([space], reply, SPACES)


def drop_index(space, index, reply):
    """The row of an index is taken out."""
    return delete([space, index], reply, INDEXES)


def is_refusal(reply):
    """Whether this is a number and a text, and no list."""
    return isinstance(reply, tuple)


def changes_schema(step):
    """Whether a step commits a row of a space or an index."""
    name, fields, reply = step
    is_taken = name in ("INSERT", "DELETE") and not is_refusal(reply) and reply != []
    return is_taken and fields["space"] in (SPACES, INDEXES)


def shown(data):
    """Bytes as a message shows them."""
    return data.hex() if len(data) <= SHOWN_BYTES else f"{data[:SHOWN_BYTES].hex()}.. of {len(data)} bytes"


def expect_bytes(what, due, seen):
    """Checks bytes. A message shows them from the first one on that differs."""
    if due != seen:
        differing = (at for at, (one, other) in enumerate(zip(due, seen)) if one != other)
        at = next(differing, min(len(due), len(seen)))
        raise AssertionError(f"{what}, from byte {at} on: expected {shown(due[at:])}, saw {shown(seen[at:])}")


def shown_all(contents):
    """The contents of output units as a message shows them."""
    return ", ".join(shown(content) if content else "the end of the connection" for content in contents) or "nothing"


def asked_by(steps):
    """The connection of each step, with its packet, or with None for its close. Syncs count from 1."""
    asked = []
    for sync, (name, fields, _) in enumerate(steps, 1):
        body = {field: value for field, value in fields.items() if field != "connection"}
        asked.append((fields.get("connection", 1), None if name == CLOSE else request(name, sync, **body)))
    return asked


def packet_of(sync, reply, schema):
    """The packet of a reply."""
    if is_refusal(reply):
        return error_reply(sync, *reply, schema)
    return ok_reply(sync, schema) if reply == OK else tuples_reply(sync, *reply, schema=schema)


def due_to(steps):
    """What each step is answered: its reply, and an empty content where the server ends the connection."""
    due, schema = [], 0
    for sync, step in enumerate(steps, 1):
        name, _, reply = step
        # The commits of a step count in its own reply.
        schema += changes_schema(step)
        contents = [] if name == CLOSE else [packet_of(sync, reply, schema)]
        due.append([*contents, b""] if reply == NOT_MESSAGEPACK else contents)
    return due


def converse(steps, folder=None):
    """Asks these steps in a folder's directory, or in a new one, each in a unit of its own, and checks each reply."""
    if folder is None:
        with tempfile.TemporaryDirectory(prefix="vurandy-") as new_folder:
            return converse(steps, Path(new_folder))
    asked = asked_by(steps)
    replies = zip(due_to(steps), answers(folder, asked))
    for sync, (step, (connection, packet), (due, seen)) in enumerate(zip(steps, asked, replies), 1):
        what = f"reply {sync}, to {step[0]} on connection {connection} {shown(packet or b'')}"
        assert seen == due, f"{what}: expected {shown_all(due)}, saw {shown_all(seen)}"


# ---- directories

# What ends a journal in order.
END = bytes.fromhex("d510aded")
# The fields of a row's body, by rising key.
ROW_FIELDS = ("space", "base", "key", "tuple", "operations")


def journal_name(lsn):
    """The name of the journal that begins at so many commits."""
    return f"{lsn:020}.xlog"


def journal_header(commits, replica=1):
    """The header of a journal that begins at so many commits of this node, or of a new node of another id."""
    lines = ("XLOG", "0.13", "Instance: 00010203-0405-4607-8809-0a0b0c0d0e0f")
    lines += ("ReplicaSet: 10111213-1415-4617-9819-1a1b1c1d1e1f",)
    lines += (f"Replica: {replica}",) if replica != 1 else ()
    lines += (f"VClock: {{1: {commits}}}" if commits else "VClock: {}", "", "")
    return "\n".join(lines).encode()


def make_other_node(folder):
    """Makes a folder's directory that of a node that isn't writable."""
    (folder / "DIR").mkdir()
    (folder / "DIR" / journal_name(0)).write_bytes(journal_header(0, replica=2) + END)


def files_of(folder):
    """The names of a directory's files."""
    return sorted(path.name for path in (folder / "DIR").iterdir())


def checksum(data):
    """CRC-32C without its first and last inversion."""
    register = 0
    for byte in data:
        register ^= byte
        for _ in range(8):
            register = register >> 1 ^ (0x82F63B78 if register & 1 else 0)
    return register


def block(data):
    """The block of these rows."""
    sizes = pack(Wide(len(data), 4)) + b"\0" + pack(Wide(checksum(data), 4)) + b"\xa3\0\0\0"
    return bytes.fromhex("d5ba0bab") + sizes + data


def rows_of(lsn, *steps):
    """The rows of a commit, which are those of these steps, the first of this lsn. A key is the primary one."""
    rows, last = [], len(steps) - 1
    for place, (name, fields, _) in enumerate(steps):
        header = {TYPE: TYPES[name], 0x02: 1, 0x03: lsn + place}
        header |= {0x08: place} if last else {}
        header |= {0x09: 1} if last and place == last else {}
        rows.append(pack(header) + body_of(name, {field: fields[field] for field in ROW_FIELDS if field in fields}))
    return b"".join(rows)


def transaction(lsn, *steps):
    """The block of a commit alone, with the rows of these steps."""
    return block(rows_of(lsn, *steps))


def expect_journals(folder, blocks):
    """Checks all files of a directory: the journals that begin at these numbers of commits, with their blocks."""
    expect("files", sorted(map(journal_name, blocks)), files_of(folder))
    for commits, held in blocks.items():
        name = journal_name(commits)
        expect_bytes(name, journal_header(commits) + b"".join(held) + END, (folder / "DIR" / name).read_bytes())


# ---- long rows


def body_of(name, fields):
    """The body of a request."""
    keys = KEYS | {"operations": OPERATIONS.get(name)}
    return pack({keys[field]: value for field, value in fields.items()})


def filling(name, fields, size, field, *others):
    """Operations that make the body of a row so long: an `=` of a field to bytes, and then these."""
    shortest = body_of(name, {**fields, "operations": [["=", field, b""], *others]})
    # Bytes of such a length have a head of 5 bytes, in place of 2.
    return [["=", field, bytes(size - len(shortest) - 3)], *others]
