"""Spaces and indexes that are made and dropped, their rows that are refused, and what their tuples are answered.

A conversation is a list of steps, in a new directory of its own.
"""

from iproto import Wide
from steps import (
    BAD_INDEX,
    BAD_SPACE,
    DUPLICATE,
    HASH_ITERATOR,
    INDEXES,
    KEY_CHANGED,
    LONGEST,
    NO_FIELD,
    NOT_UNSIGNED,
    SHOWN_INDEXES,
    SHOWN_SPACES,
    SPACE_ROWS,
    SPACES,
    SYSTEM_WRITE,
    TEST,
    add_index,
    add_space,
    begin,
    commit,
    delete,
    drop_index,
    drop_space,
    duplicate,
    field_count,
    field_missing,
    field_type,
    has_tuples,
    index_row,
    index_rows,
    insert,
    key_count,
    key_type,
    no_index,
    no_space,
    not_unique,
    primary_last,
    replace,
    select,
    space_exists,
    space_row,
    still_indexed,
    too_long,
    update,
    upsert,
)

# A space of a user.
OWN = 600
NO_TEXT, TEXT_EXPECTED = field_missing(1), field_type(1, "string")
TEXTS, NUMBERS = [[1, "string"]], [[0, "unsigned"]]

# What spaces that are made and dropped are answered.
FIRST, PRIMARY = space_row(OWN, "first"), index_row(OWN, 0, "key", NUMBERS)
OF_TEXTS = index_row(OWN, 0, "texts", TEXTS)
SPACES_COME_AND_GO = (
    insert([1], no_space(OWN), OWN),
    add_space(FIRST),
    # It is there, and takes no tuple before it has a primary index.
    insert([1], no_index(0, "first"), OWN),
    replace([1], no_index(0, "first"), OWN),
    upsert([1], [], no_index(0, "first"), OWN),
    delete([1], no_index(0, "first"), OWN),
    select([], no_index(0, "first"), space=OWN),
    select([OWN], FIRST, space=SHOWN_SPACES),
    # A number and a name are those of one space.
    add_space(FIRST, space_exists("first")),
    add_space(space_row(OWN, "test"), space_exists("first")),
    add_space(space_row(OWN + 1, "first"), space_exists("first")),
    add_space(space_row(OWN + 1, "_vindex"), space_exists("_vindex")),
    add_space(space_row(OWN + 1, "FIRST")),
    # The first index has the number 0.
    add_index(index_row(OWN, 1, "key", NUMBERS), BAD_INDEX),
    add_index(PRIMARY),
    add_index(PRIMARY, duplicate("primary", "_index")),
    add_index(index_row(OWN, 0, "other", NUMBERS), duplicate("primary", "_index")),
    add_index(index_row(OWN, 1, "key", NUMBERS), duplicate("name", "_index")),
    select([OWN], PRIMARY, space=SHOWN_INDEXES),
    insert([7, "a"], space=OWN),
    insert([7, "b"], duplicate("key", "first"), OWN),
    insert(["a"], NOT_UNSIGNED, OWN),
    has_tuples(),
    # It goes after its indexes, with whose primary one its tuples go.
    drop_space(OWN, still_indexed("first")),
    select([], [7, "a"], space=OWN),
    drop_index(OWN, 0, [PRIMARY]),
    drop_index(OWN, 0, []),
    select([], no_index(0, "first"), space=OWN),
    add_index(OF_TEXTS),
    select([], space=OWN),
    insert([7], NO_TEXT, OWN),
    insert([7, "a"], space=OWN),
    delete(["a"], [[7, "a"]], OWN),
    drop_index(OWN, 0, [OF_TEXTS]),
    drop_space(OWN, [FIRST]),
    drop_space(OWN, []),
    select([], no_space(OWN), space=OWN),
    insert([1], no_space(OWN), OWN),
    add_index(PRIMARY, no_space(OWN)),
    drop_space(OWN + 1, [space_row(OWN + 1, "FIRST")]),
    # Its number and its name are free again.
    add_space(space_row(OWN, "test"), space_exists("test")),
    add_space(FIRST),
    drop_space(OWN, [FIRST]),
    # So is the space of a new database.
    insert([1]),
    drop_index(TEST, 0, index_rows(TEST)),
    drop_space(TEST, [space_row(TEST, "test")]),
    insert([1], no_space(TEST)),
    select([], *SPACE_ROWS[:-1], space=SPACES),
    add_space(space_row(OWN, "test")),
)

BY_NAME = index_row(TEST, 1, "name", TEXTS)
INDEXES_COME_AND_GO = (
    add_index(BY_NAME),
    replace([1, "a"]),
    replace([2, "b"]),
    update([2], [["=", 1, "a"]], duplicate("name")),
    select([2], [2, "b"]),
    update([2], [["=", 0, 3]], KEY_CHANGED),
    select([7], key_type(0, "string"), index=1),
    select([1, 2], key_count(2, 1)),
    drop_index(TEST, 0, primary_last("test")),
    drop_space(TEST, still_indexed("test")),
    # Each tuple has a text of its own.
    insert([3], NO_TEXT),
    insert([3, 5], TEXT_EXPECTED),
    insert([3, "a"], duplicate("name")),
    insert([1, "a"], DUPLICATE),
    replace([3, "b"], duplicate("name")),
    replace([1, "b"], duplicate("name")),
    upsert([3, "b"], [], duplicate("name")),
    upsert([1, "x"], [["=", 1, "b"]], duplicate("name")),
    has_tuples([1, "a"], [2, "b"]),
    # A tuple is found by the text that it has.
    replace([1, "c"]),
    select(["a"], index=1),
    select([], [2, "b"], [1, "c"], index=1),
    upsert([1, "x"], [["=", 1, "a"]]),
    upsert([3, "d"], []),
    select([], [1, "a"], [2, "b"], [3, "d"], index=1),
    update(["d"], [["=", 2, True]], [[3, "d", True]], index=1),
    update(["d"], [["=", 1, "b"]], duplicate("name"), index=1),
    update(["e"], [["=", 1, "b"]], [], index=1),
    delete(["b"], [[2, "b"]], index=1),
    delete(["b"], [], index=1),
    insert([2, "b"]),
    # One that isn't unique names no tuple.
    add_index([TEST, 2, "pairs", "TREE", {"unique": False}, [{"field": 2, "type": "boolean"}]], field_missing(2)),
    add_index([TEST, 2, "pairs", "tree", {"unique": False}, [[0, "unsigned"], [1, "string"]]]),
    select([2], [2, "b"], index=2),
    update([2, "b"], [], not_unique("pairs"), index=2),
    delete([2, "b"], not_unique("pairs"), index=2),
    drop_index(TEST, 0, primary_last("test")),
    drop_index(TEST, 2, [[TEST, 2, "pairs", "tree", {"unique": False}, [[0, "unsigned"], [1, "string"]]]]),
    drop_index(TEST, 1, [BY_NAME]),
    select([], no_index(1), index=1),
    replace([3, "b"]),
    has_tuples([1, "a"], [2, "b"], [3, "b"]),
    # By the name of the other index, which is free again.
    add_index(index_row(TEST, 127, "name", NUMBERS)),
    select([3], [3, "b"], index=127),
)

EQUAL_TEXTS = [TEST, 1, "texts", "tree", {"unique": False}, TEXTS]
EQUAL_KEYS = (
    add_index(EQUAL_TEXTS),
    insert([2, "a"]),
    insert([1, "b"]),
    insert([3, "a"]),
    insert([1, "a"], DUPLICATE),
    # Equal texts stand by their primary keys.
    select(["a"], [2, "a"], [3, "a"], index=1),
    select([], [2, "a"], [3, "a"], [1, "b"], index=1),
    replace([2, "b"]),
    select(["b"], [1, "b"], [2, "b"], index=1),
    select(["a"], [3, "a"], index=1),
    delete([3], [[3, "a"]]),
    select(["a"], index=1),
    delete(["b"], not_unique("texts"), index=1),
    drop_index(TEST, 1, [EQUAL_TEXTS]),
    has_tuples([1, "b"], [2, "b"]),
)

HASH = [TEST, 1, "h", "hash", {}, TEXTS]
HASH_INDEX = (
    add_index(HASH),
    replace([1, "b"]),
    replace([2, "a"]),
    replace([3, "a"], duplicate("h")),
    select(["a"], [2, "a"], index=1),
    select([], [2, "a"], [1, "b"], index=1, iterator="ALL"),
    select(["a"], HASH_ITERATOR, index=1, iterator="GE"),
    select(["a"], HASH_ITERATOR, index=1, iterator="REQ"),
    select(["c"], index=1),
    select([1], key_type(0, "string"), index=1),
    delete(["a"], [[2, "a"]], index=1),
    drop_index(TEST, 1, [HASH]),
)

UNIQUE = index_row(TEST, 1, "u", TEXTS)
INDEX_OF_TUPLES = (
    insert([1]),
    insert([2, "a"]),
    insert([3, "a"]),
    insert([4, 5]),
    # The first tuple that has a fault, by the primary keys.
    add_index(UNIQUE, NO_TEXT),
    delete([1], [[1]]),
    add_index(UNIQUE, duplicate("u")),
    select([], no_index(1), index=1),
    select([TEST], *index_rows(TEST), space=INDEXES),
    delete([3], [[3, "a"]]),
    add_index(UNIQUE, TEXT_EXPECTED),
    delete([4], [[4, 5]]),
    insert([1, "b"]),
    add_index(UNIQUE),
    select([], [2, "a"], [1, "b"], index=1),
    insert([3, "a"], duplicate("u")),
)

# A text that is longer than 16 bits tell, and one that it begins.
LONG_TEXT = "k" * 70_000
LONGER_TEXT = LONG_TEXT + "l"
LONG_KEYS = (
    add_index(BY_NAME),
    add_index([TEST, 2, "h", "hash", {}, TEXTS]),
    insert([1, LONG_TEXT]),
    insert([2, LONGER_TEXT]),
    insert([3, LONG_TEXT], duplicate("name")),
    select([LONG_TEXT], [1, LONG_TEXT], index=1),
    select([LONG_TEXT], [2, LONGER_TEXT], index=1, iterator="GT"),
    select([], [1, LONG_TEXT], [2, LONGER_TEXT], index=1),
    select([LONG_TEXT], [1, LONG_TEXT], index=2),
    select([LONGER_TEXT], [2, LONGER_TEXT], index=2),
    update([LONGER_TEXT], [["=", 1, LONG_TEXT]], duplicate("name"), index=2),
    update([LONGER_TEXT], [["=", 2, 5]], [[2, LONGER_TEXT, 5]], index=2),
    delete([LONG_TEXT], [[1, LONG_TEXT]], index=2),
    select([LONG_TEXT], index=1),
    select([LONG_TEXT], index=2),
    upsert([3, LONG_TEXT], []),
    # Of the tuples that are there, and within a transaction.
    drop_index(TEST, 2, [[TEST, 2, "h", "hash", {}, TEXTS]]),
    drop_index(TEST, 1, [BY_NAME]),
    add_index(HASH),
    add_index(index_row(TEST, 2, "name", TEXTS)),
    begin(),
    replace([3, LONG_TEXT + "m"], stream=1),
    insert([4, LONG_TEXT], stream=1),
    insert([5, LONGER_TEXT], duplicate("h"), stream=1),
    select([LONG_TEXT], [4, LONG_TEXT], index=1, stream=1),
    select([], [4, LONG_TEXT], [2, LONGER_TEXT, 5], [3, LONG_TEXT + "m"], index=2, stream=1),
    commit(),
    select([LONG_TEXT], [4, LONG_TEXT], index=1),
    select([], [4, LONG_TEXT], [2, LONGER_TEXT, 5], [3, LONG_TEXT + "m"], index=2),
)

# Two fields, of which the second may be Nil.
FORMATTED = [OWN, 1, "pairs", "memtx", 2, {}, [{"name": "id", "type": "integer"}, {"name": "text", "type": "string", "is_nullable": True}]]
FORMATS = (
    add_space(FORMATTED),
    add_index(PRIMARY),
    insert([1], field_count(1, 2), OWN),
    insert([1, "a", 2], field_count(3, 2), OWN),
    insert(["x", 5], field_type(0, "integer"), OWN),
    insert([1, 5], TEXT_EXPECTED, OWN),
    # By its format a field may be what the index doesn't take.
    insert([-1, "a"], NOT_UNSIGNED, OWN),
    insert([1, None], space=OWN),
    insert([2, "a"], space=OWN),
    update([2], [["=", 1, 5]], TEXT_EXPECTED, OWN),
    update([2], [["=", 2, 5]], field_count(3, 2), OWN),
    select([], [1, None], [2, "a"], space=OWN),
)

CONVERSATIONS = {
    "spaces": SPACES_COME_AND_GO,
    "indexes": INDEXES_COME_AND_GO,
    "an index of equal keys": EQUAL_KEYS,
    "a hash index": HASH_INDEX,
    "an index of the tuples that are there": INDEX_OF_TUPLES,
    "keys of 70,000 bytes": LONG_KEYS,
    "a space with a format": FORMATS,
}


# ---- rows

NAME = "n" * 255
MAP_PART = {"field": 65_535, "type": "scalar", "x": 1, "is_nullable": False}
# What a row of a space may have, and what it may not: a row with one value in the place of another.
GOOD_SPACES = (
    (0, TEST + 1),
    (0, 65_535),
    (0, Wide(OWN, 8)),
    (1, 0),
    (1, 2**64 - 1),
    (2, "x"),
    (2, NAME),
    (4, 65_535),
    (5, {"temporary": False, "group_id": 0, 7: [1], "x": None}),
    (6, [{"name": "a"}, {"name": "b", "type": "any", "is_nullable": True, "x": 1}]),
    (6, [{"name": str(n), "type": name} for n, name in enumerate(("array", "map", "boolean", "varbinary"))]),
)
BAD_SPACES = (
    (0, 65_536),
    (0, 2**32 + TEST),
    (1, -1),
    (1, "a"),
    (2, ""),
    (2, NAME + "n"),
    (3, "vinyl"),
    (3, 1),
    (4, 65_536),
    (4, -1),
    (5, []),
    (5, {"temporary": True}),
    (5, {"group_id": 1}),
    (6, {}),
    (6, [5]),
    (6, [{}]),
    (6, [{"name": 5}]),
    (6, [{"name": "a", "type": "double"}]),
    (6, [{"name": "a", "is_nullable": 1}]),
)
GOOD_INDEXES = (
    (1, 127),
    (2, NAME),
    (3, "TrEe"),
    (3, "HASH"),
    (4, {"unique": False, "x": 1, 5: 5}),
    (5, [[0, "scalar"]] * 16),
    (5, [[65_535, "unsigned", 1, 2], MAP_PART]),
    (5, [[0, kind] for kind in ("unsigned", "integer", "string", "boolean", "varbinary", "scalar")]),
)
BAD_INDEXES = (
    (1, 128),
    (2, ""),
    (2, NAME + "n"),
    (3, "rtree"),
    (3, 1),
    (4, []),
    (4, {"unique": 1}),
    (5, []),
    (5, [[0, "scalar"]] * 17),
    (5, [[0]]),
    (5, [5]),
    (5, [[65_536, "scalar"]]),
    (5, [[0, "number"]]),
    (5, [{"field": 0}]),
    (5, [{**MAP_PART, "collation": "unicode"}]),
    (5, [{**MAP_PART, "path": "a"}]),
    (5, [{**MAP_PART, "is_nullable": True}]),
)


def changed(row, place, value):
    """A row with this value in a place."""
    return [*row[:place], value, *row[place + 1 :]]


def in_and_out(row, space, parts):
    """A row is added and taken out."""
    return insert(row, space=space), delete(row[:parts], [row], space)


OTHER_INDEX = index_row(TEST, 1, "second", NUMBERS)
ROWS = [
    *(step for change in GOOD_SPACES for step in in_and_out(changed(FIRST, *change), SPACES, 1)),
    *(add_space(changed(FIRST, *change), BAD_SPACE) for change in BAD_SPACES),
    *(add_space(row, BAD_SPACE) for row in (FIRST[:3], FIRST[:6], [*FIRST, 0])),
    *(step for change in GOOD_INDEXES for step in in_and_out(changed(OTHER_INDEX, *change), INDEXES, 2)),
    *(add_index(changed(OTHER_INDEX, *change), BAD_INDEX) for change in BAD_INDEXES),
    *(add_index(row, BAD_INDEX) for row in (OTHER_INDEX[:3], OTHER_INDEX[:5], [*OTHER_INDEX, 0])),
    # A hash index and a primary one are unique.
    add_index([TEST, 1, "second", "hash", {"unique": False}, NUMBERS], BAD_INDEX),
    drop_index(TEST, 0, index_rows(TEST)),
    add_index([TEST, 0, "first", "tree", {"unique": False}, NUMBERS], BAD_INDEX),
    add_index([TEST, 0, "first", "hash", {}, NUMBERS]),
    insert([2]),
    insert([1]),
    select([1], [1]),
    select([], [1], [2], iterator="ALL"),
    select([1], HASH_ITERATOR, iterator="GT"),
]

# ---- the order of refusals, as the tables of other writes have it

LADDERS = {
    "INSERT of a space": (
        ({"space": SPACES, "tuple": [511, LONGEST]}, SYSTEM_WRITE),
        ({"tuple": [-1, LONGEST + b"a"]}, too_long([-1, LONGEST + b"a"])),
        ({"tuple": []}, NO_FIELD),
        ({"tuple": [-1]}, NOT_UNSIGNED),
        ({"tuple": [TEST]}, field_missing(2)),
        ({"tuple": [TEST, 1, 5]}, field_type(2, "string")),
        ({"tuple": [TEST, 1, "_space"]}, BAD_SPACE),
        ({"tuple": space_row(TEST, "_space")}, space_exists("test")),
        ({"tuple": space_row(OWN, "_space")}, space_exists("_space")),
        ({"tuple": FIRST}, [FIRST]),
    ),
    "INSERT of an index": (
        ({"space": INDEXES, "tuple": [511, LONGEST]}, SYSTEM_WRITE),
        ({"tuple": [-1, LONGEST + b"a"]}, too_long([-1, LONGEST + b"a"])),
        ({"tuple": []}, NO_FIELD),
        ({"tuple": [-1]}, NOT_UNSIGNED),
        ({"tuple": [513]}, NO_TEXT),
        ({"tuple": [513, -1]}, field_type(1)),
        ({"tuple": [513, 0, 5]}, field_type(2, "string")),
        ({"tuple": [513, 0, "primary"]}, no_space(513)),
        ({"tuple": [TEST, 0, "primary"]}, BAD_INDEX),
        ({"tuple": index_row(TEST, 0, "primary", TEXTS)}, duplicate("primary", "_index")),
        ({"tuple": index_row(TEST, 1, "primary", TEXTS)}, duplicate("name", "_index")),
        # The tuples are [1, 18446744073709551615] and [2, "b"].
        ({"tuple": index_row(TEST, 1, "second", TEXTS)}, TEXT_EXPECTED),
        ({"tuple": index_row(TEST, 1, "second", [[1, "scalar"]])}, [index_row(TEST, 1, "second", [[1, "scalar"]])]),
    ),
    "DELETE of a space": (
        ({"space": SPACES, "index": 9, "key": [SPACES, 5]}, no_index(9, "_space")),
        ({"index": 0}, SYSTEM_WRITE),
        ({"key": [TEST, 5]}, key_count(2, 1)),
        ({"key": [-1]}, key_type(0)),
        ({"key": [TEST]}, still_indexed("test")),
        ({"key": [513]}, []),
    ),
    "DELETE of an index": (
        ({"space": INDEXES, "index": 9, "key": [SPACES]}, no_index(9, "_index")),
        ({"index": 0}, SYSTEM_WRITE),
        ({"key": [TEST]}, key_count(1, 2)),
        ({"key": [TEST, "a"]}, key_type(1)),
        ({"key": [TEST, 1]}, []),
        ({"key": [TEST, 0]}, index_rows(TEST)),
    ),
}

# ---- what a further run finds

KEPT = (
    add_space(FIRST),
    add_index(PRIMARY),
    add_index(index_row(OWN, 3, "texts", TEXTS)),
    insert([1, "b"], space=OWN),
    insert([2, "a"], space=OWN),
    add_index([OWN, 1, "h", "hash", {}, [[1, "string"], [0, "unsigned"]]]),
    delete(["texts"], key_count(1, 2), INDEXES, index=2),
    delete([OWN, "texts"], [index_row(OWN, 3, "texts", TEXTS)], INDEXES, index=2),
    replace([1, "a"], space=OWN),
    # A space that is dropped and made anew has none of its tuples.
    insert([1, "a"]),
    drop_index(TEST, 0, index_rows(TEST)),
    add_index(index_row(TEST, 0, "again", NUMBERS)),
    add_space(space_row(OWN + 1, "second")),
    drop_space(OWN + 1, [space_row(OWN + 1, "second")]),
)
FOUND_AGAIN = (
    select([OWN], FIRST, space=SPACES),
    select([OWN], PRIMARY, [OWN, 1, "h", "hash", {}, [[1, "string"], [0, "unsigned"]]], space=INDEXES),
    select([TEST], index_row(TEST, 0, "again", NUMBERS), space=INDEXES),
    select([], [1, "a"], [2, "a"], space=OWN),
    select(["a", 2], [2, "a"], space=OWN, index=1),
    select(["a"], no_index(3, "first"), space=OWN, index=3),
    has_tuples(),
    select([OWN + 1], space=SPACES),
    insert([3], NO_TEXT, OWN),
    insert([1, "b"], duplicate("key", "first"), OWN),
)
