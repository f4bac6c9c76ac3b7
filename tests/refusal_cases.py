"""Requests that are refused: each refusal, their order, and writes of rows that nobody may write."""

from iproto import Spelled, Wide
from schema_cases import BY_NAME, FIRST, HASH, NO_TEXT, NUMBERS, OWN, PRIMARY, TEXT_EXPECTED, TEXTS
from steps import (
    ALL_OF_CONNECTION,
    ALL_OPEN,
    BAD_INDEX,
    BAD_SPACE,
    CLUSTER,
    CONFLICT,
    DUPLICATE,
    HASH_ITERATOR,
    IN_PLACE,
    IN_TRANSACTION,
    INDEX_ROWS,
    INDEXES,
    KEY_CHANGED,
    LEADER,
    LONGEST,
    MAX_ROW_BODY,
    MOST,
    NO_FIELD,
    NO_SPACE,
    NOT_UNSIGNED,
    OK,
    READ_ONLY,
    RESULT_TOO_LONG,
    ROW_TOO_LONG,
    SETTINGS,
    SHOWN_INDEXES,
    SHOWN_SPACES,
    SPACE_ROWS,
    SPACES,
    SYSTEM_WRITE,
    TEST,
    TRANSACTION_OPEN,
    UNKNOWN_OPERATOR,
    add_index,
    add_space,
    bad_argument,
    begin,
    commit,
    delete,
    drop_index,
    drop_space,
    duplicate,
    field_count,
    field_missing,
    field_type,
    filling,
    has_tuples,
    illegal,
    index_row,
    index_rows,
    insert,
    key_changed,
    key_count,
    key_type,
    missing,
    no_index,
    no_space,
    not_unique,
    overflow,
    primary_last,
    replace,
    select,
    space_exists,
    space_row,
    still_indexed,
    too_long,
    unknown_type,
    update,
    upsert,
)

# Operations whose row is too long, and which make a tuple of the key 1 what their last ones say.
IN_UPDATE, IN_UPSERT = {"space": TEST, "key": [1]}, {"space": TEST, "tuple": [1], "base": 1}


def update_too_long(*others):
    return filling("UPDATE", IN_UPDATE, MAX_ROW_BODY + 1, 1, *others)


def upsert_too_long(*others):
    return filling("UPSERT", IN_UPSERT, MAX_ROW_BODY + 1, 2, *others)


def filler(operations):
    """The value of the first operation."""
    return operations[0][2]


TOO_LONG = LONGEST + b"a"
# So many tuples of the greatest length that a SELECT of all is refused.
LONG_TUPLES = tuple(upsert([key, LONGEST], []) for key in range(17))

# So many transactions as may be open, of one connection and of all.
OF_CONNECTION = tuple(begin(stream) for stream in range(1, 65))
OF_ALL = tuple(begin(stream, connection=connection) for connection in range(1, 17) for stream in range(1, 65))
# A transaction of stream 1 that has read a key, which is put then, and has a row; and one that only has read it.
DOOMED = (begin(), select([50], stream=1), replace([60], stream=1), insert([50]))
OVERLAPPED = (begin(), select([50], stream=1), insert([50]))
# So many rows as a transaction may have.
FULL = (begin(), *(replace([60], stream=1) for _ in range(4_096)))

# ---- each refusal, as the last reply of a conversation

# Memory or lsns would have to run out for 2 and 208. Those of links and views are 205, 206, 209 and 210, and not built
# yet.
UNMET = {2, 208, 205, 206, 209, 210}
EQUAL = [TEST, 1, "equal", "tree", {"unique": False}, NUMBERS]
KEY_KINDS = ("unsigned", "integer", "string", "boolean", "varbinary", "scalar")


def own_space(count, *fields):
    """A space is made, with so many fields or with any number for 0, and with a format of names and types."""
    entries = [{"name": name, "type": kind} for name, kind in fields]
    return add_space([OWN, 1, "own", "memtx", count, {}, entries]), add_index(PRIMARY)


EACH = (
    (select([], (1, "Illegal value of key 0x14"), iterator=7),),
    (insert([1]), insert([1, "a"], (3, 'Duplicate key in unique index "primary" of space "test"'))),
    ((7, {}, (5, "Unsupported: authentication")),),
    (begin(), replace([TEST], (5, "Unsupported: schema statement in a transaction"), SPACES, stream=1)),
    (begin(), delete([TEST, 1], (5, "Unsupported: schema statement in a transaction"), INDEXES, stream=1)),
    (replace([TEST], (5, "Unsupported: change of a schema row in place"), SPACES),),
    (insert([1], (5, "Unsupported: write to a system space"), SHOWN_SPACES),),
    (add_index(HASH), select([], (5, "Unsupported: iterator of a hash index"), index=1, iterator="LT")),
    (add_space([OWN, 1, "own"], (9, "Bad space row")),),
    (add_space(space_row(OWN, "test"), (10, 'Space "test" exists')),),
    (drop_space(TEST, (11, 'Space "test" still has indexes')),),
    (add_index([TEST, 1, "second"], (14, "Bad index row")),),
    (add_index(EQUAL), drop_index(TEST, 0, (17, 'Primary index of space "test" has to be dropped last'))),
    *(
        (add_index(index_row(TEST, 1, "a", [[1, kind]])), select([None], (18, f"Key part 0: {kind} expected"), index=1))
        for kind in KEY_KINDS
    ),
    (select([1, 2], (19, "Key of 2 parts, index of 1")),),
    (select([Spelled(b"\xc1")], (20, "Packet is not MessagePack")),),
    *(
        (*own_space(0, ("a", kind)), insert([None], (23, f"Field 0: {kind} expected"), OWN))
        for kind in (*KEY_KINDS, "array", "map")
    ),
    (update([1], [["?", 1, 1]], (28, "Unknown update operator")),),
    (update([1], [["=", 1, 1], ["="]], (29, "Update operation 1: bad argument")),),
    (select([], (35, 'No index 1 in space "test"'), index=1),),
    (select([], (36, "Space 513 does not exist"), space=513),),
    (*own_space(2), insert([1], (38, "Tuple of 1 fields, 2 expected"), OWN)),
    (insert([], (39, "Field 0 is missing")),),
    (add_index(EQUAL), delete([1], (41, 'Index "equal" of space "test" is not unique'), index=1)),
    ((8, {}, (48, "Unknown request type 8")),),
    (("SELECT", {"space": TEST}, (69, "Missing key 0x20")),),
    (begin(), begin(1, (79, "Transaction is open in this stream"))),
    (insert([1]), update([1], [["=", 0, 2]], (94, 'Primary key of space "test" is changed'))),
    (insert([1, MOST]), update([1], [["+", 1, 1]], (95, "Update operation 0: integer overflow"))),
    (*DOOMED, select([60], (97, "Transaction has been aborted by conflict"), stream=1)),
    (*DOOMED, commit(1, (97, "Transaction has been aborted by conflict"))),
    (*OVERLAPPED, insert([60], (97, "Transaction has been aborted by conflict"), stream=1)),
    (*OF_ALL, begin(1, (201, "All 1024 transactions are open"), connection=17)),
    (upsert([1], upsert_too_long(), (202, "Transaction is too long"), base=1),),
    (*FULL, insert([1], (202, "Transaction is too long"), stream=1)),
    (insert([1, TOO_LONG], (203, "Tuple of 1048577 bytes, 1048576 allowed")),),
    (*OF_CONNECTION, begin(65, (204, "All 64 transactions of the connection are open"))),
    (*LONG_TUPLES, select([], (207, "Result is longer than 16777216 bytes"))),
)
# The same of a node that isn't writable.
EACH_OF_OTHER_NODE = ((insert([1], (7, "Node is read-only, the writable node is 1")),),)

# ---- the order of refusals, two by two

# What a request is judged by, in this order. Its type, which comes first, leaves no other but the keys to be judged.
STAGES = ("keys", "stream", "conflict", "read-only", "space", "index", "parts", "tuple", "duplicate", "limits")
# A node that takes no writes has no commit to conflict with.
UNTRIED = {"conflict before read-only"}
NAMED = (add_index(BY_NAME), insert([1, "a"]), insert([2, "b"]))
HASHED, EQUALS = (add_index(HASH),), (add_index(EQUAL),)
NOT_UNIQUE, NAME_TAKEN, THIRD_TAKEN = not_unique("equal"), duplicate("name"), duplicate("third")
STILL_INDEXED, PRIMARY_LAST, TEST_EXISTS = still_indexed("test"), primary_last("test"), space_exists("test")
LONG_ROW = update_too_long(["=", 1, 0])


def add_in_stream(row):
    """The row of a space is added in a transaction of stream 1."""
    return insert(row, IN_TRANSACTION, SPACES, stream=1)


def last_left_out(pair, setting, operations, first, second, space=TEST):
    """Two refusals of an UPDATE of the key 1, the second of which comes where the last operation is left out."""
    return pair, setting, update([1], operations, first, space), {"operations": operations[:-1]}, second


# A request that two stages refuse: the pair, what is asked before it, the request with the refusal by the first stage,
# what mends that fault, in its type or its body, and the refusal by the second one.
PAIRS = (
    ("type before keys", (), (8, {"stream": -1}, unknown_type(8)), {"type": "PING"}, illegal(0x0A)),
    ("type before keys", (), (7, {"stream": -1}, (5, "Unsupported: authentication")), {"type": "PING"}, illegal(0x0A)),
    ("type before keys", (), ("a", {"stream": -1}, illegal(0x00)), {"type": "PING"}, illegal(0x0A)),
    # That a request's type is known and not done yet comes behind its keys.
    ("keys before type", (), (0, {"vclock": 7}, illegal(0x26)), {"vclock": {}}, unknown_type(0)),
    ("keys before stream", (), begin(0, illegal(0x59), isolation=5), {"isolation": 4}, illegal(0x0A)),
    ("keys before stream", (begin(),), begin(1, illegal(0x59), isolation=5), {"isolation": 4}, TRANSACTION_OPEN),
    (
        "keys before stream",
        (begin(),),
        ("INSERT", {"space": SPACES, "stream": 1}, missing(0x21)),
        {"tuple": []},
        IN_TRANSACTION,
    ),
    ("keys before conflict", DOOMED, select(7, illegal(0x20), stream=1), {"key": []}, CONFLICT),
    ("keys before conflict", DOOMED, update([1], [["?"]], UNKNOWN_OPERATOR, stream=1), {"operations": []}, CONFLICT),
    ("keys before conflict", OVERLAPPED, insert(7, illegal(0x21), stream=1), {"tuple": [1]}, CONFLICT),
    ("keys before space", (), select(7, illegal(0x20), space=513), {"key": []}, NO_SPACE),
    ("keys before space", (), ("INSERT", {"space": 513}, missing(0x21)), {"tuple": [1]}, NO_SPACE),
    ("keys before space", (), update([1], [["?"]], UNKNOWN_OPERATOR, CLUSTER), {"operations": []}, SYSTEM_WRITE),
    ("keys before index", (), select([], illegal(0x14), index=9, iterator=7), {"iterator": "GE"}, no_index(9)),
    (
        "keys before index",
        HASHED,
        select([], illegal(0x13), index=1, iterator="GE", offset=-1),
        {"offset": 0},
        HASH_ITERATOR,
    ),
    ("keys before index", EQUALS, update([1], [["="]], bad_argument(0), index=1), {"operations": []}, NOT_UNIQUE),
    ("keys before parts", (), delete([1, 2], illegal(0x0A), stream=-1), {"stream": 0}, key_count(2, 1)),
    ("keys before parts", (), update(["a"], [], illegal(0x15), base=2), {"base": 1}, key_type(0)),
    ("keys before tuple", (), insert([], illegal(0x0A), stream=-1), {"stream": 0}, NO_FIELD),
    last_left_out("keys before tuple", NAMED, [["+", 9, 1], ["?"]], UNKNOWN_OPERATOR, bad_argument(0)),
    ("keys before duplicate", NAMED, insert([1, "a"], illegal(0x0A), stream="a"), {"stream": 0}, DUPLICATE),
    ("keys before duplicate", NAMED, upsert([3, "a"], [], illegal(0x15), base=2), {"base": 0}, NAME_TAKEN),
    ("keys before limits", (insert([1]),), update([1], LONG_ROW, illegal(0x15), base=2), {"base": 0}, ROW_TOO_LONG),
    ("keys before limits", OF_CONNECTION, begin(65, illegal(0x59), isolation=5), {"isolation": 4}, ALL_OF_CONNECTION),
    ("stream before conflict", DOOMED, begin(1, TRANSACTION_OPEN), {"type": "COMMIT"}, CONFLICT),
    ("stream before conflict", DOOMED, add_in_stream([]), {"space": TEST}, CONFLICT),
    ("stream before space", (begin(),), add_in_stream([511]), {"stream": 2}, SYSTEM_WRITE),
    ("stream before space", (begin(),), replace([TEST], IN_TRANSACTION, SPACES, stream=1), {"stream": 0}, IN_PLACE),
    (
        "stream before index",
        (begin(),),
        delete([TEST], IN_TRANSACTION, SPACES, index=9, stream=1),
        {"stream": 0},
        no_index(9, "_space"),
    ),
    (
        "stream before parts",
        (begin(),),
        delete([TEST, 1], IN_TRANSACTION, SPACES, stream=1),
        {"stream": 2},
        key_count(2, 1),
    ),
    ("stream before tuple", (begin(),), add_in_stream([OWN, 1, "a"]), {"stream": 0}, BAD_SPACE),
    (
        "stream before tuple",
        (begin(),),
        delete([TEST], IN_TRANSACTION, SPACES, stream=1),
        {"stream": 2},
        STILL_INDEXED,
    ),
    ("stream before duplicate", (begin(),), add_in_stream(space_row(TEST, "a")), {"stream": 2}, TEST_EXISTS),
    ("stream before limits", OF_CONNECTION, begin(64, TRANSACTION_OPEN), {"stream": 65}, ALL_OF_CONNECTION),
    ("stream before limits", OF_ALL, begin(64, TRANSACTION_OPEN), {"connection": 17}, ALL_OPEN),
    ("stream before limits", OF_ALL, begin(0, illegal(0x0A)), {"stream": 65}, ALL_OF_CONNECTION),
    ("conflict before space", DOOMED, insert([1], CONFLICT, 513, stream=1), {"stream": 2}, NO_SPACE),
    ("conflict before space", OVERLAPPED, insert([1], CONFLICT, CLUSTER, stream=1), {"stream": 0}, SYSTEM_WRITE),
    ("conflict before index", DOOMED, select([], CONFLICT, index=9, stream=1), {"stream": 2}, no_index(9)),
    ("conflict before parts", DOOMED, select([1, 2], CONFLICT, stream=1), {"stream": 2}, key_count(2, 1)),
    ("conflict before parts", OVERLAPPED, delete(["a"], CONFLICT, stream=1), {"stream": 0}, key_type(0)),
    ("conflict before tuple", OVERLAPPED, insert([], CONFLICT, stream=1), {"stream": 0}, NO_FIELD),
    ("conflict before duplicate", OVERLAPPED, insert([50], CONFLICT, stream=1), {"stream": 0}, DUPLICATE),
    (
        "conflict before limits",
        OVERLAPPED,
        update([50], update_too_long(["=", 1, 0]), CONFLICT, stream=1),
        {"stream": 0},
        ROW_TOO_LONG,
    ),
    ("space before index", (), select([], NO_SPACE, space=513, index=9), {"space": TEST}, no_index(9)),
    ("space before index", (), delete([1], SYSTEM_WRITE, CLUSTER, index=9), {"space": TEST}, no_index(9)),
    ("space before index", (add_space(FIRST),), insert([1], NO_SPACE, 513), {"space": OWN}, no_index(0, "first")),
    ("space before parts", (), select(["a"], NO_SPACE, space=513), {"space": TEST}, key_type(0)),
    ("space before parts", (), delete([], SYSTEM_WRITE, CLUSTER), {"space": TEST}, key_count(0, 1)),
    ("space before parts", (), update(["a"], [], IN_PLACE, SPACES), {"space": TEST}, key_type(0)),
    ("space before tuple", (), insert([], SYSTEM_WRITE, CLUSTER), {"space": TEST}, NO_FIELD),
    ("space before tuple", (), insert([511, 0, "a"], SYSTEM_WRITE, INDEXES), {"tuple": [513, 0, "a"]}, NO_SPACE),
    ("space before tuple", (), drop_space(SPACES, SYSTEM_WRITE), {"key": [TEST]}, STILL_INDEXED),
    (
        "space before duplicate",
        (),
        insert(space_row(TEST, "a"), SYSTEM_WRITE, SHOWN_SPACES),
        {"space": SPACES},
        TEST_EXISTS,
    ),
    (
        "space before limits",
        (),
        upsert([1], upsert_too_long(), SYSTEM_WRITE, CLUSTER, base=1),
        {"space": TEST},
        ROW_TOO_LONG,
    ),
    ("index before parts", (), select(["a"], no_index(9), index=9), {"index": 0}, key_type(0)),
    (
        "index before parts",
        HASHED,
        select([1], HASH_ITERATOR, index=1, iterator="GE"),
        {"iterator": "EQ"},
        key_type(0, "string"),
    ),
    ("index before parts", EQUALS, delete([], NOT_UNIQUE, index=1), {"index": 0}, key_count(0, 1)),
    ("index before tuple", (), delete([TEST], no_index(9, "_space"), SPACES, index=9), {"index": 0}, STILL_INDEXED),
    (
        "index before tuple",
        (*EQUALS, insert([1])),
        update([1], [["+", 9, 1]], NOT_UNIQUE, index=1),
        {"index": 0},
        bad_argument(0),
    ),
    ("index before duplicate", NAMED, update([1], [["=", 1, "b"]], no_index(9), index=9), {"index": 0}, NAME_TAKEN),
    ("index before limits", (insert([1]),), update([1], LONG_ROW, no_index(9), index=9), {"index": 0}, ROW_TOO_LONG),
    ("index before limits", LONG_TUPLES, select([], no_index(9), index=9), {"index": 0}, RESULT_TOO_LONG),
    ("parts before tuple", NAMED, update([1, 2], [["+", 9, 1]], key_count(2, 1)), {"key": [1]}, bad_argument(0)),
    ("parts before tuple", (), delete([TEST, 1], key_count(2, 1), SPACES), {"key": [TEST]}, STILL_INDEXED),
    ("parts before tuple", NAMED, drop_index(TEST, "a", key_type(1)), {"key": [TEST, 0]}, PRIMARY_LAST),
    ("parts before duplicate", NAMED, update(["a"], [["=", 1, "b"]], key_type(0)), {"key": [1]}, NAME_TAKEN),
    ("parts before limits", (insert([1]),), update(["a"], LONG_ROW, key_type(0)), {"key": [1]}, ROW_TOO_LONG),
    ("parts before limits", LONG_TUPLES, select(["a"], key_type(0), iterator="GE"), {"key": [0]}, RESULT_TOO_LONG),
    ("tuple before duplicate", NAMED, insert([1, 5], TEXT_EXPECTED), {"tuple": [1, "b"]}, DUPLICATE),
    last_left_out("tuple before duplicate", NAMED, [["=", 1, "b"], ["=", 0, 3]], KEY_CHANGED, NAME_TAKEN),
    ("tuple before duplicate", (), add_space([TEST, 1, "a"], BAD_SPACE), {"tuple": space_row(TEST, "a")}, TEST_EXISTS),
    (
        "tuple before duplicate",
        (),
        add_index([TEST, 0, "primary"], BAD_INDEX),
        {"tuple": index_row(TEST, 0, "primary", NUMBERS)},
        duplicate("primary", "_index"),
    ),
    (
        "tuple before limits",
        (insert([1]),),
        update([1], update_too_long(["=", 1, 0], ["=", 0, 2]), KEY_CHANGED),
        {"operations": LONG_ROW},
        ROW_TOO_LONG,
    ),
    (
        "duplicate before limits",
        NAMED,
        update([1], update_too_long(["=", 1, "b"]), NAME_TAKEN),
        {"operations": update_too_long(["=", 1, "c"])},
        ROW_TOO_LONG,
    ),
    (
        "duplicate before limits",
        NAMED,
        upsert([3, "a"], upsert_too_long(), NAME_TAKEN, base=1),
        {"tuple": [3, "c"]},
        ROW_TOO_LONG,
    ),
)
# A pair, what is asked before it, a request of a new database with its refusal, and that by a node that isn't writable.
PAIRS_OF_OTHER_NODE = (
    ("keys before read-only", (), insert([1], illegal(0x0A), stream=-1), illegal(0x0A)),
    ("keys before read-only", (), insert(7, illegal(0x21)), illegal(0x21)),
    ("keys before read-only", (), update([1], [["?"]], UNKNOWN_OPERATOR), UNKNOWN_OPERATOR),
    ("keys before read-only", (), upsert([1], [["="]], bad_argument(0)), bad_argument(0)),
    ("stream before read-only", (begin(),), add_in_stream([OWN]), IN_TRANSACTION),
    ("stream before read-only", (begin(),), replace([], IN_TRANSACTION, INDEXES, stream=1), IN_TRANSACTION),
    ("read-only before space", (), insert([1], NO_SPACE, 513), READ_ONLY),
    ("read-only before space", (begin(),), insert([1], NO_SPACE, 513, stream=1), READ_ONLY),
    ("read-only before space", (), replace([1], IN_PLACE, SPACES), READ_ONLY),
    ("read-only before space", (), delete([1], SYSTEM_WRITE, CLUSTER), READ_ONLY),
    ("read-only before index", (), delete([1], no_index(9), index=9), READ_ONLY),
    ("read-only before parts", (), update([], [], key_count(0, 1)), READ_ONLY),
    ("read-only before parts", (), delete(["a"], key_type(0)), READ_ONLY),
    ("read-only before tuple", (), replace([], NO_FIELD), READ_ONLY),
    ("read-only before tuple", (), add_space([OWN, 1, "a"], BAD_SPACE), READ_ONLY),
    ("read-only before tuple", (), drop_space(TEST, STILL_INDEXED), READ_ONLY),
    ("read-only before duplicate", (), add_space(space_row(TEST, "a"), TEST_EXISTS), READ_ONLY),
    ("read-only before limits", (), upsert([1], upsert_too_long(), ROW_TOO_LONG, base=1), READ_ONLY),
)

# Within the stages of parts, tuple, duplicate and limits: the numbers of the refusals, and all else as above.
FIELDS = (("id", "integer"), ("text", "string"))
OF_TWO = (*own_space(2, *FIELDS), insert([1, "a"], space=OWN))
OF_ANY = own_space(0, *FIELDS)
NO_THIRD = field_missing(2)
OF_THREE = (add_index(index_row(TEST, 1, "third", [[2, "unsigned"]])),)
# The indexes beside the primary one come by their numbers, not as they were made.
LATER_FIRST = (add_index(index_row(TEST, 2, "text", TEXTS)), add_index(index_row(TEST, 1, "fourth", [[3, "unsigned"]])))
UNIQUES = (
    add_index(index_row(TEST, 2, "third", [[2, "unsigned"]])),
    add_index(BY_NAME),
    insert([1, "a", 1]),
    insert([2, "b", 2]),
)
# The first has no text, the third has the text of the second, and the fourth has no second field.
FAULTY = (insert([1, 5]), insert([2, "a"]), insert([3, "a"]), insert([4]))
PAIRS_WITHIN = (
    ("19 before 18", (), delete(["a", 1], key_count(2, 1)), {"key": ["a"]}, key_type(0)),
    last_left_out("29 before 203", NAMED, [["=", 1, TOO_LONG], ["+", 9, 1]], bad_argument(1), too_long([1, TOO_LONG])),
    last_left_out("95 before 203", NAMED, [["=", 1, TOO_LONG], ["+", 0, MOST]], overflow(1), too_long([1, TOO_LONG])),
    last_left_out("29 before 38", OF_TWO, [["=", 2, 0], ["+", 9, 1]], bad_argument(1), field_count(3, 2), OWN),
    last_left_out("95 before 38", OF_TWO, [["=", 2, 0], ["+", 0, MOST]], overflow(1), field_count(3, 2), OWN),
    last_left_out("29 before 39", NAMED, [["#", 1, 1], ["+", 9, 1]], bad_argument(1), NO_TEXT),
    last_left_out("95 before 39", NAMED, [["#", 1, 1], ["+", 0, MOST]], overflow(1), NO_TEXT),
    last_left_out("29 before 23", NAMED, [["=", 1, 5], ["+", 9, 1]], bad_argument(1), TEXT_EXPECTED),
    last_left_out("95 before 23", NAMED, [["=", 1, 5], ["+", 0, MOST]], overflow(1), TEXT_EXPECTED),
    last_left_out("29 before 94", NAMED, [["=", 0, 3], ["+", 9, 1]], bad_argument(1), KEY_CHANGED),
    last_left_out("95 before 94", NAMED, [["=", 0, 3], ["+", 0, MOST]], overflow(1), KEY_CHANGED),
    (
        "203 before 38",
        OF_TWO,
        insert([2, "a", TOO_LONG], too_long([2, "a", TOO_LONG]), OWN),
        {"tuple": [2, "a", 5]},
        field_count(3, 2),
    ),
    ("203 before 39", OF_THREE, insert([1, TOO_LONG], too_long([1, TOO_LONG])), {"tuple": [1, "a"]}, NO_THIRD),
    ("203 before 23", (), insert(["a", TOO_LONG], too_long(["a", TOO_LONG])), {"tuple": ["a"]}, NOT_UNSIGNED),
    last_left_out("203 before 94", NAMED, [["=", 0, 3], ["=", 1, TOO_LONG]], too_long([3, TOO_LONG]), KEY_CHANGED),
    (
        "38 before 39",
        (*own_space(2, *FIELDS), add_index(index_row(OWN, 1, "third", [[2, "unsigned"]]))),
        insert([1], field_count(1, 2), OWN),
        {"tuple": [1, "a"]},
        NO_THIRD,
    ),
    ("38 before 23", OF_TWO, insert(["a"], field_count(1, 2), OWN), {"tuple": ["a", "a"]}, field_type(0, "integer")),
    last_left_out("38 before 94", OF_TWO, [["=", 0, 2], ["=", 2, 0]], field_count(3, 2), key_changed("own"), OWN),
    last_left_out("39 before 94", NAMED, [["=", 0, 3], ["#", 1, 1]], NO_TEXT, KEY_CHANGED),
    last_left_out("23 before 94", NAMED, [["=", 0, 3], ["=", 1, 5]], TEXT_EXPECTED, KEY_CHANGED),
    # The format's fields in order, and then the indexes by their numbers.
    ("23 before 39", OF_ANY, insert(["a"], field_type(0, "integer"), OWN), {"tuple": [1]}, NO_TEXT),
    ("23 before 23", OF_ANY, insert(["a", 5], field_type(0, "integer"), OWN), {"tuple": [1, 5]}, TEXT_EXPECTED),
    ("39 of the format before 23", OF_ANY, insert([-1], NO_TEXT, OWN), {"tuple": [-1, "a"]}, NOT_UNSIGNED),
    ("23 of the format before 23", OF_ANY, insert([-1, 5], TEXT_EXPECTED, OWN), {"tuple": [-1, "a"]}, NOT_UNSIGNED),
    ("23 before 39 by indexes", LATER_FIRST, insert(["a"], NOT_UNSIGNED), {"tuple": [1]}, field_missing(3)),
    ("39 before 23 by indexes", LATER_FIRST, insert([1, 5], field_missing(3)), {"tuple": [1, 5, 0, 0]}, TEXT_EXPECTED),
    # An UPSERT's tuple comes before what its operations make of the one that is there.
    ("23 before 94 by UPSERT", NAMED, upsert([1, 5], [["=", 0, 3]], TEXT_EXPECTED), {"tuple": [1, "a"]}, KEY_CHANGED),
    (
        "203 before 9",
        (),
        add_space([OWN, 1, "a", TOO_LONG], too_long([OWN, 1, "a", TOO_LONG])),
        {"tuple": [OWN, 1, "a"]},
        BAD_SPACE,
    ),
    ("39 before 9", (), add_space([OWN, 1], NO_THIRD), {"tuple": [OWN, 1, "a"]}, BAD_SPACE),
    ("23 before 9", (), add_space([OWN, 1, 5], field_type(2, "string")), {"tuple": [OWN, 1, "a"]}, BAD_SPACE),
    ("39 before 36", (), add_index([513, 0], NO_THIRD), {"tuple": [513, 0, "a"]}, NO_SPACE),
    ("23 before 36", (), add_index([513, -1, "a"], field_type(1)), {"tuple": [513, 0, "a"]}, NO_SPACE),
    ("36 before 14", (), add_index([513, 0, "a"], NO_SPACE), {"tuple": [TEST, 0, "a"]}, BAD_INDEX),
    # By another index than 0 a row of the database's own spaces is known once it is found.
    ("5 before 11", (), delete(["_space"], SYSTEM_WRITE, SPACES, index=2), {"key": ["test"]}, STILL_INDEXED),
    (
        "5 before 17",
        NAMED,
        delete([SPACES, "primary"], SYSTEM_WRITE, INDEXES, index=2),
        {"key": [TEST, "primary"]},
        PRIMARY_LAST,
    ),
    (
        "10 by number before 10 by name",
        (),
        add_space(space_row(TEST, "_space"), TEST_EXISTS),
        {"tuple": space_row(OWN, "_space")},
        space_exists("_space"),
    ),
    (
        "3 by number before 3 by name",
        NAMED,
        add_index(index_row(TEST, 0, "name", NUMBERS), duplicate("primary", "_index")),
        {"tuple": index_row(TEST, 2, "name", NUMBERS)},
        duplicate("name", "_index"),
    ),
    ("3 of INSERT by indexes", NAMED, insert([1, "b"], DUPLICATE), {"tuple": [3, "b"]}, NAME_TAKEN),
    ("3 of INSERT by indexes", UNIQUES, insert([3, "b", 1], NAME_TAKEN), {"tuple": [3, "c", 1]}, THIRD_TAKEN),
    ("3 of REPLACE by indexes", UNIQUES, replace([1, "b", 2], NAME_TAKEN), {"tuple": [1, "a", 2]}, THIRD_TAKEN),
    last_left_out("3 of UPDATE by indexes", UNIQUES, [["=", 2, 2], ["=", 1, "b"]], NAME_TAKEN, THIRD_TAKEN),
    ("3 of UPSERT by indexes", UNIQUES, upsert([3, "b", 1], [], NAME_TAKEN), {"tuple": [3, "c", 1]}, THIRD_TAKEN),
    (
        "3 of UPSERT by indexes",
        UNIQUES,
        upsert([1, "c", 3], [["=", 2, 2], ["=", 1, "b"]], NAME_TAKEN),
        {"operations": [["=", 2, 2]]},
        THIRD_TAKEN,
    ),
    ("204 before 201", OF_ALL, begin(65, ALL_OF_CONNECTION), {"connection": 17}, ALL_OPEN),
    # An index to be made comes behind its own row, and its tuples by their primary keys.
    (
        "3 of a row before 39 of a tuple",
        (insert([1]),),
        add_index(index_row(TEST, 1, "primary", TEXTS), duplicate("name", "_index")),
        {"tuple": index_row(TEST, 1, "name", TEXTS)},
        NO_TEXT,
    ),
    (
        "23 of a tuple before 3 of another",
        FAULTY,
        add_index(index_row(TEST, 1, "name", TEXTS), TEXT_EXPECTED),
        {"tuple": index_row(TEST, 1, "name", [[1, "scalar"]])},
        NAME_TAKEN,
    ),
    (
        "3 of a tuple before 39 of another",
        FAULTY,
        add_index(index_row(TEST, 1, "name", [[1, "scalar"]]), NAME_TAKEN),
        {"tuple": [TEST, 1, "name", "tree", {"unique": False}, [[1, "scalar"]]]},
        NO_TEXT,
    ),
)

# ---- the order of refusals, by one request that is mended again and again

# Each request has the faults of all those below it too, and mends the one for which the request above it was
# refused: what it changes, and its reply. So each refusal comes before those below it.
LONG_LEADER = ["leader", LONGEST]
UPDATE_LADDER = (
    ({"index": -1, "base": 2, "operations": 7}, missing(0x10)),
    ({"space": "a"}, illegal(0x10)),
    ({"space": 513}, illegal(0x11)),
    ({"index": 9}, illegal(0x15)),
    ({"base": 0}, missing(0x20)),
    ({"key": "a"}, illegal(0x20)),
    ({"key": ["leader", 1]}, illegal(0x21)),
    ({"operations": [["="], ["?"]]}, bad_argument(0)),
    ({"operations": [["?"], ["="]]}, UNKNOWN_OPERATOR),
    ({"operations": [["+", 1, 1], ["+", 9, 1]]}, NO_SPACE),
    ({"space": CLUSTER}, SYSTEM_WRITE),
    # By another index than 0 the row isn't known yet, and by 0 it is, whatever follows its first part.
    ({"space": SETTINGS}, no_index(9, "_schema")),
    ({"index": 0}, SYSTEM_WRITE),
    ({"space": TEST}, key_count(2, 1)),
    ({"key": ["a"]}, key_type(0)),
    ({"key": [1]}, overflow(0)),
    ({"operations": update_too_long(["+", 9, 1], ["=", 0, "a"])}, bad_argument(1)),
    ({"operations": update_too_long(["=", 0, "a"])}, too_long(["a", filler(update_too_long(["=", 0, "a"]))])),
    ({"operations": update_too_long(["=", 1, 0], ["=", 0, "a"])}, NOT_UNSIGNED),
    ({"operations": update_too_long(["#", 0, 9])}, NO_FIELD),
    ({"operations": update_too_long(["=", 1, 0], ["=", 0, 2])}, KEY_CHANGED),
    ({"operations": update_too_long(["=", 1, 0])}, ROW_TOO_LONG),
    ({"operations": [["=", 1, 0]]}, [[1, 0]]),
)
LADDERS = {
    "INSERT": (
        ({"tuple": 7}, missing(0x10)),
        ({"space": -1}, illegal(0x10)),
        ({"space": 513}, illegal(0x21)),
        ({"tuple": LONG_LEADER}, NO_SPACE),
        ({"space": SETTINGS}, SYSTEM_WRITE),
        ({"space": TEST}, too_long(LONG_LEADER)),
        ({"tuple": ["leader"]}, NOT_UNSIGNED),
        ({"tuple": [1, LONGEST + b"a"]}, too_long([1, LONGEST + b"a"])),
        ({"tuple": [1]}, DUPLICATE),
        ({"tuple": [3]}, [[3]]),
    ),
    "REPLACE": (
        ({"tuple": 7}, missing(0x10)),
        ({"space": 2**32}, illegal(0x10)),
        ({"space": 513}, illegal(0x21)),
        ({"tuple": LONG_LEADER}, NO_SPACE),
        ({"space": SETTINGS}, SYSTEM_WRITE),
        ({"space": TEST}, too_long(LONG_LEADER)),
        ({"tuple": ["leader"]}, NOT_UNSIGNED),
        ({"tuple": [1]}, [[1]]),
    ),
    "UPDATE": UPDATE_LADDER,
    "DELETE": (
        ({"index": -1}, missing(0x10)),
        ({"space": None}, illegal(0x10)),
        ({"space": 513}, illegal(0x11)),
        ({"index": 9}, missing(0x20)),
        ({"key": 7}, illegal(0x20)),
        ({"key": ["leader", 1]}, NO_SPACE),
        ({"space": CLUSTER}, SYSTEM_WRITE),
        ({"space": SETTINGS}, no_index(9, "_schema")),
        ({"index": 0}, SYSTEM_WRITE),
        ({"space": TEST}, key_count(2, 1)),
        ({"key": ["leader"]}, key_type(0)),
        ({"key": [1]}, [[1, MOST]]),
    ),
    "UPSERT": (
        ({"base": 2, "tuple": 7}, missing(0x10)),
        ({"space": -1}, illegal(0x10)),
        ({"space": 513}, illegal(0x15)),
        ({"base": 1}, illegal(0x21)),
        ({"tuple": LONG_LEADER}, missing(0x28)),
        ({"operations": 7}, illegal(0x28)),
        ({"operations": [["="], ["?"]]}, bad_argument(0)),
        ({"operations": [["?"], ["="]]}, UNKNOWN_OPERATOR),
        ({"operations": [["=", 1, "a"]]}, NO_SPACE),
        ({"space": SETTINGS}, SYSTEM_WRITE),
        ({"space": TEST}, too_long(LONG_LEADER)),
        # Only now has the packet room for long operations.
        ({"tuple": ["leader"], "operations": upsert_too_long(["=", 1, "a"])}, NOT_UNSIGNED),
        ({"tuple": [1]}, too_long(["a", filler(upsert_too_long(["=", 1, "a"]))])),
        ({"operations": upsert_too_long(["=", 2, 0], ["=", 1, "a"])}, NOT_UNSIGNED),
        ({"operations": upsert_too_long(["#", 1, 9])}, NO_FIELD),
        ({"operations": upsert_too_long(["=", 2, 0], ["=", 1, 2])}, KEY_CHANGED),
        ({"operations": upsert_too_long(["=", 2, 0])}, ROW_TOO_LONG),
        ({"operations": [["=", 2, 0]]}, []),
    ),
    "BEGIN": (
        ({"stream": -1, "isolation": 5}, illegal(0x0A)),
        ({"stream": 0}, illegal(0x59)),
        ({"isolation": 4}, illegal(0x0A)),
        ({"stream": 1}, OK),
        ({}, TRANSACTION_OPEN),
        ({"stream": 2}, OK),
    ),
    "COMMIT": (({"stream": -1}, illegal(0x0A)), ({"stream": 0}, illegal(0x0A)), ({"stream": 1}, OK)),
    "ROLLBACK": (({"stream": -1}, illegal(0x0A)), ({"stream": 0}, illegal(0x0A)), ({"stream": 1}, OK)),
    # Rows that another index names, whose keys have two parts.
    "SELECT by a name": (
        ({"space": 513, "index": 9, "key": [-1, 5, 5]}, NO_SPACE),
        ({"space": INDEXES}, no_index(9, "_index")),
        ({"index": 2}, key_count(3, 2)),
        ({"key": [-1, 5]}, key_type(0)),
        ({"key": [TEST, 5]}, key_type(1, "string")),
        ({"key": [TEST]}, index_rows(TEST)),
        ({"key": [TEST, "primary"]}, index_rows(TEST)),
        ({"key": [TEST, "other"]}, []),
    ),
    "DELETE by a name": (
        ({"space": 513, "index": 9, "key": [-1]}, NO_SPACE),
        # A row that another index names is known once it is found.
        ({"space": INDEXES}, no_index(9, "_index")),
        ({"index": 2}, key_count(1, 2)),
        ({"key": [-1, 5]}, key_type(0)),
        ({"key": [TEST, 5]}, key_type(1, "string")),
        ({"key": [TEST, "other"]}, []),
        ({"key": [SPACES, "name"]}, SYSTEM_WRITE),
        ({"space": SPACES, "key": ["_space"]}, SYSTEM_WRITE),
        ({"key": ["test"]}, still_indexed("test")),
        ({"key": ["other"]}, []),
        ({"key": [5]}, key_type(0, "string")),
        ({"key": ["test", 5]}, key_count(2, 1)),
        ({"space": INDEXES, "key": [TEST, "primary"]}, index_rows(TEST)),
        ({"space": SPACES, "key": ["test"]}, [SPACE_ROWS[-1]]),
    ),
}

SCHEMA_WRITES = [
    step
    for space, rows in ((SPACES, SPACE_ROWS), (INDEXES, INDEX_ROWS))
    for step in (
        # Rows are added and dropped, never changed in place, whatever else is wrong.
        *(replace(tuple_, IN_PLACE, space) for tuple_ in ([], [1], [-1], ["a"], [TEST], [1_000, LONGEST + b"a"])),
        *(upsert(tuple_, [], IN_PLACE, space) for tuple_ in ([], [1], [TEST])),
        *(update(key, [], IN_PLACE, space) for key in ([], [1], [1, 2, 3], ["a"])),
        *(update(["test"], [], IN_PLACE, space, index=index) for index in (2, 9)),
        # Those of the database's own spaces stay, whatever stands behind their number.
        *(insert(tuple_, SYSTEM_WRITE, space) for tuple_ in ([0], [511, "a"], [Wide(511, 8)], [300, LONGEST])),
        *(delete(key, SYSTEM_WRITE, space) for key in ([0], [SPACES, 0], [511, "a", 1], [Wide(1, 2, signed=True)])),
        select([], *rows, space=space),
    )
]
SYSTEM_WRITES = [
    step
    for space in (SHOWN_SPACES, SHOWN_INDEXES, CLUSTER)
    for step in (
        *(insert(tuple_, SYSTEM_WRITE, space) for tuple_ in ([], [1], [1_000, LONGEST + b"a"])),
        *(replace(tuple_, SYSTEM_WRITE, space) for tuple_ in ([], [TEST], ["a"])),
        *(update([1, 2, 3], [["=", 9, 9]], SYSTEM_WRITE, space, index=index) for index in (0, 1, 2, 9)),
        *(delete([1, 2, 3], SYSTEM_WRITE, space, index=index) for index in (0, 1, 2, 9)),
        *(upsert(tuple_, [["=", 0, 9]], SYSTEM_WRITE, space) for tuple_ in ([], [1])),
    )
]
LEADER_WRITES = (
    insert(["leader", 2], SYSTEM_WRITE, SETTINGS),
    insert([Spelled(b"\xd9\x06leader")], SYSTEM_WRITE, SETTINGS),
    replace(["leader", 2], SYSTEM_WRITE, SETTINGS),
    replace(["leader", LONGEST], SYSTEM_WRITE, SETTINGS),
    update(["leader"], [["=", 1, 2]], SYSTEM_WRITE, SETTINGS),
    update(["leader"], [["=", 9, 2]], SYSTEM_WRITE, SETTINGS),
    update(["leader", 1], [], SYSTEM_WRITE, SETTINGS),
    update(["leader"], [], no_index(1, "_schema"), SETTINGS, index=1),
    delete(["leader"], SYSTEM_WRITE, SETTINGS),
    delete(["leader", 1], SYSTEM_WRITE, SETTINGS),
    delete(["leader"], no_index(1, "_schema"), SETTINGS, index=1),
    upsert(["leader", 2], [], SYSTEM_WRITE, SETTINGS),
    upsert(["leader"], [["=", 1, 2]], SYSTEM_WRITE, SETTINGS),
    # Bytes are no text, and neither of these is a key.
    insert([b"leader"], field_type(0, "string"), SETTINGS),
    delete([], key_count(0, 1), SETTINGS),
)
# Below 512 there are no other spaces.
NO_SPACES = (
    insert([1], no_space(300), 300),
    replace([1], no_space(511), 511),
    update([1], [], no_space(0), 0),
    delete([1], NO_SPACE, 513),
    upsert([1], [], no_space(2**32 - 1), 2**32 - 1),
)
# What a new database has.
UNCHANGED = (
    select([], *SPACE_ROWS, space=SPACES),
    select([], *SPACE_ROWS, space=SHOWN_SPACES),
    select([], *INDEX_ROWS, space=INDEXES),
    select([], *INDEX_ROWS, space=SHOWN_INDEXES),
    select([], space=CLUSTER),
    select([], LEADER, space=SETTINGS),
    has_tuples(),
)
