"""Transactions beside each other, step by step, and what each step is answered, worked out by hand.

A case is a title and its steps, each in a line: who asks, what, and the answer behind an arrow.

- `1.2` asks on connection 1 in stream 2, and `3` on connection 3 outside of streams.
- `begin`, `commit`, `rollback` and `ping` are answered `ok` where no arrow follows; `leave` disconnects.
- `select`, with an iterator or EQ, and a key; `insert` and `replace` with a tuple, which is the answer where no
  arrow follows; `update` with a key and operations; `delete` with a key; `upsert` with a tuple and operations,
  which is answered `none` where no arrow follows.
- `nop`, `id` and the number of a request type are requests without a body.
- Fields of a body stand behind the name, as `space 280`, `index 1`, `limit 2`, `offset 1` or `base 1`; the space is
  512 where none stands.
- An answer is `ok`, `id`, the number of a refusal, `none`, or tuples with commas between them.
- `<9>` is a text of nine letters, and what stands behind a `#` is a comment.
"""

# The indexes that cases add to the space 512, which has a primary one on field 0.
BY_NAME = '9: insert space 288 [512, 1, "name", "tree", {"unique": true}, [[1, "string"]]]'
BY_GROUP = '9: insert space 288 [512, 1, "group", "tree", {"unique": false}, [[1, "string"]]]'
BY_HASH = '9: insert space 288 [512, 1, "hash", "hash", {}, [[1, "string"]]]'
NEW_SPACE = '9: insert space 280 [600, 1, "own", "memtx", 0, {}, []]'
NEW_PRIMARY = '9: insert space 288 [600, 0, "key", "tree", {}, [[0, "unsigned"]]]'
NEW_HASH = '9: insert space 288 [600, 0, "key", "hash", {}, [[0, "unsigned"]]]'
HASH_SPACE = f"{NEW_SPACE}\n{NEW_HASH}"

# What a row of an UPSERT without operations takes besides its tuple, and a tuple of a small number and a long text
# besides the text.
ROW_SIZE, TUPLE_HEAD = 40, 7
# The text of a tuple of which four fill a transaction.
QUARTER = 4_194_304 // 4 - ROW_SIZE - TUPLE_HEAD
# The texts of two operations that make the longest row of an UPDATE, with a third one that shortens the tuple again.
HALF_ROW = 1_048_543

GAPS = (
    (
        "a row in a gap that was read conflicts",
        """
        9: insert [10]
        9: insert [20]
        1.1: begin
        1.1: select ge [10] limit 2 -> [10], [20]
        1.1: insert [30]
        2: insert [15]
        1.1: commit -> 97
        9: select [30] -> none
        1.1: commit
        """,
    ),
    (
        "a row behind the last one that was answered is in no gap",
        """
        9: insert [10]
        9: insert [20]
        1.1: begin
        1.1: select ge [10] limit 2 -> [10], [20]
        1.1: insert [30]
        2: insert [25]
        1.1: commit
        9: select [] -> [10], [20], [25], [30]
        """,
    ),
    (
        "a SELECT that doesn't reach its limit reads to the end",
        """
        9: insert [10]
        9: insert [20]
        1.1: begin
        1.1: select ge [10] limit 3 -> [10], [20]
        1.1: insert [30]
        2: insert [25]
        1.1: commit -> 97
        """,
    ),
    (
        "a key that isn't there is read",
        """
        1.1: begin
        1.1: select [5] -> none
        1.1: replace [6]
        2: insert [5]
        1.1: commit -> 97
        """,
    ),
    (
        "GT doesn't read its key",
        """
        9: insert [10, "a"]
        1.1: begin
        1.1: select gt [10] -> none
        2: replace [10, "b"]
        1.1: insert [30]
        1.1: commit
        """,
    ),
    (
        "GT reads all behind its key",
        """
        9: insert [10, "a"]
        1.1: begin
        1.1: select gt [10] -> none
        1.1: replace [1]
        2: replace [11]
        1.1: commit -> 97
        """,
    ),
    (
        "LT doesn't read its key",
        """
        9: insert [5]
        1.1: begin
        1.1: select lt [10] -> [5]
        1.1: replace [30]
        2: insert [10]
        1.1: commit
        """,
    ),
    (
        "LT reads all before its key",
        """
        9: insert [5]
        1.1: begin
        1.1: select lt [10] -> [5]
        1.1: replace [30]
        2: insert [0]
        1.1: commit -> 97
        """,
    ),
    (
        "LE with a limit reads down to the last one",
        """
        9: insert [10]
        9: insert [20]
        1.1: begin
        1.1: select le [25] limit 1 -> [20]
        1.1: replace [30]
        2: insert [15]
        2: delete [10] -> [10]
        1.1: commit
        """,
    ),
    (
        "LE with a limit reads its own end",
        """
        9: insert [10]
        9: insert [20]
        1.1: begin
        1.1: select le [25] limit 1 -> [20]
        1.1: replace [30]
        2: insert [25]
        1.1: commit -> 97
        """,
    ),
    (
        "REQ of no key reads from the end",
        """
        9: insert [10]
        9: insert [20]
        1.1: begin
        1.1: select req [] limit 1 -> [20]
        1.1: replace [5]
        2: insert [15]
        1.1: commit
        1.1: begin
        1.1: select req [] limit 1 -> [20]
        1.1: replace [6]
        2: insert [40]
        1.1: commit -> 97
        """,
    ),
    (
        "limit 0 reads nothing",
        """
        9: insert [1]
        1.1: begin
        1.1: select [] limit 0 -> none
        1.1: insert [2]
        2: delete [1] -> [1]
        1.1: commit
        9: select [] -> [2]
        """,
    ),
    (
        "tuples of the offset are read",
        """
        9: insert [1]
        9: insert [2]
        9: insert [3]
        1.1: begin
        1.1: select [] offset 1 limit 1 -> [2]
        1.1: replace [9]
        2: replace [1, "a"]
        1.1: commit -> 97
        """,
    ),
    (
        "nothing behind the last tuple is read, the offset included",
        """
        9: insert [1]
        9: insert [2]
        9: insert [3]
        1.1: begin
        1.1: select [] offset 1 limit 1 -> [2]
        1.1: replace [9]
        2: replace [3, "a"]
        1.1: commit
        """,
    ),
    (
        "an offset behind all tuples reads to the end",
        """
        9: insert [1]
        1.1: begin
        1.1: select [] offset 5 limit 1 -> none
        1.1: replace [9]
        2: insert [7]
        1.1: commit -> 97
        """,
    ),
    (
        "the last one that was answered may be its own",
        """
        9: insert [10]
        9: insert [20]
        1.1: begin
        1.1: insert [15]
        1.1: select ge [10] limit 2 -> [10], [15]
        2: insert [17]
        1.1: commit
        9: select [] -> [10], [15], [17], [20]
        """,
    ),
    (
        "a gap before its own row is read",
        """
        9: insert [10]
        1.1: begin
        1.1: insert [15]
        1.1: select ge [10] limit 2 -> [10], [15]
        2: insert [12]
        1.1: select [15] -> 97
        1.1: rollback
        9: select [] -> [10], [12]
        """,
    ),
    (
        "a row that comes and goes in one commit was in the gap",
        """
        1.1: begin
        1.1: select [5] -> none
        1.1: replace [6]
        2.1: begin
        2.1: insert [5]
        2.1: delete [5] -> [5]
        2.1: commit
        1.1: commit -> 97
        """,
    ),
    (
        "a tuple that is replaced by itself is touched",
        """
        9: insert [1, "a"]
        1.1: begin
        1.1: select [1] -> [1, "a"]
        1.1: replace [2]
        2: replace [1, "a"]
        1.1: commit -> 97
        """,
    ),
    (
        "a DELETE of nothing touches nothing",
        """
        1.1: begin
        1.1: select [] -> none
        1.1: replace [2]
        2: delete [1] -> none
        2: update [1] [["=", 1, 1]] -> none
        1.1: commit
        """,
    ),
)

WITHOUT_READS = (
    (
        "two REPLACEs of one key both commit",
        """
        1.1: begin
        2.1: begin
        1.1: replace [1, "a"]
        2.1: replace [1, "b"]
        1.1: commit
        2.1: commit
        9: select [1] -> [1, "b"]
        """,
    ),
    (
        "the later commit of two REPLACEs stays, whichever was asked first",
        """
        1.1: begin
        2.1: begin
        1.1: replace [1, "a"]
        2.1: replace [1, "b"]
        2.1: commit
        1.1: select [1] -> [1, "a"]
        1.1: commit
        9: select [1] -> [1, "a"]
        """,
    ),
    (
        "a REPLACE doesn't read what is deleted",
        """
        9: insert [1]
        1.1: begin
        1.1: replace [1, "a"]
        2: delete [1] -> [1]
        1.1: commit
        9: select [] -> [1, "a"]
        """,
    ),
    (
        "two REPLACEs of one key in a unique index conflict",
        f"""
        {BY_NAME}
        1.1: begin
        2.1: begin
        1.1: replace [1, "a"]
        2.1: replace [2, "a"]
        1.1: commit
        2.1: commit -> 97
        9: select [] -> [1, "a"]
        """,
    ),
    (
        "two REPLACEs of one key in an index that isn't unique both commit",
        f"""
        {BY_GROUP}
        1.1: begin
        2.1: begin
        1.1: replace [1, "a"]
        2.1: replace [2, "a"]
        1.1: commit
        2.1: commit
        9: select index 1 ["a"] -> [1, "a"], [2, "a"]
        """,
    ),
    (
        "two INSERTs of one key conflict",
        """
        1.1: begin
        2.1: begin
        1.1: insert [1, "a"]
        2.1: insert [1, "b"]
        1.1: commit
        2.1: select [1] -> 97
        2.1: commit -> 97
        9: select [1] -> [1, "a"]
        """,
    ),
    (
        "of two counts of one number one is lost",
        """
        9: insert [1, 5]
        1.1: begin
        2.1: begin
        1.1: update [1] [["+", 1, 1]] -> [1, 6]
        2.1: update [1] [["+", 1, 1]] -> [1, 6]
        2.1: commit
        1.1: commit -> 97
        9: select [1] -> [1, 6]
        """,
    ),
    (
        "two DELETEs of one key conflict",
        """
        9: insert [1]
        1.1: begin
        2.1: begin
        1.1: delete [1] -> [1]
        2.1: delete [1] -> [1]
        1.1: commit
        2.1: commit -> 97
        """,
    ),
    (
        "two UPSERTs of one key conflict",
        """
        1.1: begin
        2.1: begin
        1.1: upsert [1, 1] [["+", 1, 1]]
        2.1: upsert [1, 1] [["+", 1, 1]]
        1.1: commit
        2.1: commit -> 97
        9: select [1] -> [1, 1]
        """,
    ),
    (
        "an UPSERT reads its key, and a REPLACE doesn't",
        """
        1.1: begin
        2.1: begin
        1.1: upsert [1, 1] [["+", 1, 1]]
        2.1: replace [1, 9]
        1.1: commit
        2.1: commit
        9: select [1] -> [1, 9]
        1.1: begin
        2.1: begin
        1.1: upsert [1, 1] [["+", 1, 1]]
        2.1: replace [1, 20]
        2.1: commit
        1.1: commit -> 97
        9: select [1] -> [1, 20]
        """,
    ),
    (
        "an UPSERT whose operations all fail is a row",
        """
        9: insert [1, "a"]
        1.1: begin
        1.1: select [1] -> [1, "a"]
        1.1: replace [2]
        2: upsert [1] [["+", 1, 1]]
        1.1: commit -> 97
        9: select [] -> [1, "a"]
        """,
    ),
    (
        "an UPDATE without operations is a row",
        """
        9: insert [1, "a"]
        1.1: begin
        1.1: select [1] -> [1, "a"]
        1.1: replace [2]
        2: update [1] [] -> [1, "a"]
        1.1: commit -> 97
        """,
    ),
)

# What a failed statement has read.
REFUSALS = (
    (
        "a failed INSERT has read the key that it found",
        """
        9: insert [1]
        1.1: begin
        1.1: insert [30]
        1.1: insert [1] -> 3
        2: delete [1] -> [1]
        1.1: commit -> 97
        9: select [] -> none
        """,
    ),
    (
        "a failed INSERT leaves its transaction, and no row",
        """
        9: insert [1]
        1.1: begin
        1.1: insert [30]
        1.1: insert [1, "a"] -> 3
        1.1: commit
        9: select [] -> [1], [30]
        """,
    ),
    (
        "an INSERT reads no index behind the one with a duplicate",
        f"""
        {BY_NAME}
        9: insert [1, "a"]
        1.1: begin
        1.1: replace [9, "q"]
        1.1: insert [1, "z"] -> 3
        2: insert [5, "z"]
        1.1: commit
        9: select [] -> [1, "a"], [5, "z"], [9, "q"]
        """,
    ),
    (
        "an INSERT that fails at its second index has read both",
        f"""
        {BY_NAME}
        9: insert [1, "a"]
        1.1: begin
        1.1: replace [9, "q"]
        1.1: insert [2, "a"] -> 3
        2: insert [2, "b"]
        1.1: commit -> 97
        1.1: begin
        1.1: replace [9, "q"]
        1.1: insert [3, "a"] -> 3
        2: replace [1, "c"]
        1.1: commit -> 97
        9: select [] -> [1, "c"], [2, "b"]
        """,
    ),
    (
        "a failed REPLACE has read the other tuple's key",
        f"""
        {BY_NAME}
        9: insert [1, "a"]
        1.1: begin
        1.1: replace [9, "q"]
        1.1: replace [2, "a"] -> 3
        2: delete [1] -> [1, "a"]
        1.1: commit -> 97
        """,
    ),
    (
        "a failed UPDATE has read its key, and the key that is taken",
        f"""
        {BY_NAME}
        9: insert [1, "a"]
        9: insert [2, "b"]
        1.1: begin
        1.1: replace [9, "q"]
        1.1: update [2] [["=", 1, "a"]] -> 3
        1.1: select [2] -> [2, "b"]
        2: delete [1] -> [1, "a"]
        1.1: commit -> 97
        1.1: begin
        1.1: replace [9, "q"]
        1.1: update [2] [["=", 0, 3]] -> 94
        2: replace [2, "c"]
        1.1: commit -> 97
        """,
    ),
    (
        "an UPDATE that would change its primary key has not read the index of names",
        f"""
        {BY_NAME}
        9: insert [2, "b"]
        1.1: begin
        1.1: replace [9, "q"]
        1.1: update [2] [["=", 0, 3], ["=", 1, "z"]] -> 94
        2: insert [7, "z"]
        1.1: commit
        """,
    ),
    (
        "operations that can't be applied come behind the key's read",
        """
        9: insert [1, 18446744073709551615, "a"]
        1.1: begin
        1.1: replace [9]
        1.1: update [1] [["+", 1, 1]] -> 95
        1.1: update [1] [["+", 2, 1]] -> 29
        1.1: update [1] [["=", 7, 1]] -> 29
        2: delete [1] -> [1, 18446744073709551615, "a"]
        1.1: commit -> 97
        """,
    ),
    (
        "an UPSERT skips what can't be applied",
        """
        9: insert [1, 18446744073709551615]
        1.1: begin
        1.1: upsert [1, 0] [["+", 1, 1], ["=", 2, "x"]]
        1.1: select [1] -> [1, 18446744073709551615, "x"]
        1.1: upsert [1] [["=", 0, 2]] -> 94
        1.1: commit
        9: select [1] -> [1, 18446744073709551615, "x"]
        """,
    ),
    (
        "an UPSERT of an absent key has read the names of its tuple",
        f"""
        {BY_NAME}
        9: insert [1, "a"]
        1.1: begin
        1.1: replace [9, "q"]
        1.1: upsert [2, "a"] [] -> 3
        2: replace [1, "b"]
        1.1: commit -> 97
        """,
    ),
    (
        "an UPSERT of a key that is there reads the names of the new tuple alone",
        f"""
        {BY_NAME}
        9: insert [1, "a"]
        1.1: begin
        1.1: upsert [1, "c"] [["=", 1, "b"]]
        2: insert [3, "c"]
        1.1: commit
        9: select [] -> [1, "b"], [3, "c"]
        """,
    ),
    (
        "what is refused before its key reads no tuple",
        f"""
        {BY_GROUP}
        9: insert [1, "a"]
        1.1: begin
        1.1: replace [9, "q"]
        1.1: select [1, 2] -> 19
        1.1: select ["a"] -> 18
        1.1: delete [] -> 19
        1.1: update ["a"] [] -> 18
        1.1: delete index 1 ["a"] -> 41
        1.1: update index 1 ["a"] [] -> 41
        1.1: insert [1] -> 39
        1.1: insert ["a", "b"] -> 23
        1.1: replace [1, 2] -> 23
        1.1: upsert [] [] -> 39
        1.1: select index 5 [] -> 35
        2: replace [1, "b"]
        2: delete [1] -> [1, "b"]
        1.1: commit
        9: select [] -> [9, "q"]
        """,
    ),
    (
        "what is refused by its keys is no statement, and dooms nothing",
        """
        9: insert [1]
        1.1: begin
        1.1: select [1] -> [1]
        2: replace [1, "b"]
        1.1: update [1] [["?", 1, 1]] -> 28
        1.1: update [1] [["="]] -> 29
        1.1: insert 7 -> 1
        1.1: select iterator 7 [] -> 1
        1.1: insert -> 69
        1.1: select [1] -> [1]
        1.1: commit
        """,
    ),
)

VIEWS = (
    (
        "a read view stays, and its first write conflicts",
        """
        9: insert [1, "a"]
        1.1: begin
        1.1: select [1] -> [1, "a"]
        2: replace [1, "b"]
        1.1: select [1] -> [1, "a"]
        1.1: replace [2] -> 97
        1.1: select [1] -> 97
        1.1: rollback
        1.1: select [1] -> [1, "b"]
        """,
    ),
    (
        "a read view commits",
        """
        9: insert [1, "a"]
        1.1: begin
        1.1: select [1] -> [1, "a"]
        2: replace [1, "b"]
        1.1: select [1] -> [1, "a"]
        1.1: commit
        1.1: select [1] -> [1, "b"]
        """,
    ),
    (
        "a read view is before the first commit of all that overlap",
        """
        9: insert [1, "a"]
        1.1: begin
        1.1: select [1] -> [1, "a"]
        2: replace [1, "b"]
        2: replace [1, "c"]
        2: replace [1, "d"]
        1.1: select [1] -> [1, "a"]
        1.1: rollback
        1.1: select [1] -> [1, "d"]
        """,
    ),
    (
        "a commit before the overlap is seen, and one behind it isn't",
        """
        9: insert [1, "a"]
        1.1: begin
        1.1: select [1] -> [1, "a"]
        2: insert [2]
        1.1: select [2] -> [2]
        2: insert [3]
        2: replace [1, "b"]
        2: insert [4]
        1.1: select [] -> [1, "a"], [2], [3]
        1.1: commit
        """,
    ),
    (
        "what wasn't read yet moves no view",
        """
        9: insert [1, "a"]
        1.1: begin
        2: replace [1, "b"]
        1.1: select [1] -> [1, "b"]
        1.1: replace [2]
        1.1: commit
        """,
    ),
    (
        "two read views have two places",
        """
        9: insert [1, "a"]
        1.1: begin
        1.1: select [1] -> [1, "a"]
        2: replace [1, "b"]
        3.1: begin
        3.1: select [1] -> [1, "b"]
        2: replace [1, "c"]
        1.1: select [1] -> [1, "a"]
        3.1: select [1] -> [1, "b"]
        3.1: commit
        1.1: select [1] -> [1, "a"]
        1.1: commit
        """,
    ),
    (
        "a DELETE of nothing is no row, so its transaction reads on",
        """
        1.1: begin
        1.1: delete [7] -> none
        2: insert [7]
        1.1: select [7] -> none
        1.1: delete [8] -> 97
        1.1: commit -> 97
        1.1: select [7] -> [7]
        """,
    ),
    (
        "a failed write before the overlap dooms nothing",
        """
        9: insert [1]
        1.1: begin
        1.1: insert [1, "a"] -> 3
        2: delete [1] -> [1]
        1.1: select [1] -> [1]
        1.1: commit
        """,
    ),
    (
        "each write in a read view conflicts, also one that would be refused",
        """
        9: insert [1]
        1.1: begin
        1.1: select [1] -> [1]
        2: delete [1] -> [1]
        1.1: insert space 999 [1] -> 97
        1.1: rollback
        1.1: begin
        1.1: select [1] -> none
        2: insert [1]
        1.1: delete [1, 2] -> 97
        1.1: commit -> 97
        """,
    ),
    (
        "a transaction with a row is doomed at once",
        """
        9: insert [1]
        1.1: begin
        1.1: select [1] -> [1]
        1.1: replace [2]
        2: replace [1, "b"]
        1.1: select [2] -> 97
        1.1: select space 999 [] -> 97
        1.1: insert [2] -> 97
        1.1: insert space 280 [600, 1, "own", "memtx", 0, {}, []] -> 5
        1.1: select iterator 7 [] -> 1
        1.1: ping
        1.1: begin -> 79
        1.1: commit -> 97
        1.1: commit
        9: select [] -> [1, "b"]
        """,
    ),
    (
        "a doomed transaction stays so, whatever is committed",
        """
        9: insert [1]
        1.1: begin
        1.1: select [1] -> [1]
        1.1: replace [2]
        2: replace [1, "b"]
        2: replace [1]
        1.1: select [1] -> 97
        1.1: rollback
        1.1: begin
        1.1: select [1] -> [1]
        1.1: replace [2]
        1.1: commit
        """,
    ),
    (
        "a rollback touches nothing",
        """
        9: insert [1, "a"]
        1.1: begin
        1.1: select [1] -> [1, "a"]
        1.1: replace [2]
        2.1: begin
        2.1: replace [1, "b"]
        2.1: rollback
        1.1: commit
        9: select [] -> [1, "a"], [2]
        """,
    ),
)

INDEXES = (
    (
        "a range of a unique index is read there",
        f"""
        {BY_NAME}
        9: insert [1, "b"]
        9: insert [2, "d"]
        1.1: begin
        1.1: select ge index 1 ["b"] limit 2 -> [1, "b"], [2, "d"]
        1.1: replace [9, "z"]
        2: insert [3, "c"]
        1.1: commit -> 97
        1.1: begin
        1.1: select ge index 1 ["b"] limit 1 -> [1, "b"]
        1.1: replace [9, "z"]
        2: insert [0, "e"]
        1.1: commit
        """,
    ),
    (
        "a key is touched that a tuple has lost, and one that it has got",
        f"""
        {BY_NAME}
        9: insert [1, "a"]
        1.1: begin
        1.1: select index 1 ["a"] -> [1, "a"]
        1.1: replace [8, "x"]
        2: update [1] [["=", 1, "b"]] -> [1, "b"]
        1.1: commit -> 97
        1.1: begin
        1.1: select index 1 ["c"] -> none
        1.1: replace [8, "x"]
        2: update [1] [["=", 1, "c"]] -> [1, "c"]
        1.1: commit -> 97
        """,
    ),
    (
        "a key that a tuple has only between two rows of a commit is touched",
        f"""
        {BY_NAME}
        9: insert [1, "a"]
        1.1: begin
        1.1: select index 1 ["m"] -> none
        1.1: replace [8, "x"]
        2.1: begin
        2.1: replace [1, "m"]
        2.1: replace [1, "z"]
        2.1: commit
        1.1: commit -> 97
        """,
    ),
    (
        "an UPDATE by a unique index reads its key there",
        f"""
        {BY_NAME}
        9: insert [1, "a", 5]
        1.1: begin
        1.1: update index 1 ["a"] [["+", 2, 1]] -> [1, "a", 6]
        2: update [1] [["+", 2, 1]] -> [1, "a", 6]
        1.1: commit -> 97
        """,
    ),
    (
        "a DELETE by a unique index that finds nothing reads the gap there",
        f"""
        {BY_NAME}
        1.1: begin
        1.1: delete index 1 ["a"] -> none
        1.1: replace [8, "x"]
        2: insert [1, "a"]
        1.1: commit -> 97
        """,
    ),
    (
        "a key of a unique index is free again in the transaction that frees it",
        f"""
        {BY_NAME}
        9: insert [1, "a"]
        1.1: begin
        1.1: delete index 1 ["a"] -> [1, "a"]
        1.1: insert [2, "a"]
        2: select index 1 ["a"] -> [1, "a"]
        1.1: select index 1 ["a"] -> [2, "a"]
        1.1: commit
        9: select index 1 [] -> [2, "a"]
        """,
    ),
    (
        "equal keys are read up to the last one that was answered",
        f"""
        {BY_GROUP}
        9: insert [1, "a"]
        9: insert [5, "a"]
        1.1: begin
        1.1: select index 1 ["a"] limit 1 -> [1, "a"]
        1.1: replace [9, "x"]
        2: insert [3, "a"]
        1.1: commit
        1.1: begin
        1.1: select index 1 ["a"] limit 2 -> [1, "a"], [3, "a"]
        1.1: replace [8, "x"]
        2: insert [2, "a"]
        1.1: commit -> 97
        """,
    ),
    (
        "equal keys are read all, where there is no limit",
        f"""
        {BY_GROUP}
        9: insert [1, "a"]
        1.1: begin
        1.1: select index 1 ["a"] -> [1, "a"]
        1.1: replace [9, "x"]
        2: insert [3, "b"]
        1.1: select index 1 ["a"] -> [1, "a"]
        2: replace [3, "a"]
        1.1: commit -> 97
        """,
    ),
    (
        "an index that isn't unique descends by the primary key too",
        f"""
        {BY_GROUP}
        9: insert [1, "a"]
        9: insert [2, "a"]
        9: insert [3, "b"]
        1.1: begin
        1.1: select lt index 1 ["b"] limit 1 -> [2, "a"]
        1.1: replace [9, "x"]
        2: delete [1] -> [1, "a"]
        2: delete [3] -> [3, "b"]
        1.1: commit
        1.1: begin
        1.1: select req index 1 ["a"] -> [2, "a"]
        1.1: replace [9, "x"]
        2: insert [7, "a"]
        1.1: commit -> 97
        """,
    ),
    (
        "a key of a hash index is read alone",
        f"""
        {BY_HASH}
        9: insert [1, "b"]
        9: insert [2, "a"]
        1.1: begin
        1.1: select index 1 ["a"] -> [2, "a"]
        1.1: replace [9, "x"]
        2: insert [3, "c"]
        1.1: commit
        1.1: begin
        1.1: select index 1 ["d"] -> none
        1.1: replace [9, "x"]
        2: insert [4, "d"]
        1.1: commit -> 97
        """,
    ),
    (
        "all of a hash index is read in key order",
        f"""
        {BY_HASH}
        9: insert [1, "b"]
        9: insert [2, "a"]
        1.1: begin
        1.1: select all index 1 [] -> [2, "a"], [1, "b"]
        1.1: replace [9, "x"]
        1.1: select ge index 1 ["a"] -> 5
        2: insert [3, "c"]
        1.1: commit -> 97
        1.1: begin
        1.1: select all index 1 [] limit 1 -> [2, "a"]
        1.1: replace [9, "x"]
        2: insert [4, "d"]
        1.1: commit
        """,
    ),
    (
        "a REPLACE reads its key in a hash index",
        f"""
        {BY_HASH}
        1.1: begin
        2.1: begin
        1.1: replace [1, "a"]
        2.1: replace [2, "a"]
        1.1: commit
        2.1: commit -> 97
        """,
    ),
    (
        "iterators and keys that a hash index doesn't take read no tuple",
        f"""
        {BY_HASH}
        9: insert [1, "a"]
        1.1: begin
        1.1: replace [9, "x"]
        1.1: select gt index 1 [] -> 5
        1.1: select all index 1 ["a"] -> 5
        1.1: select index 1 ["a", "b"] -> 19
        2: replace [1, "b"]
        1.1: commit
        """,
    ),
)

PRIMARY_HASH = (
    (
        "a primary hash index has its tuples in key order",
        f"""
        {HASH_SPACE}
        9: insert space 600 [30, "c"]
        9: insert space 600 [10, "a"]
        9: insert space 600 [40, "d"]
        9: insert space 600 [20, "b"]
        9: insert space 600 [20, "again"] -> 3
        9: select space 600 all [] -> [10, "a"], [20, "b"], [30, "c"], [40, "d"]
        9: select space 600 [] limit 2 -> [10, "a"], [20, "b"]
        9: select space 600 all [] offset 1 limit 2 -> [20, "b"], [30, "c"]
        9: select space 600 all [] offset 3 limit 2 -> [40, "d"]
        9: select space 600 all [] offset 4 limit 1 -> none
        9: select space 600 all [] limit 0 -> none
        9: select space 600 [20] -> [20, "b"]
        9: select space 600 [25] -> none
        9: select space 600 [20] offset 1 -> none
        9: select space 600 ge [20] -> 5
        9: replace space 600 [20, "x"]
        9: update space 600 [30] [["=", 1, "y"]] -> [30, "y"]
        9: delete space 600 [10] -> [10, "a"]
        9: upsert space 600 [40, "no"] [["=", 1, "z"]]
        9: upsert space 600 [5, "new"] [["=", 1, "z"]]
        9: select space 600 [] -> [5, "new"], [20, "x"], [30, "y"], [40, "z"]
        """,
    ),
    (
        "a transaction sees its own writes by a primary hash index",
        f"""
        {HASH_SPACE}
        9: insert space 600 [10, "a"]
        9: insert space 600 [20, "b"]
        9: insert space 600 [30, "c"]
        1.1: begin
        1.1: delete space 600 [20] -> [20, "b"]
        1.1: insert space 600 [25, "own"]
        1.1: replace space 600 [10, "own"]
        1.1: select space 600 [10] -> [10, "own"]
        1.1: select space 600 [20] -> none
        1.1: select space 600 [25] -> [25, "own"]
        1.1: select space 600 [25] offset 1 -> none
        1.1: select space 600 [30] -> [30, "c"]
        1.1: select space 600 [40] -> none
        1.1: select space 600 all [] -> [10, "own"], [25, "own"], [30, "c"]
        1.1: select space 600 all [] offset 1 limit 1 -> [25, "own"]
        1.1: delete space 600 [25] -> [25, "own"]
        1.1: select space 600 [25] -> none
        9: select space 600 all [] -> [10, "a"], [20, "b"], [30, "c"]
        1.1: commit
        9: select space 600 all [] -> [10, "own"], [30, "c"]
        """,
    ),
    (
        "a key of a primary hash index is read alone",
        f"""
        {HASH_SPACE}
        1.1: begin
        1.1: select space 600 [20] -> none
        1.1: replace space 600 [1]
        2: insert space 600 [15]
        1.1: commit
        1.1: begin
        1.1: replace space 600 [1]
        1.1: select space 600 [20] -> none
        2: insert space 600 [20]
        1.1: commit -> 97
        """,
    ),
    (
        "all of a primary hash index is read up to the last one that was answered",
        f"""
        {HASH_SPACE}
        9: insert space 600 [10]
        9: insert space 600 [20]
        9: insert space 600 [30]
        1.1: begin
        1.1: select space 600 all [] limit 2 -> [10], [20]
        1.1: replace space 600 [50]
        2: insert space 600 [25]
        1.1: commit
        1.1: begin
        1.1: select space 600 all [] limit 2 -> [10], [20]
        1.1: replace space 600 [50]
        2: insert space 600 [15]
        1.1: commit -> 97
        """,
    ),
    (
        "a view reads the tuples of a primary hash index as they were",
        f"""
        {HASH_SPACE}
        9: insert space 600 [10, "a"]
        9: insert space 600 [20, "b"]
        1.1: begin
        1.1: select space 600 [10] -> [10, "a"]
        2: replace space 600 [10, "x"]
        2: delete space 600 [20] -> [20, "b"]
        2: insert space 600 [15, "y"]
        1.1: select space 600 [10] -> [10, "a"]
        1.1: select space 600 all [] -> [10, "a"], [20, "b"]
        1.1: commit
        9: select space 600 all [] -> [10, "x"], [15, "y"]
        """,
    ),
    (
        "a primary index of the other type has its own tuples",
        f"""
        {HASH_SPACE}
        9: insert space 600 [1]
        9: delete space 288 [600, 0] -> [600, 0, "key", "hash", {{}}, [[0, "unsigned"]]]
        {NEW_PRIMARY}
        9: select space 600 [] -> none
        9: insert space 600 [2]
        9: select space 600 ge [1] -> [2]
        9: delete space 288 [600, 0] -> [600, 0, "key", "tree", {{}}, [[0, "unsigned"]]]
        {NEW_HASH}
        9: insert space 600 [3]
        9: select space 600 all [] -> [3]
        """,
    ),
    (
        "an index is made of the tuples of a primary hash index",
        f"""
        {HASH_SPACE}
        9: insert space 600 [3, "a"]
        9: insert space 600 [1, "c"]
        9: insert space 600 [2, "b"]
        9: insert space 288 [600, 1, "name", "tree", {{}}, [[1, "string"]]]
        9: select space 600 index 1 all [] -> [3, "a"], [2, "b"], [1, "c"]
        9: select space 600 index 1 ["b"] -> [2, "b"]
        9: update space 600 index 1 ["a"] [["=", 1, "d"]] -> [3, "d"]
        9: insert space 600 [4, "d"] -> 3
        9: select space 600 all [] -> [1, "c"], [2, "b"], [3, "d"]
        """,
    ),
)

FURTHER_HASH = (
    (
        "a further hash index finds whole keys, and shows all in key order",
        f"""
        {BY_HASH}
        9: insert [1, "c"]
        9: insert [2, "a"]
        9: insert [3, "b"]
        9: insert [4, "a"] -> 3
        9: select index 1 ["b"] -> [3, "b"]
        9: select index 1 ["x"] -> none
        9: select index 1 ["b"] offset 1 -> none
        9: select index 1 all [] -> [2, "a"], [3, "b"], [1, "c"]
        9: select index 1 [] offset 1 limit 1 -> [3, "b"]
        9: update index 1 ["b"] [["=", 1, "d"]] -> [3, "d"]
        9: select index 1 ["b"] -> none
        9: select index 1 ["d"] -> [3, "d"]
        9: delete index 1 ["a"] -> [2, "a"]
        9: insert [5, "a"]
        9: select index 1 all [] -> [5, "a"], [1, "c"], [3, "d"]
        """,
    ),
    (
        "a key of a further hash index goes from one tuple to another in a transaction",
        f"""
        {BY_HASH}
        9: insert [1, "a"]
        9: insert [2, "b"]
        1.1: begin
        1.1: delete [1] -> [1, "a"]
        1.1: insert [3, "a"]
        1.1: select index 1 ["a"] -> [3, "a"]
        1.1: update [2] [["=", 1, "c"]] -> [2, "c"]
        1.1: insert [4, "b"]
        1.1: commit
        9: select index 1 ["a"] -> [3, "a"]
        9: select index 1 ["b"] -> [4, "b"]
        9: select index 1 all [] -> [3, "a"], [4, "b"], [2, "c"]
        9: insert [5, "a"] -> 3
        9: delete index 1 ["a"] -> [3, "a"]
        9: select index 1 ["a"] -> none
        9: insert [5, "a"]
        9: select index 1 ["a"] -> [5, "a"]
        1.1: begin
        1.1: delete [4] -> [4, "b"]
        1.1: update [5] [["=", 1, "b"]] -> [5, "b"]
        1.1: insert [6, "a"]
        1.1: commit
        9: select index 1 all [] -> [6, "a"], [5, "b"], [2, "c"]
        9: delete [5] -> [5, "b"]
        9: select index 1 ["b"] -> none
        """,
    ),
    (
        "a transaction sees its own writes by a further hash index",
        f"""
        {BY_HASH}
        9: insert [1, "a"]
        9: insert [2, "b"]
        9: insert [3, "c"]
        1.1: begin
        1.1: update [1] [["=", 1, "x"]] -> [1, "x"]
        1.1: delete [2] -> [2, "b"]
        1.1: insert [4, "d"]
        1.1: select index 1 ["a"] -> none
        1.1: select index 1 ["x"] -> [1, "x"]
        1.1: select index 1 ["b"] -> none
        1.1: select index 1 ["c"] -> [3, "c"]
        1.1: select index 1 ["d"] -> [4, "d"]
        1.1: select index 1 ["d"] offset 1 -> none
        1.1: select index 1 ["d"] limit 0 -> none
        1.1: select index 1 all [] -> [3, "c"], [4, "d"], [1, "x"]
        1.1: rollback
        9: select index 1 all [] -> [1, "a"], [2, "b"], [3, "c"]
        """,
    ),
    (
        "a key of a further hash index is read alone",
        f"""
        {BY_HASH}
        1.1: begin
        1.1: insert [9, "z"]
        1.1: select index 1 ["m"] -> none
        2: insert [1, "l"]
        1.1: commit
        1.1: begin
        1.1: insert [8, "y"]
        1.1: select index 1 ["m"] -> none
        2: insert [2, "m"]
        1.1: commit -> 97
        """,
    ),
    (
        "a view reads a further hash index as it was",
        f"""
        {BY_HASH}
        9: insert [1, "a"]
        1.1: begin
        1.1: select index 1 ["a"] -> [1, "a"]
        2: update [1] [["=", 1, "b"]] -> [1, "b"]
        3: insert [2, "a"]
        1.1: select index 1 ["a"] -> [1, "a"]
        1.1: select index 1 ["b"] -> none
        1.1: commit
        9: select index 1 ["a"] -> [2, "a"]
        """,
    ),
    (
        "a further hash index of two fields tells all their parts apart",
        """
        9: insert space 288 [512, 1, "hash", "hash", {}, [[1, "string"], [2, "scalar"]]]
        9: insert [1, "a", 1]
        9: insert [2, "a\\u0000", 1]
        9: insert [3, "a", true]
        9: insert [4, "", "a"]
        9: insert [5, "a", 1] -> 3
        9: select index 1 ["a", 1] -> [1, "a", 1]
        9: select index 1 ["a\\u0000", 1] -> [2, "a\\u0000", 1]
        9: select index 1 ["a", true] -> [3, "a", true]
        9: select index 1 ["", "a"] -> [4, "", "a"]
        9: select index 1 ["a", "a"] -> none
        9: select index 1 ["a"] -> 19
        9: delete index 1 ["a", 1] -> [1, "a", 1]
        9: select index 1 all [] -> [4, "", "a"], [3, "a", true], [2, "a\\u0000", 1]
        """,
    ),
)

SCHEMA = (
    (
        "a dropped index dooms a read view",
        f"""
        {BY_NAME}
        9: insert [1, "a"]
        1.1: begin
        1.1: select [1] -> [1, "a"]
        2: replace [1, "z"]
        1.1: select [1] -> [1, "a"]
        2: delete space 288 [512, 1] -> [512, 1, "name", "tree", {{"unique": true}}, [[1, "string"]]]
        1.1: select [1] -> 97
        1.1: commit -> 97
        """,
    ),
    (
        "a new space dooms a read view of another one, but not what isn't overlapped",
        f"""
        9: insert [1]
        1.1: begin
        1.1: select [1] -> [1]
        3.1: begin
        3.1: select [5] -> none
        2: replace [1, "z"]
        {NEW_SPACE}
        1.1: select [1] -> 97
        3.1: insert [5]
        3.1: commit
        1.1: commit -> 97
        """,
    ),
    (
        "a new index dooms what has read its space, without a row",
        f"""
        1.1: begin
        1.1: select [1] -> none
        {BY_NAME}
        1.1: select [1] -> 97
        1.1: commit -> 97
        """,
    ),
    (
        "a new index dooms what has looked for it",
        f"""
        1.1: begin
        1.1: select index 1 [] -> 35
        {BY_NAME}
        1.1: select index 1 [] -> 97
        1.1: rollback
        1.1: select index 1 [] -> none
        """,
    ),
    (
        "a new space dooms what has looked for it",
        f"""
        1.1: begin
        1.1: select space 600 [] -> 36
        {NEW_SPACE}
        1.1: ping
        1.1: select [1] -> 97
        1.1: commit -> 97
        """,
    ),
    (
        "a new space dooms what has read the list of spaces, under its other number too",
        f"""
        1.1: begin
        1.1: select ge space 281 [513] -> none
        3.1: begin
        3.1: select space 281 [512] -> [512, 1, "test", "memtx", 0, {{}}, []]
        {NEW_SPACE}
        1.1: commit -> 97
        3.1: replace [1]
        3.1: commit
        """,
    ),
    (
        "a new space is there for a transaction that hasn't looked for it",
        f"""
        1.1: begin
        1.1: replace [1]
        {NEW_SPACE}
        {NEW_PRIMARY}
        1.1: insert space 600 [7]
        1.1: commit
        9: select space 600 [] -> [7]
        """,
    ),
    (
        "a dropped index dooms what has written to its space",
        f"""
        {NEW_SPACE}
        {NEW_PRIMARY}
        1.1: begin
        1.1: replace space 600 [7]
        2: delete space 288 [600, 0] -> [600, 0, "key", "tree", {{}}, [[0, "unsigned"]]]
        1.1: commit -> 97
        """,
    ),
    (
        "a dropped primary index drops the tuples",
        f"""
        {NEW_SPACE}
        {NEW_PRIMARY}
        9: insert space 600 [7]
        1.1: begin
        1.1: replace [1]
        2: delete space 288 [600, 0] -> [600, 0, "key", "tree", {{}}, [[0, "unsigned"]]]
        1.1: select space 600 [] -> 35
        {NEW_PRIMARY}
        1.1: commit -> 97
        9: select space 600 [] -> none
        """,
    ),
    (
        "schema rows aren't written in transactions",
        f"""
        1.1: begin
        1.1: insert space 280 [600, 1, "own", "memtx", 0, {{}}, []] -> 5
        1.1: delete space 288 [512, 0] -> 5
        1.1: replace space 288 [512, 0] -> 5
        1.1: select space 280 [600] -> none
        1.1: insert [1]
        1.1: commit
        1.1: insert space 280 [600, 1, "own", "memtx", 0, {{}}, []]
        """,
    ),
    (
        "a schema row that is refused in a read view dooms nothing",
        """
        9: insert [1]
        1.1: begin
        1.1: select [1] -> [1]
        2: delete [1] -> [1]
        1.1: delete space 288 [512, 0] -> 5
        1.1: select [1] -> [1]
        1.1: insert space 281 [1] -> 97
        1.1: commit -> 97
        """,
    ),
    (
        "a failed schema row changes nothing",
        """
        9: insert [1, "a"]
        9: insert [2, "a"]
        1.1: begin
        1.1: select [1] -> [1, "a"]
        1.1: replace [3]
        2: insert space 288 [512, 1, "u", "tree", {"unique": true}, [[1, "string"]]] -> 3
        2: delete space 280 [512] -> 11
        2: insert space 288 [512, 1, "u"] -> 14
        2: insert space 280 [700, 1, "own"] -> 9
        1.1: commit
        9: select index 1 [] -> 35
        """,
    ),
    (
        "a primary index goes last",
        f"""
        {BY_NAME}
        2: delete space 288 [512, 0] -> 17
        1.1: begin
        1.1: select [] -> none
        2: delete space 288 [512, 1] -> [512, 1, "name", "tree", {{"unique": true}}, [[1, "string"]]]
        1.1: commit -> 97
        """,
    ),
    (
        "what the database writes itself isn't written",
        """
        1.1: begin
        1.1: insert space 281 [600] -> 5
        1.1: insert space 320 [2, "a"] -> 5
        1.1: replace space 272 ["leader", 2] -> 5
        1.1: insert space 272 ["mine", 2]
        1.1: commit
        9: select space 272 [] -> ["leader", 1], ["mine", 2]
        """,
    ),
)

STREAMS = (
    (
        "BEGIN, COMMIT and ROLLBACK need a stream",
        """
        1: begin -> 1
        1: commit -> 1
        1: rollback -> 1
        """,
    ),
    (
        "COMMIT and ROLLBACK without a transaction change nothing",
        """
        1.1: commit
        1.1: rollback
        1.1: insert [1]
        1.1: commit
        1.1: rollback
        2: select [] -> [1]
        """,
    ),
    (
        "a stream has one transaction",
        """
        1.1: begin
        1.1: insert [1]
        1.1: begin -> 79
        1.1: select [1] -> [1]
        1.1: commit
        1.1: begin
        1.1: rollback
        1.1: begin
        """,
    ),
    (
        "there is one level of isolation, under five numbers",
        """
        1.1: begin isolation 5 -> 1
        1.1: begin isolation 4
        1.2: begin isolation 0
        """,
    ),
    (
        "a statement in a stream without a transaction commits at once",
        """
        1.1: insert [1]
        2.1: begin
        2.1: select [1] -> [1]
        2.1: replace [2]
        1.1: replace [1, "b"]
        2.1: commit -> 97
        """,
    ),
    (
        "a transaction sees its own rows, and no other one does",
        """
        9: insert [1, "a"]
        1.1: begin
        1.1: replace [1, "b"]
        1.1: insert [2]
        1.1: select [] -> [1, "b"], [2]
        1.1: delete [1] -> [1, "b"]
        1.1: select [] -> [2]
        2: select [] -> [1, "a"]
        1.2: select [] -> [1, "a"]
        1.1: update [2] [["=", 1, 7]] -> [2, 7]
        1.1: commit
        2: select [] -> [2, 7]
        """,
    ),
    (
        "a rollback leaves nothing",
        """
        1.1: begin
        1.1: insert [1]
        1.1: rollback
        1.1: select [] -> none
        1.1: insert [1]
        """,
    ),
    (
        "streams of one number on two connections are two",
        """
        1.7: begin
        2.7: begin
        1.7: insert [1]
        2.7: select [] -> none
        2.7: commit
        1.7: commit
        9: select [] -> [1]
        """,
    ),
    (
        "two streams of one connection conflict as others do",
        """
        1.1: begin
        1.2: begin
        1.1: insert [1]
        1.2: select [1] -> none
        1.2: replace [2]
        1.1: commit
        1.2: commit -> 97
        """,
    ),
    (
        "a statement outside of its connection's stream conflicts as others do",
        """
        1.1: begin
        1.1: select [1] -> none
        1: insert [1]
        1.1: replace [2] -> 97
        """,
    ),
    (
        "a disconnect rolls back",
        """
        1.1: begin
        1.1: replace [5]
        1: leave
        2: select [5] -> none
        1.1: begin
        1.1: select [5] -> none
        1.1: commit
        """,
    ),
    (
        "a disconnect rolls back all transactions of its connection, and no other",
        """
        1.1: begin
        1.2: begin
        2.1: begin
        1.1: insert [1]
        1.2: insert [2]
        2.1: insert [3]
        1: leave
        1.1: commit
        1.2: commit
        2.1: commit
        9: select [] -> [3]
        """,
    ),
    (
        "a disconnect touches nothing, and ends what is doomed",
        """
        9: insert [1]
        1.1: begin
        1.1: select [1] -> [1]
        1.1: replace [2]
        2.1: begin
        2.1: replace [1, "b"]
        2: leave
        1.1: commit
        1.1: begin
        1.1: select [1] -> [1]
        1.1: replace [2, "c"]
        3: replace [1, "b"]
        1: leave
        1.1: select [1] -> [1, "b"]
        """,
    ),
    (
        "requests without a space are answered in any transaction",
        """
        1.1: begin
        1.1: ping
        1.1: nop
        1.1: id -> id
        1.1: 8 -> 48
        1.1: 7 -> 5
        1.1: commit
        """,
    ),
    (
        "a transaction without statements commits",
        """
        1.1: begin
        2: insert [1]
        1.1: commit
        """,
    ),
)

THREE = (
    (
        "of two that each read what the other writes one commits",
        """
        9: insert [1, "on"]
        9: insert [2, "on"]
        1.1: begin
        2.1: begin
        1.1: select [2] -> [2, "on"]
        2.1: select [1] -> [1, "on"]
        1.1: replace [1, "off"]
        2.1: replace [2, "off"]
        1.1: commit
        2.1: commit -> 97
        9: select [] -> [1, "off"], [2, "on"]
        """,
    ),
    (
        "a ring of three loses the one that read before the first commit",
        """
        1.1: begin
        2.1: begin
        3.1: begin
        1.1: select [1] -> none
        2.1: select [2] -> none
        3.1: select [3] -> none
        1.1: replace [2]
        2.1: replace [3]
        3.1: replace [1]
        1.1: commit
        3.1: commit
        2.1: commit -> 97
        9: select [] -> [1], [2]
        """,
    ),
    (
        "a reader beside two writers reads the prefix between them",
        """
        9: insert [1, 0]
        9: insert [2, 0]
        1.1: begin
        2.1: begin
        3.1: begin
        2.1: update [1] [["+", 1, 10]] -> [1, 10]
        3.1: select [2] -> [2, 0]
        2.1: commit
        3.1: select [1] -> [1, 10]
        1.1: update [2] [["+", 1, 5]] -> [2, 5]
        1.1: commit
        3.1: select [] -> [1, 10], [2, 0]
        3.1: commit
        9: select [] -> [1, 10], [2, 5]
        """,
    ),
    (
        "a sum over a range conflicts with a new member of it",
        """
        9: insert [1, 10]
        9: insert [2, 20]
        1.1: begin
        2.1: begin
        1.1: select [] -> [1, 10], [2, 20]
        2.1: select [] -> [1, 10], [2, 20]
        1.1: insert [3, 30]
        2.1: insert [4, 30]
        2.1: commit
        1.1: commit -> 97
        9: select [] -> [1, 10], [2, 20], [4, 30]
        """,
    ),
    (
        "three that touch nothing of each other all commit",
        f"""
        {BY_NAME}
        1.1: begin
        2.1: begin
        3.1: begin
        1.1: insert [1, "a"]
        2.1: insert [2, "b"]
        3.1: upsert [3, "c"] []
        3.1: commit
        1.1: update [1] [["=", 1, "d"]] -> [1, "d"]
        2.1: select index 1 ["b"] -> [2, "b"]
        2.1: commit
        1.1: commit
        9: select index 1 [] -> [2, "b"], [3, "c"], [1, "d"]
        """,
    ),
    (
        "two doomed ones and a read view of one commit",
        """
        9: insert [1]
        1.1: begin
        2.1: begin
        3.1: begin
        1.1: select [1] -> [1]
        2.1: select [1] -> [1]
        3.1: select [1] -> [1]
        1.1: replace [5]
        9: replace [1, "b"]
        2.1: select [1] -> [1]
        3.1: replace [6] -> 97
        1.1: commit -> 97
        2.1: commit
        3.1: commit -> 97
        9: select [] -> [1, "b"]
        """,
    ),
)

_ALL_OPEN = "\n".join(f"{connection}.{stream}: begin" for connection in range(1, 17) for stream in range(1, 65))

LIMITS = (
    (
        "64 transactions of a connection and 1,024 in all may be open",
        f"""
        {_ALL_OPEN}
        17.1: begin -> 201
        1.65: begin -> 204
        1.64: begin -> 79
        17: replace [1]
        3.9: rollback
        1.65: begin -> 204
        17.1: begin
        17.2: begin -> 201
        2: leave
        17.2: begin
        1.1: commit
        1.65: begin
        """,
    ),
    (
        "four rows fill a transaction",
        f"""
        1.1: begin
        1.1: upsert [1, <{QUARTER}>] []
        1.1: upsert [2, <{QUARTER}>] []
        1.1: upsert [3, <{QUARTER}>] []
        1.1: upsert [4, <{QUARTER}>] []
        1.1: replace [5] -> 202
        1.1: delete [6] -> none
        1.1: delete [4] -> 202
        1.1: commit
        9: insert [4] -> 3
        9: select gt [4] -> none
        """,
    ),
    (
        "a row of a byte too much is refused, and leaves the others",
        f"""
        1.1: begin
        1.1: upsert [1, <{QUARTER}>] []
        1.1: upsert [2, <{QUARTER}>] []
        1.1: upsert [3, <{QUARTER}>] []
        1.1: upsert [4, <{QUARTER + 1}>] [] -> 202
        1.1: select [4] -> none
        1.1: upsert [4, <{QUARTER}>] []
        1.1: commit
        9: insert [4] -> 3
        """,
    ),
    (
        "the longest row, and one byte more",
        f"""
        9: insert [1, "b"]
        1.1: begin
        1.1: update [1] [["=", 1, <{HALF_ROW}>], ["=", 1, <{HALF_ROW}>], ["=", 1, "a"]] -> [1, "a"]
        1.1: update [1] [["=", 1, <{HALF_ROW}>], ["=", 1, <{HALF_ROW + 1}>], ["=", 1, "c"]] -> 202
        1.1: select [1] -> [1, "a"]
        1.1: commit
        1.1: begin
        1.1: replace [2]
        1.1: update [1] [["=", 1, <{HALF_ROW}>], ["=", 1, <{HALF_ROW + 1}>], ["=", 1, "c"]] -> 202
        2: replace [1, "d"]
        1.1: commit -> 97
        """,
    ),
)

_ROWS = "\n".join(["1.1: replace [1]"] * 4096)
_LONG_TUPLES = "\n".join(f"9: upsert [{key}, <{QUARTER}>] []" for key in range(17))

# What takes long, since the plain slow program begins each statement of a transaction with all earlier ones, and keeps
# a state for each commit.
LONG_CASES = (
    (
        "4,096 rows fill a transaction",
        f"""
        1.1: begin
        {_ROWS}
        1.1: replace [1] -> 202
        1.1: insert [2] -> 202
        1.1: insert [1] -> 3
        1.1: delete [1] -> 202
        1.1: delete [2] -> none
        1.1: commit
        9: select [] -> [1]
        """,
    ),
    (
        "a row too much is refused, and has read its key",
        f"""
        1.1: begin
        {_ROWS}
        1.1: insert [2] -> 202
        2: insert [2]
        1.1: commit -> 97
        9: select [] -> [2]
        """,
    ),
    (
        "a result that is too long was read to the end, in spite of its limit",
        f"""
        {_LONG_TUPLES}
        1.1: begin
        1.1: replace [99]
        1.1: select [] limit 17 -> 207
        2: insert [50]
        1.1: commit -> 97
        1.1: begin
        1.1: replace [99]
        1.1: select [] limit 0 -> none
        2: insert [51]
        1.1: commit
        """,
    ),
)

CASES = (*GAPS, *WITHOUT_READS, *REFUSALS, *VIEWS, *INDEXES, *PRIMARY_HASH, *FURTHER_HASH, *SCHEMA, *STREAMS, *THREE, *LIMITS)
