#!/usr/bin/env python3
"""Asks the plain slow program generated histories of streams, and searches for a serial order of each.

What a statement is answered by itself is worked out here, over a dictionary of tuples, and knows nothing of
transactions. So are the keys that it reads and those that a commit touches. Of each history is checked that

- a transaction that commits rows was answered as if it ran alone just before its commit;
- each other transaction was answered, but for conflicts, as if it ran alone after one prefix of the commits between
  its BEGIN and its end;
- a transaction is told of a conflict exactly where it had read a key or a gap that a later commit touched, and it has
  a row or has written since; from then on it is told so to its end;
- a statement outside of a transaction was answered as if it ran alone, and the tuples in the end are those that the
  commits make;
- the built program answers the same. It is asked all histories, or the first ones, as many as `--compared NUMBER` says.

The histories go on from each other's tuples, some in one database, all in one run of `mx_histories`. The built program
has a run for each database. A history that fails is printed in the notation of `interleaving_cases.py`, and the status
is 0 only where none does. `--histories NUMBER` asks fewer or more of them, and `--seed NUMBER` others.
"""

import argparse
import json
import sys
import tempfile
from functools import lru_cache
from itertools import islice
from pathlib import Path
from random import Random

from interleaving_cases import BY_NAME
from interleavings_program import program_lines, read_step, tuples_line
from iproto import Reader
from program import build_histories, history_answers, is_built, spelled_twice
from steps import TEST

HISTORIES, PER_DATABASE = 30_000, 100
# The indexes of the space beside the primary one: a unique one on field 1, one on field 2 that isn't, and a hash index
# on field 1.
BY_NUMBER = '9: insert space 288 [512, 2, "number", "tree", {"unique": false}, [[2, "unsigned"]]]'
BY_HASH = '9: insert space 288 [512, 3, "hash", "hash", {}, [[1, "string"]]]'
INDEXES = BY_NAME, BY_NUMBER, BY_HASH
KEY, NAME, NUMBER, HASH = range(4)
# The field of each index.
FIELDS = KEY, NAME, NUMBER, NAME
KINDS = (int, str, int)
SETTING = [read_step(step) for step in INDEXES]
DUE = [step.due for step in SETTING]
# The names of open transactions, each with its connection and stream, and a connection outside of streams.
STREAMS, PLAIN = ((1, 1), (2, 1), (1, 2)), (9, None)
KEYS, NAMES, NUMBERS = range(5), "abcde", range(3)
ITERATORS = ("EQ", "EQ", "EQ", "REQ", "ALL", "LT", "LE", "GE", "GT")
DESCENDING = ("REQ", "LT", "LE")
# Refusals.
DUPLICATE, UNSUPPORTED, KEY_COUNT, WRONG_TYPE, BAD_ARGUMENT, NO_INDEX = 3, 5, 19, 23, 29, 35
NO_FIELD, NOT_UNIQUE, KEY_CHANGED, CONFLICT = 39, 41, 94, 97

# ---- statements by themselves


def index_key(index, row):
    """A tuple's key in an index, with the primary key behind it in the one that isn't unique."""
    return (row[NUMBER], row[KEY]) if index == NUMBER else (row[FIELDS[index]],)


class Span:
    """The keys of an index from one to another; an end at a key has or leaves out all that the key begins."""

    def __init__(self, index, low=None, high=None, has_low=True, has_high=True):
        self.index, self.low, self.high, self.has_low, self.has_high = index, low, high, has_low, has_high

    def has(self, key):
        if self.low is not None:
            begin = key[: len(self.low)]
            if begin < self.low or begin == self.low and not self.has_low:
                return False
        if self.high is not None:
            begin = key[: len(self.high)]
            return begin < self.high or begin == self.high and self.has_high
        return True


def point(index, row):
    """A tuple's key in a unique index."""
    key = index_key(index, row)
    return Span(index, key, key)


def span_of(index, iterator, key):
    """The keys that an iterator goes over."""
    if not key:
        return Span(index)
    if iterator in ("EQ", "REQ"):
        return Span(index, key, key)
    if iterator in ("GE", "GT", "ALL"):
        return Span(index, low=key, has_low=iterator != "GT")
    return Span(index, high=key, has_high=iterator == "LE")


class Answer:
    """What a statement is answered, what it puts under a primary key, or None for nothing, and what it has read."""

    def __init__(self, reply, reads=(), change=None):
        self.reply, self.reads, self.change = reply, reads, change


def select(tuples, index, iterator, key, limit, offset):
    if index > HASH:
        return Answer(NO_INDEX)
    if index == HASH and iterator != "EQ" and (key or iterator != "ALL"):
        return Answer(UNSUPPORTED)
    if len(key) > 1:
        return Answer(KEY_COUNT)
    if limit == 0:
        return Answer(())
    span = span_of(index, iterator, key)
    entries = sorted((own, row) for row in tuples.values() if span.has(own := index_key(index, row)))
    if iterator in DESCENDING:
        entries.reverse()
    found = entries[offset : offset + limit]
    if len(found) == limit:
        last = found[-1][0]
        if iterator in DESCENDING:
            span.low, span.has_low = last, True
        else:
            span.high, span.has_high = last, True
    return Answer(tuple(row for _, row in found), (span,))


def fault_of(row):
    """Why the space doesn't take a tuple."""
    for place, kind in enumerate(KINDS):
        if place >= len(row):
            return NO_FIELD
        if not isinstance(row[place], kind) or kind is int and row[place] < 0:
            return WRONG_TYPE
    return None


def is_taken(tuples, row):
    """Whether a tuple of another key has the name."""
    return any(other[NAME] == row[NAME] and other[KEY] != row[KEY] for other in tuples.values())


def insert(tuples, row):
    if fault := fault_of(row):
        return Answer(fault)
    if row[KEY] in tuples:
        return Answer(DUPLICATE, (point(KEY, row),))
    return put(tuples, row, (point(KEY, row),), (row,))


def put(tuples, row, reads, reply):
    """A tuple is put in the place of the one of its key. Of two indexes on a field the lower one tells a duplicate."""
    reads = *reads, point(NAME, row)
    if is_taken(tuples, row):
        return Answer(DUPLICATE, reads)
    return Answer(reply, (*reads, point(HASH, row)), (row[KEY], row))


def replace(tuples, row):
    if fault := fault_of(row):
        return Answer(fault)
    return put(tuples, row, (), (row,))


def applied(row, operations, skips):
    """The tuple after the operations; None where one fails and none is skipped."""
    fields = list(row)
    for operator, place, value in operations:
        if operator == "=" and place <= len(fields):
            fields[place : place + 1] = [value]
        elif operator != "=" and place < len(fields) and isinstance(fields[place], int):
            fields[place] += value if operator == "+" else -value
        elif not skips:
            return None
    return tuple(fields)


def put_in_place(tuples, old, new, reads, reply):
    """A changed tuple is put in the place of the old one."""
    if fault := fault_of(new):
        return Answer(fault, reads)
    if new[KEY] != old[KEY]:
        return Answer(KEY_CHANGED, reads)
    return put(tuples, new, reads, reply)


def found_by(tuples, index, key):
    return next((row for row in tuples.values() if row[FIELDS[index]] == key), None)


def update(tuples, index, key, operations):
    if index == NUMBER:
        return Answer(NOT_UNIQUE)
    reads = (Span(index, (key,), (key,)),)
    old = found_by(tuples, index, key)
    if old is None:
        return Answer((), reads)
    new = applied(old, operations, skips=False)
    return Answer(BAD_ARGUMENT, reads) if new is None else put_in_place(tuples, old, new, reads, (new,))


def delete(tuples, index, key):
    if index == NUMBER:
        return Answer(NOT_UNIQUE)
    reads = (Span(index, (key,), (key,)),)
    old = found_by(tuples, index, key)
    return Answer((), reads) if old is None else Answer((old,), reads, (old[KEY], None))


def upsert(tuples, row, operations):
    if fault := fault_of(row):
        return Answer(fault)
    reads, old = (point(KEY, row),), tuples.get(row[KEY])
    if old is None:
        return put(tuples, row, reads, ())
    return put_in_place(tuples, old, applied(old, operations, skips=True), reads, ())


STATEMENTS = {one.__name__: one for one in (select, insert, replace, update, delete, upsert)}


def answer(tuples, statement):
    """What a statement is answered over these tuples, by their keys."""
    name, *given = statement
    return STATEMENTS[name](tuples, *given)


def changed(tuples, change):
    """The tuples after a change."""
    key, row = change
    after = {own: one for own, one in tuples.items() if own != key}
    if row is not None:
        after[key] = row
    return after


def alone(tuples, statements):
    """The answers to statements that run alone, and the tuples before and after each change."""
    answers, states = [], [tuples]
    for statement in statements:
        one = answer(states[-1], statement)
        answers.append(one)
        if one.change is not None:
            states.append(changed(states[-1], one.change))
    return answers, states


def touched(answers, states):
    """The keys in each index of the tuples that come or go, one change after the other."""
    changes = [one.change for one in answers if one.change is not None]
    rows = [row for before, (key, new) in zip(states, changes) for row in (before.get(key), new) if row is not None]
    return [(index, index_key(index, row)) for row in rows for index in (KEY, NAME, NUMBER, HASH)]


# ---- the lines


@lru_cache(maxsize=None)
def fields_of(statement):
    """A statement's fields, in the order in which the notation has them."""
    name, *given = statement
    names = {
        "select": ("index", "iterator", "key", "limit", "offset"),
        "update": ("index", "key", "operations"),
        "delete": ("index", "key"),
        "upsert": ("tuple", "operations"),
    }.get(name, ("tuple",))
    fields = dict(zip(names, given))
    if name in ("update", "delete"):
        fields["key"] = [fields["key"]]
    return {field: listed(value) for field, value in fields.items()}


def listed(value):
    return [listed(one) for one in value] if isinstance(value, tuple) else value


@lru_cache(maxsize=None)
def asked(name, statement):
    """A step of this name, a connection and a stream: the line that asks `mx_histories`, and what asks the program."""
    connection, stream = name
    if statement == ("leave",):
        return f"leave {connection}", (connection, None)
    fields = {} if len(statement) == 1 else {"space": TEST, **fields_of(statement)}
    line, packet = spelled_twice(connection, statement[0].upper(), stream, **fields)
    return line, (connection, packet)


@lru_cache(maxsize=None)
def reply_line(reply):
    """The line of a refusal's number, or of tuples."""
    return f"error {reply}" if isinstance(reply, int) else tuples_line([list(row) for row in reply])


CONFLICT_LINE = reply_line(CONFLICT)

# ---- histories


def some_row(random):
    row = (random.choice(KEYS), random.choice(NAMES), random.choice(NUMBERS))
    if random.random() < 0.03:
        return random.choice((row[:2], row[:1], (row[0], 7, row[2])))
    return row


def some_operations(random):
    one = random.choice(
        (
            ("+", NUMBER, 1),
            ("-", NUMBER, 1),
            ("=", NUMBER, random.choice(NUMBERS)),
            ("=", NAME, random.choice(NAMES)),
            ("=", NAME, random.choice(NAMES)),
            ("=", KEY, random.choice(KEYS)),
            ("+", NAME, 1),
            ("=", 7, 1),
        )
    )
    return (one,) if random.random() < 0.8 else (one, ("=", NAME, random.choice(NAMES)))


def some_key(random, index):
    return random.choice((KEYS, NAMES, NUMBERS, NAMES)[index])


def some_select(random):
    index = random.choice((KEY, KEY, NAME, NUMBER, NUMBER, HASH))
    key = () if random.random() < 0.2 else (some_key(random, index),)
    if index == NUMBER and key and random.random() < 0.05:
        key = (*key, random.choice(KEYS))
    if random.random() < 0.02:
        index = 5
    limit = random.choice((0, 1, 1, 2, 2, 100, 100, 100))
    iterator = "EQ" if index == HASH and random.random() < 0.9 else random.choice(ITERATORS)
    return "select", index, iterator, key, limit, random.choice((0, 0, 0, 1))


def some_statement(random):
    kind = random.randrange(20)
    if kind < 7:
        return some_select(random)
    if kind < 10:
        return "insert", some_row(random)
    if kind < 13:
        return "replace", some_row(random)
    if kind < 15:
        return "upsert", some_row(random), some_operations(random)
    index = random.choice((KEY, KEY, NAME, HASH) if random.random() < 0.97 else (NUMBER,))
    if kind < 17:
        return "delete", index, some_key(random, index)
    return "update", index, some_key(random, index), some_operations(random)


def some_stream(random, name):
    """The steps of a stream: a transaction, and how it ends, if it does."""
    steps = [("begin",), *(some_statement(random) for _ in range(random.choice((1, 2, 2, 3, 3, 4))))]
    ending = random.randrange(20)
    if ending < 15:
        steps.append(("commit",))
    elif ending < 18:
        steps.append(("rollback",))
    elif ending < 19:
        steps.append(("leave",))
    return [(name, step) for step in steps]


def some_history(random):
    """Steps of two or three streams beside each other, with some outside of them; at the end all disconnect."""
    waiting = [some_stream(random, name) for name in STREAMS[: random.choice((2, 2, 3))]]
    waiting.append([(PLAIN, some_statement(random)) for _ in range(random.choice((0, 0, 1, 1, 2)))])
    steps = []
    while waiting := [one for one in waiting if one]:
        steps.append(random.choice(waiting).pop(0))
    return [*steps, ((1, None), ("leave",)), ((2, None), ("leave",)), (PLAIN, ("select", KEY, "EQ", (), 100, 0))]


# ---- the search for a serial order


class Transaction:
    """An open transaction: how many commits there were at its BEGIN, its statements and what they were answered."""

    def __init__(self, begun):
        self.begun, self.statements, self.lines, self.reads = begun, [], [], []
        self.is_overlapped = self.has_rows = self.has_conflict = False

    def is_doomed(self, writes):
        """Whether it is told of a conflict at a step that writes or doesn't."""
        return self.is_overlapped and (self.has_rows or self.has_conflict or writes)


class Search:
    """What the steps of a history have come to."""

    def __init__(self, tuples):
        self.states, self.open = [tuples], {}

    def step(self, name, step, line):
        """Checks what a step is answered."""
        if step[0] in STATEMENTS:
            self.state(name, step, line)
        elif step == ("leave",):
            expect(line == "left", "it disconnects")
            for other in [one for one in self.open if one[0] == name[0]]:
                self.end(other)
        elif step == ("begin",):
            expect(line == "ok", "it begins")
            self.open[name] = Transaction(len(self.states) - 1)
        elif step == ("commit",) and name in self.open:
            self.commit(name, line)
        else:
            expect(line == "ok", f"{step[0]} is ok")
            self.end(name)

    def state(self, name, statement, line):
        transaction = self.open.get(name)
        if transaction is None:
            self.check_and_commit([statement], [line])
        elif self.has_conflict(transaction, statement[0] != "select", line):
            transaction.has_conflict = True
        else:
            self.note(transaction, statement, line)

    def note(self, transaction, statement, line):
        """Adds a statement, and what it reads unless its transaction is overlapped already."""
        transaction.statements.append(statement)
        transaction.lines.append(line)
        if not transaction.is_overlapped:
            last = alone(self.states[-1], transaction.statements)[0][-1]
            transaction.reads += last.reads
            # Where the line is another one than this answer's, the transaction's end tells.
            transaction.has_rows |= last.change is not None

    def has_conflict(self, transaction, writes, line):
        """Checks that a conflict is told exactly where the transaction is doomed."""
        is_doomed = transaction.is_doomed(writes)
        expect((line == CONFLICT_LINE) == is_doomed, "it is doomed" if is_doomed else "no commit dooms it")
        return is_doomed

    def commit(self, name, line):
        transaction = self.open[name]
        if self.has_conflict(transaction, False, line):
            self.end(name)
            return
        expect(line == "ok", "COMMIT is ok")
        if not transaction.has_rows:
            self.end(name)
            return
        del self.open[name]
        self.check_and_commit(transaction.statements, transaction.lines)

    def check_and_commit(self, statements, lines):
        """Checks that statements were answered as if they ran alone now, and commits their rows."""
        answers, states = alone(self.states[-1], statements)
        due = [reply_line(one.reply) for one in answers]
        expect(due == lines, f"alone just before its commit it is answered {due}")
        if len(states) == 1:
            return
        keys = touched(answers, states)
        self.states.append(states[-1])
        for other in self.open.values():
            other.is_overlapped = other.is_overlapped or meet(other.reads, keys)

    def end(self, name):
        """Checks that a transaction without a commit was answered as if it ran alone after one prefix."""
        transaction = self.open.pop(name, None)
        if transaction is None:
            return
        replies = (answered(one, transaction.statements) for one in reversed(self.states[transaction.begun :]))
        expect(transaction.lines in replies, "one prefix answers it")


def answered(tuples, statements):
    return [reply_line(one.reply) for one in alone(tuples, statements)[0]]


def meet(reads, keys):
    return any(span.index == index and span.has(key) for span in reads for index, key in keys)


class Differs(Exception):
    """A history has no serial order."""


def expect(holds, what):
    if not holds:
        raise Differs(what)


# ---- what is printed of a history that fails


def shown_statement(statement):
    name, *_ = statement
    if len(statement) == 1:
        return name
    words, values = [name], []
    for field, value in fields_of(statement).items():
        if isinstance(value, list):
            values.append(json.dumps(value))
        elif field == "iterator":
            words.append(value.lower())
        elif (field, value) not in (("index", 0), ("offset", 0), ("limit", 100)):
            words.append(f"{field} {value}")
    return " ".join(words + values)


def shown_step(name, step, line):
    connection, stream = name
    asks = f"{connection}.{stream}" if stream and step != ("leave",) else f"{connection}"
    word, *rows = line.split(" ")
    if word == "left":
        return f"{asks}: leave"
    if word == "tuples":
        line = ", ".join(json.dumps(Reader(bytes.fromhex(row)).value()) for row in rows) or "none"
    return f"{asks}: {shown_statement(step)} -> {line.removeprefix('error ')}"


def show(seed, number, before, steps, answers, why):
    print(f"FAILED  history {number} of seed {seed}: {why}")
    for line in (*INDEXES, *(f"9: insert {json.dumps(row)}" for row in before.values())):
        print("   ", line)
    for (name, step), line in zip(steps, answers):
        print("   ", shown_step(name, step, line))


# ---- all histories


def lines_of(histories):
    """The lines of all histories, some in one database."""
    for number, steps in enumerate(histories):
        if number % PER_DATABASE == 0:
            yield from ("new", *(step.line for step in SETTING))
        yield from (asked(name, step)[0] for name, step in steps)


def program_answers(histories):
    """What the built program answers to each history, in the lines of `mx_histories`."""
    for begin in range(0, len(histories), PER_DATABASE):
        part = histories[begin : begin + PER_DATABASE]
        packets = [(step.connection, step.packet) for step in SETTING]
        packets += [asked(name, step)[1] for steps in part for name, step in steps]
        with tempfile.TemporaryDirectory(prefix="vurandy-") as folder:
            lines = program_lines(Path(folder), packets)
            expect([*islice(lines, len(SETTING))] == DUE, "the program adds the indexes")
            for steps in part:
                yield [*islice(lines, len(steps))]


def check_same(seen, answered):
    """Checks that the built program, where it was asked, answered a history as the plain slow one did."""
    for number, (line, other) in enumerate(zip(seen, seen if answered is None else answered), 1):
        expect(line == other, f"step {number} is answered `{other}` by the program")


def search_all(histories, answers, compared, seed):
    """Searches each history. Returns how many have a serial order, how many have a conflict, and how many have none.

    One that has none, or is answered otherwise by the program, is printed, and those behind it in its database are
    passed over.
    """
    found, conflicts, failed, tuples = 0, 0, 0, {}
    for number, steps in enumerate(histories):
        if number % PER_DATABASE == 0:
            expect([*islice(answers, 1 + len(SETTING))] == ["new", *DUE], "the indexes are added")
            tuples = {}
        seen = [*islice(answers, len(steps))]
        try:
            answered = next(compared, None)
            if tuples is None:
                continue
            after = search(tuples, steps, seen)
            check_same(seen, answered)
        except (Differs, AssertionError) as why:
            show(seed, number, tuples, steps, seen, why)
            failed, tuples = failed + 1, None
        else:
            found, conflicts, tuples = found + 1, conflicts + (CONFLICT_LINE in seen), after
    return found, conflicts, failed


def search(tuples, steps, seen):
    """Searches a history that begins with these tuples. Returns those in the end."""
    found = Search(tuples)
    for (name, step), line in zip(steps, seen):
        found.step(name, step, line)
    return found.states[-1]


def main():
    parser = argparse.ArgumentParser(description="Searches generated histories for serial orders.")
    parser.add_argument("--histories", type=int, default=HISTORIES, help="how many histories are asked")
    parser.add_argument("--compared", type=int, help="how many of them the built program is asked too, or all")
    parser.add_argument("--seed", type=int, default=1)
    given = parser.parse_args()
    # The builds are proved first, and may take far longer than the checks.
    build_histories()
    if not is_built():
        print("FAILED  the program is not built")
        return 1
    histories = [some_history(Random(f"{given.seed} {number}")) for number in range(given.histories)]
    answers, compared = history_answers(lines_of(histories)), program_answers(histories[: given.compared])
    found, conflicts, failed = search_all(histories, iter(answers), compared, given.seed)
    asked_too, told = len(histories[: given.compared]), f", {failed} failed" if failed else ""
    print(f"serial_program: {found} passed, {conflicts} of them with a conflict, the program was asked {asked_too}{told}")
    return 1 if failed else 0


if __name__ == "__main__":
    sys.exit(main())
