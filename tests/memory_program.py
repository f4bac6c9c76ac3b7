#!/usr/bin/env python3
"""Lets one allocation of the built program fail, each in turn, while transactions are asked, and while tuples with long
primary keys are asked by other indexes, and checks that nothing is lost or done twice.

A request that is answered out of memory is asked again, and has to be answered then as if it had been asked once; so
the replies to all requests, but for the failed ones, are the same whichever allocation fails. Where the program ends
instead, for want of memory outside of the engine, it says so, and the next run on the directory has to find each
acknowledged commit, a prefix of all of them, and each whole or not at all.

The allocations are those of the C library's `malloc`, `calloc` and `realloc`, in whose place a library is loaded that a
C compiler builds. A line is printed for each check that fails, and the status is 0 only where none does.
"""

import os
import shutil
import subprocess
import sys
import tempfile
from dataclasses import dataclass
from pathlib import Path

from iproto import GREETING_BYTES, SEED, Reader, input_unit, packets_in, read_reply, request
from program import PROGRAM, TRACE, environment, expect, run_checks
from steps import INDEXES, SPACES, TEST, index_row, space_row

SECONDS = 60
SCRATCH = Path(tempfile.mkdtemp(prefix="vurandy-"))
OUT_OF_MEMORY, STATUS_NO_MEMORY = 2, 6

# Lets the allocation of this number fail, and counts all of them.
SOURCE = r"""
#include <stdio.h>
#include <stdlib.h>
#include <unistd.h>

extern void *__libc_malloc(size_t);
extern void *__libc_calloc(size_t, size_t);
extern void *__libc_realloc(void *, size_t);

static long count, failing = -1;

static int fails(void)
{
    if (failing < 0) {
        const char *text = getenv("FAILING_ALLOCATION");
        failing = text ? atol(text) : 0;
    }
    return ++count == failing;
}

void *malloc(size_t size) { return fails() ? NULL : __libc_malloc(size); }
void *calloc(size_t items, size_t size) { return fails() ? NULL : __libc_calloc(items, size); }
void *realloc(void *old, size_t size) { return fails() ? NULL : __libc_realloc(old, size); }

__attribute__((destructor)) static void tell(void)
{
    const char *name = getenv("ALLOCATIONS_TO");
    FILE *file = name ? fopen(name, "w") : NULL;
    if (file) {
        fprintf(file, "%ld\n", count);
        fclose(file);
    }
}
"""


def statement(name, stream=1, connection=1, **fields):
    """A statement, in the transaction of a stream or by itself in stream 0."""
    return connection, name, stream, {"space": TEST, **fields}


def control(name, stream=1, connection=1):
    return connection, name, stream, {}


@dataclass(frozen=True)
class Conversation:
    """Requests with the replies that are due: the number of a refusal, or tuples; None is OK without any."""

    name: str
    # What is asked before an allocation fails.
    before: tuple
    asked: tuple
    due: tuple
    # The places of the requests that commit, and the tuples that are there before all of them and after each one.
    commits: tuple
    states: tuple
    # What is read in the end.
    read: tuple


# The tuple of a text that has no place in a short key or a short tuple.
LONG = "x" * 100
# The row of a second index, which is unique.
INDEX = index_row(TEST, 1, "name", [[1, "string"]])
ONE, ONE_MORE, TWO, THREE = [1, "one", 1], [1, "one", 2], [2, LONG, 2], [3, "three", 3]
FOUR, FIVE = [4, LONG * 2, 4], [5, "five", 5]
# Two transactions that write, beside one that is rolled back and a reader that a commit overlaps.
TRANSACTIONS = Conversation(
    name="transactions",
    before=(),
    asked=(
        statement("INSERT", 0, space=INDEXES, tuple=INDEX),
        statement("REPLACE", 0, tuple=[1, "one", 1]),
        control("BEGIN"),
        statement("REPLACE", tuple=[2, LONG, 2]),
        statement("UPDATE", key=[1], operations=[["+", 2, 1]]),
        statement("INSERT", tuple=[2, "again", 0]),
        control("BEGIN", 2),
        statement("SELECT", 2, key=[1], limit=10),
        statement("UPSERT", tuple=[3, "three", 3], operations=[["=", 2, 4]]),
        statement("DELETE", key=[9]),
        statement("SELECT", key=[], limit=10, iterator="ALL"),
        control("BEGIN", 1, 2),
        statement("REPLACE", 1, 2, tuple=[5, "five", 5]),
        control("COMMIT"),
        statement("SELECT", 2, key=[1], limit=10),
        control("ROLLBACK", 1, 2),
        statement("REPLACE", 0, tuple=[4, LONG * 2, 4]),
        control("COMMIT", 2),
    ),
    due=(
        [INDEX],
        [ONE],
        None,
        [TWO],
        [ONE_MORE],
        3,
        None,
        [ONE],
        [],
        [],
        [ONE_MORE, TWO, THREE],
        None,
        [FIVE],
        None,
        [ONE],
        None,
        [FOUR],
        None,
    ),
    commits=(0, 1, 13, 16),
    states=([], [], [ONE], [ONE_MORE, TWO, THREE], [ONE_MORE, TWO, THREE, FOUR]),
    read=statement("SELECT", 0, key=[], limit=10, iterator="ALL"),
)

TEXTS = 600
# The keys of these have no place in a short key, so that a search by another index takes memory.
A, A_MORE = ["a" * 40, 1, 5], ["a" * 40, 1, 6]
B, C = ["b" * 40, 2, 5], ["c" * 40, 3, 5]


def of_texts(name, stream=1, **fields):
    return statement(name, stream, space=TEXTS, **fields)


# Statements by a unique index of numbers, and by one of groups that isn't unique: by themselves and in a transaction.
LONG_KEYS = Conversation(
    name="long keys",
    before=(
        statement("INSERT", 0, space=SPACES, tuple=space_row(TEXTS, "texts")),
        statement("INSERT", 0, space=INDEXES, tuple=index_row(TEXTS, 0, "primary", [[0, "string"]])),
        statement("INSERT", 0, space=INDEXES, tuple=index_row(TEXTS, 1, "number", [[1, "unsigned"]])),
        statement("INSERT", 0, space=INDEXES, tuple=[TEXTS, 2, "group", "tree", {"unique": False}, [[2, "unsigned"]]]),
        of_texts("INSERT", 0, tuple=A),
        of_texts("INSERT", 0, tuple=B),
    ),
    asked=(
        of_texts("SELECT", 0, index=2, key=[5], limit=10),
        of_texts("SELECT", 0, index=1, key=[2], limit=10),
        of_texts("UPDATE", 0, index=1, key=[1], operations=[["+", 2, 1]]),
        of_texts("INSERT", 0, tuple=["d" * 40, 2, 5]),
        control("BEGIN"),
        of_texts("REPLACE", tuple=C),
        of_texts("DELETE", index=1, key=[2]),
        of_texts("SELECT", index=2, key=[], limit=10, iterator="ALL"),
        of_texts("SELECT", index=1, key=[2], limit=10),
        of_texts("INSERT", tuple=["d" * 40, 3, 5]),
        control("COMMIT"),
        of_texts("SELECT", 0, index=2, key=[], limit=10, iterator="REQ"),
    ),
    due=([A, B], [B], [A_MORE], 3, None, [C], [B], [C, A_MORE], [], 3, None, [A_MORE, C]),
    commits=(2, 10),
    states=([A, B], [A_MORE, B], [A_MORE, C]),
    read=of_texts("SELECT", 0, key=[], limit=10, iterator="ALL"),
)


# How many requests were asked again, and how many runs ended for want of memory: neither may be none.
SEEN = {"asked again": 0, "ended": 0}


class Ended(Exception):
    """The program ended before it answered."""


class Run:
    """A run on a directory that is asked one request at a time, an allocation of which may fail."""

    def __init__(self, folder, failing=None):
        self.counted, self.sync, self.greeted = folder / "allocations", 0, set()
        variables = {"LD_PRELOAD": str(SCRATCH / "failing.so"), "ALLOCATIONS_TO": str(self.counted)}
        if failing is not None:
            variables["FAILING_ALLOCATION"] = str(failing)
        self.process = subprocess.Popen(
            [built_program(), *TRACE],
            stdin=subprocess.PIPE,
            stdout=subprocess.PIPE,
            stderr=subprocess.PIPE,
            env={**environment(SEED), **variables},
            cwd=folder,
            bufsize=0,
        )

    def ask(self, connection, name, stream, fields):
        """The reply to a request: a refusal's number, or its tuples, or None."""
        self.sync += 1
        try:
            self.process.stdin.write(input_unit(request(name, self.sync, stream or None, **fields), connection))
        except BrokenPipeError:
            raise Ended from None
        size = int.from_bytes(self.read(8)[4:], "big")
        content = self.read(size)
        if connection not in self.greeted:
            self.greeted.add(connection)
            content = content[GREETING_BYTES:]
        (one,) = packets_in(content)
        answer = read_reply(one)
        expect("sync of a reply", self.sync, answer.sync)
        return answer.error if answer.error is not None else answer.body.get(0x30)

    def read(self, size):
        read = b""
        while len(read) < size:
            part = self.process.stdout.read(size - len(read))
            if not part:
                raise Ended
            read += part
        return read

    def end(self):
        """Ends the input. The status and standard error, and how many allocations there were."""
        _, said = self.process.communicate()
        return self.process.returncode, said.decode(), int(self.counted.read_text())

    def __enter__(self):
        return self

    def __exit__(self, *_):
        self.process.kill()
        self.process.communicate()


def built_program():
    """The program itself: the script around it would have allocations of its own."""
    return str(Path(PROGRAM).parent / "crates" / "mx_program" / "out" / "mx_program")


def ask_again(run, asked):
    """The reply to a request, which is asked once more where it is out of memory."""
    reply = run.ask(*asked)
    if reply != OUT_OF_MEMORY:
        return reply
    SEEN["asked again"] += 1
    return run.ask(*asked)


def new_folder():
    return Path(tempfile.mkdtemp(dir=SCRATCH))


def state_of(conversation, folder):
    """What a further run finds."""
    with Run(folder) as run:
        found = run.ask(*conversation.read)
        expect("status of the further run", (0, ""), run.end()[:2])
    return found


def check_whole(conversation, folder, failing):
    """Asks all, and checks the replies and what a further run finds."""
    done, states = 0, conversation.states
    with Run(folder, failing) as run:
        try:
            for asked in conversation.before:
                expect(f"reply to {asked[1]} before", False, isinstance(run.ask(*asked), int))
            for at, (asked, due) in enumerate(zip(conversation.asked, conversation.due, strict=True)):
                expect(f"reply to {asked[1]}, request {at}", due, ask_again(run, asked))
                done = at + 1
            expect("tuples in the end", states[-1], ask_again(run, conversation.read))
            status, said, _ = run.end()
            expect("status", (0, ""), (status, said))
        except Ended:
            SEEN["ended"] += 1
            status, said, _ = run.end()
            expect("status of a run that ended before its input", STATUS_NO_MEMORY, status)
            assert "NoMemory" in said, f"standard error: {said!r}"
    least = sum(place < done for place in conversation.commits)
    most = least if status == 0 else sum(place <= done for place in conversation.commits)
    found = state_of(conversation, folder)
    assert found in states[least : most + 1], f"after {done} requests the next run finds {found}"


def check_failing(conversation, failing):
    folder = new_folder()
    check_whole(conversation, folder, failing)
    shutil.rmtree(folder)


def check_seen():
    assert all(SEEN.values()), f"expected some of each, saw {SEEN}"


def count_of(requests):
    """How many allocations a run makes with so many requests."""
    with Run(new_folder()) as run:
        for asked in requests:
            run.ask(*asked)
        return run.end()[2]


def failures():
    """The checks: one for each allocation that the requests of a conversation make."""
    for conversation in (TRANSACTIONS, LONG_KEYS):
        before = conversation.before
        first, last = count_of(before), count_of(before + conversation.asked)
        assert first < last, f"allocations: {first} before, {last} in all"
        yield f"{conversation.name}: no allocation fails", check_failing, conversation, None
        for number in range(first + 1, last + 1):
            yield f"{conversation.name}: allocation {number} of {first + 1} to {last} fails", check_failing, conversation, number
    yield "failures are seen", check_seen


def main():
    compiler = shutil.which("cc") or shutil.which("gcc")
    if compiler is None:
        print("memory_program: skipped, there is no C compiler")
        return 0
    source = SCRATCH / "failing.c"
    source.write_text(SOURCE)
    subprocess.run([compiler, "-O1", "-shared", "-fPIC", "-o", SCRATCH / "failing.so", source], check=True)
    return run_checks("memory_program", failures(), SECONDS, SCRATCH)


if __name__ == "__main__":
    sys.exit(main())
