#!/usr/bin/env python3
"""Holds a conversation with the server and prints it, requests on the left and replies on the right.

A line such as `1.3 REPLACE ..` is the request with sync 3 on connection 1. From BEGIN to COMMIT or ROLLBACK
the requests of one `stream` are a transaction. The client runs `./vurandy trace` on a new directory, and needs
Python's standard library alone; `tests/iproto.py` writes and reads the packets. With --bytes each line is
followed by the bytes that were sent.
"""

import argparse
import os
import subprocess
import sys
import tempfile
import textwrap
from pathlib import Path

ROOT = Path(__file__).resolve().parent.parent
sys.path.append(str(ROOT / "tests"))

from iproto import (  # noqa: E402
    DATA,
    ERROR,
    GREETING_BYTES,
    KEYS,
    SEED,
    SYNC,
    TYPE,
    Spelled,
    input_unit,
    packet,
    packets_in,
    read_reply,
    request,
)

LEFT_WIDTH = 50
RIGHT_WIDTH = 50

# Update operations: on numbers, and on a text.
OPERATIONS = [["+", 2, 3], ["|", 3, 1], [":", 1, 3, 0, "s"]]


class Said:
    """What a client sent: a line for people, and the bytes."""

    def __init__(self, connection, line, content):
        self.connection, self.line, self.content = connection, line, content


def asks(connection, sync, name, **fields):
    """A client sends a request, in a stream where one is among the fields."""
    line = " ".join([f"{connection}.{sync}", name, *(f"{field}={value}" for field, value in fields.items())])
    if len(line) > LEFT_WIDTH + RIGHT_WIDTH:
        line = line.replace(", ", ",")
    return Said(connection, line, request(name, sync, **fields))


def conversation():
    """What the clients send, in order."""
    return [
        asks(1, 1, "ID", version=4, features=[0, 1, 2, 3, 4]),
        asks(1, 2, "PING"),
        asks(1, 3, "REPLACE", space=512, tuple=[1, "apple"]),
        asks(2, 1, "REPLACE", space=512, tuple=[2, "banana"]),
        asks(2, 2, "INSERT", space=512, tuple=[3, "cherry"]),
        asks(2, 3, "SELECT", space=512, key=[1]),
        asks(1, 4, "SELECT", space=512, iterator="GE", key=[2]),
        asks(1, 5, "UPSERT", space=512, tuple=[2], operations=[["=", 2, 5]]),
        asks(1, 6, "SELECT", space=513, key=[1]),
        asks(1, 7, "DELETE", space=512, key=[2]),
        # A space, its primary index and a second one.
        asks(1, 8, "INSERT", space=280, tuple=[600, 1, "fruit", "memtx", 0, {}, []]),
        asks(1, 9, "INSERT", space=288, tuple=[600, 0, "id", "tree", {}, [[0, "unsigned"]]]),
        asks(1, 10, "INSERT", space=288, tuple=[600, 1, "name", "tree", {}, [[1, "string"]]]),
        asks(1, 11, "INSERT", space=600, tuple=[7, "fig", 5, 12]),
        asks(1, 12, "INSERT", space=600, tuple=[8, "fig"]),
        asks(1, 13, "UPDATE", space=600, index=1, key=["fig"], operations=OPERATIONS),
        # What one transaction has read another one changes: the first reads on in its view, and can't write.
        asks(1, 14, "BEGIN", stream=1),
        asks(1, 15, "SELECT", stream=1, space=512, key=[1]),
        asks(2, 4, "BEGIN", stream=2),
        asks(2, 5, "REPLACE", stream=2, space=512, tuple=[1, "pear"]),
        asks(2, 6, "COMMIT", stream=2),
        asks(2, 7, "SELECT", space=512, key=[1]),
        asks(1, 16, "SELECT", stream=1, space=512, key=[1]),
        asks(1, 17, "REPLACE", stream=1, space=512, tuple=[1, "plum"]),
        asks(1, 18, "ROLLBACK", stream=1),
        Said(2, "2.8 a PING with c1, which is no MessagePack", packet({TYPE: 64, SYNC: 8}, Spelled(b"\xc1"))),
    ]


def answers_in(connection, content, greeted):
    """What an output unit holds, each part as a line and bytes: the greeting and replies, or a close."""
    if not content:
        yield f"{connection}   the server closes the connection", b""
        return
    at = 0
    if not greeted:
        instance = content[:64].decode().split()[-1]
        yield f"{connection}   greeting {instance}", content[:GREETING_BYTES]
        at = GREETING_BYTES
    for one in packets_in(content[at:]):
        first, *others = lines_of(connection, read_reply(one))
        yield first, one
        yield from ((other, b"") for other in others)


def lines_of(connection, reply):
    """A reply as lines: one, or more where that is too long, each tuple on a line of its own."""
    head = f"{connection}.{reply.sync}"
    if reply.error is not None:
        return textwrap.wrap(f"{head} error {reply.error}: {reply.body[ERROR]}", RIGHT_WIDTH, subsequent_indent="    ")
    if DATA in reply.body:
        tuples = list(map(repr, reply.body[DATA]))
        counted = f"{head} OK, {len(tuples)} tuple{'' if len(tuples) == 1 else 's'}"
        line = f"{counted}: {', '.join(tuples)}".rstrip(": ")
        return [line] if len(line) <= RIGHT_WIDTH else [counted, *(f"    {one}" for one in tuples)]
    names = {key: name for name, key in KEYS.items()}
    return [", ".join([f"{head} OK", *(f"{names[key]} {value}" for key, value in reply.body.items())])]


class Server:
    """The program on a directory. It answers each unit before it reads the next one."""

    # A connection that nobody else uses: once it is answered, so are the units before it.
    MARKER = 1023

    def __init__(self, directory):
        self.process = subprocess.Popen(
            [ROOT / "vurandy", "trace", directory],
            stdin=subprocess.PIPE,
            stdout=subprocess.PIPE,
            env=dict(os.environ, VURANDY_SEED=SEED),
        )

    def answer(self, said):
        """The contents of the output units for what a client sent."""
        marker = input_unit(request("PING", 0), self.MARKER)
        self.process.stdin.write(input_unit(said.content, said.connection) + marker)
        self.process.stdin.flush()
        contents = []
        while True:
            connection, size = self.read_number(), self.read_number()
            content = self.process.stdout.read(size)
            if connection == self.MARKER:
                return contents
            contents.append(content)

    def read_number(self):
        """A number of four bytes of an output unit's head."""
        read = self.process.stdout.read(4)
        if len(read) < 4:
            sys.exit(f"the server ended with status {self.process.wait()}")
        return int.from_bytes(read, "big")

    def end(self):
        """Ends the input. Returns the exit status."""
        self.process.stdin.close()
        return self.process.wait()


def show(said, answers, with_bytes):
    """Prints what a client sent, and beside it what it was answered, or below where there is no room."""
    if len(said.line) >= LEFT_WIDTH:
        answers = [("", b""), *answers]
    rows = [(said.line, said.content, *(answers[0] if answers else ("", b"")))]
    rows += [("", b"", line, content) for line, content in answers[1:]]
    for left, sent, right, got in rows:
        print(f"{left:<{LEFT_WIDTH}}{right}".rstrip())
        for indent, shown in ((4, sent), (LEFT_WIDTH + 4, got)):
            if with_bytes and shown:
                print(f"{'':<{indent}}{shown.hex(' ', -4)}")


def main():
    parser = argparse.ArgumentParser(description=__doc__.split("\n\n", maxsplit=1)[0])
    parser.add_argument("--bytes", action="store_true", help="print the bytes too")
    with_bytes = parser.parse_args().bytes
    greeted = set()
    print(f"{'client':<{LEFT_WIDTH}}server")
    with tempfile.TemporaryDirectory() as directory:
        server = Server(directory)
        for said in conversation():
            answers = []
            for content in server.answer(said):
                answers += answers_in(said.connection, content, said.connection in greeted)
                greeted.add(said.connection)
            show(said, answers, with_bytes)
        return server.end()


if __name__ == "__main__":
    sys.exit(main())
