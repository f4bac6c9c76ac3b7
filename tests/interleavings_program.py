#!/usr/bin/env python3
"""Asks the plain slow program and the built program what transactions beside each other are answered, and compares
each answer with the one that was worked out by hand.

`interleaving_cases.py` has the cases. All of them are asked in one run of `mx_histories`, each in a database of its
own, and each in a run of the built program on a directory of its own. A line is printed for each case that fails,
which says whose answer differs, and the status is 0 only where none does. With `--long` those of 4,096 rows and of a
result that is too long are asked too, which take far longer than the others.
"""

import json
import re
import sys
import tempfile
from dataclasses import dataclass
from functools import lru_cache
from itertools import islice
from pathlib import Path
from typing import Optional

from interleaving_cases import CASES, LONG_CASES
from iproto import DATA, ITERATORS, KEYS, Reader, pack, packets_in, read_reply
from program import all_pass, answers, build_histories, history_answers, is_built, spelled_twice
from steps import TEST

SECONDS = 60
# The field of a body for each value that a step has behind its name, in order.
VALUES = {
    "select": ("key",),
    "insert": ("tuple",),
    "replace": ("tuple",),
    "update": ("key", "operations"),
    "delete": ("key",),
    "upsert": ("tuple", "operations"),
}
# What is answered where a step names no answer: a tuple that is put, none or `ok`.
PUTS, ANSWERS_NONE = ("insert", "replace"), ("upsert",)
# Who is asked, as a message names it, and how many letters of an answer it shows.
ASKED = "mx_histories", "the program"
SHOWN_LETTERS = 200
FILLER = re.compile(r"<(\d+)>")
STEP = re.compile(r"(\d+)(?:\.(\d+))?: (\w+)(?: (?!->)(.*?))?(?: -> (.*))?")
WORD = re.compile(r"[a-z]+")
DECODER = json.JSONDecoder()


def values_in(text):
    """The words and values of a text, in order; commas between them count as spaces."""
    text, at = FILLER.sub(lambda filler: json.dumps("a" * int(filler[1])), text), 0
    while at < len(text):
        if word := WORD.match(text, at):
            yield word[0]
            at = word.end()
        else:
            value, at = DECODER.raw_decode(text, at)
            yield value
        while at < len(text) and text[at] in ", ":
            at += 1


def fields_in(name, text):
    """The fields of a statement's body."""
    fields, due, parts = {"space": TEST} if name in VALUES else {}, list(VALUES.get(name, ())), values_in(text)
    for part in parts:
        if not isinstance(part, str):
            fields[due.pop(0)] = part
        elif part.upper() in ITERATORS:
            fields["iterator"] = part.upper()
        else:
            fields[part] = next(parts)
    return fields


def tuples_line(tuples):
    return " ".join(["tuples", *(pack(one).hex() for one in tuples)])


def answer_line(text):
    """The line of an answer."""
    if text in ("ok", "id", "left"):
        return text
    if text == "none":
        return tuples_line([])
    return f"error {text}" if text.isdecimal() else tuples_line(values_in(text))


def default_answer(name, fields):
    """The line of the answer of a step that names none."""
    if name in PUTS:
        return tuples_line([fields["tuple"]])
    return tuples_line([]) if name in ANSWERS_NONE else "ok"


@dataclass(frozen=True)
class Step:
    """A step as it is written, and the answer that is due to it.

    `line` asks `mx_histories`, and `packet` the built program; it is None where the connection closes.
    """

    text: str
    connection: int
    line: str
    packet: Optional[bytes]
    due: str


def read_step(text):
    matched = STEP.fullmatch(text)
    assert matched, f"no step: {text}"
    connection, stream, name, values, answer = matched.groups()
    if name == "leave":
        return Step(text, int(connection), f"leave {connection}", None, "left")
    fields = fields_in(name, values or "")
    due = default_answer(name, fields) if answer is None else answer_line(answer)
    kind = int(name) if name.isdecimal() else name.upper()
    return Step(text, int(connection), *spelled_twice(connection, kind, stream and int(stream), **fields), due)


@lru_cache(maxsize=1_000)
def reply_line(packet):
    """The line that `mx_histories` has for the packet of a reply."""
    reply = read_reply(packet)
    if reply.error is not None:
        return f"error {reply.error}"
    if DATA in reply.body:
        return tuples_line(reply.body[DATA])
    return "id" if KEYS["version"] in reply.body else "ok"


def program_lines(folder, asked):
    """What a run of the built program answers to connections with a packet, or with None for a close, in lines."""
    for (_, packet), contents in zip(asked, answers(folder, asked)):
        if packet is None:
            yield "left"
        else:
            replies = [reply_line(one) for content in contents for one in packets_in(content)]
            yield replies[0] if len(replies) == 1 else f"{len(replies)} replies"


def shown(line):
    """An answer as a message shows it."""
    word, *parts = line.split(" ")
    if word == "tuples":
        parts = [json.dumps(Reader(bytes.fromhex(one)).value(), default=repr) for one in parts]
    text = " ".join([word, *parts])
    return text if len(text) <= SHOWN_LETTERS else f"{text[:SHOWN_LETTERS]}.. of {len(text)} letters"


def steps_of(text):
    """The steps of a case, without comments."""
    lines = (line.split(" #")[0].strip() for line in text.splitlines())
    return [line for line in lines if line and not line.startswith("#")]


def check(steps, slow):
    """Asks the built program a case's steps too, and checks its answers and those of the plain slow program."""
    with tempfile.TemporaryDirectory(prefix="vurandy-") as folder:
        fast = program_lines(Path(folder), [(step.connection, step.packet) for step in steps])
        for number, (step, *lines) in enumerate(zip(steps, slow, fast), 1):
            wrong = [f"{who} {shown(line)}" for who, line in zip(ASKED, lines) if line != step.due]
            text = f"step {number}, {step.text[:SHOWN_LETTERS]}"
            assert not wrong, f"{text}: expected {shown(step.due)}, saw of {' and of '.join(wrong)}"


def main():
    # The builds are proved first, and may take far longer than the checks.
    build_histories()
    if not is_built():
        print("FAILED  the program is not built")
        return 1
    cases = (*CASES, *(LONG_CASES if "--long" in sys.argv[1:] else ()))
    cases = [(title, [read_step(line) for line in steps_of(text)]) for title, text in cases]
    slow = iter(history_answers([line for _, steps in cases for line in ("new", *(step.line for step in steps))]))
    checks = [(title, check, steps, list(islice(slow, 1 + len(steps)))[1:]) for title, steps in cases]
    return 0 if all_pass("interleavings_program", checks, SECONDS) else 1


if __name__ == "__main__":
    sys.exit(main())
