#!/usr/bin/env python3
"""Kills the built program at many points, and checks what a further run finds.

Each round has a folder of its own. A run on it is sent one commit after the other, and is killed by SIGKILL. A commit
is one REPLACE, or a transaction of 1 to 50 of them: in one unit, in a unit for each request, or beside another one in
a second stream. Or a unit has 1 to 50 commits, of one REPLACE each, on one of 1 to 3 connections. Between transactions some are rolled back, and one is never ended. Then a further run SELECTs all
tuples: it has to find those of all commits of the first units, each whole and with its own tuples, among them all that
were acknowledged and none that wasn't sent. Some rounds kill three runs in a row, and each goes on at the next commit.

A line is printed for each round that fails, and the status is 0 only where none does.
"""

import itertools
import random
import signal
import subprocess
import sys
import tempfile
import threading
import time
from pathlib import Path
from typing import NamedTuple

from iproto import (
    DATA,
    GREETING_BYTES,
    SEED,
    contents,
    input_unit,
    ok_reply,
    output_unit,
    read_reply,
    request,
    tuples_reply,
)
from program import GREETING, PROGRAM, TRACE, environment, expect, run_checks
from steps import expect_bytes

SECONDS = 60
SCRATCH = Path(tempfile.mkdtemp(prefix="vurandy-"))
DELAYS = random.Random(20261127)
# The most rows of a commit, and the streams: the first two commit, the others don't.
MAX_ROWS = 50
ONE, OTHER, ROLLED_BACK, LEFT_OPEN = range(1, 5)


class Unit(NamedTuple):
    """What is asked in a unit, what it is answered, how many commits it makes, and on which connection."""

    asked: bytes
    answer: bytes
    commits: int = 0
    connection: int = 1


def joined(units):
    """What these units ask, in one."""
    asked, answers, commits, connections = zip(*units)
    return Unit(b"".join(asked), b"".join(answers), sum(commits), *set(connections))


def replace(sync, tuple_, stream=None, commits=0):
    """A REPLACE of a tuple."""
    return Unit(request("REPLACE", sync, stream, space=512, tuple=tuple_), tuples_reply(sync, tuple_), commits)


def transaction(commit, stream, end="COMMIT"):
    """The requests of a transaction, with the commit as their sync. If it doesn't commit its tuples are others."""
    yield Unit(request("BEGIN", commit, stream), ok_reply(commit))
    for key, text in many_rows(commit):
        yield replace(commit, [key, text if end == "COMMIT" else "lost"], stream)
    if end is not None:
        yield Unit(request(end, commit, stream), ok_reply(commit), int(end == "COMMIT"))


def transactions(commit):
    """The transaction of a commit, and maybe one before it that is rolled back."""
    if commit % 3 == 0:
        yield transaction(commit, ROLLED_BACK, "ROLLBACK")
    yield transaction(commit, ONE)


def one_row(commit):
    """The tuples of a commit of one row."""
    return [[commit, str(commit)]]


def many_rows(commit):
    """The tuples of a commit of 1 to 50 rows."""
    return [[MAX_ROWS * commit + place, str(commit)] for place in range(1 + commit * 31 % MAX_ROWS)]


def one_request(first):
    """The units of all commits from this one on, each of them one REPLACE."""
    for commit in itertools.count(first):
        yield replace(commit, *one_row(commit), commits=1)


def many_commits(first, connections):
    """The same in units of 1 to 50 of them, on so many connections."""
    commits = itertools.count(first)
    for number in itertools.count():
        connection = 1 + number * 5 % connections
        some = itertools.islice(commits, 1 + (first + number) * 31 % MAX_ROWS)
        yield joined(replace(commit, *one_row(commit), commits=1)._replace(connection=connection) for commit in some)


def many_on_one(first):
    """Units of 1 to 50 commits on one connection."""
    return many_commits(first, 1)


def many_on_two(first):
    """The same on two."""
    return many_commits(first, 2)


def many_on_three(first):
    """The same on three."""
    return many_commits(first, 3)


def one_unit(first):
    """The same of transactions, each in one unit."""
    yield joined(transaction(first, LEFT_OPEN, None))
    for commit in itertools.count(first):
        yield from map(joined, transactions(commit))


def many_units(first):
    """The same with each request in a unit of its own."""
    yield from transaction(first, LEFT_OPEN, None)
    for commit in itertools.count(first):
        yield from itertools.chain(*transactions(commit))


def two_streams(first):
    """The same with two transactions at once, of which the one that begins first ends last."""
    yield from transaction(first, LEFT_OPEN, None)
    for commit in itertools.count(first, 2):
        *outer, last = transaction(commit + 1, ONE)
        *inner, end = transaction(commit, OTHER)
        yield from filter(None, itertools.chain(*itertools.zip_longest(outer, inner)))
        yield end
        yield last


class Run:
    """A run on a folder that is sent units."""

    def __init__(self, folder, units):
        self.directory = folder / "DIR"
        self.units = units
        self.sent = []
        self.output = b""
        self.sender = threading.Thread(target=self.stream, daemon=True)
        self.process = subprocess.Popen(
            [PROGRAM, *TRACE],
            stdin=subprocess.PIPE,
            stdout=subprocess.PIPE,
            stderr=subprocess.PIPE,
            env=environment(SEED),
            cwd=folder,
            bufsize=0,
        )

    def __enter__(self):
        return self

    def __exit__(self, *_):
        self.end()

    def send(self):
        """Sends the next unit, which counts as sent once its sending begins."""
        self.sent.append(next(self.units))
        self.process.stdin.write(self.input_of(self.sent[-1]))

    @staticmethod
    def input_of(unit):
        """A unit as it is sent."""
        return input_unit(unit.asked, unit.connection)

    def send_part(self, size):
        """Sends so many bytes of the next unit, or all but so many below 0, so that it doesn't count as sent."""
        unit = self.input_of(next(self.units))
        assert size < len(unit), f"bytes of a unit: expected fewer than {len(unit)}, saw {size}"
        self.process.stdin.write(unit[:size])

    def await_replies(self, count):
        """Reads until there are this many output units in all."""
        while (seen := len(contents(self.output))) < count:
            part = self.process.stdout.read(65536)
            assert part, f"replies before the output's end: expected {count}, saw {seen}"
            self.output += part

    def exchange(self, count):
        """Sends so many units, each once the one before it is answered, and awaits the last reply."""
        for _ in range(count):
            self.send()
            self.await_replies(len(self.sent))

    def stream(self):
        """Sends units and awaits no reply, until nobody reads them."""
        try:
            while True:
                self.send()
        except BrokenPipeError:
            return

    def end(self):
        """Kills the run where it is still going on. Gives what it had written that wasn't read."""
        self.process.kill()
        if self.sender.is_alive():
            self.sender.join()
        return self.process.communicate()

    def kill(self):
        """Kills the run, which has to be going on, and reads what it had written."""
        rest, stderr = self.end()
        self.output += rest
        expect("status of the killed run", -signal.SIGKILL, self.process.returncode)
        expect("standard error of the killed run", b"", stderr)

    def commits(self):
        """How many commits may be found: those of the units that are acknowledged, and of each further one that was sent.

        The output has to be the answers to the units that were sent, the last one maybe cut.
        """
        count, rest, greeted = len(contents(self.output)), self.output, set()
        for at, unit in enumerate(self.sent[: count + 1]):
            greeting = b"" if unit.connection in greeted else GREETING
            due = output_unit(greeting + unit.answer, unit.connection)
            expect_bytes(f"output unit {at}", due[: len(rest)], rest[: len(due)])
            rest = rest[len(due) :]
            greeted.add(unit.connection)
        expect("output that answers no unit", "", rest.hex())
        return list(itertools.accumulate((unit.commits for unit in self.sent), initial=0))[count:]


def after_reply(run, count):
    """Kills it once the reply to this unit was read."""
    run.exchange(count)
    run.kill()


def after_unit(run, count):
    """Kills it once this unit was sent, with the replies to those before it read."""
    run.exchange(count - 1)
    run.send()
    run.kill()


def after_units(run, count):
    """Kills it once so many units were sent, with the reply to the first of them read."""
    run.exchange(1)
    for _ in range(count - 1):
        run.send()
    run.kill()


def inside_unit(run, place):
    """Kills it once so many bytes of this unit were sent, or all but so many below 0."""
    count, size = place
    run.exchange(count - 1)
    run.send_part(size)
    run.kill()


def while_opening(run, most):
    """Kills it up to so many milliseconds after its directory was there, with a unit sent."""
    run.send()
    while not run.directory.exists():
        time.sleep(0.0002)
    kill_within(run, most)


def while_streaming(run, most):
    """Kills it up to so many milliseconds after the first reply, with units streaming."""
    run.sender.start()
    run.await_replies(1)
    kill_within(run, most)


def while_starting(run, most):
    """Kills it up to so many milliseconds after its start, with units streaming."""
    run.sender.start()
    kill_within(run, most)


def kill_within(run, most):
    """Kills it up to so many milliseconds from now on."""
    time.sleep(DELAYS.uniform(0, most) / 1000)
    run.kill()


ROUNDS = (
    *(
        (one_row, one_request, kills)
        for kills in (
            [(after_reply, 0)],
            [(after_reply, 1)],
            [(after_reply, 2)],
            [(after_reply, 150)],
            [(after_unit, 1)],
            [(after_unit, 2)],
            [(after_unit, 30)],
            [(after_units, 40)],
            [(inside_unit, (1, 4))],
            [(inside_unit, (2, 9))],
            [(inside_unit, (3, 22))],
            [(inside_unit, (20, 29))],
            [(while_opening, 1)],
            [(while_opening, 4)],
            [(while_streaming, 2)],
            [(while_streaming, 40)],
            # Three kills in a row: each run goes on at the commit behind those that were found.
            [(after_reply, 3), (after_unit, 2), (inside_unit, (2, 15))],
            [(while_opening, 2), (inside_unit, (4, 12)), (after_units, 8)],
            [(after_unit, 2), (after_unit, 3), (after_unit, 4)],
            [(while_streaming, 20), (while_starting, 60), (while_streaming, 20)],
        )
    ),
    *(
        (one_row, requests, kills)
        for requests in (many_on_one, many_on_two, many_on_three)
        for kills in (
            [(after_reply, 1)],
            [(after_reply, 20)],
            [(after_unit, 2)],
            [(after_units, 12)],
            [(inside_unit, (3, -1))],
            [(while_streaming, 3)],
            [(while_streaming, 30)],
            [(after_unit, 3), (while_starting, 40), (inside_unit, (2, 40))],
        )
    ),
    # The first unit is never committed, and the one before the third commit is rolled back.
    *(
        (many_rows, one_unit, kills)
        for kills in (
            [(after_reply, 1)],
            [(after_reply, 2)],
            [(after_reply, 60)],
            [(after_unit, 2)],
            [(after_unit, 3)],
            [(after_unit, 20)],
            [(after_units, 30)],
            # Behind the BEGIN, inside of the rows, and before the last byte of the COMMIT.
            [(inside_unit, (2, 21))],
            [(inside_unit, (3, 200))],
            [(inside_unit, (5, -1))],
            [(while_opening, 4)],
            [(while_streaming, 2)],
            [(while_streaming, 20)],
            [(after_reply, 4), (after_unit, 3), (inside_unit, (3, -1))],
            [(while_streaming, 10), (while_starting, 40), (while_streaming, 10)],
        )
    ),
    # Unit 67 is the first COMMIT.
    *(
        (many_rows, many_units, kills)
        for kills in (
            [(after_reply, 66)],
            [(after_reply, 67)],
            [(after_unit, 67)],
            [(after_units, 67)],
            [(after_units, 260)],
            [(inside_unit, (67, -1))],
            [(while_streaming, 5)],
            [(while_streaming, 30)],
            [(after_units, 120), (after_unit, 90), (after_units, 150)],
            [(while_streaming, 20), (while_starting, 60), (while_streaming, 20)],
        )
    ),
    # Units 81 and 82 are the first two COMMITs.
    *(
        (many_rows, two_streams, kills)
        for kills in (
            [(after_reply, 80)],
            [(after_reply, 81)],
            [(after_unit, 81)],
            [(after_unit, 82)],
            [(after_units, 260)],
            [(inside_unit, (82, -1))],
            [(while_streaming, 5)],
            [(while_streaming, 30)],
            [(after_units, 120), (after_unit, 90), (after_units, 150)],
            [(while_streaming, 20), (while_starting, 60), (while_streaming, 20)],
        )
    ),
)


def tuples_found(folder):
    """The reply, with sync 1, to a SELECT of all tuples in a further run."""
    ended = subprocess.run(
        [PROGRAM, *TRACE],
        input=input_unit(request("SELECT", 1, space=512, key=[])),
        capture_output=True,
        env=environment(SEED),
        cwd=folder,
    )
    expect("status of the further run", 0, ended.returncode)
    expect("standard error of the further run", b"", ended.stderr)
    held = contents(ended.stdout)
    expect("bytes behind its output units", len(b"".join(map(output_unit, held))), len(ended.stdout))
    expect("number of its output units", 1, len(held))
    expect("greeting of the further run", GREETING, held[0][:GREETING_BYTES])
    return held[0][GREETING_BYTES:]


def commits_found(folder, rows, counts):
    """How many commits a further run finds, one of these counts. It has to find their tuples, and nothing else."""
    reply, commits, tuples = tuples_found(folder), 0, []
    found = read_reply(reply).body.get(DATA, [])
    while len(tuples) < len(found):
        commits += 1
        tuples += rows(commits)
    for place, (due, seen) in enumerate(zip(tuples, found)):
        expect(f"tuple {place} that is found", due, seen)
    expect("number of tuples that are found", len(tuples), len(found))
    expect_bytes("reply with all tuples", tuples_reply(1, *tuples), reply)
    assert commits in counts, f"commits found: expected one of {counts}, saw {commits}"
    return commits


def check_round(rows, requests, kills):
    """Kills runs on one folder, and checks behind each of them what a further run finds."""
    folder, there = Path(tempfile.mkdtemp(dir=SCRATCH)), 0
    for kill, point in kills:
        with Run(folder, requests(there + 1)) as run:
            kill(run, point)
            counts = [there + count for count in run.commits()]
        there = commits_found(folder, rows, counts)


def name_of(requests, kills):
    """The names of a round's requests and kill points."""
    points = ", ".join(f"{kill.__name__.replace('_', ' ')} {point}" for kill, point in kills)
    return f"{requests.__name__.replace('_', ' ')}: {points}"


def main():
    rounds = [(name_of(requests, kills), check_round, rows, requests, kills) for rows, requests, kills in ROUNDS]
    return run_checks("kill_program", rounds, SECONDS, SCRATCH)


if __name__ == "__main__":
    sys.exit(main())
