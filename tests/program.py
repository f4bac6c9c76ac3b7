"""How tests, measurements and tools start the built program, and how tests check it."""

import os
import shutil
import signal
import socket
import subprocess
import sys
from collections import deque
from pathlib import Path

from iproto import (
    GREETING_BYTES,
    SEED,
    close_unit,
    greeting,
    input_unit,
    output_unit,
    output_units,
    pack,
    packet,
    request_parts,
)

ROOT = Path(__file__).resolve().parent.parent
PROGRAM = str(ROOT / "vurandy")
EXAMPLE = ROOT / "examples" / "first-connection"
TRACE = ["trace", "DIR"]
# What a connection is sent first in a run with this seed on a new directory.
GREETING = greeting(SEED)
# The program that asks the plain slow one.
HISTORIES = ROOT / "crates" / "mx_histories"
# How long a client waits for bytes over TCP, and for the end of a run that listens.
SECONDS_TO_WAIT = 5


def is_built():
    """Whether the program is built. It is built first where it is older than its sources."""
    return subprocess.run([PROGRAM, "--version"], stdout=subprocess.DEVNULL).returncode == 0


def environment(seed):
    """The caller's variables, with this seed or with none."""
    variables = {name: text for name, text in os.environ.items() if name != "VURANDY_SEED"}
    if seed is not None:
        variables["VURANDY_SEED"] = seed
    return variables


def build_histories():
    """Builds `mx_histories`, whose proof comes first."""
    built = subprocess.run(["rt", "run"], cwd=HISTORIES, stdin=subprocess.DEVNULL, capture_output=True)
    if built.returncode != 0:
        sys.exit(built.stdout.decode(errors="replace") + built.stderr.decode(errors="replace"))


def output_of(folder, units, status=0, said=""):
    """What a run in a folder's directory writes for these units. It has to end with this status, and with this line."""
    ended = subprocess.run(
        [PROGRAM, *TRACE], input=b"".join(units), capture_output=True, cwd=folder, env=environment(SEED)
    )
    expect("standard error", said, ended.stderr.decode(errors="replace").strip())
    expect("status", status, ended.returncode)
    return ended.stdout


def sent(output):
    """What an output has for each input unit: a connection, its content, and an empty one where the server ends it."""
    units, found = output_units(output), []
    expect("bytes behind the output units", 0, len(output) - sum(len(output_unit(content)) for _, content in units))
    for connection, content in units:
        if content or not found:
            found.append((connection, [content]))
        else:
            found[-1][1].append(content)
    return found


def answers(folder, asked):
    """What a run in a folder's directory answers to each of these, which come in a unit each.

    What is asked is a connection with a packet, or with None for its close. An answer is the contents of output units,
    without the greeting: none to a close and behind the end of a connection, and else one, with an empty one behind it
    where the server ends the connection.
    """
    units = [close_unit(connection) if one is None else input_unit(one, connection) for connection, one in asked]
    waiting, is_ended, answered = deque(sent(output_of(folder, units))), {}, []
    for connection, one in asked:
        contents = []
        if one is None:
            is_ended.pop(connection, None)
        elif not is_ended.get(connection):
            answering, contents = waiting.popleft() if waiting else (connection, [])
            expect(f"connection of answer {len(answered) + 1}", connection, answering)
            if contents and connection not in is_ended:
                expect(f"greeting of connection {connection}", GREETING, contents[0][:GREETING_BYTES])
                contents[0] = contents[0][GREETING_BYTES:]
            is_ended[connection] = len(contents) > 1
        answered.append(contents)
    expect("output units behind the last answer", 0, len(waiting))
    return answered


def spelled_twice(connection, name, stream=None, **fields):
    """A request as the line that asks `mx_histories` for it, and as the packet that asks the program."""
    header, body = request_parts(name, stream=stream, **fields)
    line = f"ask {connection} {pack(header).hex()} {'' if body is None else pack(body).hex()}"
    return line, packet(header, body)


def history_answers(lines):
    """What `mx_histories` answers to each of these lines."""
    lines = list(lines)
    ended = subprocess.run(
        [HISTORIES / "out" / "mx_histories"], input="\n".join(lines).encode(), stdout=subprocess.PIPE
    )
    expect("status of mx_histories", 0, ended.returncode)
    answered = ended.stdout.decode().splitlines()
    expect("number of answers", len(lines), len(answered))
    return answered


class Listening:
    """A run that listens on a directory of its own."""

    def __init__(self, folder):
        self.process = subprocess.Popen(
            [sys.executable, ROOT / "tools" / "listen.py", folder, "--port", "0"],
            stdout=subprocess.PIPE,
            stderr=subprocess.PIPE,
            env=environment(SEED),
        )

    def __enter__(self):
        try:
            line = self.process.stdout.readline()
            assert line, "the run ends before it listens"
            self.port = int(line)
        except BaseException:
            self.__exit__()
            raise
        return self

    def __exit__(self, *_):
        self.process.kill()
        self.process.communicate()

    def connect(self):
        """A new connection, behind its greeting."""
        client = socket.create_connection(("127.0.0.1", self.port), timeout=SECONDS_TO_WAIT)
        received = receive(client, GREETING_BYTES)
        assert received == GREETING, f"the greeting is {received!r}"
        return client

    def end(self, number):
        """Sends a signal. Returns the exit status and what was written on standard error."""
        self.process.send_signal(number)
        _, said = self.process.communicate(timeout=SECONDS_TO_WAIT)
        return self.process.returncode, said.decode()


def receive(client, size):
    """So many bytes, or fewer where the connection ends."""
    received = b""
    while len(received) < size and (part := client.recv(size - len(received))):
        received += part
    return received


def exchange(client, asked, expected):
    """Sends a request, and checks the reply."""
    client.sendall(asked)
    answer = receive(client, len(expected))
    assert answer == expected, f"expected {expected.hex()}, received {answer.hex()}"


class OutOfTime(Exception):
    """The checks took more than their seconds."""


def expect(what, expected, seen):
    """Checks that this is what was seen."""
    assert seen == expected, f"{what}: expected {expected}, saw {seen}"


def passes(name, check, *given):
    """Makes one check, and prints how it failed if it did."""
    try:
        check(*given)
    except (AssertionError, OSError) as error:
        print(f"FAILED  {name}: {error}", flush=True)
        return False
    return True


def out_of_time(*_):
    raise OutOfTime


def run_checks(script, checks, seconds, scratch=None):
    """Makes these checks of the built program, as `all_pass` does. Returns the script's exit status."""
    # The build is proved first, and may take far longer than the checks.
    if not is_built():
        print("FAILED  the program is not built")
        return 1
    return 0 if all_pass(script, checks, seconds, scratch) else 1


def all_pass(script, checks, seconds, scratch=None):
    """Makes the checks, each a name, a function and what it is given, and prints how many passed.

    They have so many seconds. The folder `scratch`, where there is one, is removed at the end.
    """
    signal.signal(signal.SIGALRM, out_of_time)
    signal.alarm(seconds)
    try:
        results = [passes(*check) for check in checks]
    except OutOfTime:
        print(f"FAILED  all checks: expected to end within {seconds} seconds, saw that they didn't")
        return False
    finally:
        if scratch:
            shutil.rmtree(scratch)
    failed = f", {results.count(False)} failed" if not all(results) else ""
    print(f"{script}: {results.count(True)} passed{failed}")
    return all(results)
