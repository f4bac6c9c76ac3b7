#!/usr/bin/env python3
"""Times 1,000,000 REPLACEs and then 1,000,000 SELECTs through a pipe, in wall and processor time.

The program reads units of 2,000 requests from a pipe, and its replies are read from another one; each
REPLACE is durable before it is answered, and the directory stands in a file system in memory where
there is one. A line is the fastest of three runs, less the fastest that only sets the keys.

Beside it the same is asked of `tarantool` and of `redis-server`, where these are on the path, over a
socket in pipelines of 2,000: of the one with the same packets, of the other with a SET and a GET in the
place of a REPLACE and a SELECT. Their logs are synced once for many commits, and their seconds have the
client's in them, which is this script: so it is their processor time that tells something.
"""

import argparse
import contextlib
import os
import shutil
import socket
import subprocess
import sys
import threading
import time
from itertools import islice
from pathlib import Path

from requests import BATCH, KEYS, PROGRAM, STEP, answers, batches, is_built, new_folder, replace, select, setting

sys.path.append(str(Path(__file__).resolve().parent.parent / "tests"))

from iproto import GREETING_BYTES, SEED, input_unit, read_reply  # noqa: E402
from program import environment  # noqa: E402

COUNT = 1_000_000
ROUNDS = 3
# Where a peer listens, in its folder.
SOCKET = "socket"
TARANTOOL = """
box.cfg{wal_mode = 'fsync', log_level = 1}
box.schema.space.create('test', {id = 512}):create_index('primary', {parts = {1, 'unsigned'}})
box.schema.user.grant('guest', 'read,write', 'universe')
box.cfg{listen = 'unix/:socket'}
"""


def processor_time(process):
    """The seconds of processor time of a process so far."""
    fields = Path(f"/proc/{process}/stat").read_text().rpartition(")")[2].split()
    return (int(fields[11]) + int(fields[12])) / os.sysconf("SC_CLK_TCK")


def show(name, count, wall, processor, durable):
    print(f"  {name}: {wall:,.2f} s, {count / wall:,.0f} a second; {processor:,.2f} s of processor time, {durable}", flush=True)


def fed(process, given):
    """Writes the input, closes it, and gives the whole output."""
    writer = threading.Thread(target=lambda: (process.stdin.write(given), process.stdin.close()))
    writer.start()
    output = process.stdout.read()
    writer.join()
    return output


def timed(given):
    """Runs the program on this input in a new folder: its seconds, and its output."""
    with new_folder() as folder:
        clock = time.monotonic()
        process = subprocess.Popen(
            [PROGRAM, "trace", "DIR"],
            stdin=subprocess.PIPE,
            stdout=subprocess.PIPE,
            cwd=folder,
            env=environment(SEED),
        )
        output = fed(process, given)
        _, status, used = os.wait4(process.pid, 0)
        process.returncode = os.waitstatus_to_exitcode(status)
        if process.returncode != 0:
            sys.exit(f"the run ended with status {process.returncode}")
        return (time.monotonic() - clock, used.ru_utime + used.ru_stime), output


def time_program(kind, asked, count):
    """Runs the program on keys that are set, and on these requests after them."""
    given = setting() + b"".join(map(input_unit, batches(asked, BATCH)))
    seconds, output = timed(given)
    if answers(output) != KEYS + count:
        sys.exit(f"only {answers(output):,} of {KEYS + count:,} requests have a reply that is no refusal")
    wall, used = min(seconds, *(timed(given)[0] for _ in range(ROUNDS - 1)))
    few_wall, few_used = min(timed(setting())[0] for _ in range(ROUNDS))
    show(f"vurandy {kind}", count, wall - few_wall, used - few_used, "each commit synced before its reply")


def command(*words):
    """A command in the protocol of redis."""
    return b"".join([b"*%d\r\n" % len(words), *(b"$%d\r\n%s\r\n" % (len(word), word) for word in words)])


def ask(client, asked, lines):
    """Sends commands in pipelines, and reads as many lines for each as it has of replies."""
    reader = client.makefile("rb")
    for batch in asked:
        client.sendall(batch)
        for line in islice(reader, BATCH * lines):
            if line.startswith(b"-"):
                sys.exit(f"redis-server answers {line!r}")


@contextlib.contextmanager
def peer(folder, *words):
    """A server that listens on a socket in this folder, and a connection to it."""
    process = subprocess.Popen(words, cwd=folder, stdout=subprocess.DEVNULL, stderr=subprocess.DEVNULL)
    try:
        client = socket.socket(socket.AF_UNIX)
        for _ in range(100):
            if not client.connect_ex(str(Path(folder) / SOCKET)):
                break
            time.sleep(0.05)
        else:
            sys.exit(f"{words[0]} doesn't listen")
        yield process, client
    finally:
        process.terminate()
        process.wait()


def time_peer(name, process, count, kinds):
    """Times what each kind's function asks."""
    for kind, ask in kinds:
        clock, used = time.monotonic(), processor_time(process.pid)
        ask()
        show(f"{name} {kind}", count, time.monotonic() - clock, processor_time(process.pid) - used, "the log synced for many")


def time_redis(server, count):
    """Asks a redis-server."""
    keys = [b"%d" % (at * STEP % KEYS) for at in range(count)]
    sets = batches((command(b"SET", key, b"%d" % at) for at, key in enumerate(keys)), BATCH)
    gets = batches((command(b"GET", key) for key in keys), BATCH)
    options = ("--port", "0", "--unixsocket", SOCKET, "--appendonly", "yes", "--appendfsync", "always", "--save", "")
    with new_folder() as folder, peer(folder, server, *options) as (process, client):
        # A GET is answered a line with the value's length, and the value.
        time_peer("redis", process, count, (("SET", lambda: ask(client, sets, 1)), ("GET", lambda: ask(client, gets, 2))))


def ask_packets(reader, client, asked):
    """Sends packets in pipelines, and reads a reply for each."""
    for batch in asked:
        client.sendall(batch)
        for _ in range(BATCH):
            # A reply's size is spelled in four bytes behind its leading one.
            size = reader.read(5)
            answered = read_reply(size + reader.read(int.from_bytes(size[1:], "big")))
            if answered.error is not None:
                sys.exit(f"tarantool answers {answered}")


def time_tarantool(server, count):
    """Asks a tarantool, of a space like the program's."""
    replaces = batches((replace(at, at * STEP % KEYS, at) for at in range(count)), BATCH)
    selects = batches((select(at, at * STEP % KEYS) for at in range(count)), BATCH)
    with new_folder() as folder:
        (Path(folder) / "init.lua").write_text(TARANTOOL)
        with peer(folder, server, "init.lua") as (process, client):
            reader = client.makefile("rb")
            reader.read(GREETING_BYTES)
            time_peer(
                "tarantool",
                process,
                count,
                (("REPLACE", lambda: ask_packets(reader, client, replaces)), ("SELECT", lambda: ask_packets(reader, client, selects))),
            )


def main():
    parser = argparse.ArgumentParser(description=__doc__.splitlines()[0])
    parser.add_argument("--count", type=int, default=COUNT, help=f"how many requests of each type, a multiple of {BATCH:,}")
    count = parser.parse_args().count
    if count < BATCH or count % BATCH:
        parser.error(f"the count is a multiple of {BATCH:,}")
    if not is_built():
        sys.exit("the program is not built")
    print(f"{count:,} requests over {KEYS:,} keys, {BATCH:,} at once:")
    time_program("REPLACE", [replace(at, at * STEP % KEYS, at) for at in range(count)], count)
    time_program("SELECT", [select(at, at * STEP % KEYS) for at in range(count)], count)
    for name, time_it in (("tarantool", time_tarantool), ("redis-server", time_redis)):
        server = shutil.which(name)
        if server:
            time_it(server, count)
        else:
            print(f"  no {name} is on the path")


if __name__ == "__main__":
    main()
