#!/usr/bin/env python3
"""Talks with the built program over TCP, by tools/listen.py, and prints a line for each check.

Two sockets take turns on one database, and one is closed in the middle of a packet. It ends with status
0 only where all checks pass, and within a minute.
"""

import shutil
import signal
import socket
import subprocess
import sys
import tempfile
from pathlib import Path

from iproto import TYPE, error_reply, ok_reply, packet, request, tuples_reply
from program import Listening, exchange, is_built, receive

SECONDS_IN_ALL = 50
SCRATCH = Path(tempfile.mkdtemp(prefix="vurandy-"))
END = bytes.fromhex("d510aded")
FAULTS = (AssertionError, OSError, ValueError, subprocess.TimeoutExpired)


def replace(sync, tuple_):
    return request("REPLACE", sync, space=512, tuple=tuple_)


def select(sync, key):
    return request("SELECT", sync, space=512, key=key)


def greeting_comes_at_once(run):
    with run.connect() as client:
        exchange(client, request("PING", 1), ok_reply(1))


def sockets_share_the_database(run):
    with run.connect() as one, run.connect() as other:
        exchange(one, replace(1, [1, "a"]), tuples_reply(1, [1, "a"]))
        exchange(other, select(1, [1]), tuples_reply(1, [1, "a"]))
        exchange(other, replace(2, [2, "b"]), tuples_reply(2, [2, "b"]))
        exchange(one, select(2, []), tuples_reply(2, [1, "a"], [2, "b"]))
        exchange(one, request("SELECT", 3, space=513, key=[]), error_reply(3, 36, "Space 513 does not exist"))


def packets_may_come_in_pieces(run):
    with run.connect() as one, run.connect() as other:
        asked = select(1, [1]) + request("PING", 2)
        for at in range(len(asked)):
            one.sendall(asked[at : at + 1])
            if at == 9:
                exchange(other, request("PING", 9), ok_reply(9))
        expected = tuples_reply(1, [1, "a"]) + ok_reply(2)
        assert receive(one, len(expected)) == expected, "a packet in pieces is answered otherwise"


def close_inside_a_packet_harms_nobody(run):
    with run.connect() as other:
        with run.connect() as client:
            client.sendall(request("PING", 1) + replace(2, [3, "c"])[:-1])
        # Its number is free, and nothing of the packet that was cut off is left.
        for _ in range(3):
            with run.connect() as client:
                exchange(client, select(1, [3]), tuples_reply(1))
        exchange(other, select(1, [3]), tuples_reply(1))


def replies_come_to_who_sends_no_more(run):
    with run.connect() as client:
        client.sendall(select(1, [2]))
        client.shutdown(socket.SHUT_WR)
        expected = tuples_reply(1, [2, "b"])
        assert receive(client, len(expected) + 1) == expected, "the last reply is missing"


def packet_that_is_none_ends_its_socket(run):
    with run.connect() as one, run.connect() as other:
        one.sendall(packet({TYPE: 64}, 1) + request("PING", 1))
        expected = error_reply(0, 20, "Packet is not MessagePack")
        assert receive(one, len(expected) + 1) == expected, "more than the refusal came, or less"
        exchange(other, request("PING", 1), ok_reply(1))


CHECKS = (
    greeting_comes_at_once,
    sockets_share_the_database,
    packets_may_come_in_pieces,
    close_inside_a_packet_harms_nobody,
    replies_come_to_who_sends_no_more,
    packet_that_is_none_ends_its_socket,
)


def signals_end_the_run_in_order(folder):
    """Checks that each signal ends the run, the journal too, and that the next run finds the commits."""
    for number in (signal.SIGTERM, signal.SIGINT):
        with Listening(folder) as run, run.connect() as client:
            exchange(client, select(1, [1]), tuples_reply(1, [1, "a"]))
            status, said = run.end(number)
            assert status == 0, f"status {status}, {said!r}"
            assert "until the server itself listens" in said, f"standard error {said!r}"
            assert client.recv(1) == b"", "the connection is left open"
        assert max(folder.glob("*.xlog")).read_bytes().endswith(END), "the journal has no end marker"


def passes(check, given):
    """Makes one check and prints how it ended."""
    name = check.__name__.replace("_", " ")
    try:
        check(given)
    except FAULTS as error:
        print(f"FAILED  {name}: {error}", flush=True)
        return False
    print(f"ok      {name}", flush=True)
    return True


def out_of_time(*_):
    raise TimeoutError(f"the checks took more than {SECONDS_IN_ALL} seconds")


def main():
    if not is_built():
        print("FAILED  the program is not built")
        return 1
    signal.signal(signal.SIGALRM, out_of_time)
    signal.alarm(SECONDS_IN_ALL)
    folder, results = SCRATCH / "DIR", []
    try:
        with Listening(folder) as run:
            results += [passes(check, run) for check in CHECKS]
            run.end(signal.SIGTERM)
        results.append(passes(signals_end_the_run_in_order, folder))
    except FAULTS as error:
        print(f"FAILED  the program listens: {error}")
        results.append(False)
    finally:
        shutil.rmtree(SCRATCH, ignore_errors=True)
    print(f"{results.count(True)} passed, {results.count(False)} failed")
    return 0 if all(results) else 1


if __name__ == "__main__":
    sys.exit(main())
