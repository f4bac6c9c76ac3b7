#!/usr/bin/env python3
"""Talks with `mx_sockets`, an echo server over the sockets and threads of `mx_real`, and prints how many checks passed.

It ends with status 0 only where all checks pass, and within a minute. The program is built first, whose proof comes
before.
"""

import os
import resource
import socket
import statistics
import struct
import subprocess
import sys
import threading
import time

from program import ROOT, SECONDS_TO_WAIT, all_pass, expect, receive

SECONDS_IN_ALL = 55
# How long the program is watched while nothing comes, and how long until it has nothing left to do.
SECONDS_IDLE, SECONDS_TO_SETTLE = 4, 0.2
SOCKETS = ROOT / "crates" / "mx_sockets"
PROGRAM = SOCKETS / "out" / "mx_sockets"
# What it ends with where the arguments are no port, and where the port can't be listened on.
USAGE, NOT_LISTENING = 2, 8
# A wait that nothing ends takes 10 milliseconds, and what comes in it waits for half of that. What ends a wait has to end
# it in much less.
AT_ONCE = 0.002
CONNECTIONS = 1000
FEW_DESCRIPTORS = 40
# Without a message, the close of a socket with this option resets the connection.
RESET = struct.pack("ii", 1, 0)


class Sockets:
    """A run of the program on a port of its own, with at most so many descriptors."""

    def __init__(self, descriptors=None):
        most = descriptors or resource.getrlimit(resource.RLIMIT_NOFILE)[1]

        def limit():
            resource.setrlimit(resource.RLIMIT_NOFILE, (most, most))

        self.opened = 0
        self.process = subprocess.Popen(
            [PROGRAM, "0"], stdout=subprocess.PIPE, stderr=subprocess.PIPE, preexec_fn=limit
        )

    def __enter__(self):
        try:
            line = self.process.stdout.readline()
            assert line, "the program ends before it listens"
            self.port = int(line)
            self.ended, self.has_more = 0, threading.Condition()
            self.reader = threading.Thread(target=self.count_ended, daemon=True)
            self.reader.start()
        except BaseException:
            self.__exit__()
            raise
        return self

    def __exit__(self, *_):
        self.process.kill()
        self.process.wait()

    def count_ended(self):
        for line in self.process.stdout:
            with self.has_more:
                self.ended = int(line)
                self.has_more.notify_all()

    def connect(self):
        client = socket.create_connection(("127.0.0.1", self.port), timeout=SECONDS_TO_WAIT)
        client.setsockopt(socket.IPPROTO_TCP, socket.TCP_NODELAY, 1)
        self.opened += 1
        return client

    def wait_for_end(self):
        """Waits until all connections that were opened have ended in the program."""
        with self.has_more:
            if not self.has_more.wait_for(lambda: self.ended == self.opened, SECONDS_TO_WAIT):
                raise AssertionError(f"of {self.opened} connections {self.ended} have ended")

    def descriptors(self):
        return len(os.listdir(f"/proc/{self.process.pid}/fd"))

    def processor_seconds(self):
        fields = open(f"/proc/{self.process.pid}/stat").read().rpartition(")")[2].split()
        return (int(fields[11]) + int(fields[12])) / os.sysconf("SC_CLK_TCK")


def echo(client, sent):
    client.sendall(sent)
    expect("bytes that come back", sent, receive(client, len(sent)))


def numbered(size):
    """So many bytes, of which each eight are their own place."""
    return b"".join(at.to_bytes(8, "big") for at in range(0, size, 8))


def bytes_come_in_halves(run):
    with run.connect() as client, run.connect() as other:
        sent = numbered(4096)
        client.sendall(sent[:1000])
        expect("the first half", sent[:1000], receive(client, 1000))
        echo(other, b"between")
        for byte in sent[1000:1100]:
            client.sendall(bytes([byte]))
        client.sendall(sent[1100:])
        expect("the second half", sent[1000:], receive(client, len(sent) - 1000))


def end_of_input_comes_behind_all_bytes(run):
    with run.connect() as client:
        sent = numbered(100_000)
        client.sendall(sent)
        client.shutdown(socket.SHUT_WR)
        expect("all that comes back is what was sent", True, sent == receive(client, len(sent) + 1))


def full_send_buffer_loses_nothing(run):
    sent = numbered(32 * 1024 * 1024)
    with run.connect() as client:
        sender = threading.Thread(target=client.sendall, args=(sent,), daemon=True)
        sender.start()
        sender.join(0.5)
        expect("the sender waits for a reader", True, sender.is_alive())
        with run.connect() as other:
            echo(other, b"others go on")
        expect("all bytes come back in order", True, sent == receive(client, len(sent)))
        sender.join()


def peers_that_reset_harm_nobody(run):
    with run.connect() as other:
        for sent in (b"", b"x", numbered(1_000_000)):
            for _ in range(10):
                client = run.connect()
                client.setblocking(False)
                client.setsockopt(socket.SOL_SOCKET, socket.SO_LINGER, RESET)
                if sent:
                    client.send(sent)
                client.close()
            echo(other, b"still there")
        # A write to a peer that is gone raises no signal.
        expect("the program ended", None, run.process.poll())
    run.wait_for_end()


def time_waits(run):
    """The seconds of turns of a connection, of new connections' first turns, and of ends until they are told."""
    turns, openings, closings = [], [], []
    with run.connect() as client:
        for _ in range(101):
            began = time.monotonic()
            echo(client, b"turn")
            turns.append(time.monotonic() - began)
        # The worker rests with the first connection, and is woken for each new one.
        for _ in range(51):
            began = time.monotonic()
            with run.connect() as other:
                echo(other, b"new")
                openings.append(time.monotonic() - began)
                began = time.monotonic()
            with run.has_more:
                run.has_more.wait_for(lambda: run.ended == run.opened - 1, SECONDS_TO_WAIT)
            closings.append(time.monotonic() - began)
    run.wait_for_end()
    return {"a turn": turns, "an opening": openings, "a closing that is told": closings}


def waits_end_at_once(run):
    # A machine with other work may be slow for a while.
    for _ in range(3):
        middles = {what: statistics.median(seconds) for what, seconds in time_waits(run).items()}
        if max(middles.values()) < AT_ONCE:
            return
    for what, middle in middles.items():
        expect(f"{what} takes {middle * 1000:.2f} ms, less than {AT_ONCE * 1000:.0f}", True, middle < AT_ONCE)


def thousand_connections_are_served(run):
    clients = [run.connect() for _ in range(CONNECTIONS)]
    for number, client in enumerate(clients):
        client.sendall(number.to_bytes(4, "big"))
    for number, client in enumerate(clients):
        expect("number of a connection", number.to_bytes(4, "big"), receive(client, 4))
    expect("a descriptor for each", True, CONNECTIONS < run.descriptors())
    for client in clients:
        client.close()
    run.wait_for_end()


def no_descriptor_is_left(run, before):
    run.wait_for_end()
    # A connection counts as ended just before its descriptor is closed.
    end = time.monotonic() + SECONDS_TO_WAIT
    while run.descriptors() != before and time.monotonic() < end:
        time.sleep(0.01)
    expect("descriptors", before, run.descriptors())


def idle_connections_cost_nothing(run):
    clients = [run.connect() for _ in range(100)]
    for client in clients:
        echo(client, b"hello")
    # Others on the machine can only make a wait dearer, so the cheapest of three counts.
    used = min(processor_share(run) for _ in range(3))
    for client in clients:
        client.close()
    run.wait_for_end()
    expect(f"{used:.4f} of a processor is less than 1 in a hundred", True, used < 0.01)


def processor_share(run):
    """What part of a processor the program takes in some seconds."""
    before = run.processor_seconds()
    time.sleep(SECONDS_IDLE)
    return (run.processor_seconds() - before) / SECONDS_IDLE


def port_in_use_is_told(run):
    other = subprocess.run([PROGRAM, str(run.port)], capture_output=True, timeout=SECONDS_TO_WAIT)
    said = (
        f"127.0.0.1:{run.port} can't be listened on, since another program does: end it first, or choose another port"
    )
    expect("standard error", said, other.stderr.decode().strip())
    expect("status", NOT_LISTENING, other.returncode)


def connections_wait_for_descriptors():
    """More peers connect than there are descriptors. They are served when others leave."""
    with Sockets(descriptors=FEW_DESCRIPTORS) as run:
        clients = [run.connect() for _ in range(2 * FEW_DESCRIPTORS)]
        for client in clients:
            client.sendall(b"mine")
        for client in clients:
            expect("bytes that come back", b"mine", receive(client, 4))
            client.close()
        run.wait_for_end()
        expect("the program ended", None, run.process.poll())


def usage_is_printed():
    ended = subprocess.run([PROGRAM], capture_output=True, timeout=SECONDS_TO_WAIT)
    expect("status and standard error", (USAGE, b"usage: mx_sockets PORT, or mx_sockets memory\n"), (ended.returncode, ended.stderr))


def build():
    """Builds the program, whose proof comes first. A run without a port prints its usage."""
    built = subprocess.run(["rt", "run"], cwd=SOCKETS, stdin=subprocess.DEVNULL, capture_output=True)
    if b"usage: mx_sockets" not in built.stdout + built.stderr:
        sys.exit(built.stdout.decode(errors="replace") + built.stderr.decode(errors="replace"))


def main():
    build()
    most = resource.getrlimit(resource.RLIMIT_NOFILE)[1]
    resource.setrlimit(resource.RLIMIT_NOFILE, (most, most))
    with Sockets() as run:
        # The worker's first rest, with a link that isn't ready, opens what its links wait in.
        with run.connect() as client:
            time.sleep(SECONDS_TO_SETTLE)
            echo(client, b"first")
        run.wait_for_end()
        time.sleep(SECONDS_TO_SETTLE)
        before = run.descriptors()
        checks = [
            ("bytes in halves", bytes_come_in_halves, run),
            ("end of input", end_of_input_comes_behind_all_bytes, run),
            ("full send buffer", full_send_buffer_loses_nothing, run),
            ("resets", peers_that_reset_harm_nobody, run),
            ("waits", waits_end_at_once, run),
            ("1,000 connections", thousand_connections_are_served, run),
            ("idle connections", idle_connections_cost_nothing, run),
            ("descriptors", no_descriptor_is_left, run, before),
            ("port in use", port_in_use_is_told, run),
            ("few descriptors", connections_wait_for_descriptors),
            ("usage", usage_is_printed),
        ]
        passed = all_pass("links_program", checks, SECONDS_IN_ALL)
    return 0 if passed else 1


if __name__ == "__main__":
    sys.exit(main())
