#!/usr/bin/env python3
"""Listens on 127.0.0.1 and hands connections to `./vurandy trace`, until the server itself listens.

    tools/listen.py DIR [--port PORT]

Each TCP connection is a connection of one run on the directory DIR. Since `trace` opens a connection at
its first byte, a PING is sent first, and its reply dropped: so the greeting comes at once. The port is
printed on standard output, once clients can connect; port 0 picks a free one. SIGINT and SIGTERM end
the run in order: what came is answered, and the journal gets its end marker.

At most 1,023 connections are open at once. No part of this is proved.
"""

import argparse
import asyncio
import contextlib
import signal
import sys
from collections import deque
from pathlib import Path

ROOT = Path(__file__).resolve().parent.parent
sys.path.append(str(ROOT / "tests"))

from iproto import GREETING_BYTES, close_unit, input_unit, request  # noqa: E402

PIECE = 65_536
# A connection of our own: once a PING on it is answered, so is all that came before it.
MARKER = 1023
# How much may wait for a client that doesn't read, and how long one may take to close its side.
MAX_WAITING = 64 << 20
SECONDS_TO_CLOSE = 5


class Listener:
    """The run, and the clients by the number of their connection."""

    def __init__(self, process):
        self.process = process
        self.turn = asyncio.Lock()
        self.clients = {}
        self.free = deque(range(MARKER))
        # The connections whose close was sent, in order, each until the marker behind it is answered.
        self.leaving = deque()
        self.greeting = set()

    async def send(self, units):
        """Writes units to the run. They are lost where it ends."""
        with contextlib.suppress(ConnectionError):
            async with self.turn:
                if not self.process.stdin.is_closing():
                    self.process.stdin.write(units)
                    await self.process.stdin.drain()

    async def serve(self, reader, writer):
        """Hands on what a client sends, from its connect to its close."""
        if not self.free:
            writer.close()
            return
        number = self.free.popleft()
        self.clients[number] = writer
        self.greeting.add(number)
        await self.send(input_unit(request("PING", 0), number))
        with contextlib.suppress(ConnectionError):
            while piece := await reader.read(PIECE):
                await self.send(input_unit(piece, number))
        self.leaving.append(number)
        await self.send(close_unit(number) + input_unit(request("PING", 0), MARKER))

    def forget(self):
        """Closes the first of the connections that leave, and frees its number."""
        number = self.leaving.popleft()
        self.clients.pop(number).close()
        self.free.append(number)

    async def next_unit(self):
        """The next output unit, or None where the run has ended."""
        try:
            head = await self.process.stdout.readexactly(8)
            content = await self.process.stdout.readexactly(int.from_bytes(head[4:], "big"))
            return int.from_bytes(head[:4], "big"), content
        except asyncio.IncompleteReadError:
            return None

    async def deliver(self):
        """Hands each output unit to its client, until the run ends, and then closes what is open."""
        while unit := await self.next_unit():
            self.hand_on(*unit)
        for writer in self.clients.values():
            writer.close()
        closed = [asyncio.ensure_future(writer.wait_closed()) for writer in self.clients.values()]
        if closed:
            await asyncio.wait(closed, timeout=SECONDS_TO_CLOSE)

    def hand_on(self, number, content):
        """Hands an output unit to its client."""
        if number == MARKER:
            self.forget()
            return
        writer = self.clients[number]
        if not content:
            writer.write_eof()
            asyncio.get_running_loop().call_later(SECONDS_TO_CLOSE, writer.close)
            return
        if number in self.greeting:
            self.greeting.remove(number)
            content = content[:GREETING_BYTES]
        if not writer.is_closing():
            writer.write(content)
        if writer.transport.get_write_buffer_size() > MAX_WAITING:
            writer.transport.abort()


async def listen(directory, port):
    """Listens until a signal comes or the run ends. Returns the run's exit status."""
    process = await asyncio.create_subprocess_exec(
        ROOT / "vurandy",
        "trace",
        directory,
        stdin=asyncio.subprocess.PIPE,
        stdout=asyncio.subprocess.PIPE,
        start_new_session=True,
    )
    for number in (signal.SIGINT, signal.SIGTERM):
        asyncio.get_running_loop().add_signal_handler(number, process.stdin.close)
    listener = Listener(process)
    await listener.send(input_unit(request("PING", 0), MARKER))
    # The directory is open once this is answered.
    if await listener.next_unit() is None:
        return await process.wait()
    server = await asyncio.start_server(listener.serve, "127.0.0.1", port)
    print(server.sockets[0].getsockname()[1], flush=True)
    print("listen.py: a stand-in in Python until the server itself listens", file=sys.stderr, flush=True)
    await listener.deliver()
    server.close()
    return await process.wait()


def main():
    parser = argparse.ArgumentParser(description=__doc__.split("\n\n", maxsplit=1)[0])
    parser.add_argument("directory", metavar="DIR", help="the directory of the database")
    parser.add_argument("--port", type=int, default=3301, help="the port, 3301 where none is given; 0 picks one")
    options = parser.parse_args()
    return asyncio.run(listen(options.directory, options.port))


if __name__ == "__main__":
    sys.exit(main())
