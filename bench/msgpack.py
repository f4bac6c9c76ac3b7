#!/usr/bin/env python3
"""Counts the instructions of stepping over MessagePack values, beside the same work in plain Rust.

`mx_measure` steps over the values in its input by `skip` as often as its argument says, and so does
`plain_skip.rs`. What a run takes that steps over them once, less one that doesn't, is divided by
the number of values, or of mebibytes. Both are counted by valgrind's callgrind.
"""

import subprocess
import tempfile
from pathlib import Path

from measured import PROGRAM, build, instructions

from iproto import Wide, pack  # found by `measured`

MAPS = 100_000
MEBIBYTES = 2


def small_map(at):
    """A map of three pairs: a number, a text and an array."""
    return pack({0: Wide(at % 65536, 2), 1: "abc", 2: [1, -1, True]})


INPUTS = {
    "small maps": (b"".join(map(small_map, range(MAPS))), MAPS, "value"),
    "one large Bin": (pack(bytes(MEBIBYTES << 20)), MEBIBYTES, "MiB"),
}


def built(folder):
    """The two programs."""
    build()
    plain = Path(folder) / "plain_skip"
    subprocess.run(["rustc", "-O", "-o", plain, Path(__file__).parent / "plain_skip.rs"], check=True)
    return {"skip": PROGRAM, "plain Rust": plain}


def main():
    with tempfile.TemporaryDirectory() as folder:
        programs = built(folder)
        for name, (given, parts, part) in INPUTS.items():
            costs = {}
            for by, program in programs.items():
                taken = instructions(given, 1, program=program) - instructions(given, 0, program=program)
                costs[by] = taken / parts
                print(f"{name}, {by}: {costs[by]:,.1f} instructions a {part}", flush=True)
            print(f"  ratio: {costs['skip'] / costs['plain Rust']:.2f}")


if __name__ == "__main__":
    main()
