#!/usr/bin/env python3
"""Writes input.bin and output.bin of examples/first-connection, spelled byte for byte.

The output is the one of the seed 00 01 02 .. 1f. Nothing here asks the program.
"""

from pathlib import Path

FOLDER = Path(__file__).resolve().parent.parent / "examples" / "first-connection"

# One unit: kind 0, connection 1, 42 bytes. Its packets are a REPLACE of [1, 'a'] into space 512 and a
# SELECT of all of that space, with the sync numbers 1 and 2.
INPUT = """
00 00000001 0000002a
ce 0000000f
82 00 03 01 01
82 10 cd0200 21 92 01 a161
ce 00000011
82 00 01 01 02
84 10 cd0200 12 0a 14 00 20 91 01
"""

FIRST_LINE = "Tarantool 2.11.0 (Binary) 00010203-0405-4607-8809-0a0b0c0d0e0f"
# The 32 bytes of the salt in base64.
SECOND_LINE = "AAECAwQFBgcICQoLDA0ODxAREhMUFRYXGBkaGxwdHh8="
GREETING = FIRST_LINE + " " * 1 + "\n" + SECOND_LINE + " " * 19 + "\n"

# One unit: connection 1, 206 bytes. They are the greeting and an answer to each packet.
UNIT_HEAD = "00000001 000000ce"
ANSWER_SIZE = "ce 00000022"
ANSWER_HEADS = [
    "83 00 ce 00000000 01 cf 0000000000000001 05 ce 00000000",
    "83 00 ce 00000000 01 cf 0000000000000002 05 ce 00000000",
]
ANSWER_BODY = "81 30 dd 00000001 92 01 a161"


def output_bytes():
    """The greeting and the two answers, in one unit."""
    parts = [bytes.fromhex(UNIT_HEAD), GREETING.encode("ascii")]
    for head in ANSWER_HEADS:
        parts.append(bytes.fromhex(ANSWER_SIZE + head + ANSWER_BODY))
    return b"".join(parts)


def main():
    FOLDER.mkdir(parents=True, exist_ok=True)
    (FOLDER / "input.bin").write_bytes(bytes.fromhex(INPUT))
    (FOLDER / "output.bin").write_bytes(output_bytes())


if __name__ == "__main__":
    main()
