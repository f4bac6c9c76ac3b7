#!/usr/bin/env python3
"""Writes a part of crates/mx_probe/stdin and stdout: MessagePack spellings, and what they mean.

What each spelling means comes from an implementation of MessagePack that is not ours: the
package msgpack, or the copy of it that pip carries. Run this by a python3 that has one of them.
The build doesn't need it.

    /usr/bin/python3 tools/make_msgpack_cases.py
"""

import struct
import sys
from pathlib import Path

try:
    import msgpack
except ImportError:
    from pip._vendor import msgpack

PROBE = Path(__file__).resolve().parent.parent / "crates/mx_probe"

# The lines of stdin before and after those that are written here.
FIRST = "# What tools/make_msgpack_cases.py writes begins here."
LAST = "# What tools/make_msgpack_cases.py writes ends here."

# Longer spellings than this are cut at so many places and before their last byte.
CUT_EVERYWHERE = 80

# How many bytes the head of a container takes, where it is more than one.
HEAD_SIZES = {0xDC: 3, 0xDD: 5, 0xDE: 3, 0xDF: 5}


class Pairs(list):
    """The pairs of a map."""


def unpack(spelling):
    return msgpack.unpackb(
        spelling, raw=False, strict_map_key=False, max_ext_len=1 << 24, object_pairs_hook=Pairs,
        timestamp=0,
    )


def shown(spelling):
    """The value as `msgpack.size` shows it: a container by its count and the size of all that it holds."""
    value = unpack(spelling)
    held = len(spelling) - HEAD_SIZES.get(spelling[0], 1)
    if value is None:
        return "nil"
    if isinstance(value, bool):
        return f"bool {str(value).lower()}"
    if isinstance(value, int):
        return f"int {value}"
    if isinstance(value, str):
        return f"str of {len(value.encode())}"
    if isinstance(value, bytes):
        return f"bin of {len(value)}"
    if isinstance(value, Pairs):
        return f"map {len(value)} of {held}"
    if isinstance(value, list):
        return f"array {len(value)} of {held}"
    if isinstance(value, (float, msgpack.ExtType, msgpack.Timestamp)):
        return f"opaque of {len(spelling)}"
    raise ValueError(f"{value!r} is of no kind")


def shortest(spelling):
    """What the implementation writes of the value. Floats and extensions stay as they are spelled."""
    value = unpack(spelling)
    if isinstance(value, (float, msgpack.ExtType, msgpack.Timestamp)):
        return spelling
    return repacked(value)


def repacked(value):
    packer = msgpack.Packer(use_bin_type=True)
    if isinstance(value, Pairs):
        parts = (repacked(part) for pair in value for part in pair)
        return packer.pack_map_header(len(value)) + b"".join(parts)
    if isinstance(value, list):
        return packer.pack_array_header(len(value)) + b"".join(map(repacked, value))
    return packer.pack(value)


def is_cut_short(spelling):
    """Whether the implementation wants more bytes."""
    unpacker = msgpack.Unpacker(
        raw=False, strict_map_key=False, object_pairs_hook=list, max_buffer_size=1 << 26
    )
    unpacker.feed(spelling)
    try:
        unpacker.unpack()
    except msgpack.OutOfData:
        return True
    return False


def cuts(size):
    if size <= CUT_EVERYWHERE:
        return range(size)
    return [0, 1, 2, 3, 4, 5, size // 2, size - 1]


cases = []


def add(head, pattern=b"", times=0):
    """A spelling: the head, and then the pattern so many times."""
    spelling = head + pattern * times
    for cut in cuts(len(spelling)):
        if not is_cut_short(spelling[:cut]):
            raise ValueError(f"{head!r} cut at {cut} is whole")
    if (head, pattern, times) not in cases:
        cases.append((head, pattern, times))


def packed(value):
    add(msgpack.packb(value, use_bin_type=True))


def main():
    packed(None)
    packed(False)
    packed(True)
    # The borders of each width, as the implementation writes them.
    for number in [
        0, 1, 127, 128, 255, 256, 65535, 65536, 2**31 - 1, 2**31, 2**32 - 1, 2**32, 2**63 - 1,
        2**63, 2**64 - 1, -1, -32, -33, -128, -129, -32768, -32769, -(2**31), -(2**31) - 1, -(2**63),
    ]:
        packed(number)
    # Numbers in more bytes than they need.
    for form, leading, numbers in [
        (">B", 0xCC, [0, 127]), (">H", 0xCD, [0, 255]), (">I", 0xCE, [0, 65535]),
        (">Q", 0xCF, [0, 255, 2**32 - 1]), (">b", 0xD0, [0, 127, -1, -32]),
        (">h", 0xD1, [0, 32767, -1, -128]), (">i", 0xD2, [0, 2**31 - 1, -32768]),
        (">q", 0xD3, [0, 2**63 - 1, -1, -(2**31)]),
    ]:
        for number in numbers:
            add(bytes([leading]) + struct.pack(form, number))
    for number in [0.0, 1.5, -2.0]:
        packed(number)
        add(b"\xca" + struct.pack(">f", number))
    # Extensions of each fixed length, and of lengths of 8, 16 and 32 bits.
    for size in [1, 2, 4, 8, 16]:
        add(msgpack.packb(msgpack.ExtType(5, b"\x2a" * size)))
    packed(msgpack.Timestamp(1, 0))
    for size in [0, 3, 255]:
        add(b"\xc7" + struct.pack(">B", size) + b"\x07", b"\x2a", size)
    for size in [0, 256, 65535]:
        add(b"\xc8" + struct.pack(">H", size) + b"\x07", b"\x2a", size)
    for size in [0, 65536]:
        add(b"\xc9" + struct.pack(">I", size) + b"\x07", b"\x2a", size)
    # Texts, bytes and containers: empty and full of each size class. What they hold is one thing
    # again and again.
    for size in [0, 1, 31]:
        add(bytes([0xA0 + size]), b"a", size)
    for leading, pattern in [(0xD9, b"a"), (0xC4, b"\xff")]:
        for size in [0, 32, 255]:
            add(bytes([leading]) + struct.pack(">B", size), pattern, size)
    for leading, pattern in [
        (0xDA, b"a"), (0xC5, b"\xff"), (0xDC, b"\x01"), (0xDE, b"\x01\xc0"),
    ]:
        for size in [0, 16, 256, 65535]:
            add(bytes([leading]) + struct.pack(">H", size), pattern, size)
    for leading, pattern in [
        (0xDB, b"a"), (0xC6, b"\xff"), (0xDD, b"\x01"), (0xDF, b"\x01\xc0"),
    ]:
        for size in [0, 65536]:
            add(bytes([leading]) + struct.pack(">I", size), pattern, size)
    for leading, pattern in [(0x90, b"\xcc\x80"), (0x80, b"\xa1k\x01")]:
        for size in [0, 1, 15]:
            add(bytes([leading + size]), pattern, size)
    packed([[1, [None, "x"]], {"k": [True, b"\x00"], -5: {}}, 2**40])
    packed({"a": {"b": {"c": [[], [[]], 1.25]}}})
    add(b"\x91" * 63 + b"\x90")
    for leading in list(range(0x00, 0xC1)) + list(range(0xC2, 0x100)):
        if not any(case[0][0] == leading or same_class(case[0][0], leading) for case in cases):
            raise ValueError(f"no case begins with {leading:#x}")
    write()


def same_class(one, other):
    """Whether two leading bytes are of one class."""
    for first, last in [(0x00, 0x7F), (0x80, 0x8F), (0x90, 0x9F), (0xA0, 0xBF), (0xE0, 0xFF)]:
        if first <= one <= last and first <= other <= last:
            return True
    return False


def word(head, pattern, times, behind=b""):
    """The argument of a call: the head, the pattern so many times, and what is behind them."""
    if times == 0:
        return (head + behind).hex()
    pieces = [head.hex(), f"{pattern.hex()}*{times}", behind.hex()]
    return "+".join(piece for piece in pieces if piece)


def calls(head, pattern, times):
    """Calls with a spelling, and the answer to each."""
    spelling = head + pattern * times
    size = len(spelling)
    whole, followed = word(head, pattern, times), word(head, pattern, times, b"\xc1")
    yield f"msgpack.size {followed}", f"ok {size} {shown(spelling)}"
    yield f"msgpack.skip {followed}", f"ok {size}"
    cut = size if size <= CUT_EVERYWHERE else CUT_EVERYWHERE
    yield f"msgpack.short {cut} {whole}", f"ok {cut}"
    if size > CUT_EVERYWHERE:
        almost = word(head, pattern, times - 1, pattern[:-1])
        yield f"msgpack.skip {almost}", "err Short"
        yield f"msgpack.read {almost}", "err Short"
    else:
        yield f"msgpack.rewrite {whole}", f"ok {size} {shortest(spelling).hex()}"
    yield f"msgpack.rewrite_twice {whole}", f"ok {size} {len(shortest(spelling))} same"


def is_call(line):
    return line != "" and not line.startswith("#")


def write():
    """Puts the calls and their answers in place of those that were written before."""
    lines = (PROBE / "stdin").read_text().splitlines()
    answers = (PROBE / "stdout").read_text().splitlines()
    first, last = lines.index(FIRST) + 1, lines.index(LAST)
    begin = sum(map(is_call, lines[:first]))
    end = begin + sum(map(is_call, lines[first:last]))
    written = [pair for case in cases for pair in calls(*case)]
    lines[first:last] = [call for call, _ in written]
    answers[begin:end] = [answer for _, answer in written]
    (PROBE / "stdin").write_text("\n".join(lines) + "\n")
    (PROBE / "stdout").write_text("\n".join(answers) + "\n")
    print(f"{len(cases)} spellings, {len(written)} calls", file=sys.stderr)


if __name__ == "__main__":
    main()
