#!/usr/bin/env python3
"""Writes and reads MessagePack, IPROTO packets and the program's units, for tests, measurements, tools
and the example.

docs/FORMATS.md has the formats. A value is written shortest, but for one that says otherwise: `Wide`,
`Pairs` and `Spelled`. Run as a program this module checks itself against bytes spelled by hand.
"""

import base64
import uuid
from dataclasses import dataclass
from typing import Optional

TYPES = {
    "SELECT": 1,
    "INSERT": 2,
    "REPLACE": 3,
    "UPDATE": 4,
    "DELETE": 5,
    "UPSERT": 9,
    "NOP": 12,
    "BEGIN": 14,
    "COMMIT": 15,
    "ROLLBACK": 16,
    "PING": 64,
    "ID": 73,
}
# The keys of headers, of requests' bodies by the names of their fields, and of replies' bodies.
TYPE, SYNC, SCHEMA, STREAM = 0x00, 0x01, 0x05, 0x0A
KEYS = {
    "space": 0x10,
    "index": 0x11,
    "limit": 0x12,
    "offset": 0x13,
    "iterator": 0x14,
    "base": 0x15,
    "key": 0x20,
    "tuple": 0x21,
    "vclock": 0x26,
    "version": 0x54,
    "features": 0x55,
    "timeout": 0x56,
    "isolation": 0x59,
}
# An UPDATE has its operations in the place of a tuple.
OPERATIONS = {"UPDATE": 0x21, "UPSERT": 0x28}
DATA, ERROR = 0x30, 0x31
# A SELECT's iterators, each in the place of its number.
ITERATORS = ("EQ", "REQ", "ALL", "LT", "LE", "GE", "GT")
# What is added to a refusal's number in the type of a reply.
ERRORS = 0x8000
GREETING_BYTES = 128
MAX_UNIT_BYTES = 16_777_216
BYTES, CLOSE = 0, 1


class Spelled(bytes):
    """Bytes that spell a value already."""


@dataclass(frozen=True)
class Wide:
    """A number in 1, 2, 4 or 8 bytes behind its leading byte."""

    number: int
    width: int
    signed: bool = False


class Pairs(list):
    """The pairs of a map, in which a key may come more than once."""


def pack(value):
    """A value in MessagePack."""
    if isinstance(value, Spelled):
        return bytes(value)
    if isinstance(value, Wide):
        mark = (0xD0 if value.signed else 0xCC) + (1, 2, 4, 8).index(value.width)
        return bytes([mark]) + value.number.to_bytes(value.width, "big", signed=value.signed)
    if value is None:
        return b"\xc0"
    if isinstance(value, bool):
        return b"\xc3" if value else b"\xc2"
    if isinstance(value, int):
        return pack_int(value)
    if isinstance(value, bytes):
        return pack_head(len(value), 0, 0, (0xC4, 0xC5, 0xC6)) + value
    if isinstance(value, str):
        text = value.encode()
        return pack_head(len(text), 0xA0, 32, (0xD9, 0xDA, 0xDB)) + text
    if isinstance(value, (dict, Pairs)):
        pairs = value.items() if isinstance(value, dict) else value
        return pack_head(len(value), 0x80, 16, (None, 0xDE, 0xDF)) + b"".join(pack(key) + pack(one) for key, one in pairs)
    if isinstance(value, list):
        return pack_head(len(value), 0x90, 16, (None, 0xDC, 0xDD)) + b"".join(map(pack, value))
    raise TypeError(f"no MessagePack for {value!r}")


def pack_int(value):
    """A number, without a sign from 0 on and as two's complement below."""
    if -32 <= value < 128:
        return value.to_bytes(1, "big", signed=value < 0)
    for width in (1, 2, 4, 8):
        if 0 <= value < 1 << 8 * width or -(1 << 8 * width - 1) <= value < 0:
            return pack(Wide(value, width, signed=value < 0))
    raise ValueError(f"{value} doesn't fit 64 bits")


def pack_head(size, short, few, marks):
    """What stands before a content: one byte for a size below `few`, else a mark and the size."""
    if size < few:
        return bytes([short + size])
    for mark, width in zip(marks, (1, 2, 4)):
        if mark is not None and size < 1 << 8 * width:
            return bytes([mark]) + size.to_bytes(width, "big")
    raise ValueError(f"{size} is too long")


class Reader:
    """Reads values from the left of some bytes."""

    def __init__(self, data):
        self.data, self.at = data, 0

    def take(self, size):
        """The next bytes."""
        part = self.data[self.at : self.at + size]
        if len(part) < size:
            raise ValueError("the bytes end inside a value")
        self.at += size
        return part

    def number(self, width, signed=False):
        """A number of so many bytes."""
        return int.from_bytes(self.take(width), "big", signed=signed)

    def value(self):
        """The value that stands first."""
        mark = self.number(1)
        if mark < 0x80:
            return mark
        if mark < 0x90:
            return self.pairs(mark - 0x80)
        if mark < 0xA0:
            return self.values(mark - 0x90)
        if mark < 0xC0:
            return self.text(mark - 0xA0)
        if mark >= 0xE0:
            return mark - 0x100
        return self.long_value(mark)

    def long_value(self, mark):
        """The value of a mark from c0 to df."""
        if mark in (0xC0, 0xC2, 0xC3):
            return {0xC0: None, 0xC2: False, 0xC3: True}[mark]
        if 0xC4 <= mark <= 0xC6:
            return bytes(self.take(self.number(1 << mark - 0xC4)))
        if 0xCC <= mark <= 0xCF:
            return self.number(1 << mark - 0xCC)
        if 0xD0 <= mark <= 0xD3:
            return self.number(1 << mark - 0xD0, signed=True)
        if 0xD9 <= mark <= 0xDB:
            return self.text(self.number(1 << mark - 0xD9))
        if mark in (0xDC, 0xDD):
            return self.values(self.number(2 << mark - 0xDC))
        if mark in (0xDE, 0xDF):
            return self.pairs(self.number(2 << mark - 0xDE))
        raise ValueError(f"no value that is read here begins with {mark:02x}")

    def text(self, size):
        return bytes(self.take(size)).decode(errors="backslashreplace")

    def values(self, count):
        return [self.value() for _ in range(count)]

    def pairs(self, count):
        return {self.value(): self.value() for _ in range(count)}


def packet(header, body=None, width=4):
    """A packet: its size in so many bytes, or shortest for 0, its header, and its body if it has one."""
    content = pack(header) + (b"" if body is None else pack(body))
    return pack(Wide(len(content), width) if width else len(content)) + content


def request(name, sync=None, stream=None, **fields):
    """The packet of a request, by its name or the number of its type. It has no body where it has no fields."""
    return packet(*request_parts(name, sync, stream, **fields))


def request_parts(name, sync=None, stream=None, **fields):
    """The header of a request, and its body, or None where it has no fields."""
    header = {TYPE: TYPES.get(name, name), SYNC: sync, STREAM: stream}
    header = {key: value for key, value in header.items() if value is not None}
    if fields.get("iterator") in ITERATORS:
        fields["iterator"] = ITERATORS.index(fields["iterator"])
    keys = KEYS | {"operations": OPERATIONS.get(name)}
    return header, {keys[field]: value for field, value in fields.items()} or None


def reply(sync, body, kind=0, schema=0):
    """The packet of a reply of this type, with the version of the schema."""
    return packet({TYPE: Wide(kind, 4), SYNC: Wide(sync, 8), SCHEMA: Wide(schema, 4)}, body)


def ok_reply(sync=0, schema=0):
    """The reply to a request that has nothing to tell."""
    return reply(sync, {}, schema=schema)


def tuples_reply(sync, *tuples, schema=0):
    """The reply of these tuples."""
    counted = Spelled(b"\xdd" + len(tuples).to_bytes(4, "big") + b"".join(map(pack, tuples)))
    return reply(sync, {DATA: counted}, schema=schema)


def id_reply(sync):
    """The reply to ID."""
    return reply(sync, {KEYS["version"]: 1, KEYS["features"]: [0, 1]})


def error_reply(sync, number, text, schema=0):
    """The reply of a refusal."""
    return reply(sync, {ERROR: text}, ERRORS + number, schema)


def greeting(seed):
    """The greeting of a new directory, of a seed of 64 hexadecimal digits."""
    salt = bytes.fromhex(seed)
    product = f"Tarantool 2.11.0 (Binary) {uuid.UUID(bytes=salt[:16], version=4)}"
    return "".join(f"{line:<63}\n" for line in (product, base64.b64encode(salt).decode())).encode()


@dataclass(frozen=True)
class Reply:
    """A reply that was read. Its error is the number of a refusal, or None."""

    error: Optional[int]
    sync: int
    body: dict


def packets_in(content):
    """The packets of some bytes, each whole."""
    reader = Reader(content)
    while (begin := reader.at) < len(content):
        reader.take(reader.value())
        yield content[begin : reader.at]


def read_reply(one):
    """What the packet of a reply says."""
    reader = Reader(one)
    reader.value()
    header, body = reader.value(), reader.value()
    kind = header[TYPE]
    return Reply(kind - ERRORS if kind >= ERRORS else None, header[SYNC], body)


def unit(kind, connection, content=b""):
    """A unit of input."""
    return bytes([kind]) + output_unit(content, connection)


def input_unit(content, connection=1):
    """A unit of input: bytes on a connection."""
    return unit(BYTES, connection, content)


def close_unit(connection=1):
    """A unit of input: the close of a connection."""
    return unit(CLOSE, connection)


def output_unit(content, connection=1):
    """A unit of output: what a connection is sent, or nothing where the server ended it."""
    return connection.to_bytes(4, "big") + len(content).to_bytes(4, "big") + content


def output_units(output):
    """The connection and the content of each whole unit of an output."""
    found, at = [], 0
    while at + 8 <= len(output):
        connection, size = int.from_bytes(output[at : at + 4], "big"), int.from_bytes(output[at + 4 : at + 8], "big")
        if at + 8 + size > len(output):
            break
        found.append((connection, output[at + 8 : at + 8 + size]))
        at += 8 + size
    return found


def contents(output):
    """The content of each whole unit of an output."""
    return [content for _, content in output_units(output)]


# Values and what MessagePack's specification spells them as.
VALUES = (
    (None, "c0"),
    (False, "c2"),
    (True, "c3"),
    (0, "00"),
    (127, "7f"),
    (128, "cc80"),
    (255, "ccff"),
    (256, "cd0100"),
    (65_535, "cdffff"),
    (65_536, "ce00010000"),
    (1 << 32, "cf0000000100000000"),
    ((1 << 64) - 1, "cfffffffffffffffff"),
    (-1, "ff"),
    (-32, "e0"),
    (-33, "d0df"),
    (-128, "d080"),
    (-129, "d1ff7f"),
    (-32_769, "d2ffff7fff"),
    (-(1 << 63), "d38000000000000000"),
    ("", "a0"),
    ("a", "a161"),
    ("a" * 32, "d920" + "61" * 32),
    ("a" * 256, "da0100" + "61" * 256),
    (b"", "c400"),
    (b"\x01", "c40101"),
    (bytes(256), "c50100" + "00" * 256),
    ([], "90"),
    ([1, [2]], "92019102"),
    ([0] * 16, "dc0010" + "00" * 16),
    ({}, "80"),
    ({1: "a", 2: None}, "8201a16102c0"),
    ({key: 0 for key in range(16)}, "de0010" + "".join(f"{key:02x}00" for key in range(16))),
)
# What is spelled longer than it has to be, or spelled already.
LONGER = (
    (Wide(1, 1), "cc01"),
    (Wide(1, 2), "cd0001"),
    (Wide(1, 4), "ce00000001"),
    (Wide(1, 8), "cf0000000000000001"),
    (Wide(200, 2, signed=True), "d100c8"),
    (Wide(-1, 4, signed=True), "d2ffffffff"),
    (Pairs([(1, 2), (1, 3)]), "8201020103"),
    ([Spelled(b"\xc1")], "91c1"),
)
SEED = "000102030405060708090a0b0c0d0e0f101112131415161718191a1b1c1d1e1f"
# Packets and units, as docs/FORMATS.md spells them.
WHOLE = (
    (request("REPLACE", 1, space=512, tuple=[1, "a"]), "ce0000000f 8200030101 8210cd0200219201a161"),
    (
        request("SELECT", 2, space=512, limit=10, iterator="EQ", key=[1]),
        "ce00000011 8200010102 8410cd0200120a1400209101",
    ),
    (request("PING"), "ce00000003 810040"),
    (request(8, 1, -1, isolation=2), "ce0000000a 8300080101 0aff 815902"),
    (request("BEGIN", 1, 2, timeout=5, isolation=4), "ce0000000c 83000e0101 0a02 8256055904"),
    (request("COMMIT", stream=Wide(1, 8)), "ce0000000d 82000f 0acf0000000000000001"),
    (request("UPSERT", 1, tuple=[1], operations=[]), "ce0000000b 8200090101 822191012890"),
    (request("UPDATE", 1, base=1, operations=[["=", 2, 2]]), "ce0000000f 8200040101 821501219193a13d0202"),
    (packet({TYPE: 64}, width=0), "03 810040"),
    (packet({TYPE: 12}, {}, width=1), "cc04 81000c80"),
    (ok_reply(7), "ce00000018 8300ce0000000001cf000000000000000705ce00000000 80"),
    (ok_reply(1, 258), "ce00000018 8300ce0000000001cf000000000000000105ce00000102 80"),
    (
        tuples_reply(1, [1, "a"]),
        "ce00000022 8300ce0000000001cf000000000000000105ce00000000 8130dd000000019201a161",
    ),
    (id_reply(1), "ce0000001e 8300ce0000000001cf000000000000000105ce00000000 82540155920001"),
    (
        error_reply(3, 36, "Space 513 does not exist"),
        "ce00000032 8300ce0000802401cf000000000000000305ce00000000"
        "8131b853706163652035313320646f6573206e6f74206578697374",
    ),
    (
        greeting(SEED),
        (b"Tarantool 2.11.0 (Binary) 00010203-0405-4607-8809-0a0b0c0d0e0f \n").hex()
        + (b"AAECAwQFBgcICQoLDA0ODxAREhMUFRYXGBkaGxwdHh8=                   \n").hex(),
    ),
    (input_unit(b"\x05", 1023), "00 000003ff 00000001 05"),
    (close_unit(2), "01 00000002 00000000"),
    (output_unit(b"ab"), "00000001 00000002 6162"),
)


def check():
    """Compares what is written here with bytes spelled by hand, and reads it again."""
    for value, spelling in VALUES:
        assert pack(value).hex() == spelling, f"{value!r}: {pack(value).hex()}"
        assert Reader(bytes.fromhex(spelling)).value() == value, f"{spelling} is read otherwise"
    for value, spelling in LONGER:
        assert pack(value).hex() == spelling, f"{value!r}: {pack(value).hex()}"
    for written, spelling in WHOLE:
        assert written == bytes.fromhex(spelling), f"{written.hex()}, expected {spelling}"
    pair = ok_reply(7) + error_reply(3, 36, "No")
    assert [read_reply(one) for one in packets_in(pair)] == [Reply(None, 7, {}), Reply(36, 3, {ERROR: "No"})]
    assert output_units(output_unit(pair, 5) + output_unit(b"") + b"\0" * 7) == [(5, pair), (1, b"")]


if __name__ == "__main__":
    check()
    print(f"iproto: {len(VALUES) + len(LONGER) + len(WHOLE)} spellings")
