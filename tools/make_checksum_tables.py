#!/usr/bin/env python3
"""Writes crates/mx_xlog/src/tables.rt: what a byte, and bytes 0 after it, do to a checksum's register.

The build doesn't need it, and the proof doesn't trust it.
"""

from pathlib import Path

FILE = Path(__file__).resolve().parent.parent / "crates/mx_xlog/src/tables.rt"

# CRC-32C's polynomial, reflected.
POLYNOMIAL = 0x82F63B78

# How many entries `rt fmt` lays out in one line.
IN_A_LINE = 7

HEAD = """\
//! The register of a checksum after bytes, as `tools/make_checksum_tables.py` writes it.

/// In table `k`, at place `b`: the register that held the byte `b` alone, after it and `k` bytes 0 more.
pub(crate) static AFTER_BYTES: [[u32; 256]; 8] = ["""


def after_byte(register):
    """The register after the eight steps of a byte."""
    for _ in range(8):
        register = register >> 1 ^ (POLYNOMIAL if register & 1 else 0)
    return register


def text():
    lines, registers = [HEAD], range(256)
    for _ in range(8):
        registers = [after_byte(register) for register in registers]
        lines.append("    [")
        for first in range(0, 256, IN_A_LINE):
            entries = registers[first : first + IN_A_LINE]
            lines.append("        " + ", ".join(f"0x{register:08x}" for register in entries) + ",")
        lines.append("    ],")
    return "\n".join([*lines, "];", ""])


FILE.write_text(text())
