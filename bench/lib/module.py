#!/usr/bin/env python3
"""Writes a WebAssembly module of about BYTES bytes (at most 2,097,152) to standard output.
`functions`: many functions of () -> () with constants, additions, locals and blocks. The other
kinds are made to take long: `blocks`, nested in one another; `locals`, in very many runs, which are
4,294,967,295 in all; `codes`, functions without instructions; `customs`, custom sections; `labels`,
a `br_table` that claims 4,294,967,295 of them; `float`, `functions` with a float at the end."""
import sys

from leb128 import unsigned

TYPE = b"\x01\x04\x01\x60\x00\x00"
MANY = b"\xff\xff\xff\xff\x0f"


def section(number, content):
    return bytes([number]) + unsigned(len(content)) + content


def functions(codes):
    """Sections of functions with these codes."""
    count = unsigned(len(codes))
    sized = b"".join(unsigned(len(code)) + code for code in codes)
    return section(3, count + b"\x00" * len(codes)) + section(10, count + sized)


def many_functions(size, last):
    piece = bytes([0x02, 0x40, 0x41, 0x2A, 0x20, 0x00, 0x6A, 0x21, 0x00, 0x0B])
    code = b"\x01\x01\x7f" + piece * 20 + b"\x0b"
    return functions([code] * max(1, size // (len(code) + 3)) + last)


def sections(kind, size):
    if kind == "functions":
        return TYPE + many_functions(size, [])
    if kind == "float":
        return TYPE + many_functions(size, [b"\x00\x43\x00\x00\x00\x00\x1a\x0b"])
    if kind == "blocks":
        depth = size // 3
        return TYPE + functions([b"\x00" + b"\x02\x40" * depth + b"\x0b" * depth + b"\x0b"])
    if kind == "locals":
        runs = size // 2
        return TYPE + functions([unsigned(runs + 1) + b"\x00\x7f" * runs + MANY + b"\x7f\x0b"])
    if kind == "codes":
        return TYPE + functions([b"\x00\x0b"] * (size // 4))
    if kind == "customs":
        return b"\x00\x01\x00" * (size // 3)
    return TYPE + functions([b"\x00\x0e" + MANY + b"\x00" * size + b"\x0b"])


kind, size = sys.argv[1], int(sys.argv[2]) - 128
sys.stdout.buffer.write(b"\x00asm\x01\x00\x00\x00" + sections(kind, size))
