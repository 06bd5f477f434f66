#!/usr/bin/env python3
"""Writes a WebAssembly module of at most BYTES, or 2,097,152, bytes, which is meant to be costly to validate, to
standard output: KIND [BYTES], KIND one of the names below."""
import itertools
import sys

from leb128 import unsigned

LIMIT = int(sys.argv[2]) if len(sys.argv) > 2 else 2097152
PROCEDURE = b"\x60\x00\x00"
# a table without entries
TABLE = (4, b"\x01\x70\x00\x00")


def section(number, content):
    return bytes([number]) + unsigned(len(content)) + content


def module(*sections):
    return b"\x00asm\x01\x00\x00\x00" + b"".join(section(*s) for s in sections)


def vector(items):
    return unsigned(len(items)) + b"".join(items)


def sized(content):
    return unsigned(len(content)) + content


def body(words, locals=b"\x00"):
    """A module with one function () -> () of these words."""
    return module((1, vector([PROCEDURE])), (3, vector([b"\x00"])), (10, vector([sized(locals + words + b"\x0b")])))


def filled(start, piece):
    """A body that is as long as may be."""
    return body(start + piece * ((LIMIT - 64 - len(start)) // len(piece)))


def functions():
    """One run of 10,000 locals each."""
    count = 299000
    code = sized(b"\x01" + unsigned(10000) + b"\x7f\x0b")
    return module((1, vector([PROCEDURE])), (3, vector([b"\x00"] * count)), (10, vector([code] * count)))


def indirect():
    """Calls of a type with 1,000,000 parameters, where operands of any type are there."""
    long = b"\x60" + vector([b"\x7f"] * 1000000) + b"\x00"
    words = b"\x00" + b"\x11\x00\x00" * 300000 + b"\x0b"
    return module((1, vector([long, PROCEDURE])), (3, vector([b"\x01"])), TABLE, (10, vector([sized(b"\x00" + words)])))


def exports(names):
    """A function that is exported under each of the names."""
    items = [sized(name) + b"\x00\x00" for name in names]
    return module((1, vector([PROCEDURE])), (3, vector([b"\x00"])), (7, vector(items)), (10, vector([sized(b"\x00\x0b")])))


def words(count, length):
    """Names of that length, all different."""
    letters = bytes(range(0x21, 0x7f))
    return [bytes(name) for name in itertools.islice(itertools.product(letters, repeat=length), count)]


KINDS = {
    "functions": functions,
    "pops": lambda: filled(b"\x00", b"\x1a"),
    "unreachable": lambda: filled(b"", b"\x00\x1a"),
    "nops": lambda: filled(b"", b"\x01"),
    "blocks": lambda: body(b"\x02\x40" * 200000 + b"\x0b" * 200000),
    "table": lambda: body(b"\x41\x00\x0e" + vector([b"\x00"] * 500000) + b"\x00"),
    "indirect": indirect,
    "different": lambda: exports(words(300000, 3)),
    "equal": lambda: exports([b"abc"] * 300000),
    "methods": lambda: exports([b"canister_update " + name for name in words(95000, 3)]),
    "locals": lambda: body(b"", vector([unsigned(4294967295) + b"\x7f"])),
    "runs": lambda: body(b"\x20\x00\x1a" * 360000, vector([b"\x00\x7f"] * 499999 + [b"\x01\x7e"])),
}

sys.stdout.buffer.write(KINDS[sys.argv[1]]())
