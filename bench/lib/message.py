#!/usr/bin/env python3
"""Writes a Candid message of about BYTES bytes (at most 8,388,608) to standard output: `records`, a
vec of record { nat; text } with texts of 24 bytes; `bytes`, a vec nat8; or `types`, a type table of
10,000 records and no values."""
import sys

from leb128 import unsigned

kind, size = sys.argv[1], int(sys.argv[2])
if kind == "records":
    header = b"DIDL\x02\x6d\x01\x6c\x02\x00\x7d\x01\x71\x01\x00"
    record = b"\xac\x02" + b"\x18" + b"a record of the benchmark"[:24]
    count = (size - 32) // len(record)
    message = header + unsigned(count) + record * count
elif kind == "bytes":
    header = b"DIDL\x01\x6d\x7b\x01\x00"
    count = size - 32
    message = header + unsigned(count) + b"\x2a" * count
else:
    fields = b""
    count = 0
    while len(fields) + 4 < size // 10_000 - 3:
        fields += unsigned(count) + b"\x7d"
        count += 1
    entry = b"\x6c" + unsigned(count) + fields
    message = b"DIDL" + unsigned(10_000) + entry * 10_000 + b"\x00"
sys.stdout.buffer.write(message)
