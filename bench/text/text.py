#!/usr/bin/env python3
"""Measures PROGRAM, built from `bench/text/main.rt.in`, on texts that it writes to FILE. `bench/text`
calls it."""
import os
import subprocess
import sys

from leb128 import unsigned
from measure import Row, measured

program, path = sys.argv[1:]

SIZES = (524_288, 2_097_152)

NAT = b"DIDL\x00\x01\x7d"
NATS = b"DIDL\x01\x6d\x7d\x01\x00"
NULLS = b"DIDL\x01\x6d\x7f\x01\x00"
BLOB = b"DIDL\x01\x6d\x7b\x01\x00"
OPTS = b"DIDL\x01\x6e\x00\x01\x00"
# vec record { 0 : nat; 1 : text } and vec record { id : nat; name : text }
RECORDS = b"DIDL\x02\x6c\x02\x00\x7d\x01\x71\x6d\x00\x01\x01"
NAMED = b"DIDL\x02\x6c\x02" + unsigned(23515) + b"\x7d" + unsigned(1224700491) + b"\x71\x6d\x00\x01\x01"


def opt_fields(count):
    """A vec of records with so many opt fields."""
    fields = b"".join(unsigned(number) + b"\x01" for number in range(count))
    return b"DIDL\x03\x6c" + unsigned(count) + fields + b"\x6e\x7d\x6d\x00\x01\x02"


def nat_fields(count):
    """A record with so many nat fields."""
    fields = b"".join(unsigned(number) + b"\x7d" for number in range(count))
    return b"DIDL\x01\x6c" + unsigned(count) + fields + b"\x01\x00"


def plain_records(size):
    parts = (b'record { 0 = %06d; 1 = "%022d" }' % (number + 100000, number) for number in range(size // 53))
    return RECORDS, b"(vec { " + b"; ".join(parts) + b" })"


def named_records(size):
    parts = (b'  record { id = %d_000; name = "\\u{e9}%015d" };\n' % (number, number) for number in range(size // 60))
    return NAMED, b"(vec {\n" + b"".join(parts) + b"})"


def blob(size):
    return BLOB, b'(blob "' + b"\\5a" * (size // 3) + b'")'


def numbers(size):
    parts = (b"%06d" % (number % 900000 + 100000) for number in range(size // 8))
    return NATS, b"(vec { " + b"; ".join(parts) + b" })"


def falling_fields(size):
    count = size // 12
    return nat_fields(count), b"(record {" + b"".join(b"%d=1;" % number for number in reversed(range(count))) + b"})"


VALUES = {
    "vec record { nat; text } as printed": plain_records,
    "vec record { id; name } as people write it": named_records,
    "blob": blob,
    "vec nat": numbers,
}

HOSTILE = {
    "opening parentheses alone": lambda size: (NAT, b"(" * size),
    "opt in opt": lambda size: (OPTS, b"(" + b"opt " * (size // 4)),
    "backslashes in a string": lambda size: (BLOB, b'(blob "' + b"\\" * size),
    "zeros before a number": lambda size: (NAT, b"(" + b"0" * size + b"1)"),
    "records without their 30,000 opt fields": lambda size: (opt_fields(30_000), b"(vec {" + b"record {};" * (size // 10) + b"})"),
    "fields without labels": lambda size: (nat_fields(size // 5), b"(record {" + b"1;" * (size // 5) + b"})"),
    "fields in falling order": falling_fields,
    "nulls": lambda size: (NULLS, b"(vec {" + b"null;" * (size // 5) + b"})"),
}


def written(header, text):
    with open(path, "wb") as file:
        file.write(header + text)


def values(name, make):
    """Prints how long reading and printing take at both sizes."""
    rows = []
    for size, times in zip(SIZES, ((40, 80, 200), (10, 20, 50))):
        written(*make(size))
        rows.append(Row(program, path, *times))
        rows[-1].print(name)
    rows[1].print_against(name, rows[0])


def once(name, header, text):
    """Seconds of one read in a process of its own; prints them, with the peak memory and the answer."""
    written(header, text)
    command = [program, "1", "0"]
    seconds, peak = measured(command, path)
    with open(path, "rb") as file:
        run = subprocess.run(command, stdin=file, stdout=subprocess.PIPE, check=True)
    answer = run.stdout.decode().strip()
    print(f"{name}, {os.path.getsize(path):,} bytes: {seconds:.3f} s, {peak // 1024} MiB, {answer}", flush=True)
    return seconds


def hostile(name, make):
    small, large = (once(name, *make(size)) for size in SIZES)
    print(f"{name}: {SIZES[1] // SIZES[0]} times the bytes in {large / small:.2f} times the time", flush=True)


for name, make in VALUES.items():
    values(name, make)
for name, make in HOSTILE.items():
    hostile(name, make)
once("a million records without their 30,000 opt fields", opt_fields(30_000), b"(vec {" + b"record {};" * 1_000_000 + b"})")
