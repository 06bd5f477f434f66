#!/usr/bin/env python3
"""Measures PROGRAM, built from `bench/messages/main.rt.in`, on messages that it writes to FILE.
`bench/messages` calls it."""
import subprocess
import sys

from measure import Row, measured

program, path = sys.argv[1:]


def row(kind, size, times):
    with open(path, "wb") as message:
        subprocess.run(["python3", "bench/lib/message.py", kind, str(size)], stdout=message, check=True)
    row = Row(program, path, *times)
    row.print(kind)
    let_go(kind, times[0], row)
    decoded(kind, times[0], row)
    return row


def let_go(kind, times, row):
    """Prints how long it takes to give back the memory of what was read."""
    kept, _ = measured([program, str(times), "0", "0"], path)
    gone, _ = measured([program, str(times), "0", "0", "1"], path)
    print(
        f"{kind}, {row.size:,} bytes: let go in {1000 * (gone - kept) / times:.2f} ms,"
        f" {(gone - kept) / times / row.hashed:.2f} times sha256sum",
        flush=True,
    )


def decoded(kind, times, row):
    """Prints how long decoding takes, and how much memory."""
    start, _ = measured([program, "0", "0", "0"], path)
    _, peak = measured([program, "0", "0", "1"], path)
    total = measured([program, "0", "0", str(times)], path)[0] - start
    print(
        f"{kind}, {row.size:,} bytes: decoded in {1000 * total / times:.2f} ms,"
        f" {total / times / row.hashed:.2f} times sha256sum (from {total:.2f} s);"
        f" peak memory {peak // 1024} MiB",
        flush=True,
    )


for kind, reads, writes in [("records", 4, 24), ("bytes", 160, 160), ("types", 8, 24)]:
    small = row(kind, 2_097_152, (4 * reads, 4 * writes, 40))
    large = row(kind, 8_388_608, (reads, writes, 10))
    large.print_against(kind, small)
