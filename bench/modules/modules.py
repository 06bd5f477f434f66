#!/usr/bin/env python3
"""Measures PROGRAM, built from `bench/modules/main.rt.in`, on modules that it writes to FILE.
`bench/modules` calls it."""
import subprocess
import sys

from measure import Row

program, path = sys.argv[1:]


def row(kind, size, is_module, times):
    with open(path, "wb") as module:
        subprocess.run(["python3", "bench/lib/module.py", kind, str(size)], stdout=module, check=True)
    with open(path, "rb") as module:
        answer = subprocess.run([program, "1", "0"], stdin=module, capture_output=True, check=True)
    if answer.stdout != (b"1 0\n" if is_module else b"0 0\n"):
        sys.exit(f"{kind}: {answer.stdout}")
    measured = Row(program, path, *times)
    measured.print(kind)
    return measured


def rows(kind, is_module, reads, writes):
    small = row(kind, 524_288, is_module, (4 * reads, 4 * writes, 160))
    large = row(kind, 2_097_152, is_module, (reads, writes, 40))
    large.print_against(kind, small)


rows("functions", True, 16, 24)
rows("blocks", True, 16, 0)
rows("locals", True, 48, 0)
rows("codes", True, 24, 0)
rows("customs", True, 96, 0)
rows("labels", False, 48, 0)
rows("float", False, 12, 0)
