#!/usr/bin/env python3
"""Writes a script of N call lines to standard output: different lines of 51 bytes (N up to 1,048,576),
or with a second word `shortest` lines of 27 bytes, the shortest calls, or with `long` lines with arguments
of 1,024 bytes."""
import sys

count = int(sys.argv[1])
shortest = sys.argv[2:] == ["shortest"]
argument = "6b" * 1024 if sys.argv[2:] == ["long"] else "-"
out = sys.stdout
for start in range(0, count, 65536):
    numbers = range(start, min(start + 65536, count))
    if shortest:
        out.write("call aaaaa-aa aaaaa-aa m -\n" * len(numbers))
    else:
        out.write("".join(
            "call 2vxsx-fae rwlgt-iiaaa-aaaaa-aaaaa-cai %05x %s\n" % (number, argument)
            for number in numbers))
