#!/usr/bin/env python3
"""Measures PROGRAM, the driver of `bench/keep`, on the modules that it reads from FOLDER and from `examples/notes`. `bench/keep`
calls it."""
import subprocess
import sys

from measure import measured

program, folder = sys.argv[1:]


def module_in(path):
    """The module that the script's `install_code` line has: its length comes before it, as an unsigned LEB128."""
    with open(path, encoding="utf8") as script:
        line = next(line for line in script if " install_code " in line)
    argument = bytes.fromhex(line.split()[-1])
    at = argument.index(b"\0asm")
    first = at - 1
    while argument[first - 1] & 0x80:
        first -= 1
    length = sum((byte & 0x7F) << 7 * place for place, byte in enumerate(argument[first:at]))
    return argument[at : at + length]


def seconds(*words):
    """Seconds, peak kilobytes and the two numbers that are printed."""
    command = [program, *map(str, words)]
    with open(f"{folder}/modules", "rb") as modules:
        printed = subprocess.run(command, stdin=modules, stdout=subprocess.PIPE, check=True).stdout
    return *measured(command, f"{folder}/modules", runs=3), *map(int, printed.split())


def row(name, method, first, times, few, many):
    """What a search takes of the orders of calls of `few` and of `many` users, and a delivery that is not kept."""
    start, _, _, _ = seconds("deliver", 0, method, first)
    alone, _, _, delivered = seconds("deliver", times, method, first)
    alone = (alone - start) / delivered
    print(f"{name}: a delivery that is not kept, {1e6 * alone:.1f} us")
    for users in (few, many):
        taken, peak, cases, moves = seconds("search", users, method, first)
        taken -= start
        print(
            f"{name}, {users} users: {cases:,} cases, {moves:,} deliveries, {taken:.2f} s, peak memory {peak // 1024} MiB;"
            f" {1e6 * taken / cases:.0f} us a case, {1e6 * (taken / moves - alone):.1f} us more than a delivery alone",
            flush=True,
        )


with open(f"{folder}/steps.wasm", "rb") as file:
    steps = file.read()
with open(f"{folder}/modules", "wb") as file:
    file.write(steps + steps)
row("two canisters in C, two pages each", "steps", len(steps), 20_000, 4, 5)
notes = module_in("examples/notes")
with open(f"{folder}/modules", "wb") as file:
    file.write(notes)
row("one canister in Rust, 18 pages", "add", len(notes), 2_000, 6, 7)
