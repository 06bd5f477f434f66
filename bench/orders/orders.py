#!/usr/bin/env python3
"""Measures TEST on interleaves that it writes to FOLDER, each of some thousand and of ten thousand and more cases.
`bench/orders` calls it."""
import subprocess
import sys

from measure import measured

test, folder = sys.argv[1:]


def vault(calls):
    """Withdrawals that the vault has enough for: each asks the bank once and waits."""
    users = ", ".join(f"user_{call}" for call in range(calls))
    moves = "".join(f"    as user_{call} call vault.withdraw (1);\n" for call in range(calls))
    return (
        f'user {users};\ncanister bank = "bank.wasm", "bank.did";\ncanister vault = "vault-mended.wasm", "vault.did" (bank);\n'
        f'test "withdrawals" {{\n  call vault.deposit (1000);\n  interleave {{\n{moves}  }}\n}}\n'
    )


def votes(calls):
    """Votes of as many users: the canister's memory is another after each order."""
    users = ", ".join(f"user_{call}" for call in range(calls))
    moves = "".join(f'    as user_{call} call votes.vote ("tea");\n' for call in range(calls))
    return f'user {users};\ncanister votes = "votes.wasm", "votes.did";\ntest "votes" {{\n  interleave {{\n{moves}  }}\n}}\n'


def passes(path, states):
    """Whether the test is decided with so many states."""
    ended = subprocess.run([test, "--states", str(states), path], stdout=subprocess.PIPE)
    return ended.returncode == 0


def cases_of(path):
    """The fewest states with which the test is decided: how many cases there are."""
    few, many = 1, 1
    while not passes(path, many):
        few, many = many + 1, 2 * many
    while few < many:
        middle = (few + many) // 2
        if passes(path, middle):
            many = middle
        else:
            few = middle + 1
    return few


for name, write, counts in (("two canisters in C", vault, (4, 5)), ("a canister in Rust", votes, (6, 7))):
    rows = []
    for calls in counts:
        path = f"{folder}/{write.__name__}-{calls}.test"
        with open(path, "w", encoding="utf8") as file:
            file.write(write(calls))
        cases = cases_of(path)
        seconds, peak = measured([test, "--states", str(cases), path], "/dev/null", runs=3)
        rows.append(1_000_000 * seconds / cases)
        print(f"{name}, {calls} calls: {cases:,} cases in {seconds:.2f} s, {rows[-1]:.0f} us a case; peak memory {peak // 1024} MiB")
    print(f"{name}: a case of the larger takes {rows[1] / rows[0]:.2f} times as long")
