#!/usr/bin/env python3
"""Measures PROGRAM, built from `bench/test_files/main.rt.in`, on test files that it writes to FILE.
`bench/test_files` calls it."""
import subprocess
import sys

from measure import measured

program, path = sys.argv[1:]

SIZES = (2_097_152, 8_388_608)

CALL = b'  as alice call ledger.transfer (record { to = bob; amount = 5 }) replies (variant { ok = 5 });\n'

FILES = {
    "calls of one test": lambda size: b'user alice, bob;\ntest "one" {\n' + CALL * (size // len(CALL)) + b"}\n",
    "tests": lambda size: b"".join(b'test "%d" { }\n' % number for number in range(size // 20)),
    "names": lambda size: b"user " + b", ".join(b"name_%d" % number for number in range(size // 14)) + b";\n",
    "outcomes": lambda size: b"call a.b () replies" + b" or refused" * (size // 11) + b";\n",
    "statements that bind and use a name": lambda size: b"".join(b"user n%d; as n%d call ic.start_canister (record { canister_id = n%d });\n" % (k, k, k) for k in range(size // 80)),
    "parentheses around a value": lambda size: b"call ic.provisional_create_canister_with_cycles (" + b"(" * (size // 2) + b")" * (size // 2) + b");\n",
    "values in a vec": lambda size: b"call ic.install_code (record { mode = variant { install }; canister_id = principal \"aaaaa-aa\"; wasm_module = vec {" + b"1;" * (size // 2) + b"}; arg = blob \"\" });\n",
    "opening parentheses": lambda size: b"call a.b " + b"(" * size,
    "opening and closing parentheses": lambda size: b"call a.b " + b"(" * (size // 2) + b")" * (size // 2) + b";\n",
    "opening braces": lambda size: b"{" * size,
    "opening braces in arguments": lambda size: b"call a.b (" + b"{" * size,
    "opening and closing braces in arguments": lambda size: b"call a.b (" + b"{" * (size // 2) + b"}" * (size // 2) + b");\n",
    "quotes": lambda size: b'"' * size,
    "slashes": lambda size: b"/" * size,
    "a comment that does not end": lambda size: b"/*" + b"*" * size,
    "bytes that begin no character": lambda size: b"\xff" * size,
    "a string that does not end": lambda size: b'test "' + b"a" * size,
}

for name, file in FILES.items():
    for size in SIZES:
        with open(path, "wb") as out:
            out.write(file(size))
        seconds, peak = measured([program], path, runs=3)
        with open(path, "rb") as text:
            told = subprocess.run([program], stdin=text, capture_output=True, check=True).stdout.decode().strip()
        print(f"{name}, {size:,} bytes: {1000 * seconds:.0f} ms, peak memory {peak // 1024} MiB; {told}", flush=True)
