#!/usr/bin/env python3
"""Measures TEST on a thousand tests that it writes to FOLDER, and REPLICA on a script that does the same. `bench/tests`
calls it."""
import subprocess
import sys

from measure import measured

test, replica, folder = sys.argv[1:]

TESTS, CALLS = 1_000, 10

with open(f"{folder}/many.test", "w", encoding="utf8") as file:
    file.write('canister counter = "counter.wasm", "counter.did";\n')
    for number in range(TESTS):
        file.write(f'test "{number}" {{\n')
        for call in range(CALLS):
            file.write(f"  call counter.increment () replies ({call + 1});\n")
        file.write("}\n")

# the calls as the program itself writes them, with a reinstallation for each test after the first
printed = subprocess.run([test, "--script", "0", f"{folder}/many.test"], stdout=subprocess.PIPE, check=True).stdout
lines = [line for line in printed.split(b"\n") if line and not line.startswith(b"#")]
make, install, calls = lines[:2], lines[2:4], lines[4:]
# the mode comes after the module, a variant whose cases by rising id are reinstall, upgrade, install
with open(f"{folder}/counter.wasm", "rb") as file:
    module = file.read().hex().encode()
again = [install[0].replace(module + b"02", module + b"00"), install[1]]
if again == install:
    sys.exit("the installation has another form")
with open(f"{folder}/script", "wb") as file:
    file.write(b"\n".join(make + install + calls + (again + calls) * (TESTS - 1)) + b"\n")

seconds, peak = measured([test, f"{folder}/many.test"], "/dev/null", runs=3)
against, most = measured([replica], f"{folder}/script", runs=3)
print(f"{TESTS:,} tests of {CALLS} calls: {1000 * seconds / TESTS:.2f} ms a test, peak memory {peak // 1024} MiB")
print(f"the same as a script of replica: {1000 * against / TESTS:.2f} ms a test, peak memory {most // 1024} MiB; {seconds / against:.2f} times")
