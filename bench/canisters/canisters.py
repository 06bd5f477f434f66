"""The measuring part of `bench/canisters`: PROGRAM FOLDER, the program and a folder for scripts."""
import os
import subprocess
import sys

from leb128 import unsigned
from scripts import ANYBODY, CREATE, endless, filled, identity, install, stable

PROGRAM, FOLDER = sys.argv[1:]
MEBIBYTE = 2**20
# What the longest argument leaves for a module, beside the other fields.
MODULE = 2 * MEBIBYTE - 128
# How much memory a run may take beside twice its canisters' memories, in KiB.
BESIDE = 256 * 1024
missed = []


def ran(script):
    """Seconds (user and system), peak KiB, status and what was printed."""
    path, output = f"{FOLDER}/script", f"{FOLDER}/output"
    with open(path, "w") as file:
        file.write(script)
    with open(path, "rb") as source, open(output, "wb") as sink:
        child = os.fork()
        if child == 0:
            os.dup2(source.fileno(), 0)
            os.dup2(sink.fileno(), 1)
            os.execv(PROGRAM, [PROGRAM])
        _, status, used = os.wait4(child, 0)
    with open(output) as file:
        printed = file.read()
    return used.ru_utime + used.ru_stime, used.ru_maxrss, os.waitstatus_to_exitcode(status), printed


def row(name, script, pages, wanted):
    """PAGES are those of all canisters. WANTED is how the last answer begins, behind its number."""
    runs = [ran(script) for _ in range(3)]
    seconds, peak = min(run[0] for run in runs), max(run[1] for run in runs)
    answers = [line for line in runs[0][3].splitlines() if line.startswith("answer ")]
    last = answers[-1].split(" ", 2)[2] if answers else runs[0][3][:80]
    most = BESIDE + 2 * 64 * pages
    fine = peak <= most and last.startswith(wanted) and runs[0][2] == 0
    if not fine:
        missed.append(name)
    print(
        f"{name}: {len(script):,} bytes, {seconds:.2f} s, peak {peak // 1024} MiB (may be {most // 1024}):"
        f" {last[:90]}{'' if fine else ' MISSED'}",
        flush=True,
    )


# ---- modules


def made(command):
    return subprocess.run([sys.executable, *command], capture_output=True, check=True).stdout


def modules():
    row("small functions", CREATE + "drain\n" + install(0, made(["bench/lib/module.py", "functions", str(MODULE)])), 0, "replied 4449444c0000")
    answers = {
        "functions": "replied", "pops": "replied", "unreachable": "replied", "nops": "replied", "table": "replied",
        "blocks": 'rejected 5 "module refused: Nesting', "indirect": "replied", "different": "replied",
        "equal": 'rejected 5 "module refused: Entry', "methods": "replied",
        "locals": 'rejected 5 "module refused: Size', "runs": "replied",
    }
    for kind, answer in answers.items():
        module = made(["bench/lib/hostile.py", kind, str(MODULE)])
        row(f"{kind}, a module of {len(module):,} bytes", CREATE + "drain\n" + install(0, module), 0, answer)


# ---- arguments

# record { canister_id : principal; settings : record { controllers : opt vec principal } }
CONTROLLERS = b"DIDL\x04\x6c\x02\xb3\xc4\xb1\xf2\x04\x68\xe3\xf9\xf5\xd9\x08\x01\x6c\x01\xd7\xe0\x9b\x90\x02\x02\x6e\x03\x6d\x68\x01\x00"
# record { 0 : vec null; canister_id : principal }
NULLS = b"DIDL\x02\x6c\x02\x00\x01\xb3\xc4\xb1\xf2\x04\x68\x6d\x7f\x01\x00"


def one(number):
    return b"\x01\x0a" + identity(number)


def call(method, argument):
    return f"call {ANYBODY} aaaaa-aa {method} {argument.hex()}\n"


def arguments():
    made = CREATE + "drain\n"
    few = CONTROLLERS + one(0) + b"\x01" + unsigned(999_990) + b"\x01\x00" * 999_990
    row("999,990 controllers", made + call("update_settings", few), 0, 'rejected 5 "too many controllers"')
    nulls = lambda count: NULLS + unsigned(count) + one(0)
    row("999,990 values that nobody asks for", made + call("canister_status", nulls(999_990)), 0, "replied")
    row("4,000,000 of them", made + call("canister_status", nulls(4_000_000)), 0, 'rejected 5 "argument not decoded"')
    row("2^60 of them", made + call("canister_status", nulls(2**60)), 0, 'rejected 5 "argument not decoded"')


# ---- memories


def memories():
    row("64 canisters of 256 pages", 64 * CREATE + "drain\n" + "".join(install(number, filled(256)) for number in range(64)), 64 * 256, "replied")
    row("an init that runs to its limit", CREATE + "drain\n" + install(0, endless()), 1, 'rejected 5 "install trapped: instruction limit"')
    begun = CREATE + "drain\n" + install(0, stable(256)) + "drain\n"
    row("256 stable pages", begun, 512, "replied")
    upgraded = begun + install(0, stable(256), "upgrade") + "drain\n"
    row("the same, upgraded", upgraded, 512, "replied")
    row("the same, ten times", begun + 10 * (install(0, stable(256), "upgrade") + "drain\n"), 512, "replied")


modules()
arguments()
memories()
if missed:
    sys.exit("missed: " + ", ".join(missed))
