"""The measuring part of `bench/workers`: PROGRAM FOLDER, the program and a folder for scripts."""
import json
import os
import re
import subprocess
import sys
import time

from leb128 import unsigned
from scripts import ANYBODY, CREATE, constant, identity, install, section, sized, text

PROGRAM, FOLDER = sys.argv[1:]
CANISTERS = 64
# Of a turn of the loop below, by its instructions.
TURN = 6
LARGE = 10**7
CALLS = 1000
TURNS = 3


def listed(parts):
    return unsigned(len(parts)) + b"".join(parts)


def working():
    """A module whose method `work` goes through a loop as many times as its argument of four bytes says, and whose method
    `nothing` replies at once."""
    copy, reply = b"\x10\x00", b"\x10\x01"
    argument = constant(0) + constant(0) + constant(4) + copy + constant(0) + b"\x28\x02\x00\x21\x00"
    turn = b"\x20\x00" + constant(1) + b"\x6b\x22\x00\x0d\x00"
    loop = b"\x02\x40\x20\x00\x45\x0d\x00\x03\x40" + turn + b"\x0b\x0b"
    return b"\x00asm\x01\x00\x00\x00" + b"".join([
        section(1, listed([b"\x60\x03\x7f\x7f\x7f\x00", b"\x60\x00\x00"])),
        section(2, listed([sized(b"ic0") + sized(b"msg_arg_data_copy") + b"\x00\x00", sized(b"ic0") + sized(b"msg_reply") + b"\x00\x01"])),
        section(3, listed([b"\x01", b"\x01"])),
        section(5, listed([b"\x00\x01"])),
        section(7, listed([sized(b"canister_update work") + b"\x00\x02", sized(b"canister_update nothing") + b"\x00\x03"])),
        section(10, listed([sized(b"\x01\x01\x7f" + argument + loop + reply + b"\x0b"), sized(b"\x00" + reply + b"\x0b")])),
    ])


def script(name, canisters, lines, end="bad\n"):
    """Canisters with code, and then these lines. At a bad line the program ends, without further rounds."""
    made = CREATE * canisters + "drain\n" + "".join(install(number, working()) for number in range(canisters)) + "drain\n"
    path = f"{FOLDER}/{name}"
    with open(path, "w") as file:
        file.write(made + "".join(lines) + end)
    return path


def call(number, turns):
    method, argument = ("work", turns.to_bytes(4, "little").hex()) if turns else ("nothing", "-")
    return f"call {ANYBODY} {text(identity(number))} {method} {argument}\n"


def started(path, workers, processors, words=()):
    def pinned():
        os.sched_setaffinity(0, processors)

    with open(path, "rb") as source:
        return subprocess.Popen(
            [PROGRAM, "--workers", str(workers), *words], stdin=source, stdout=subprocess.PIPE, preexec_fn=pinned
        )


def output(run):
    printed, _ = run.communicate()
    return printed.decode()


def seconds(runs):
    """By the clock, of runs (path, workers, processors) side by side."""
    begun = time.monotonic()
    going = [started(*run) for run in runs]
    for run in going:
        if not re.search(r"line \d+: Form\n$", output(run)):
            sys.exit("a run did not end at its last line")
    return time.monotonic() - begun


def best(cases):
    """The least time of each case, in turns."""
    return [min(times) for times in zip(*[[seconds(case) for case in cases] for _ in range(TURNS)])]


def instructions(turns):
    """Of one message, by what it burns at the price 1."""
    path = script("burned", 1, [call(0, turns)], end="")
    printed = output(started(path, 1, {0}, ["--price", "1"]))
    last = [line for line in printed.splitlines() if line.startswith("{")][-1]
    return int(json.loads(last)["burned"])


def large_messages():
    turns = LARGE // TURN
    each = [call(number, turns) for number in range(CANISTERS)]
    whole, without = script("whole", CANISTERS, [*each, "drain\n"]), script("made", CANISTERS, each)
    counts = [1, 2, 4]
    cases = [[(path, count, set(range(count)))] for path in (whole, without) for count in counts]
    # as many programs as processors, each with its part of the canisters
    parts = {count: script(f"part{count}", CANISTERS // count, [*each[: CANISTERS // count], "drain\n"]) for count in counts}
    alone = [[(parts[count], 1, {processor}) for processor in range(count)] for count in counts]
    times = best(cases + alone)
    print(f"{CANISTERS} messages of {instructions(turns):,} instructions, one to each canister")
    for place, count in enumerate(counts):
        took, one, side = times[place] - times[3 + place], times[0] - times[3], times[6 + place]
        print(
            f"{count} workers: {took:.2f} s, {one / count / took:.2f} of the ideal;"
            f" {count} programs of one worker side by side {side:.2f} s, {side / times[place]:.2f} of that",
            flush=True,
        )


def small_messages():
    for turns in [0, 1, 30, 100, 300, 1000, 3000]:
        lines = [call(number, turns) for number in range(CANISTERS)] * CALLS
        whole, without = script("whole", CANISTERS, [*lines, "drain\n"]), script("made", CANISTERS, lines)
        times = best([[(path, count, set(range(count)))] for count in (1, 2, 4) for path in (whole, without)])
        one, two, four = [times[place] - times[place + 1] for place in (0, 2, 4)]
        each = lambda took: f"{1e6 * took / len(lines):.2f} us"
        print(
            f"{len(lines):,} messages of {instructions(turns):,} instructions in {CALLS:,} rounds: a message takes {each(one)}"
            f" with one worker, {each(two)} with two, {two / one:.2f} times, {each(four)} with four, {four / one:.2f} times",
            flush=True,
        )


large_messages()
small_messages()
