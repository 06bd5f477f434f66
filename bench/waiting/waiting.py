"""The measuring part of `bench/waiting`: FOLDER PROGRAM [BEFORE], a folder for scripts and the programs."""
import os
import subprocess
import sys

from leb128 import unsigned
from scripts import ANYBODY, CREATE, constant, identity, install, section, sized, text

FOLDER, *PROGRAMS = sys.argv[1:]
SIZES = [int(word) for word in os.environ.get("SIZES", "8000 32000").split()]
TURNS = int(os.environ.get("TURNS", "5"))
SHORT = 200_000


def again_and_again(method):
    """A module whose method `go` calls the management canister's method without an argument, as does each callback."""
    kinds = [b"\x60\x00\x00", b"\x60\x01\x7f\x00", b"\x60\x08" + b"\x7f" * 8 + b"\x00", b"\x60\x00\x01\x7f"]
    imports = [(b"call_new", 2), (b"call_perform", 3)]
    # the callee is the empty text; the table's one function is both callbacks
    words = b"".join(map(constant, [0, 0, 0, len(method), 0, 0, 0, 0])) + b"\x10\x00\x10\x01\x1a"
    return b"\x00asm\x01\x00\x00\x00" + b"".join([
        section(1, unsigned(len(kinds)) + b"".join(kinds)),
        section(2, unsigned(len(imports)) + b"".join(sized(b"ic0") + sized(name) + b"\x00" + unsigned(kind) for name, kind in imports)),
        section(3, b"\x02\x00\x01"),
        section(4, b"\x01\x70\x00\x01"),
        section(5, b"\x01\x00\x01"),
        section(7, b"\x01" + sized(b"canister_update go") + b"\x00\x02"),
        section(9, b"\x01\x00" + constant(0) + b"\x0b\x01\x03"),
        section(10, b"\x02" + sized(b"\x00" + words + b"\x0b") * 2),
        section(11, b"\x01\x00" + constant(0) + b"\x0b" + sized(method)),
    ])


def waiting(count, number=0):
    return f"call {ANYBODY} {text(identity(number))} m -\n" * count


def refused(method, count):
    """A canister is refused in each round, the messages of a second wait, and a third is idle."""
    go = f"call {ANYBODY} {text(identity(0))} go -\n"
    return CREATE * 3 + "drain\n" + install(0, again_and_again(method)) + "drain\n" + go + waiting(count, 1) + f"run {count}\n"


def lines(count, line):
    """So many messages to one of two canisters, and as many lines."""
    return CREATE * 2 + "drain\n" + waiting(count) + "".join(line(left) for left in range(count, 0, -1))


def from_many(count, place):
    """So many messages, each from another user, and as many picks."""
    users = (text(user.to_bytes(4, "big") + b"\x07") for user in range(count))
    calls = "".join(f"call {user} {text(identity(0))} m -\n" for user in users)
    return CREATE * 2 + "drain\n" + calls + "".join(f"pick {place(left)}\n" for left in range(count, 0, -1))


def made(count):
    """Sixty canisters are made in one round, while so many messages wait for another."""
    return CREATE * 2 + "drain\n" + waiting(count) + CREATE * 60 + "run 1\n"


def short(rest):
    return f"call {ANYBODY} rwlgt-iiaaa-aaaaa-aaaaa-cai a -\n" * SHORT + rest


KINDS = {
    "run": lambda count: lines(count, lambda left: "run 1\n"),
    "pick-first": lambda count: lines(count, lambda left: "pick 0\n"),
    "pick-refused": lambda count: lines(count, lambda left: f"pick {count - 1}\n"),
    "pick-last": lambda count: from_many(count, lambda left: left - 1),
    "pick-anywhere": lambda count: from_many(count, lambda left: (count - left) * 7919 % left),
    "run-and-pick": lambda count: lines(count, lambda left: "run 1\n" if left % 2 else "pick 0\n"),
    "state": lambda count: lines(count, lambda left: "state\n"),
    "query": lambda count: lines(count, lambda left: f"query {ANYBODY} {text(identity(1))} m -\n"),
    "made": made,
    "create": lambda count: refused(b"create_canister", count),
    "status": lambda count: refused(b"canister_status", count),
}
MEMORY = {"before any round": short(""), "drained": short("drain\n")}


class Case:
    """A program that reads a script, in turns with others. The script's last line is bad, so that the program
    ends there: without further rounds, and without the tree of the state."""

    def __init__(self, program, path):
        self.program, self.path, self.times, self.peak = program, path, [], 0

    def measure(self):
        child = os.fork()
        if child == 0:
            os.dup2(os.open(self.path, os.O_RDONLY), 0)
            os.dup2(os.open(os.devnull, os.O_WRONLY), 1)
            os.execv(self.program, [self.program])
        _, status, used = os.wait4(child, 0)
        if os.waitstatus_to_exitcode(status) != 3:
            sys.exit(f"{self.program}, {self.path}: status {os.waitstatus_to_exitcode(status)}")
        self.times.append(used.ru_utime + used.ru_stime)
        self.peak = max(self.peak, used.ru_maxrss)

    def best(self):
        return min(self.times)


def script(name, words):
    path = f"{FOLDER}/{name.replace(' ', '-')}"
    with open(path, "w") as to:
        to.write(words)
    return path


def printed(program, path):
    """All of the script, with at most one round at its end."""
    with open(path, "rb") as source:
        return subprocess.run([program, "--rounds", "1"], stdin=source, stdout=subprocess.PIPE, check=True).stdout


def in_turns(name, words):
    """The first case is of the program, a second of the one before it. Both are to print the same."""
    path = script(name, words)
    if len({printed(program, path) for program in PROGRAMS}) > 1:
        sys.exit(f"{name}: not the same output")
    cases = [Case(program, script(name, words + "bad\n")) for program in PROGRAMS]
    for _ in range(TURNS):
        for case in cases:
            case.measure()
    return cases


def row(kind):
    best = []
    for size in SIZES:
        cases = in_turns(f"{kind}-{size}", KINDS[kind](size))
        best.append(cases[0].best())
        again = f", {best[-1] / best[-2]:.2f} times as long" if best[1:] else ""
        before = f"; before {cases[1].best():.3f} s, so {best[-1] / cases[1].best():.3f} times as long" if cases[1:] else ""
        print(f"{kind}, {size:,} messages: {best[-1]:.3f} s{again}{before}", flush=True)


def memory(name):
    figures = [
        f"{case.peak} KiB, {case.peak * 1024 / os.path.getsize(case.path):.2f} times the script's bytes, {case.best():.3f} s"
        for case in in_turns(name, MEMORY[name])
    ]
    print(f"{SHORT:,} calls of 47 bytes, {name}: " + "; before ".join(figures), flush=True)


def main():
    for kind in os.environ.get("KINDS", " ".join([*KINDS, "memory"])).split():
        if kind in KINDS:
            row(kind)
        else:
            for name in MEMORY:
                memory(name)


main()
