"""The measuring part of `bench/drains`: REPLICA ROUNDS FOLDER, the program, the driver of rounds, and a folder for scripts."""
import os
import subprocess
import sys

REPLICA, ROUNDS, FOLDER = sys.argv[1:]
SIZES = [25_000, 100_000, 400_000]
CANISTERS = 64
ALL = 1_000_000
TURNS = 5


def each(size, line):
    """Calls to no canister, each followed by a line."""
    path = f"{FOLDER}/each-{line}"
    with open(path, "w") as to:
        to.writelines(f"call 2vxsx-fae rwlgt-iiaaa-aaaaa-aaaaa-cai {call:05x} -\n{line}\n" for call in range(size))
    return path


class Case:
    """A command that is measured in turns with others. Where an output is wanted, its last line is to be that."""

    def __init__(self, command, path=os.devnull, wanted=None):
        self.command, self.path, self.wanted, self.times = [str(word) for word in command], path, wanted, []

    def measure(self):
        with open(self.path, "rb") as source, open(f"{FOLDER}/output" if self.wanted else os.devnull, "wb") as sink:
            child = os.fork()
            if child == 0:
                os.dup2(source.fileno(), 0)
                os.dup2(sink.fileno(), 1)
                os.execv(self.command[0], self.command)
            _, status, used = os.wait4(child, 0)
        if status:
            sys.exit(f"{self.command}: status {status}")
        if self.wanted and open(f"{FOLDER}/output").read().strip() != self.wanted:
            sys.exit(f"{self.command}: {open(f'{FOLDER}/output').read()}, and not {self.wanted}")
        self.times.append(used.ru_utime)

    def best(self):
        return min(self.times)


def in_turns(cases, turns):
    for _ in range(turns):
        for case in cases:
            case.measure()


def rounds(size, most, by_list=0):
    """So many calls, in up to so many rounds by one worker."""
    count = -(-size // CANISTERS) if most else 0
    wanted = f"{size} 0 {count}" if most else f"0 {size} 0"
    return Case([ROUNDS, CANISTERS, size, most, 1, 1, by_list], wanted=wanted)


def drained():
    whole, made = [[rounds(size, most) for size in SIZES] for most in (ALL, 0)]
    in_turns(whole + made, TURNS)
    took = [all_rounds.best() - none.best() for all_rounds, none in zip(whole, made)]
    for size, seconds, none in zip(SIZES, took, made):
        print(f"{size:,} calls: drained in {seconds:.3f} s, {1e6 * seconds / size:.2f} us a call; made in {none.best():.3f} s")
    for size, seconds, before in zip(SIZES[1:], took[1:], took):
        print(f"{size:,} calls are drained in {seconds / before:.2f} times the time of a quarter of them", flush=True)
    listed = rounds(SIZES[1], ALL, by_list=1)
    in_turns([listed], 1)
    seconds = listed.best() - made[1].best()
    print(f"{SIZES[1]:,} calls drained by rounds over the list: {seconds:.2f} s, {seconds / took[1]:.1f} times as long", flush=True)


def generated():
    few, many = [Case([REPLICA, "--generate", calls]) for calls in (2500, 10000)]
    in_turns([few, many], TURNS)
    print(
        f"--generate 10000: {many.best():.2f} s, {many.best() / few.best():.2f} times as long as --generate 2500"
        f" ({few.best():.2f} s)",
        flush=True,
    )


def one_by_one():
    drains, runs = [Case([REPLICA], each(100_000, line)) for line in ("drain", "run 1")]
    in_turns([drains, runs], TURNS)
    print(
        f"100,000 calls, each drained: {drains.best():.3f} s, by one round over the list each {runs.best():.3f} s,"
        f" so {drains.best() / runs.best():.3f} times as long",
        flush=True,
    )


generated()
one_by_one()
drained()
