"""The measuring part of `bench/rounds`: ROUNDS EXECUTE REPLICA FOLDER, the two drivers, the program, and a
folder for scripts."""
import os
import subprocess
import sys

ROUNDS, EXECUTE, REPLICA, FOLDER = sys.argv[1:]
TURNS = 5
ALL = 1_000_000
MANY = 1_024_000


def user_seconds(command, path, wanted):
    """User seconds of a command that reads the file; the last line that it writes is to be the wanted one."""
    with open(path, "rb") as source, open(f"{FOLDER}/output", "wb") as sink:
        child = os.fork()
        if child == 0:
            os.dup2(source.fileno(), 0)
            os.dup2(sink.fileno(), 1)
            os.execv(command[0], command)
        _, _, used = os.wait4(child, 0)
    last = subprocess.run(["tail", "-n", "1", f"{FOLDER}/output"], capture_output=True, text=True).stdout.strip()
    if last != wanted:
        sys.exit(f"{command}: {last}, and not {wanted}")
    return used.ru_utime


class Case:
    """A command that is measured in turns with others."""

    def __init__(self, command, wanted, path=os.devnull):
        self.command, self.wanted, self.path, self.times = [str(word) for word in command], wanted, path, []

    def measure(self):
        self.times.append(user_seconds(self.command, self.path, self.wanted))

    def best(self):
        return min(self.times)


def rounds(canisters, calls, count, turns, wanted):
    return Case([ROUNDS, canisters, calls, count, turns], wanted)


def in_turns(cases, turns=TURNS):
    for _ in range(turns):
        for case in cases:
            case.measure()


def drained_again():
    alone = Case([EXECUTE, "execute", MANY, 0], f"{29 * MANY} {MANY}")
    made = Case([EXECUTE, "make", MANY, 0], "0 0")
    nothing = Case([EXECUTE, "execute", 0, 0], "0 0")
    drained = rounds(64, 640, ALL, MANY // 640, f"{MANY} 0 {10 * MANY // 640}")
    submitted = rounds(64, 640, 0, MANY // 640, f"0 {MANY} 0")
    in_turns([alone, made, nothing, drained, submitted])
    each = lambda seconds: 1e9 * seconds / MANY
    execute = alone.best() - nothing.best()
    print(f"a message by execute alone: {each(execute):.0f} ns, of which it is made and dropped in {each(made.best() - nothing.best()):.0f} ns")
    print(
        f"a message of 640 to 64 canisters, drained again and again: {each(drained.best()):.0f} ns,"
        f" {drained.best() / execute:.2f} times execute alone; submitted alone {each(submitted.best()):.0f} ns,"
        f" so in rounds {each(drained.best() - submitted.best()):.0f} ns,"
        f" {(drained.best() - submitted.best()) / execute:.2f} times",
        flush=True,
    )


def one_round():
    sizes = [2**16, 2**18, 2**20]
    with_round = [rounds(64, size, 1, 1, f"64 {size - 64} 1") for size in sizes]
    without = [rounds(64, size, 0, 1, f"0 {size} 0") for size in sizes]
    in_turns(with_round + without)
    took = [one.best() - other.best() for one, other in zip(with_round, without)]
    for size, seconds, other in zip(sizes, took, without):
        print(f"one round over {size:,} messages to 64 canisters: {1000 * seconds:.1f} ms, {1e9 * seconds / size:.0f} ns a message; making them {1000 * other.best():.1f} ms")
    print(f"four times 2^18 messages take {took[2] / took[1]:.2f} times the time", flush=True)


def script(name, count, line):
    """So many call lines to no canister, and a line; then a bad line, at which the program ends."""
    path = f"{FOLDER}/{name}-{count}"
    lines = subprocess.run([sys.executable, "bench/lib/calls.py", str(count)], capture_output=True).stdout
    with open(path, "wb") as to:
        to.write(lines + line + b"bad\n")
    return Case([REPLICA], f"line {count + 2}: Form", path)


def one_round_of_the_program():
    sizes = [2**16, 2**18, 2**20]
    with_round = [script("round", size, b"run 1\n") for size in sizes]
    without = [script("lines", size, b"run 0\n") for size in sizes]
    in_turns(with_round + without)
    took = [one.best() - other.best() for one, other in zip(with_round, without)]
    for size, seconds, other in zip(sizes, took, without):
        print(
            f"one round over {size:,} calls to no canister: {1000 * seconds:.1f} ms; reading as many call lines"
            f" {1000 * other.best():.1f} ms, so the round takes {seconds / other.best():.2f} times as long"
        )
    print(f"four times 2^18 calls take {took[2] / took[1]:.2f} times the time", flush=True)


drained_again()
one_round()
one_round_of_the_program()
