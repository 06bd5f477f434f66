"""The measuring part of `bench/state`: DRIVER REPLICA FOLDER, the driver, the program, and a folder for files."""
import os
import sys

from scripts import CREATE, filled, install

DRIVER, REPLICA, FOLDER = sys.argv[1:]
TURNS = 3
MEMORY = 64 * 256 * 65536


class Case:
    """A command that is measured in turns with others: user seconds, the best, and peak KiB."""

    def __init__(self, command, path=os.devnull):
        self.command, self.path, self.best, self.peak, self.printed = command, path, None, 0, ""

    def measure(self):
        with open(self.path, "rb") as source, open(f"{FOLDER}/output", "wb") as sink:
            child = os.fork()
            if child == 0:
                os.dup2(source.fileno(), 0)
                os.dup2(sink.fileno(), 1)
                os.execvp(self.command[0], self.command)
            _, status, used = os.wait4(child, 0)
        if status != 0:
            sys.exit(f"{self.command}: status {status}")
        with open(f"{FOLDER}/output") as file:
            self.printed = file.read()
        self.best = used.ru_utime if self.best is None else min(self.best, used.ru_utime)
        self.peak = max(self.peak, used.ru_maxrss)


def in_turns(cases, turns=TURNS):
    for _ in range(turns):
        for case in cases:
            case.measure()


def driven(what, count):
    return Case([DRIVER, what, str(count)])


def script(name, text):
    path = f"{FOLDER}/{name}"
    with open(path, "w") as file:
        file.write(text)
    return Case([REPLICA], path)


def state_line():
    made = 64 * CREATE + "drain\n" + "".join(install(number, filled(256)) for number in range(64)) + "drain\n"
    with open(f"{FOLDER}/bytes", "wb") as file:
        file.write(bytes([90]) * MEMORY)
    without, line = script("without", made), script("line", made + "state\n")
    nothing, kit = driven("hash", 0), driven("hash", 64)
    tool = Case(["sha256sum", f"{FOLDER}/bytes"])
    in_turns([without, line, nothing, kit, tool])
    os.remove(f"{FOLDER}/bytes")
    seconds, hashed = line.best - without.best, kit.best - nothing.best
    print(
        f"a state line of 64 canisters of 256 pages: {seconds:.2f} s, {seconds / hashed:.2f} times the kit's sha2 over"
        f" the same bytes ({hashed:.2f} s); sha256sum {tool.best:.2f} s; peak {line.peak // 1024} MiB",
        flush=True,
    )


def tree():
    sizes = [2**18, 2**20]
    trees, roots, bare, pieces = (
        [driven(what, size) for size in sizes] for what in ["tree", "root", "requests", "hashes"]
    )
    in_turns(trees + roots + bare + pieces)
    took = [one.best - other.best for one, other in zip(trees, bare)]
    hashing = [one.best - other.best for one, other in zip(pieces, bare)]
    for size, seconds, hashed, whole, without in zip(sizes, took, hashing, trees, bare):
        print(
            f"the tree of {size:,} requests and its root: {seconds:.2f} s, {seconds / hashed:.2f} times its hashing"
            f" ({hashed:.2f} s); peak {whole.peak // 1024} MiB, {without.peak // 1024} MiB without it",
            flush=True,
        )
    for size, alone, without in zip(sizes, roots, bare):
        print(f"the root alone of {size:,}: {alone.best - without.best:.2f} s; peak {alone.peak // 1024} MiB", flush=True)
    print(f"four times the requests take {took[1] / took[0]:.2f} times the time", flush=True)


parts = {"line": state_line, "tree": tree}
for name in os.environ.get("PARTS", "line tree").split():
    parts[name]()
