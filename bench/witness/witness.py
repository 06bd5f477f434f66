"""The measuring part of `bench/witness`: DRIVER PROGRAM FOLDER, the driver, the built program, and a folder for what
they read."""
import hashlib
import os
import resource
import subprocess
import sys

from leb128 import unsigned

DRIVER, PROGRAM, FOLDER = sys.argv[1:]
TURNS = 5
REQUESTS = int(os.environ.get("REQUESTS", 1 << 20))
STACK = 256 << 10


class Case:
    """A command that reads a file, measured in turns with others."""

    def __init__(self, command, path=os.devnull, limit=None):
        self.command, self.path, self.limit, self.times = [str(word) for word in command], path, limit, []

    def measure(self):
        with open(self.path, "rb") as source:
            before = resource.getrusage(resource.RUSAGE_CHILDREN).ru_utime
            ran = subprocess.run(self.command, stdin=source, stdout=subprocess.PIPE, preexec_fn=self.limit, check=False)
        self.times.append(resource.getrusage(resource.RUSAGE_CHILDREN).ru_utime - before)
        self.output = ran.stdout.decode().splitlines()

    def best(self):
        return min(self.times)


def in_turns(*cases):
    for _ in range(TURNS):
        for case in cases:
            case.measure()
    return [case.best() for case in cases]


def written(name, content):
    path = f"{FOLDER}/{name}"
    with open(path, "wb") as file:
        file.write(content)
    return path


# ---- a witness against the root, of a tree that is there


def against_the_root():
    times = 2
    cases = [Case([DRIVER, REQUESTS, *words, 0]) for words in [(0, 0, 1), (times, 0, 1), (0, times, 1), (0, times, 64)]]
    tree, *others = in_turns(*cases)
    root, one, many = [(other - tree) / times for other in others]
    print(f"a tree of {REQUESTS:,} requests is made, and found to be ordered, in {tree:.2f} s; its root hash takes {root:.3f} s")
    for name, seconds, case in [("one path", one, cases[2]), ("64 paths", many, cases[3])]:
        length = int(case.output[0].split()[1])
        print(f"a witness of {name}, {length:,} bytes: {seconds:.3f} s, {seconds / root:.2f} times the root's", flush=True)


# ---- the same in the program


def request_id(number):
    """Of the call with this number in a script of `bench/lib/calls.py`."""
    fields = {
        "request_type": b"call",
        "sender": b"\x04",
        "canister_id": (0).to_bytes(8, "big") + b"\x01\x01",
        "method_name": b"%05x" % number,
        "arg": b"",
        "ingress_expiry": unsigned(300_000_000_000),
        "nonce": number.to_bytes(8, "big"),
    }
    digest = lambda value: hashlib.sha256(value).digest()
    return digest(b"".join(sorted(digest(name.encode()) + digest(value) for name, value in fields.items())))


def by_the_program():
    calls = subprocess.run([sys.executable, "bench/lib/calls.py", str(REQUESTS)], stdout=subprocess.PIPE, check=True).stdout
    path = "/".join(label.hex() for label in [b"request_status", request_id(REQUESTS // 2), b"status"])
    line = f"witness {path}\n".encode()
    cases = [Case([PROGRAM], written(*file)) for file in [("lines", calls + b"bad\n"), ("end", calls), ("witness", calls + line + b"bad\n")]]
    lines, end, witness = in_turns(*cases)
    print(f"the program: {REQUESTS:,} calls are read in {lines:.2f} s; the rounds, the state and the root at the end take {end - lines:.2f} s more")
    print(f"the tree and a witness in place of these: {witness - lines:.2f} s more, {(witness - lines) / (end - lines):.2f} times")
    checked(calls + b"drain\n" + line, request_id(REQUESTS // 2))


def checked(script, id):
    """The witness's root is the line `root`, and it has the status under the id that is computed here."""
    ran = subprocess.run([PROGRAM], input=script, stdout=subprocess.PIPE, check=True).stdout
    said = subprocess.run(["examples/check-witness"], input=ran, stdout=subprocess.PIPE, check=True).stdout.decode().splitlines()
    assert f"  request_status/0x{id.hex()}/status {b'rejected'.hex()}" in said, said
    print(f"examples/check-witness, of the drained calls: {said[0]}", flush=True)


# ---- hostile bytes


def forks(levels):
    tree = b"\x81\x00"
    for _ in range(levels):
        tree = b"\x83\x01" + tree + tree
    return tree


def repeated(piece):
    return lambda bytes: (piece * (bytes // len(piece) + 1))[:bytes]


def whole(bytes):
    return forks((bytes // 4).bit_length() - 1)


# what they are, how they are made, how often they are read, and whether there is a tree
HOSTILE = [
    ("forks nest without end", repeated(b"\x83\x01"), 20_000, "false"),
    ("labels nest without end", repeated(b"\x83\x02\x40"), 20_000, "false"),
    ("forks of an empty tree and the next fork", repeated(b"\x83\x01\x81\x00"), 20_000, "false"),
    ("labels of 2^63 bytes", repeated(b"\x83\x02\x5b\x80" + bytes(7)), 20_000, "false"),
    ("leaves of 2^63 - 1 bytes", repeated(b"\x82\x03\x5b\x7f" + b"\xff" * 7), 20_000, "false"),
    ("all forks, as many on each side, without the last byte", lambda bytes: whole(bytes)[:-1], 5, "false"),
    ("the same with its last byte", whole, 5, "true"),
]


def small_stack():
    resource.setrlimit(resource.RLIMIT_STACK, (STACK, STACK))


def hostile_bytes():
    for name, content, reads, is_tree in HOSTILE:
        took = []
        for size in [2 << 20, 8 << 20]:
            path = written("hostile", content(size))
            none, some = [Case([DRIVER, 0, 0, 0, 0, times], path, small_stack) for times in (0, reads)]
            before, after = in_turns(none, some)
            assert some.output == [f"0 0 {is_tree}"], (name, some.output)
            took.append(1000 * (after - before) / reads)
        answer = "a tree" if is_tree == "true" else "NotTree"
        print(f"{name}: {answer}; 2 MiB in {took[0]:.4f} ms, 8 MiB in {took[1]:.4f} ms", flush=True)


hostile_bytes()
against_the_root()
by_the_program()
