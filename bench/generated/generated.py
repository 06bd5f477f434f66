"""The measuring part of `bench/generated`: PROGRAM [N ..]. How many messages the rounds of `--generate N` go through is
counted by walking its script with a list for each canister."""
import os
import sys
from collections import deque

# A canister with so many calls that are not answered makes no further one, and its caller is rejected.
MOST_CALLS = 500


class Generated:
    """What the rounds of the script do: how many rounds handle a message, how many messages canisters handle, and
    how many messages are in the list as each round begins, together."""

    def __init__(self, number):
        self.rounds = self.handled = self.passed = 0
        self.waiting = [deque() for _ in range(8)]
        self.open = [0] * 8
        self.rejected = 0
        # the canisters are made in one round and get code in another
        self.round_of_management(8)
        self.round_of_management(8)
        state = number
        for made in range(number):
            state = (state * 1103515245 + 12345) % 2**31
            drawn = state // 256
            route = [drawn // (32 * 8**place) % 8 for place in range(drawn // 8 % 4)]
            self.waiting[drawn % 8].append(("call", route, [], True))
            if (made + 1) % 50 == 0:
                self.round()
                self.round()
        while self.round():
            pass

    def round_of_management(self, messages):
        self.rounds += 1
        self.passed += messages

    def round(self):
        """Whether a message was there. A call has the rest of its route, and the canisters that wait for it."""
        count = sum(map(len, self.waiting))
        self.passed += count
        self.rounds += count > 0
        firsts = [(number, queue.popleft()) for number, queue in enumerate(self.waiting) if queue]
        for number, (kind, route, waits, fine) in firsts:
            self.handled += 1
            if kind == "answer":
                self.open[number] -= 1
            if kind == "call" and route and self.open[number] < MOST_CALLS:
                self.open[number] += 1
                self.waiting[route[0]].append(("call", route[1:], waits + [number], True))
            else:
                self.answer(waits, fine and not (kind == "call" and route))
        return count > 0

    def answer(self, waits, fine):
        if waits:
            self.waiting[waits[-1]].append(("answer", [], waits[:-1], fine))
        elif not fine:
            self.rejected += 1


def ran(program, number):
    """User seconds, peak KiB and the first line that is printed."""
    reader, writer = os.pipe()
    child = os.fork()
    if child == 0:
        os.dup2(writer, 1)
        os.execv(program, [program, "--generate", str(number)])
    os.close(writer)
    with os.fdopen(reader) as printed:
        first = printed.read().splitlines()[0]
    _, _, used = os.wait4(child, 0)
    return used.ru_utime, used.ru_maxrss, first


def main(program, numbers):
    runs = {number: [] for number in numbers}
    for _ in range(3):
        for number in numbers:
            runs[number].append(ran(program, number))
    for number in numbers:
        seconds, peak, first = min(runs[number])
        walked = Generated(number)
        if f" rejected {walked.rejected} " not in first:
            sys.exit(f"--generate {number}: {first}, and not {walked.rejected} rejected")
        print(
            f"--generate {number}: {seconds:.2f} s, {1e6 * seconds / walked.passed:.3f} us for each of {walked.passed:,}"
            f" messages that {walked.rounds:,} rounds go through; canisters handle {walked.handled:,} of them;"
            f" peak {peak // 1024} MiB; {first}"
        )


if __name__ == "__main__":
    main(sys.argv[1], [int(number) for number in sys.argv[2:]] or [2500, 10000])
