"""What the measuring scripts beside this file share."""
import os
import sys


def measured(command, path, runs=5, output=os.devnull):
    """Processor seconds (user and system; the best of so many runs) and peak kilobytes of a command
    that reads the file from standard input and writes to a file that is there."""
    seconds, peak = [], 0
    for _ in range(runs):
        child = os.fork()
        if child == 0:
            os.dup2(os.open(path, os.O_RDONLY), 0)
            os.dup2(os.open(output, os.O_WRONLY | os.O_TRUNC), 1)
            os.execvp(command[0], command)
        _, status, used = os.wait4(child, 0)
        if status != 0:
            sys.exit(f"{command} failed")
        seconds.append(used.ru_utime + used.ru_stime)
        peak = max(peak, used.ru_maxrss)
    return min(seconds), peak


class Row:
    """Seconds of one read, one write and one `sha256sum` of a file, and peak kilobytes. PROGRAM
    takes how many times to read and to write standard input. What a process takes without them is
    taken off."""

    def __init__(self, program, path, reads, writes, hashes):
        start, _ = measured([program, "0", "0"], path)
        once, peak = measured([program, "1", "0"], path)
        self.totals = [measured([program, str(reads), "0"], path)[0] - start]
        self.read = self.totals[0] / reads
        self.written = None
        if writes:
            _, peak = measured([program, "0", "1"], path)
            self.totals.append(measured([program, "0", str(writes)], path)[0] - once)
            self.written = self.totals[1] / writes
        self.totals.append(measured(["sha256sum"] + [path] * hashes, path)[0])
        self.hashed = self.totals[-1] / hashes
        self.size = os.path.getsize(path)
        self.peak = peak

    def print(self, name):
        written = f" written in {1000 * self.written:.2f} ms," if self.written else ""
        totals = ", ".join(f"{total:.2f}" for total in self.totals)
        print(
            f"{name}, {self.size:,} bytes: read in {1000 * self.read:.2f} ms,{written}"
            f" sha256sum {1000 * self.hashed:.2f} ms (from {totals} s);"
            f" peak memory {self.peak // 1024} MiB",
            flush=True,
        )

    def print_against(self, name, small):
        written = ""
        if self.written:
            written = (
                f", written in {self.written / small.written:.2f} times"
                f" and {self.written / self.hashed:.2f} times sha256sum"
            )
        print(
            f"{name}: {self.size / small.size:.2f} times the bytes are read in"
            f" {self.read / small.read:.2f} times the time and {self.read / self.hashed:.2f} times"
            f" sha256sum{written}",
            flush=True,
        )
