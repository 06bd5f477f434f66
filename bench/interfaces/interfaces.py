#!/usr/bin/env python3
"""Measures PROGRAM on scripts of `upgradable` lines that it writes to FILE: first of one file against `service : {}`, where
what the lines take without the interface files, spelled in as many digits, is taken off; then of two files whose types are
compared, each line once. `bench/interfaces` calls it. With PAIRS=1 in the environment only the latter are measured."""
import os
import subprocess
import sys

from measure import measured

program, path = sys.argv[1:]
LINES = 8
COMMAND = ["bash", "-c", 'ulimit -s 256 && exec "$0"', program]
SERVICE = "service : { f : (%s) -> () }\n"


def name(place):
    return "n%07d" % place


def definitions(count, type_at, name=name):
    return "".join("type %s = %s;\n" % (name(place), type_at(place)) for place in range(count)) + SERVICE % name(0)


def chain(count):
    """Definitions each of which names the next; the last one is a type."""
    return definitions(count, lambda place: name(place + 1) if place + 1 < count else "nat")


def ring(count):
    """The last one names the first."""
    return definitions(count, lambda place: name((place + 1) % count))


def late_ring(count):
    """The last one names the one in the middle."""
    return definitions(count, lambda place: name(place + 1 if place + 1 < count else count // 2))


def unbound(count):
    """The last one names none."""
    return definitions(count, lambda place: name(place + 1))


def repeated(count):
    """The last one has the name of the first."""
    return definitions(count, lambda place: "nat", lambda place: name(place % (count - 1)))


def lists(count):
    """Definitions each of which is an opt of the next; beside them a function and the service are types."""
    return definitions(count, lambda place: "opt " + (name(place + 1) if place + 1 < count else "nat"))


def long_name(size):
    """One definition, with a name of so many bytes."""
    return definitions(1, lambda place: "nat", lambda place: "n" * size)


def near_names(count):
    """A chain of definitions whose names differ in the last of 1,000 bytes alone."""
    long = lambda place: "n" * 992 + name(place)
    return definitions(count, lambda place: long(place + 1) if place + 1 < count else "nat", long)


def fields(count):
    """A record whose ids fall."""
    return "type A = record {%s};\n" % "".join(" %d : nat;" % place for place in reversed(range(count))) + SERVICE % "A"


def methods(count):
    """A service whose names fall, each method of a named type."""
    return "type F = func () -> ();\nservice : {%s}\n" % "".join(" %s : F;" % name(place) for place in reversed(range(count)))


def annotations(count):
    return "service : { f : () -> ()%s }\n" % (" query" * count)


def opts(count):
    """An opt in an opt, and so on."""
    return "type A = %snat\n" % ("opt " * count)


def records(count):
    """Braces that are opened alone."""
    return "type A = %s\n" % ("record { a : " * count)


def functions(count):
    """Functions in arguments of functions."""
    return "type A = %s\n" % ("func (a : " * count)


def comments(count):
    """Comments, the last one without its end."""
    return "/* a */" * count + "/*"


def digits(file):
    return file.encode().hex()


def written(lines, line):
    """Writes the script, in a process of its own: what this one holds would count as the program's memory."""
    child = os.fork()
    if child == 0:
        text = line()
        with open(path, "w") as script:
            for _ in range(lines):
                script.write(text)
        os._exit(0)
    os.waitpid(child, 0)
    return os.path.getsize(path) // lines


def row(kind, count):
    size = (written(LINES, lambda: "decode %s -\n" % digits(kind(count))) - len("decode  -\n")) // 2
    without, _ = measured(COMMAND, path)
    written(LINES, lambda: "upgradable %s %s\n" % (digits(kind(count)), digits("service : {}")))
    used, peak = measured(COMMAND, path)
    answer = subprocess.run(COMMAND, stdin=open(path, "rb"), stdout=subprocess.PIPE).stdout.decode().split("\n")[0]
    seconds = (used - without) / LINES
    print("%s %d, %d bytes: %.2f ms a line (%.2f ms without), peak memory %d MiB, %s"
          % (kind.__name__, count, size, 1000 * seconds, 1000 * without / LINES, peak // 1024, answer), flush=True)
    return seconds, size


def short(place):
    """A name of the letters a to z and A to Z, none of which is a word of the grammar: the last one is `_`."""
    letters = "abcdefghijklmnopqrstuvwxyzABCDEFGHIJKLMNOPQRSTUVWXYZ"
    return (short(place // 52 - 1)[:-1] if place >= 52 else "") + letters[place % 52] + "_"


def ring_of_vecs(count, step):
    """Definitions each of which is a vec of the next, the last one of the first; in the second file there is one less."""
    count += 1 - step
    return definitions(count, lambda place: "vec " + short((place + 1) % count), short)


def graph(count, step):
    """Records of 50 fields, each of which is one of these records, and another one in the second file."""
    fields = lambda place: "".join(short((place + step * at + 1) % count) + ";" for at in range(50))
    return definitions(count, lambda place: "record {%s}" % fields(place), short)


def pair(kind, count):
    size = written(1, lambda: "upgradable %s %s\n" % (digits(kind(count, 1)), digits(kind(count, 2))))
    with open(path + ".output", "w+") as output:
        used, peak = measured(COMMAND, path, 1, output.name)
        answer = output.readline().rstrip()
    print("%s %d against another, a line of %d bytes: %.2f s, peak memory %d MiB, %s"
          % (kind.__name__, count, size, used, peak // 1024, answer), flush=True)


def rows(kind, count):
    (small, fewer), (large, more) = row(kind, count // 4), row(kind, count)
    print("%s: %.2f times the bytes take %.2f times the time" % (kind.__name__, more / fewer, large / small), flush=True)


LARGE_FILES = [(chain, 10_000), (chain, 80_000), (ring, 80_000), (late_ring, 80_000), (unbound, 80_000), (repeated, 80_000),
               (lists, 9_998), (long_name, 1_040_000), (near_names, 1_000), (fields, 140_000), (methods, 140_000),
               (annotations, 340_000), (opts, 520_000), (records, 160_000), (functions, 200_000), (comments, 299_000)]

if "PAIRS" not in os.environ:
    for kind, count in LARGE_FILES:
        rows(kind, count)
for kind, count in [(ring_of_vecs, 2_500), (ring_of_vecs, 5_000), (ring_of_vecs, 9_998), (graph, 500), (graph, 1_000), (graph, 2_000)]:
    pair(kind, count)
