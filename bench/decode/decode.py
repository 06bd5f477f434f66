#!/usr/bin/env python3
"""Writes a script of one line to standard output: a `show` line where the first word is `show`, else a `decode` line.
The next word names its kind:

rings A B [late]   vec types in rings of A and of B entries, asked for at one argument; with `late`
                   variants in rings, of which one late pair does not fit
fields A B N       the same late pair, asked for by N opt fields
graphs N M         a vec of records without any: N records of M fields, each of which is one of these records, against
                   N such records with other fields, so that all N times N pairs are asked for
values N           N values, each read at opt
records N M        N empty records, read at M opt fields
"""
import sys

from leb128 import index as reference, unsigned

NAT, TEXT, RESERVED, EMPTY_RECORD = b"\x7d", b"\x71", b"\x70", b"\x6c\x00"


def header(entries, argument):
    return b"DIDL" + unsigned(len(entries)) + b"".join(entries) + b"\x01" + argument


def vec(item):
    return b"\x6d" + item


def opt(item):
    return b"\x6e" + item


def record(types):
    fields = b"".join(unsigned(number) + type for number, type in enumerate(types))
    return b"\x6c" + unsigned(len(types)) + fields


def variant(first, second):
    return b"\x6b\x02\x00" + first + b"\x01" + second


def vec_ring(length):
    return [vec(reference((place + 1) % length)) for place in range(length)]


def variant_ring(length, most, last):
    return [variant(reference((place + 1) % length), last if place == length - 1 else most)
            for place in range(length)]


def rings(words):
    lower, upper = int(words[0]), int(words[1])
    if "late" in words:
        return (header(variant_ring(upper, RESERVED, NAT), reference(0)),
                header(variant_ring(lower, NAT, TEXT), reference(0)) + b"\x01\x00")
    return (header(vec_ring(upper), reference(0)), header(vec_ring(lower), reference(0)) + b"\x00")


def fields(words):
    lower, upper, count = (int(word) for word in words)
    expected = variant_ring(upper, RESERVED, NAT) + [opt(reference(0)), record([reference(upper)] * count)]
    sent = variant_ring(lower, NAT, TEXT) + [record([reference(0)] * count)]
    return (header(expected, reference(upper + 1)),
            header(sent, reference(lower)) + b"\x01\x00" * count)


def graph(count, width, step):
    """Records of which each names others: the field `at` of the record `place` is the record `place + step * at + 1`."""
    return [record([reference((place + step * at + 1) % count) for at in range(width)]) for place in range(count)]


def graphs(words):
    count, width = int(words[0]), int(words[1])
    expected, sent = (graph(count, width, step) + [vec(reference(0))] for step in (2, 1))
    return (header(expected, reference(count)), header(sent, reference(count)) + b"\x00")


def values(words):
    count = int(words[0])
    return (header([vec(reference(1)), opt(NAT)], reference(0)),
            header([vec(NAT)], reference(0)) + unsigned(count) + b"\x2a" * count)


def records(words):
    count, width = int(words[0]), int(words[1])
    expected = [vec(reference(1)), record([reference(2)] * width), opt(NAT)]
    return (header(expected, reference(0)),
            header([vec(reference(1)), EMPTY_RECORD], reference(0)) + unsigned(count))


kinds = {"rings": rings, "fields": fields, "graphs": graphs, "values": values, "records": records}
words = sys.argv[1:]
verb = words.pop(0) if words[0] == "show" else "decode"
expected, message = kinds[words[0]](words[1:])
print(verb, expected.hex(), message.hex())
