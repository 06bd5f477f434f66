#!/usr/bin/env python3
"""offsets.py WASM_OBJDUMP MODULE..: finds the offset of each word of each function of modules, and the name of each function, as
`wm_decode` does (sections, codes, words), and compares both with what `wasm-objdump -d` of wabt prints. Its status is 1 where
they differ."""
import re
import subprocess
import sys

BLOCKS = (0x02, 0x03, 0x04)
INDICES = (0x0C, 0x0D, 0x10, *range(0x20, 0x25), 0x3F, 0x40, 0x41, 0x42)


def number(data, at):
    """An unsigned LEB128, and the place after it."""
    value = shift = 0
    while True:
        value |= (data[at] & 127) << shift
        at += 1
        shift += 7
        if data[at - 1] < 128:
            return value, at


def after_numbers(data, at, count):
    for _ in range(count):
        at = number(data, at)[1]
    return at


def after_word(data, at):
    opcode = data[at]
    at += 1
    if opcode in BLOCKS:
        return at + 1
    if opcode in INDICES:
        return after_numbers(data, at, 1)
    if opcode == 0x0E:
        labels, at = number(data, at)
        return after_numbers(data, at, labels + 1)
    if opcode == 0x11 or 0x28 <= opcode <= 0x3E:
        return after_numbers(data, at, 2)
    if opcode == 0xFC:
        code, at = number(data, at)
        return at + {10: 2, 11: 1}.get(code, 0)
    return at


def sections(data, at):
    while at < len(data):
        size, begin = number(data, at + 1)
        yield data[at], begin, data[begin : begin + size]
        at = begin + size


def listing(module):
    """Where the content of the code section begins, that content, and the names of functions."""
    place, code, names = 0, b"", b""
    for kind, begin, content in sections(module, 8):
        if kind == 10:
            place, code = begin, content
        if kind == 0:
            length, at = number(content, 0)
            if content[at : at + length] == b"name":
                parts = sections(content, at + length)
                names = next((part for id, _, part in parts if id == 1), b"")
    return place, code, names


def words(place, code):
    """Of each function the offsets of its words, but for the last `end`."""
    count, at = number(code, 0)
    for _ in range(count):
        size, begin = number(code, at)
        at = begin + size
        runs, word = number(code, begin)
        for _ in range(runs):
            word = number(code, word)[1] + 1
        offsets = []
        while word < at:
            offsets.append(place + word)
            word = after_word(code, word)
        yield offsets[:-1]


def named(names):
    found = {}
    count, at = number(names, 0) if names else (0, 0)
    for _ in range(count):
        function, at = number(names, at)
        length, at = number(names, at)
        found.setdefault(function, names[at : at + length].decode(errors="replace"))
        at += length
    return found


def dumped(objdump, module):
    text = subprocess.run([objdump, "-d", module], stdout=subprocess.PIPE, text=True, check=True).stdout
    offsets, names = [], {}
    for line in text.splitlines():
        if head := re.match(r"[0-9a-f]+ func\[(\d+)\](?: <(.*)>)?:", line):
            offsets.append([])
            names[int(head[1])] = head[2]
        # A line with nothing after the bar goes on with the bytes of the word before.
        elif word := re.match(r" ([0-9a-f]+): [0-9a-f ]+\| *(?!local\[)\S", line):
            offsets[-1].append(int(word[1], 16))
    return [function[:-1] for function in offsets], names


def compare(objdump, name):
    module = open(name, "rb").read()
    place, code, names = listing(module)
    found, wanted = list(words(place, code)), dumped(objdump, name)
    differ = sum(a != b for a, b in zip(found, wanted[0])) + abs(len(found) - len(wanted[0]))
    read = named(names)
    misnamed = sum(read.get(function, text) != text for function, text in wanted[1].items() if text is not None)
    count = sum(map(len, found))
    print(f"{name}: {len(found)} functions, {count} words, code of {len(code)} bytes, names of {len(names)}: "
          f"{differ} functions differ, {misnamed} names differ")
    return differ + misnamed


sys.exit(sum([compare(sys.argv[1], name) for name in sys.argv[2:]]) > 0)
