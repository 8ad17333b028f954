#!/usr/bin/env python3
"""Writes binary AIGER files of 1 to 16 MB for the reader's times into a folder: bench/aiger/make.py FOLDER."""
import os
import random
import sys

MOST = 400_000
LIMIT = 16_777_216


def difference(value):
    """A number in groups of seven bits, the low group first."""
    groups = bytearray()
    while value > 127:
        groups.append(value % 128 + 128)
        value //= 128
    groups.append(value)
    return bytes(groups)


def gates_of(source, first, count):
    """So many gates from this variable on, each of two literals before it."""
    found = bytearray()
    for variable in range(first, first + count):
        left = source.randrange(2, 2 * variable)
        right = source.randrange(2, 2 * variable)
        left, right = max(left, right), min(left, right)
        found += difference(2 * variable - left) + difference(left - right)
    return bytes(found)


def file_of(size, inputs, latches, outputs, gates):
    """A file of about this many bytes, whose symbols fill what records leave."""
    source = random.Random(size)
    greatest = inputs + latches + gates
    head = b"aig %d %d %d %d %d\n" % (greatest, inputs, latches, outputs, gates)
    nexts = b"".join(b"%d\n" % source.randrange(2, 2 * greatest + 2) for _ in range(latches))
    shown = b"".join(b"%d\n" % source.randrange(2, 2 * greatest + 2) for _ in range(outputs))
    body = head + nexts + shown + gates_of(source, inputs + latches + 1, gates)
    named = [(b"i", k) for k in range(inputs)] + [(b"l", k) for k in range(latches)] + [(b"o", k) for k in range(outputs)]
    left = size - len(body)
    parts = [body]
    for place, (letter, number) in enumerate(named):
        key = b"%s%d" % (letter, number)
        room = left // (len(named) - place) - len(key) - 2
        name = b"n%s" % key
        name += b"_" * min(4096 - len(name), max(0, room - len(name)))
        line = b"%s %s\n" % (key, name)
        left -= len(line)
        parts.append(line)
    return b"".join(parts)[:LIMIT]


def main():
    if len(sys.argv) != 2 or sys.argv[1].startswith("-"):
        sys.exit(__doc__)
    folder = sys.argv[1]
    os.makedirs(folder, exist_ok=True)
    for megabytes in (1, 2, 4, 8, 16):
        size = megabytes * 1_000_000
        variables = min(MOST, 150_000 * megabytes)
        ports = variables // 20
        text = file_of(size, ports, ports, ports, variables - 2 * ports)
        with open(f"{folder}/{megabytes}mb.aig", "wb") as file:
            file.write(text)


main()
