#!/usr/bin/env python3
"""Writes the BLIF files of the reader's times into a folder: bench/reading/make.py FOLDER."""
import os
import random
import sys

MOST = 16_777_216


def write(folder, name, text):
    with open(f"{folder}/{name}.blif", "w") as file:
        file.write(text)


def gates():
    """Gates of two fan-ins up to the limit of a file."""
    parts = [".model m\n.inputs a b\n.outputs y\n"]
    left = MOST - len(parts[0]) - 100
    before, last = "a", "b"
    number = 0
    while left > 0:
        name = f"n{number}"
        part = f".names {before} {last} {name}\n11 1\n"
        left -= len(part)
        parts.append(part)
        before, last = last, name
        number += 1
    return "".join(parts[:-1]) + ".end\n"


def inputs(count, on_a_line):
    """A model with this many inputs, so many on each line."""
    lines = [
        ".inputs " + " ".join(f"x{i}" for i in range(start, min(start + on_a_line, count)))
        for start in range(0, count, on_a_line)
    ]
    return ".model m\n" + "\n".join(lines) + "\n.outputs y\n.names y\n.end\n"


def cover(width):
    """One gate whose rows fill a file."""
    names = " ".join(f"x{i}" for i in range(width))
    head = f".model m\n.inputs {names}\n.outputs y\n.names {names} y\n"
    source = random.Random(1)
    rows = ["".join(source.choice("01-") for _ in range(width)) + " 1\n" for _ in range(1000)]
    count = (MOST - len(head) - 10) // (width + 3)
    return head + "".join(rows[i % 1000] for i in range(count)) + ".end\n"


def compared(folder):
    """Two circuits of 12 inputs and 400 gates, with the covers of one listed by their ones and of the other by zeros."""
    source = random.Random(1)
    gates_of = []
    names = [f"x{i}" for i in range(12)]
    for number in range(400):
        gates_of.append((*source.sample(names[-40:], 2), f"g{number}"))
        names.append(f"g{number}")
    head = ".model m\n.inputs " + " ".join(names[:12]) + "\n.outputs g399\n"
    for name, rows in (("ones", "10 1\n01 1\n"), ("zeros", "11 0\n00 0\n")):
        body = "".join(f".names {l} {r} {out}\n{rows}" for l, r, out in gates_of)
        write(folder, name, head + body + ".end\n")


def main():
    if len(sys.argv) != 2 or sys.argv[1].startswith("-"):
        sys.exit(__doc__)
    folder = sys.argv[1]
    os.makedirs(folder, exist_ok=True)
    write(folder, "gates", gates())
    write(folder, "inputs_on_one_line", inputs(400_000, 400_000))
    write(folder, "inputs_on_many_lines", inputs(400_000, 10))
    write(folder, "cover_of_32_columns", cover(32))
    write(folder, "cover_of_1_column", cover(1))
    write(folder, "short_lines", ".model m\n" + ".names a\n" * 1_000_000 + ".end\n")
    write(folder, "models", "".join(f".model m{i}\n.end\n" for i in range(100_000)))
    write(folder, "names_in_rows", ".model m\n.names" + " a" * 8_000_000 + "\n.end\n")
    write(folder, "line_feeds", "\n" * MOST)
    write(folder, "one_line_feed_more", "\n" * (MOST + 1))
    compared(folder)


main()
