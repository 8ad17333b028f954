#!/usr/bin/env python3
"""Writes circuits whose latches share a cone, or stand in a row, behind one load enable, as BLIF files: bench/events/cones.py FOLDER

Each is to be compared with itself by `sec check --mode event`. A place that is unfolded once for each latch that is read as a constant there
costs as many times what it weighs as there are latches, which the limit on weights doesn't see.

`wide_38` has 38 latches over one gate of 1,000 inputs with 899 rows, and an output that reads them all; `shared_N` has N latches over one row of
1,000 gates; `chain_N` has N latches, each of which takes over the one before."""
import pathlib
import random
import sys

if len(sys.argv) != 2 or sys.argv[1].startswith("-"):
    sys.exit(__doc__)
FOLDER = pathlib.Path(sys.argv[1])
FOLDER.mkdir(parents=True, exist_ok=True)


def held(latch, data):
    """The latch q that takes over the data where e is 1, and else keeps its value."""
    yield f".names e {data} {latch} n{latch}"
    yield "11- 1"
    yield "0-1 1"
    yield f".latch n{latch} {latch} 3"


def write(name, inputs, outputs, lines):
    text = [f".model {name}", ".inputs e " + " ".join(inputs), ".outputs " + " ".join(outputs), *lines, ".end", ""]
    (FOLDER / f"{name}.blif").write_text("\n".join(text))


def over(name, inputs, count, data, cone):
    """So many latches, each over the cone's end and an input of its own."""
    lines = list(cone)
    for i in range(count):
        lines += [f".names {data} {inputs[i]} d{i}", "10 1", "01 1", *held(f"q{i}", f"d{i}")]
    latches = [f"q{i}" for i in range(count)]
    lines += [".names " + " ".join(latches) + " y", "1" * count + " 1"]
    write(name, inputs, ["y"], lines)


def wide():
    inputs, chance = [f"x{i}" for i in range(1000)], random.Random(1)
    rows = ["".join(chance.choice("01-") for _ in inputs) + " 1" for _ in range(899)]
    over("wide_38", inputs, 38, "g", [".names " + " ".join(inputs) + " g", *rows])


def shared(count):
    inputs = [f"x{i}" for i in range(max(count, 16))]
    cone, before = [], "x0"
    for i in range(1000):
        cone += [f".names {before} x{i % len(inputs)} g{i}", "10 1", "01 1" if i % 3 else "00 1"]
        before = f"g{i}"
    over(f"shared_{count}", inputs, count, before, cone)


def chain(count):
    lines, before = [], "x"
    for i in range(count):
        lines += held(f"q{i}", before)
        before = f"q{i}"
    write(f"chain_{count}", ["x"], [before], lines)


wide()
for number in (38, 500):
    shared(number)
for number in (100, 400):
    chain(number)
