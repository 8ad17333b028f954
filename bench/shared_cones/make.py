#!/usr/bin/env python3
"""Writes circuits whose outputs share one cone as BLIF files: bench/shared_cones/make.py FOLDER

Each is to be compared with itself. The names tell how many outputs there are, over how many gates, with how many inputs:
all gates stand in one row, and each output reads the row's end and an input, so that its cone is the whole row.
`apart` has as many outputs, each over a row of its own."""
import pathlib
import sys

if len(sys.argv) != 2 or sys.argv[1].startswith("-"):
    sys.exit(__doc__)
folder = pathlib.Path(sys.argv[1])
folder.mkdir(parents=True, exist_ok=True)


def row(name, first, inputs, gates):
    """A row of gates, each of which reads the one before and an input."""
    before = f"x{first % inputs}"
    for i in range(gates):
        yield f".names {before} x{(first + i) % inputs} {name}{i}"
        yield "10 1"
        yield "01 1"
        before = f"{name}{i}"


def model(inputs, outputs, lines):
    yield ".model m"
    yield ".inputs " + " ".join(f"x{i}" for i in range(inputs))
    yield ".outputs " + " ".join(f"o{i}" for i in range(outputs))
    yield from lines
    yield ".end"


def shared(outputs, gates, inputs):
    lines = list(row("g", 0, inputs, gates))
    for i in range(outputs):
        lines += [f".names g{gates - 1} x{i % inputs} o{i}", "11 1"]
    return model(inputs, outputs, lines)


def along(outputs, gates, inputs):
    """The outputs read the row at places that stand equally far apart."""
    lines = list(row("g", 0, inputs, gates))
    for i in range(outputs):
        lines += [f".names g{(i + 1) * gates // outputs - 1} o{i}", "1 1"]
    return model(inputs, outputs, lines)


def apart(outputs, gates, inputs):
    lines = []
    for i in range(outputs):
        lines += row(f"g{i}_", i, inputs, gates // outputs)
        lines += [f".names g{i}_{gates // outputs - 1} o{i}", "1 1"]
    return model(inputs, outputs, lines)


def write(name, lines):
    (folder / f"{name}.blif").write_text("\n".join(lines) + "\n")


for outputs, gates, inputs in ((1_000, 10_000, 64), (1_000, 100_000, 64), (10_000, 100_000, 64), (2_000, 100_000, 2_000)):
    write(f"shared_{outputs}_{gates}_{inputs}", shared(outputs, gates, inputs))
    write(f"along_{outputs}_{gates}_{inputs}", along(outputs, gates, inputs))
    write(f"apart_{outputs}_{gates}_{inputs}", apart(outputs, gates, inputs))
