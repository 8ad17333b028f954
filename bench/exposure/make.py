#!/usr/bin/env python3
"""Writes circuits with feedback as BLIF files, whose exposed latches are timed: bench/exposure/make.py FOLDER"""
import pathlib
import sys

if len(sys.argv) != 2 or sys.argv[1].startswith("-"):
    sys.exit(__doc__)
folder = pathlib.Path(sys.argv[1])
folder.mkdir(parents=True, exist_ok=True)


def write(name, lines):
    (folder / f"{name}.blif").write_text("\n".join(lines) + "\n")


def model(latches, lines):
    yield ".model m"
    yield ".inputs a"
    yield f".outputs q{latches - 1}"
    yield from lines
    yield ".end"


def holding(latches):
    """Each latch holds itself."""
    return model(latches, (f".latch q{i} q{i}" for i in range(latches)))


def ring(latches):
    """One ring."""
    return model(latches, (f".latch q{(i - 1) % latches} q{i}" for i in range(latches)))


def rings(latches):
    """Rings of 50 latches, each of which leads on to the next ring."""
    lines = []
    for i in range(latches):
        first = i - i % 50
        if i % 50 == 0:
            lines += [f".names q{i + 49} {f'q{i - 1}' if i else 'a'} n{i}", "11 1"]
            lines.append(f".latch n{i} q{i}")
        else:
            lines.append(f".latch q{i - 1} q{i}")
    return model(latches, lines)


def shared(latches, gates):
    """Latches that all read one chain of gates, each of which reads a latch."""
    lines = []
    for i in range(gates):
        before = f"g{i - 1}" if i else "a"
        lines += [f".names {before} q{i % latches} g{i}", "11 1"]
    lines += [f".latch g{gates - 1} q{i}" for i in range(latches)]
    return model(latches, lines)


def between(latches, gates, cycles):
    """Latches behind one chain of gates and before another one, both of which a latch that holds itself reads or feeds, if cycles are
    wanted. No latch of the others is on a cycle."""
    lines = []
    for i in range(gates):
        lines += [f".names {f'g{i - 1}' if i else 'first' if cycles else 'a'} a g{i}", "11 1"]
        lines += [f".names {f'h{i - 1}' if i else 'a'} q{i % latches} h{i}", "11 1"]
    lines += [f".latch g{gates - 1} q{i}" for i in range(latches)]
    if cycles:
        lines += [".names first a hold", "11 1", ".latch hold first"]
        lines += [f".names h{gates - 1} last keep", "11 1", ".latch keep last"]
    else:
        lines += [f".latch h{gates - 1} last"]
    return (line.replace(f".outputs q{latches - 1}", ".outputs last") for line in model(latches, lines))


for count in (5_000, 10_000, 20_000):
    write(f"holding_{count}", holding(count))
for count in (1_250, 2_500, 5_000):
    write(f"ring_{count}", ring(count))
    write(f"rings_{count}", rings(count))
for count in (500, 1_000, 2_000):
    write(f"shared_{count}", shared(count, 50 * count))
for count, gates in ((500, 25_000), (1_000, 50_000), (2_000, 100_000)):
    write(f"pipeline_{count}", between(count, gates, False))
    write(f"between_{count}", between(count, gates, True))
