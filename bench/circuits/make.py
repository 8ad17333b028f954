#!/usr/bin/env python3
"""Writes large circuits as BLIF files, whose whole runs are timed: bench/circuits/make.py FOLDER"""
import itertools
import pathlib
import random
import sys

if len(sys.argv) != 2 or sys.argv[1].startswith("-"):
    sys.exit(__doc__)
folder = pathlib.Path(sys.argv[1])
folder.mkdir(parents=True, exist_ok=True)


def write(name, lines):
    (folder / f"{name}.blif").write_text("\n".join(lines) + "\n")


def chain(count, name, link):
    """A chain of so many parts, written from its end to its front; `link` gives the lines of one part."""
    yield ".model m"
    yield f".inputs {name}0"
    yield f".outputs {name}{count}"
    for i in range(count, 0, -1):
        yield from link(f"{name}{i - 1}", f"{name}{i}")
    yield ".end"


def inverters(count):
    return chain(count, "g", lambda before, after: (f".names {before} {after}", "0 1"))


def latches(count):
    return chain(count, "q", lambda before, after: (f".latch {before} {after}",))


def doubling(levels):
    """Each model has the next one twice, the last one a gate."""
    yield ".model top"
    yield ".inputs a"
    yield ".subckt m1 u=a"
    yield ".end"
    for i in range(1, levels):
        yield f".model m{i}"
        yield ".inputs u"
        yield f".subckt m{i + 1} u=u"
        yield f".subckt m{i + 1} u=u"
        yield ".end"
    yield f".model m{levels}"
    yield ".inputs u"
    yield ".names u w"
    yield "1 1"
    yield ".end"


def readers(gates, columns):
    """One net that is read at each column of each gate."""
    yield ".model m"
    yield ".inputs a"
    yield f".outputs g{gates - 1}"
    for i in range(gates):
        yield ".names " + "a " * columns + f"g{i}"
    yield ".end"


def adder_by_majority(bits):
    """The last bit of a sum behind one latch; carries by the majority of both bits and the carry before."""
    yield ".model m"
    yield ".inputs " + " ".join([f"a{i}" for i in range(bits)] + [f"b{i}" for i in range(bits)] + ["c0"])
    yield ".outputs s"
    for i in range(bits - 1):
        yield f".names a{i} b{i} c{i} c{i + 1}"
        yield from ("11- 1", "1-1 1", "-11 1")
    last = bits - 1
    yield f".names a{last} b{last} c{last} n"
    yield from ("100 1", "010 1", "001 1", "111 1")
    yield ".latch n s"
    yield ".end"


def adder_by_sums(bits):
    """The same with a latch behind each input, and carries by the sums of the operands."""
    yield ".model m"
    yield ".inputs " + " ".join([f"a{i}" for i in range(bits)] + [f"b{i}" for i in range(bits)] + ["c0"])
    yield ".outputs s"
    for i in range(bits):
        yield f".latch a{i} u{i}"
        yield f".latch b{i} v{i}"
    yield ".latch c0 k0"
    for i in range(bits - 1):
        yield f".names u{i} v{i} g{i}"
        yield "11 1"
        yield f".names u{i} v{i} h{i}"
        yield from ("10 1", "01 1")
        yield f".names g{i} h{i} k{i} k{i + 1}"
        yield from ("1-- 1", "-11 1")
    last = bits - 1
    yield f".names u{last} v{last} h{last}"
    yield from ("10 1", "01 1")
    yield f".names h{last} k{last} s"
    yield from ("10 1", "01 1")
    yield ".end"


def last_assignment(pairs, differs):
    """Outputs that each read 1,000 nodes of an and-inverter graph over 16 inputs, or those that differ from them where all inputs are 1."""
    draw = random.Random(1)
    inputs = [f"x{i}" for i in range(16)]
    yield ".model m"
    yield ".inputs " + " ".join(inputs)
    yield ".outputs " + " ".join(f"y{i}" for i in range(pairs))
    # An and is one node, and an exclusive or three.
    names = inputs[:]
    for i in range(244):
        left, right = draw.sample(names[:-1], 2)
        yield f".names {left} {right} a{i}"
        yield "11 1"
        yield f".names {names[-1]} a{i} g{i}"
        yield from ("10 1", "01 1")
        names.append(f"g{i}")
    for i in range(1, 16):
        yield f".names {f'all{i - 1}' if i > 1 else 'x0'} x{i} all{i}"
        yield "11 1"
    for i, (first, second, third) in zip(range(pairs), itertools.combinations(inputs, 3)):
        yield f".names {first} {second} {third} c{i}"
        yield "111 1"
        yield f".names g243 c{i} {'d' if differs else 'y'}{i}"
        yield from ("10 1", "01 1")
        if differs:
            yield f".names d{i} all15 y{i}"
            yield from ("10 1", "01 1")
    yield ".end"


def adders_apart(bits):
    """Whether two adders differ in some bit: one takes its carries by majority, the other by the sums of the operands."""
    yield ".model m"
    yield ".inputs " + " ".join([f"a{i}" for i in range(bits)] + [f"b{i}" for i in range(bits)] + ["c0"])
    yield ".outputs d"
    for i in range(bits):
        carry, other = f"c{i}", f"k{i}" if i else "c0"
        yield f".names a{i} b{i} {carry} c{i + 1}"
        yield from ("11- 1", "1-1 1", "-11 1")
        yield f".names a{i} b{i} {carry} s{i}"
        yield from ("100 1", "010 1", "001 1", "111 1")
        yield f".names a{i} b{i} h{i}"
        yield from ("10 1", "01 1")
        yield f".names a{i} b{i} g{i}"
        yield "11 1"
        yield f".names g{i} h{i} {other} k{i + 1}"
        yield from ("1-- 1", "-11 1")
        yield f".names h{i} {other} t{i}"
        yield from ("10 1", "01 1")
        yield f".names s{i} t{i} x{i}"
        yield from ("10 1", "01 1")
    yield f".names c{bits} k{bits} x{bits}"
    yield from ("10 1", "01 1")
    yield ".names " + " ".join(f"x{i}" for i in range(bits + 1)) + " d"
    yield from ("-" * i + "1" + "-" * (bits - i) + " 1" for i in range(bits + 1))
    yield ".end"


def never(bits):
    yield ".model m"
    yield ".inputs " + " ".join([f"a{i}" for i in range(bits)] + [f"b{i}" for i in range(bits)] + ["c0"])
    yield ".outputs d"
    yield ".names d"
    yield ".end"


write("chain_400000", inverters(400_000))
write("doubling_17", doubling(17))
write("readers_3999000", readers(1_000, 3_998))
write("latches_400000", latches(400_000))
for bits in (16, 32, 64, 128, 256):
    write(f"majority_{bits}", adder_by_majority(bits))
    write(f"sums_{bits}", adder_by_sums(bits))
    write(f"apart_{bits}", adders_apart(bits))
    write(f"never_{bits}", never(bits))
for pairs in (100, 300, 500):
    write(f"assignments_{pairs}", last_assignment(pairs, False))
    write(f"assignments_{pairs}_other", last_assignment(pairs, True))
for doublings in (50_000, 100_000, 200_000):
    write(f"chain_{doublings}", inverters(doublings))
