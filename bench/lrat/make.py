#!/usr/bin/env python3
"""Writes what bench/lrat/converts asks, into a folder: bench/lrat/make.py FOLDER

Pairs of circuits of which `sec check` leaves some outputs undecided, as NAME.a.blif and NAME.b.blif: sums of several numbers in another order. And as
clauses multipliers as an array and as a tree, in all bits together, of which it decides each output, and pigeon holes.
"""
import os
import pathlib
import sys

sys.path.insert(0, str(pathlib.Path(__file__).resolve().parents[1] / "dimacs"))
import make as dimacs  # noqa: E402


class Netlist(dimacs.Cnf):
    """Gates as lines of BLIF. A literal is the number of a net, negative where it is inverted."""

    def __init__(self, inputs):
        super().__init__()
        self.lines, self.inputs = [], [self.fresh() for _ in range(inputs)]

    def conj(self, l, r):
        operands = (min(l, r), max(l, r))
        if operands not in self.gates:
            gate = self.gates[operands] = self.fresh()
            self.lines += [f".names n{abs(l)} n{abs(r)} n{gate}", f"{int(l > 0)}{int(r > 0)} 1"]
        return self.gates[operands]

    def write_with(self, outputs, path):
        """Writes the circuit, with these literals as the outputs y0, y1, and so on."""
        names = [f"y{it}" for it in range(len(outputs))]
        made = [".model made", ".inputs " + " ".join(f"n{it}" for it in self.inputs), ".outputs " + " ".join(names)]
        for name, literal in zip(names, outputs):
            self.lines += [f".names n{abs(literal)} {name}", f"{int(literal > 0)} 1"]
        pathlib.Path(path).write_text("\n".join([*made, *self.lines, ".end"]) + "\n")


def added(net, a, b):
    """The sum of two numbers, one bit longer than the longer one."""
    total, carry = [], None
    for at in range(max(len(a), len(b))):
        bits = [it[at] for it in (a, b) if at < len(it)] + ([carry] if carry else [])
        if len(bits) == 1:
            total.append(bits[0])
            carry = None
        else:
            bit, carry = dimacs.half_add(net, *bits) if len(bits) == 2 else dimacs.majority_add(net, *bits)
            total.append(bit)
    return total + ([carry] if carry else [])


def total_of(width, count, is_tree):
    """The sum of some numbers, from the first to the last, or of halves, those with odd places first."""
    net = Netlist(width * count)
    numbers = [net.inputs[it * width : (it + 1) * width] for it in range(count)]

    def whole(some):
        if len(some) == 1:
            return some[0]
        return added(net, whole(some[len(some) // 2 :]), whole(some[: len(some) // 2]))

    if is_tree:
        return net, whole(numbers[::2] + numbers[1::2])
    total = numbers[0]
    for it in numbers[1:]:
        total = added(net, total, it)
    return net, total


def write_pair(folder, name, one, other):
    count = min(len(one[1]), len(other[1]))
    for side, (net, outputs) in (("a", one), ("b", other)):
        net.write_with(outputs[:count], f"{folder}/{name}.{side}.blif")


def main():
    if len(sys.argv) != 2 or sys.argv[1].startswith("-"):
        sys.exit(__doc__)
    folder = sys.argv[1]
    os.makedirs(folder, exist_ok=True)
    for width in (6, 7, 8):
        dimacs.multipliers(width).write(f"{folder}/multipliers_{width}.cnf")
    for width, count in ((8, 5), (8, 6), (16, 4), (32, 4)):
        write_pair(folder, f"sum_of_{count}_of_{width:02}_bits", total_of(width, count, False), total_of(width, count, True))
    for holes in (7, 8, 9):
        dimacs.pigeons(holes).write(f"{folder}/pigeons_{holes}.cnf")


main()
