#!/usr/bin/env python3
"""Writes the DIMACS files of the comparison into a folder: bench/dimacs/make.py FOLDER.

Two adders that say the same (carries by majority, carries by sums), compared in the last bit of their sum alone, as
a pair of outputs is, and in all bits; multipliers as an array and as a tree; pigeon holes; and random clauses of three
literals near the threshold. The numbers of the random clauses are fixed. An and of two literals that stands already is
used again, as in an and-inverter graph.
"""
import os
import random
import sys


class Cnf:
    def __init__(self):
        self.clauses = []
        self.variables = 0
        self.gates = {}

    def fresh(self):
        self.variables += 1
        return self.variables

    def conj(self, l, r):
        operands = (min(l, r), max(l, r))
        if operands in self.gates:
            return self.gates[operands]
        gate = self.gates[operands] = self.fresh()
        self.clauses += [[-gate, l], [-gate, r], [gate, -l, -r]]
        return gate

    def disj(self, l, r):
        return -self.conj(-l, -r)

    def xor(self, l, r):
        return self.conj(-self.conj(l, r), -self.conj(-l, -r))

    def write(self, path):
        with open(path, "w") as file:
            file.write(f"p cnf {self.variables} {len(self.clauses)}\n")
            for clause in self.clauses:
                file.write(" ".join(map(str, clause)) + " 0\n")


def differ(cnf, left, right):
    cnf.clauses.append([cnf.xor(l, r) for l, r in zip(left, right)])
    return cnf


def majority_add(cnf, a, b, c):
    """The sum and the carry of three bits, the carry by majority."""
    some = cnf.disj(cnf.conj(a, c), cnf.conj(b, c))
    return cnf.xor(cnf.xor(a, b), c), cnf.disj(cnf.conj(a, b), some)


def sums_add(cnf, a, b, c):
    """The sum and the carry of three bits, the carry by the sum of two."""
    carry = cnf.disj(cnf.conj(a, b), cnf.conj(cnf.xor(a, b), c))
    return cnf.xor(a, cnf.xor(b, c)), carry


def adders(width, whole):
    cnf = Cnf()
    first = second = cnf.fresh()
    left, right = [], []
    for _ in range(width):
        a, b = cnf.fresh(), cnf.fresh()
        one, first = majority_add(cnf, a, b, first)
        two, second = sums_add(cnf, a, b, second)
        left.append(one)
        right.append(two)
    if not whole:
        return differ(cnf, left[-1:], right[-1:])
    return differ(cnf, left + [first], right + [second])


def columns(cnf, a, b):
    """The products of each two bits, by their weight."""
    table = [[] for _ in range(2 * len(a))]
    for i, x in enumerate(a):
        for j, y in enumerate(b):
            table[i + j].append(cnf.conj(x, y))
    return table


def half_add(cnf, a, b):
    return cnf.xor(a, b), cnf.conj(a, b)


def array(cnf, a, b):
    """Row by row: each row of products is added to the sum of the rows before."""
    n = len(a)
    total = [cnf.conj(x, b[0]) for x in a] + [None] * n
    for j in range(1, n):
        carry = None
        for i in range(n):
            product = cnf.conj(a[i], b[j])
            before = total[i + j]
            bits = [bit for bit in (product, before, carry) if bit is not None]
            if len(bits) == 1:
                total[i + j], carry = bits[0], None
            elif len(bits) == 2:
                total[i + j], carry = half_add(cnf, *bits)
            else:
                total[i + j], carry = majority_add(cnf, *bits)
        total[n + j] = carry
    return total


def tree(cnf, a, b):
    """All products by weight; three bits of a weight become two until no weight has more than one."""
    table = columns(cnf, a, b) + [[]]
    for weight in range(2 * len(a)):
        bits = table[weight]
        while len(bits) > 1:
            if len(bits) == 2:
                here, carry = half_add(cnf, bits.pop(0), bits.pop(0))
            else:
                here, carry = sums_add(cnf, bits.pop(0), bits.pop(0), bits.pop(0))
            bits.append(here)
            table[weight + 1].append(carry)
    return [bits[0] if bits else None for bits in table[: 2 * len(a)]]


def multipliers(width):
    cnf = Cnf()
    a = [cnf.fresh() for _ in range(width)]
    b = [cnf.fresh() for _ in range(width)]
    left, right = array(cnf, a, b), tree(cnf, a, b)
    pairs = [(l, r) for l, r in zip(left, right) if l is not None and r is not None]
    return differ(cnf, [l for l, _ in pairs], [r for _, r in pairs])


def pigeons(holes):
    """One pigeon more than holes."""
    cnf = Cnf()
    sits = [[cnf.fresh() for _ in range(holes)] for _ in range(holes + 1)]
    cnf.clauses += sits
    for hole in range(holes):
        for one in range(holes + 1):
            for other in range(one):
                cnf.clauses.append([-sits[one][hole], -sits[other][hole]])
    return cnf


def at_random(variables, seed):
    cnf = Cnf()
    cnf.variables = variables
    source = random.Random(1000 * variables + seed)
    for _ in range(round(4.26 * variables)):
        chosen = source.sample(range(1, variables + 1), 3)
        cnf.clauses.append([v * source.choice((1, -1)) for v in chosen])
    return cnf


def main():
    if len(sys.argv) != 2 or sys.argv[1].startswith("-"):
        sys.exit(__doc__)
    folder = sys.argv[1]
    os.makedirs(folder, exist_ok=True)
    for width in (9, 16, 32, 64, 128, 256, 512, 1024):
        adders(width, False).write(f"{folder}/adders_last_bit_{width:04}.cnf")
        adders(width, True).write(f"{folder}/adders_all_bits_{width:04}.cnf")
    for width in (4, 5, 6, 7):
        multipliers(width).write(f"{folder}/multipliers_{width}.cnf")
    for holes in (4, 5, 6, 7, 8):
        pigeons(holes).write(f"{folder}/pigeons_{holes}.cnf")
    for variables in (60, 90, 120, 150):
        for seed in (1, 2, 3):
            at_random(variables, seed).write(f"{folder}/random_{variables:03}_{seed}.cnf")


if __name__ == "__main__":
    main()
