#!/usr/bin/env python3
"""Writes a multiplier of two words of so many bits as BLIF, y = a * b: bench/words/make.py [mac] [signed] [booth] SHAPE BITS [FAULT]

With `mac` it is y = a * b + c, with `signed` words with a sign are multiplied (by Baugh and Wooley), with `booth` the products are Booth's of two bits.
SHAPE is `array` (row by row, each by a ripple adder), `save` (rows by carry-save adders), `wallace` or `dadda`. These end with a ripple adder, or where
`-brent`, `-kogge` or `-select` stands behind SHAPE with Brent and Kung's, with Kogge and Stone's, or with one of carry select by four bits; with
`array` each row's adder is such a one. FAULT is a number: one gate, picked by it, gets another function."""
import random
import sys


class Netlist:
    def __init__(self):
        self.gates = []

    def gate(self, operands, rows):
        name = f"n{len(self.gates)}"
        self.gates.append([list(operands), list(rows), name])
        return name

    def both(self, x, y):
        return self.gate([x, y], ["11"])

    def half(self, x, y):
        return self.gate([x, y], ["10", "01"]), self.both(x, y)

    def full(self, x, y, z):
        total = self.gate([self.gate([x, y], ["10", "01"]), z], ["10", "01"])
        return total, self.gate([x, y, z], ["11-", "1-1", "-11"])

    def either(self, x, y):
        """The sum of two bits without their carry; None for 0."""
        return self.gate([x, y], ["10", "01"]) if x and y and x != y else None if x == y else x or y

    def some(self, x, y):
        return self.both(x, y) if x and y else None

    def chosen(self, by, one, zero):
        """The first bit where `by` is 1, else the second one."""
        if not one and not zero:
            return None
        if not one or not zero:
            return self.gate([by, one or zero], ["11"] if one else ["01"])
        return self.gate([by, one, zero], ["11-", "0-1"])

    def add(self, operands):
        """The sum and the carry of one to three bits; None for no carry."""
        if len(operands) == 1:
            return operands[0], None
        return self.half(*operands) if len(operands) == 2 else self.full(*operands)


def ripple(net, columns):
    """Columns of at most two bits each."""
    result, carry = [], None
    for column in columns:
        operands = column + ([carry] if carry else [])
        if not operands:
            result.append(None)
            carry = None
            continue
        total, carry = net.add(operands)
        result.append(total)
    return result


def brent(net, pairs):
    """The carry out of each place, by the carry that it makes and the one that it passes on, as Brent and Kung do."""
    carries, step = list(pairs), 1
    while step < len(carries):
        for k in range(2 * step - 1, len(carries), 2 * step):
            carries[k] = joined(net, carries[k], carries[k - step])
        step *= 2
    while step > 1:
        step //= 2
        for k in range(3 * step - 1, len(carries), 2 * step):
            carries[k] = joined(net, carries[k], carries[k - step])
    return [made for made, _ in carries]


def kogge(net, pairs):
    """The same as Kogge and Stone do."""
    carries, step = list(pairs), 1
    while step < len(carries):
        carries = [joined(net, pair, carries[k - step]) if k >= step else pair for k, pair in enumerate(carries)]
        step *= 2
    return [made for made, _ in carries]


def joined(net, high, low):
    """What both places make and pass on together; None for nothing."""
    passed = net.both(high[1], low[1]) if high[1] and low[1] else None
    more = net.both(high[1], low[0]) if high[1] and low[0] else None
    made = net.gate([high[0], more], ["1-", "-1"]) if high[0] and more else high[0] or more
    return made, passed


def prefixes(tree):
    def add(net, columns):
        halves = [net.add(column) if column else (None, None) for column in columns]
        carries = tree(net, [(carry, total) for total, carry in halves])
        result = []
        for k, (total, _) in enumerate(halves):
            before = carries[k - 1] if k else None
            result.append(net.gate([total, before], ["10", "01"]) if total and before else total or before)
        return result
    return add


def select(net, columns):
    """Four places at a time for both carries into them."""
    result, carry = [], None
    for start in range(0, len(columns), 4):
        block = columns[start:start + 4]
        if carry is None:
            total, carry = rippled(net, block, None)
            result += total
            continue
        (zero, out), (one, other) = rippled(net, block, None), rippled(net, block, net.gate([], [""]))
        result += [net.chosen(carry, y, x) for x, y in zip(zero, one)]
        carry = net.chosen(carry, other, out)
    return result


def rippled(net, columns, carry):
    result = []
    for column in columns:
        operands = column + ([carry] if carry else [])
        total, carry = net.add(operands) if operands else (None, None)
        result.append(total)
    return result, carry


def products(net, bits, signed):
    return [[net.gate([f"a[{j}]", f"b[{i}]"], ["0-", "-0"] if signed and (i == bits - 1) != (j == bits - 1) else ["11"]) for j in range(bits)] for i in range(bits)]


def booth(net, bits, width, signed):
    """Rows of places and bits: each takes 0, 1 or 2 times the first word, or its complement, by three bits of the second one."""
    top = [f"a[{bits - 1}]"] if signed else []
    first = lambda k: f"a[{k}]" if 0 <= k < bits else top[0] if top and k >= bits else None
    second = lambda k: f"b[{k}]" if 0 <= k < bits else f"b[{bits - 1}]" if signed and k >= bits else None
    rows = []
    for i in range(0, bits + (0 if signed else 1), 2):
        low, mid, high = second(i - 1), second(i), second(i + 1)
        once = net.either(low, mid)
        twice = net.gate([net.either(mid, high), once], ["10"]) if once and net.either(mid, high) else net.either(mid, high)
        row = []
        for k in range(i, width):
            x = net.some(once, first(k - i))
            y = net.some(twice, first(k - i - 1))
            bit = net.gate([x, y], ["1-", "-1"]) if x and y else x or y
            bit = net.either(bit, high)
            if bit:
                row.append((k, bit))
        rows.append(row)
        if high:
            rows.append([(i, high)])
    return rows


def rows_of(net, bits, more, kind):
    """Rows of places and bits, and how many places there are."""
    width = 2 * bits + (1 if more else 0)
    signed = "signed" in kind
    if "booth" in kind:
        rows = booth(net, bits, width, signed)
    else:
        rows = [[(i + j, product) for j, product in enumerate(row)] for i, row in enumerate(products(net, bits, signed))]
    if signed and "booth" not in kind:
        one = net.gate([], [""])
        rows.append([(bits, one), (2 * bits - 1, one)] + ([(2 * bits, one)] if more else []))
    if more:
        rows.append(list(enumerate(more)))
        if signed:
            rows.append([(2 * bits, more[-1])])
    return rows, width


def columns_of(net, bits, more, kind):
    rows, width = rows_of(net, bits, more, kind)
    columns = [[] for _ in range(width)]
    for row in rows:
        for place, bit in row:
            columns[place].append(bit)
    return columns


def array(net, bits, more, kind, last):
    rows, width = rows_of(net, bits, more, kind)
    total = [None] * width
    for row in rows:
        columns = [[bit] if bit else [] for bit in total]
        for place, bit in row:
            columns[place].append(bit)
        total = last(net, columns)
    return total


def save(net, bits, more, kind, last):
    rows, width = rows_of(net, bits, more, kind)
    rows = [dict(row) for row in rows]
    columns = [[] for _ in range(width)]
    for row in rows:
        later = [[] for _ in range(width)]
        for place in range(width):
            operands = columns[place] + ([row[place]] if place in row else [])
            if place in row and len(operands) > 1:
                total, carry = net.add(operands[-3:])
                later[place] += operands[:-3] + [total]
                if place + 1 < width:
                    later[place + 1].append(carry)
            else:
                later[place] += operands
        columns = later
    return last(net, reduced(net, columns, lambda height: 2))


def reduced(net, columns, bound):
    """Columns of at most two bits, by steps, each of which brings each column down to what `bound` gives for the greatest height."""
    while max(map(len, columns)) > 2:
        most = bound(max(map(len, columns)))
        later = [[] for _ in columns]
        for place, column in enumerate(columns):
            left = list(column)
            while len(left) >= 3 and len(left) + len(later[place]) > most or most == 2 and len(left) >= 3:
                total, carry = net.full(*left[:3])
                left = left[3:]
                later[place].append(total)
                if place + 1 < len(columns):
                    later[place + 1].append(carry)
            if len(left) == 2 and len(left) + len(later[place]) > most and most > 2:
                total, carry = net.half(*left)
                left = []
                later[place].append(total)
                if place + 1 < len(columns):
                    later[place + 1].append(carry)
            later[place] += left
        columns = later
    return columns


def wallace(net, bits, more, kind, last):
    return last(net, reduced(net, columns_of(net, bits, more, kind), lambda height: 2))


def dadda(net, bits, more, kind, last):
    def bound(height):
        steps = [2]
        while steps[-1] * 3 // 2 < height:
            steps.append(steps[-1] * 3 // 2)
        return steps[-1]
    return last(net, reduced(net, columns_of(net, bits, more, kind), bound))


SHAPES = {"array": array, "save": save, "wallace": wallace, "dadda": dadda}
LASTS = {"": ripple, "brent": prefixes(brent), "kogge": prefixes(kogge), "select": select}


def main():
    words = sys.argv[1:]
    kind = set()
    while words and words[0] in ("mac", "signed", "booth"):
        kind.add(words.pop(0))
    shape, *numbers = words or [""]
    shape, _, last = shape.partition("-")
    if shape not in SHAPES or last not in LASTS or len(numbers) not in (1, 2) or not all(word.isdecimal() for word in numbers):
        sys.exit(__doc__)
    bits, *fault = map(int, numbers)
    net = Netlist()
    more = [f"c[{k}]" for k in range(2 * bits)] if "mac" in kind else []
    total = SHAPES[shape](net, bits, more, kind, LASTS[last])
    if fault:
        draw = random.Random(fault[0])
        gate = draw.choice(net.gates)
        gate[1] = draw.choice([rows for rows in (["11"], ["10", "01"], ["1-", "-1"], ["10"], ["00", "11"]) if rows != gate[1]])
        gate[0] = gate[0][:2]
    print(f".model {shape}")
    print(".inputs", *(f"a[{k}]" for k in range(bits)), *(f"b[{k}]" for k in range(bits)), *more)
    print(".outputs", *(f"y[{k}]" for k in range(len(total))))
    for operands, rows, name in net.gates:
        print(".names", *operands, name)
        for row in rows:
            print(row, 1)
    for k, name in enumerate(total):
        print(f".names {name} y[{k}]\n1 1" if name else f".names y[{k}]")
    print(".end")


main()
