#!/usr/bin/env python3
"""Writes pairs of circuits that agree under an assumption alone: bench/assumptions/make.py FOLDER

For each pair NAME there are NAME.a.blif, NAME.b.blif and NAME.c.blif, the assumption; and NAME.v, a Verilog file with both and the assumption as
one module, whose output `ok` is the assumption and whose outputs `a_..` and `b_..` are the circuits'.

Families, each of the size in its name:
  decoder_N    one of N words of 16 bits by N select lines: the first line that is 1 wins, or an or of ands; exactly one line is 1
  alu_N        eight operations on two words of N bits by eight select lines: the first line that is 1 wins, or an or of ands; exactly one line is 1
  codes_N      a decoder of N bits over two-rail codes: it reads the first rail, or the complement of the second; each bit has one rail of 1
  handshake_N  what is written in N cycles, where a write or a clear wins; never both
  wide_N       as codes_10, the values of 20 cycles together, under an assumption of N gates"""
import pathlib
import random
import sys


class Circuit:
    """A netlist that is written as BLIF and as Verilog."""

    def __init__(self, name, inputs):
        self.name, self.inputs, self.outputs, self.gates, self.latches = name, inputs, [], [], []

    def gate(self, kind, *reads):
        made = f"n{len(self.gates) + len(self.latches)}"
        self.gates.append((made, kind, reads))
        return made

    def latch(self, data):
        made = f"n{len(self.gates) + len(self.latches)}"
        self.latches.append((made, data))
        return made

    def all(self, kind, reads):
        """A balanced tree of gates of two inputs."""
        while len(reads) > 1:
            reads = [self.gate(kind, *reads[i:i + 2]) if i + 1 < len(reads) else reads[i] for i in range(0, len(reads), 2)]
        return reads[0]

    def choose(self, select, one, other):
        return self.gate("or", self.gate("and", select, one), self.gate("and", self.gate("not", select), other))

    def blif(self):
        rows = {"and": "11 1", "or": "1- 1\n-1 1", "xor": "10 1\n01 1", "not": "0 1", "same": "1 1"}
        lines = [f".model {self.name}", ".inputs " + " ".join(self.inputs), ".outputs " + " ".join(name for name, _ in self.outputs)]
        lines += [f".latch {data} {made}" for made, data in self.latches]
        lines += [f".names {' '.join(reads)} {made}\n{rows[kind]}" for made, kind, reads in self.gates]
        lines += [f".names {made} {name}\n1 1" for name, made in self.outputs]
        return "\n".join(lines + [".end", ""])

    def verilog(self, mark):
        """The lines of its gates, each name behind a mark, and the names of its outputs."""
        signs = {"and": "&", "or": "|", "xor": "^"}
        named = lambda name: name if name in self.inputs else f"{mark}_{name}"
        lines = [f"  reg {named(made)}; always @(posedge clk) {named(made)} <= {named(data)};" for made, data in self.latches]
        for made, kind, reads in self.gates:
            value = f" {signs[kind]} ".join(map(named, reads)) if kind in signs else ("~" if kind == "not" else "") + named(reads[0])
            lines.append(f"  wire {named(made)} = {value};")
        return lines, [(f"{mark}_{name}", named(made)) for name, made in self.outputs]


def one_hot(lines, name="onehot"):
    """Exactly one of the lines is 1."""
    made = Circuit(name, lines)
    some, two = lines[0], None
    for line in lines[1:]:
        both = made.gate("and", some, line)
        two = both if two is None else made.gate("or", two, both)
        some = made.gate("or", some, line)
    made.outputs = [("ok", made.gate("and", some, made.gate("not", two)))]
    return made


def first_wins(made, lines, values):
    """The value of the first line that is 1, else of the last."""
    chosen = values[-1]
    for line, value in reversed(list(zip(lines[:-1], values[:-1]))):
        chosen = made.choose(line, value, chosen)
    return chosen


def or_of_ands(made, lines, values):
    return made.all("or", [made.gate("and", line, value) for line, value in zip(lines, values)])


def decoder(count):
    lines = [f"s{i}" for i in range(count)]
    inputs = lines + [f"d{i}_{bit}" for i in range(count) for bit in range(16)]
    sides = []
    for name, way in (("first", first_wins), ("ands", or_of_ands)):
        made = Circuit(name, inputs)
        made.outputs = [(f"y{bit}", way(made, lines, [f"d{i}_{bit}" for i in range(count)])) for bit in range(16)]
        sides.append(made)
    return *sides, one_hot(lines)


def sums(made, left, right, carry):
    bits = []
    for x, y in zip(left, right):
        half = made.gate("xor", x, y)
        bits.append(made.gate("xor", half, carry) if carry else half)
        both = made.gate("and", x, y)
        carry = made.gate("or", both, made.gate("and", half, carry)) if carry else both
    return bits


def operations(made, left, right):
    """The words of the eight operations."""
    flipped = [made.gate("not", bit) for bit in right]
    one = made.gate("or", left[0], made.gate("not", left[0]))
    words = [sums(made, left, right, None), sums(made, left, flipped, one)]
    words += [[made.gate(kind, x, y) for x, y in zip(left, right)] for kind in ("and", "or", "xor")]
    words += [[made.gate("not", bit) for bit in left], left, right]
    return words


def alu(width):
    lines = [f"s{i}" for i in range(8)]
    left, right = ([f"{word}{bit}" for bit in range(width)] for word in "lr")
    sides = []
    for name, way in (("first", first_wins), ("ands", or_of_ands)):
        made = Circuit(name, lines + left + right)
        words = operations(made, left, right)
        made.outputs = [(f"y{bit}", way(made, lines, [word[bit] for word in words])) for bit in range(width)]
        sides.append(made)
    return *sides, one_hot(lines)


def rails(count, cycles=1):
    """A decoder by the first rails and by the second, and its values of so many cycles together; registers stand behind the bits, or behind the value."""
    first, second = ([f"{rail}{i}" for i in range(count)] for rail in "tf")
    sides = []
    for name in ("first", "second"):
        made = Circuit(name, first + second)
        value_of = lambda bits: made.all("xor", [made.gate("and", x, y) for x, y in zip(bits, bits[1:] + bits[:1])])
        bits = first if name == "first" else [made.gate("not", bit) for bit in second]
        values = [value_of(bits)]
        for _ in range(cycles - 1):
            if name == "first":
                bits = [made.latch(bit) for bit in bits]
                values.append(value_of(bits))
            else:
                values.append(made.latch(values[-1]))
        made.outputs = [("y", made.all("xor", values))]
        sides.append(made)
    return sides, first, second


def codes(count):
    sides, first, second = rails(count)
    made = Circuit("rails", first + second)
    made.outputs = [("ok", made.all("and", [made.gate("xor", x, y) for x, y in zip(first, second)]))]
    return *sides, made


def handshake(cycles):
    """Writes and clears of so many cycles."""
    inputs = ["write", "clear", "data"]
    sides = []
    for name in ("write", "clear"):
        made = Circuit(name, inputs)
        write, clear, data = inputs
        taken = made.gate("and", write, data)
        if name == "clear":
            taken = made.gate("and", taken, made.gate("not", clear))
        values = [taken]
        for _ in range(cycles - 1):
            values.append(made.latch(values[-1]))
        made.outputs = [("y", made.all("xor", values))]
        sides.append(made)
    made = Circuit("never", ["write", "clear"])
    made.outputs = [("ok", made.gate("not", made.gate("and", "write", "clear")))]
    return *sides, made


def wide(gates):
    """Ten two-rail bits of twenty cycles; the assumption says that each has one rail of 1, by so many gates that follow from that."""
    sides, first, second = rails(10, 20)
    chance = random.Random(gates)
    made = Circuit("wide", first + second)
    apart = [made.gate("xor", x, y) for x, y in zip(first, second)]
    known = [*apart, *first]
    while len(made.gates) < gates - 10:
        last, other = known[-1], chance.choice(known[-40:])
        known.append(made.gate("or", chance.choice(apart), made.gate("and", last, other)))
    made.outputs = [("ok", made.gate("and", made.all("and", apart), known[-1]))]
    return *sides, made


def write(folder, name, a, b, c):
    for letter, made in zip("abc", (a, b, c)):
        (folder / f"{name}.{letter}.blif").write_text(made.blif())
    (left, lefts), (right, rights), (whole, oks) = a.verilog("a"), b.verilog("b"), c.verilog("c")
    wires = [f"  assign {name} = {made};" for name, made in lefts + rights] + [f"  assign ok = {oks[0][1]};"]
    ports = ["clk"] + a.inputs + [name for name, _ in lefts + rights] + ["ok"]
    kinds = [f"  input {', '.join(['clk'] + a.inputs)};", f"  output {', '.join([name for name, _ in lefts + rights] + ['ok'])};"]
    (folder / f"{name}.v").write_text("\n".join([f"module both({', '.join(ports)});", *kinds, *left, *right, *whole, *wires, "endmodule", ""]))


def main():
    if len(sys.argv) != 2 or sys.argv[1].startswith("-"):
        sys.exit(__doc__)
    folder = pathlib.Path(sys.argv[1])
    folder.mkdir(parents=True, exist_ok=True)
    for family, sizes in ((decoder, (8, 32, 64)), (alu, (8, 32, 64)), (codes, (8, 16, 24)), (handshake, (4, 16, 64)), (wide, (500, 5000))):
        for size in sizes:
            write(folder, f"{family.__name__}_{size}", *family(size))


main()
