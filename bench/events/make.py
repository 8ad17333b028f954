#!/usr/bin/env python3
"""Makes pairs of circuits with load enables, with Yosys and ABC: bench/events/make.py FOLDER

For each pair NAME it writes NAME.a.blif and NAME.b.blif. Register files, pipelines that stall, queues without pointers, shift registers
with hold and filters with loadable coefficients come from Verilog by the flow of docs/GUIDE.md. The second circuit of a pair is the first
one resynthesised by ABC (`resyn2`, or into LUTs), the same Verilog by another flow of Yosys (gates of two kinds alone), or other Verilog,
whose registers hold values from before or behind a part of the gates; some have a fault as well, as NAME.fault.blif. What is written as it
stands goes to FOLDER/sizes, each file to be compared with itself: latches with an enable each, or all with one, and then with one data or an input each. It needs `yosys` and
`berkeley-abc`.
"""
import pathlib
import subprocess
import sys

RESYN2 = "balance; rewrite; refactor; balance; rewrite; rewrite -z; balance; refactor -z; rewrite -z; balance"
CHANGES = {"resyn2": f"strash; {RESYN2}", "luts": "strash; dch; if -K 6; mfs"}
HEAD = "synth -flatten -top top; dfflegalize -cell $_DFF_P_ 01; opt_clean"
FLOW = f"{HEAD}; abc; opt_clean -purge; write_blif -noalias"
NANDS = f"{HEAD}; abc -g NAND,XOR; opt_clean -purge; write_blif -noalias"


def module(ports, body):
    return f"module top(input clk, {ports});\n{body}\nendmodule\n"


def bits_for(count):
    return max((count - 1).bit_length(), 1)


def registers(words, bits, fault=False):
    """A register file with a port to write and two to read."""
    top, last = bits_for(words) - 1, bits - 1
    lines = [f"reg [{last}:0] held [0:{words - 1}];", "always @(posedge clk) if (write) held[to] <= data;"]
    lines += [f"assign left = held[from_left];", f"assign right = held[from_right{' ^ 1' if fault else ''}];"]
    return module(f"input write, input [{top}:0] to, from_left, from_right, input [{last}:0] data, output [{last}:0] left, right", "\n".join(lines))


def stalled(bits, early=False, fault=False):
    """A product in three steps, all of which wait while `go` is 0. Early: each partial product is held, in place of the operands."""
    lines = [f"reg [{2 * bits - 1}:0] sum;"]
    if early:
        parts = [f"part{i}" for i in range(bits)]
        lines += [f"reg [{bits - 1}:0] {', '.join(parts)};", "always @(posedge clk) if (go) begin"]
        lines += [f"  {part} <= a & {{{bits}{{b[{i}]}}}};" for i, part in enumerate(parts)]
        total = " + ".join(f"({{{bits}'d0, {part}}} << {i})" for i, part in enumerate(parts))
    else:
        lines += [f"reg [{bits - 1}:0] left, right;", "always @(posedge clk) if (go) begin", "  left <= a; right <= b;"]
        total = " + ".join(f"({{{bits}'d0, left & {{{bits}{{right[{i}]}}}}}} << {i})" for i in range(bits))
    lines += [f"  sum <= {total}{' | 1' if fault else ''};", "  product <= sum ^ (sum >> 1);", "end"]
    return module(f"input go, input [{bits - 1}:0] a, b, output reg [{2 * bits - 1}:0] product", "\n".join(lines))


def steps(stages, bits, early=False, fault=False):
    """A pipeline whose stages have an enable each and add a constant input. Early: a stage holds the sum, in place of its operands."""
    lines = [f"wire [{bits - 1}:0] s0 = x;"]
    for i in range(1, stages + 1):
        amount = f"(add ^ {bits}'d{(i * 37) % (1 << bits)})"
        if early:
            lines += [f"reg [{bits - 1}:0] s{i};", f"always @(posedge clk) if (go[{i - 1}]) s{i} <= s{i - 1} + {amount};"]
        else:
            lines += [f"reg [{bits - 1}:0] l{i}, r{i};", f"always @(posedge clk) if (go[{i - 1}]) begin l{i} <= s{i - 1}; r{i} <= {amount}; end"]
            lines.append(f"wire [{bits - 1}:0] s{i} = l{i} + r{i};")
    lines.append(f"assign y = s{stages}{' ^ 1' if fault else ''};")
    return module(f"input [{stages - 1}:0] go, input [{bits - 1}:0] x, add, output [{bits - 1}:0] y", "\n".join(lines))


def queue(words, bits, late=False, fault=False):
    """A queue without pointers: each push moves all words on, and the level, an input, says which word is the oldest. It is handed out on
    a pop. Late: what is pushed is held as it comes, and its bits are turned behind the words."""
    last, top = bits - 1, bits_for(words) - 1
    turned = lambda word: f"({{{word}[0], {word}[{last}:1]}} ^ {word})"
    lines = [f"reg [{last}:0] " + ", ".join(f"w{i}" for i in range(words)) + ";", f"reg [{last}:0] oldest;", "always @(posedge clk) if (push) begin"]
    lines.append(f"  w0 <= {'data' if late else turned('data')};")
    lines += [f"  w{i} <= w{i - 1};" for i in range(1, words)]
    lines += ["end", "always @* case (level)"]
    word = (lambda i: turned(f"w{i}")) if late else (lambda i: f"w{i}")
    lines += [f"  {i}: oldest = {word(i)};" for i in range(words - 1)]
    lines += [f"  default: oldest = {word(words - (2 if fault else 1))};", "endcase", "always @(posedge clk) if (pop) read <= oldest;"]
    return module(f"input push, pop, input [{top}:0] level, input [{last}:0] data, output reg [{last}:0] read", "\n".join(lines))


def shifts(stages, bits, fault=False):
    """A shift register that holds its word while `go` is 0 and is cleared by an input."""
    last = bits - 1
    lines = [f"reg [{last}:0] " + ", ".join(f"s{i}" for i in range(stages)) + ";", "always @(posedge clk) if (clear) begin"]
    lines += [f"  s{i} <= {bits}'d0;" for i in range(stages)]
    lines += ["end else if (go) begin", "  s0 <= x;"]
    lines += [f"  s{i} <= s{i - 1};" for i in range(1, stages)]
    lines += ["end", f"assign y = s{stages - (2 if fault else 1)} ^ s0;"]
    return module(f"input go, clear, input [{last}:0] x, output [{last}:0] y", "\n".join(lines))


def filter_of(taps, bits, late=False, fault=False):
    """A filter: coefficients are loaded one by one, samples move on where they are valid. Late: the sum of the products is split before
    its register and added behind it."""
    last, top, wide = bits - 1, bits_for(taps) - 1, 2 * bits + bits_for(taps)
    lines = [f"reg [{last}:0] " + ", ".join(f"c{i}, x{i}" for i in range(taps)) + ";", "always @(posedge clk) if (load) case (which)"]
    lines += [f"  {i}: c{i} <= data;" for i in range(taps)]
    lines += ["endcase", "always @(posedge clk) if (valid) begin", "  x0 <= x;"]
    lines += [f"  x{i} <= x{i - 1};" for i in range(1, taps)]
    products = [f"({{{wide - bits}'d0, c{i}}} * x{i})" for i in range(taps - (1 if fault else 0))]
    if late:
        half = len(products) // 2
        lines += [f"  low <= {' + '.join(products[:half])};", f"  high <= {' + '.join(products[half:])};", "end", "assign y = low + high;"]
        lines.insert(0, f"reg [{wide - 1}:0] low, high;")
    else:
        lines += [f"  sum <= {' + '.join(products)};", "end", "assign y = sum;"]
        lines.insert(0, f"reg [{wide - 1}:0] sum;")
    return module(f"input load, valid, input [{top}:0] which, input [{last}:0] data, x, output [{wide - 1}:0] y", "\n".join(lines))


def yosys(folder, verilog, flow, blif):
    source = folder / "source.v"
    source.write_text(verilog)
    subprocess.run(["yosys", "-q", "-p", f"read_verilog {source}; {flow} {blif}"], check=True)
    source.unlink()


def change(a, b, commands):
    subprocess.run(["berkeley-abc", "-q", f"read_blif {a}; {commands}; write_blif {b}"], check=True, capture_output=True)


def pairs(folder, name, verilog, other, fault):
    """The first circuit of a family and a size beside each of the others."""
    first = folder / f"{name}.first"
    yosys(folder, verilog, FLOW, first)
    for kind, commands in CHANGES.items():
        (folder / f"{name}_{kind}.a.blif").write_text(first.read_text())
        change(first, folder / f"{name}_{kind}.b.blif", commands)
    (folder / f"{name}_nands.a.blif").write_text(first.read_text())
    yosys(folder, verilog, NANDS, folder / f"{name}_nands.b.blif")
    yosys(folder, fault, FLOW, folder / f"{name}_nands.fault.blif")
    if other:
        (folder / f"{name}_moved.a.blif").write_text(first.read_text())
        yosys(folder, other, FLOW, folder / f"{name}_moved.b.blif")
    first.unlink()


def held(inputs, latches):
    """Latches that load an input each, or keep what they have: (enable, data, name) of each. The output reads the first one."""
    yield ".model m"
    yield ".inputs " + " ".join(inputs)
    yield ".outputs y"
    for enable, data, name in latches:
        yield f".names {enable} {data} {name} n{name}"
        yield from ("11- 1", "0-1 1")
        yield f".latch n{name} {name}"
    yield f".names {latches[0][2]} {latches[-1][2]} y"
    yield from ("10 1", "01 1", ".end")


def sizes(folder):
    folder.mkdir(exist_ok=True)
    for count in (125, 250, 500):
        names = [f"e{i}" for i in range(count)]
        (folder / f"enables_{count}.blif").write_text("\n".join(held([*names, "x"], [(e, "x", f"q{i}") for i, e in enumerate(names)])) + "\n")
    for count in (3_750, 7_500, 15_000):
        lines = held(["e", "x"], [("e", "x", f"q{i}") for i in range(count)])
        (folder / f"latches_{count}.blif").write_text("\n".join(lines) + "\n")
    for count in (1_000, 2_000, 4_000, 15_000):
        names = [f"d{i}" for i in range(count)]
        (folder / f"words_{count}.blif").write_text("\n".join(held(["e", *names], [("e", d, f"q{i}") for i, d in enumerate(names)])) + "\n")


def main():
    if len(sys.argv) != 2 or sys.argv[1].startswith("-"):
        sys.exit(__doc__)
    folder = pathlib.Path(sys.argv[1])
    folder.mkdir(parents=True, exist_ok=True)
    for words, bits in ((8, 8), (16, 16), (32, 32), (64, 32)):
        pairs(folder, f"registers_{words:02}", registers(words, bits), None, registers(words, bits, fault=True))
    for make, name, word, family in (
        (stalled, "stalled", "early", (4, 8, 16)),
        (lambda n, **how: steps(n, 16, **how), "steps", "early", (4, 8, 16)),
        (lambda n, **how: queue(n, 32, **how), "queue", "late", (8, 16, 32)),
        (lambda n, **how: shifts(n, 32, **how), "shifts", "", (8, 16, 32)),
        (lambda n, **how: filter_of(n, 4, **how), "filter", "late", (4, 8, 16)),
    ):
        for size in family:
            moved = make(size, **{word: True}) if word else None
            pairs(folder, f"{name}_{size:02}", make(size), moved, make(size, fault=True))
    sizes(folder / "sizes")


main()
