#!/usr/bin/env python3
"""Makes pairs of circuits with Yosys and ABC, each family over three doublings: bench/pipelines/make.py FOLDER

For each Verilog design NAME it writes NAME.v, NAME.a.blif, which Yosys mapped, and NAME.b.blif, which ABC changed:
pipelines are retimed and resynthesised; circuits with feedback, which go to FOLDER/feedback, are resynthesised and keep the
names of their latches. It needs `yosys` and `berkeley-abc`.
"""
import pathlib
import subprocess
import sys

RESYN2 = "balance; rewrite; refactor; balance; rewrite; rewrite -z; balance; refactor -z; rewrite -z; balance"
# Where latches move: towards few latches, or towards a short cycle. The file is read afresh before each.
DRETIME_RESYN2 = f"strash; zero; dretime; strash; {RESYN2}"
RETIME_DC2 = "strash; zero; retime; strash; dc2"
# No latch moves.
KEEP_RESYN2 = f"strash; {RESYN2}"


def filter_of(taps):
    """A filter whose taps are added up in a tree, with a rank of latches after each level."""
    lines = [f"module top(input clk, input [3:0] x, output reg [{taps.bit_length() + 4}:0] y);"]
    lines += [f"  reg [3:0] d{i};" for i in range(taps)]
    lines.append("  always @(posedge clk) begin d0 <= x;")
    lines += [f"    d{i} <= d{i - 1};" for i in range(1, taps)]
    lines.append("  end")
    level, width, words = 0, 4, [f"d{i}" for i in range(taps)]
    while len(words) > 1:
        level, width = level + 1, width + 1
        sums = [f"s{level}_{i}" for i in range(len(words) // 2)]
        for i, name in enumerate(sums):
            lines.append(f"  reg [{width - 1}:0] {name};")
            lines.append(f"  always @(posedge clk) {name} <= {words[2 * i]} + {words[2 * i + 1]};")
        words = sums
    lines += [f"  always @(posedge clk) y <= {words[0]};", "endmodule"]
    return lines


def sorter_of(count):
    """A bitonic sorter of words of two bits, with a rank of latches after each column."""
    lines = [f"module top(input clk, input [{2 * count - 1}:0] x, output [{2 * count - 1}:0] y);"]
    words = [f"x[{2 * i + 1}:{2 * i}]" for i in range(count)]
    column, size = 0, 2
    while size <= count:
        step = size // 2
        while step:
            column += 1
            names = [f"w{column}_{i}" for i in range(count)]
            lines += [f"  reg [1:0] {name};" for name in names]
            lines.append("  always @(posedge clk) begin")
            for i in range(count):
                j = i ^ step
                low, high = (words[i], words[j]) if i < j else (words[j], words[i])
                # The lesser word goes to the lower place where the block rises.
                least = (i < j) == (not i & size)
                test = f"{low} < {high}" if least else f"{high} < {low}"
                lines.append(f"    {names[i]} <= {test} ? {low} : {high};")
            lines.append("  end")
            words, step = names, step // 2
        size *= 2
    lines += [f"  assign y = {{{', '.join(reversed(words))}}};", "endmodule"]
    return lines


def butterfly_of(count):
    """A network of switches that exchanges bits at distance 1, 2, 4.., each rank by a control of its own."""
    ranks = count.bit_length() - 1
    lines = [f"module top(input clk, input [{count - 1}:0] x, input [{ranks * count // 2 - 1}:0] c, output [{count - 1}:0] y);"]
    word = "x"
    for rank in range(ranks):
        lines += [f"  reg [{count - 1}:0] r{rank};", "  always @(posedge clk) begin"]
        for i in range(count):
            switch = rank * count // 2 + (i >> (rank + 1) << rank | i & ((1 << rank) - 1))
            lines.append(f"    r{rank}[{i}] <= c[{switch}] ? {word}[{i ^ 1 << rank}] : {word}[{i}];")
        lines.append("  end")
        word = f"r{rank}"
    lines += [f"  assign y = {word};", "endmodule"]
    return lines


def multiplier_of(bits):
    """A multiplier with a rank of latches behind its partial products, and one behind their sum."""
    lines = [f"module top(input clk, input [{bits - 1}:0] a, input [{bits - 1}:0] b, output reg [{2 * bits - 1}:0] p);"]
    for i in range(bits):
        lines += [f"  reg [{bits - 1}:0] part{i};", f"  always @(posedge clk) part{i} <= a & {{{bits}{{b[{i}]}}}};"]
    total = " + ".join(f"({{{bits}'d0, part{i}}} << {i})" for i in range(bits))
    lines += [f"  always @(posedge clk) p <= {total};", "endmodule"]
    return lines


def counter_of(bits):
    """A counter with an enable, a load and a limit."""
    return [
        f"module top(input clk, input run, input load, input [{bits - 1}:0] x, output reg [{bits - 1}:0] n, output full);",
        f"  assign full = n >= {{{bits}{{1'b1}}}} - x;",
        "  always @(posedge clk) if (load) n <= x; else if (run) n <= full ? 0 : n + 1;",
        "endmodule",
    ]


def accumulator_of(bits):
    """A sum that a sample is added to or taken from."""
    return [
        f"module top(input clk, input clear, input down, input [{bits - 1}:0] x, output reg [{bits - 1}:0] sum);",
        "  always @(posedge clk) if (clear) sum <= 0; else sum <= down ? sum - x : sum + x;",
        "endmodule",
    ]


def machine_of(states):
    """A state machine that goes on at its own input, back at another, and else stays."""
    width = (states - 1).bit_length()
    lines = [f"module top(input clk, input reset, input [{states - 1}:0] go, input back, output reg [{width - 1}:0] at, output last);"]
    lines += ["  always @(posedge clk) if (reset) at <= 0; else case (at)"]
    lines += [f"    {i}: if (go[{i}]) at <= {(i + 1) % states}; else if (back) at <= {(i - 1) % states};" for i in range(states)]
    lines += ["    endcase", f"  assign last = at == {states - 1};", "endmodule"]
    return lines


def make(folder, name, lines, commands):
    verilog, a, b = (folder / f"{name}.{end}" for end in ("v", "a.blif", "b.blif"))
    verilog.write_text("\n".join(lines) + "\n")
    flow = f"read_verilog {verilog}; synth -flatten -top top; dfflegalize -cell $_DFF_P_ 01; opt_clean; abc; opt_clean -purge; write_blif -noalias {a}"
    subprocess.run(["yosys", "-q", "-p", flow], check=True)
    subprocess.run(["berkeley-abc", "-q", f"read_blif {a}; {commands}; write_blif {b}"], check=True, capture_output=True)


def main():
    if len(sys.argv) != 2 or sys.argv[1].startswith("-"):
        sys.exit(__doc__)
    folder = pathlib.Path(sys.argv[1])
    folder.mkdir(parents=True, exist_ok=True)
    for size in (4, 8, 16, 32):
        make(folder, f"filter_{size:02}", filter_of(size), DRETIME_RESYN2)
        make(folder, f"sorter_{size:02}", sorter_of(size), RETIME_DC2)
    for size in (8, 16, 32, 64):
        make(folder, f"butterfly_{size:02}", butterfly_of(size), RETIME_DC2)
    for size in (2, 4, 8, 16):
        make(folder, f"multiplier_{size:02}", multiplier_of(size), DRETIME_RESYN2)
    feedback = folder / "feedback"
    feedback.mkdir(exist_ok=True)
    for size in (8, 16, 32, 64):
        make(feedback, f"counter_{size:02}", counter_of(size), KEEP_RESYN2)
        make(feedback, f"accumulator_{size:02}", accumulator_of(size), KEEP_RESYN2)
        make(feedback, f"machine_{size:02}", machine_of(size), KEEP_RESYN2)


main()
