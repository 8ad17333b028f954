#!/usr/bin/env python3
"""Writes pairs of pipelines whose stages are rounds: bench/rounds/make.py FOLDER

Each pair is NAME.a.blif and NAME.b.blif in FOLDER, as bench/pipelines/compare reads them: Verilog is written, brought in by Yosys, and changed by
ABC. A cipher of 16 rounds on two halves of 32 bits, its tables by a seed, with a stage for each two rounds; one round of a hash whose sums are
added in another order; rotations of a vector in 12 steps, by ripple and by prefix adders; a filter of eight taps, summed as a row or as a
tree; each also mapped, and with a fault. Yosys and ABC are wanted.
"""
import pathlib
import random
import subprocess
import sys

ABC = {"dch": "strash; dch; if -K 6", "dc2": "strash; dc2; dc2", "mapped": "strash; if -K 4", "retimed": "strash; dretime; strash; dc2"}


def cipher(faulty=False):
    """A Feistel cipher: eight tables of six bits to four a round, a key of 56 bits from which each round takes 48."""
    made = random.Random(16)
    tables = [[made.randrange(16) for _ in range(64)] for _ in range(8)]
    order = made.sample(range(32), 32)
    lines = ["module top (input clk, input [63:0] x, input [55:0] key, output [63:0] y);"]
    for n, table in enumerate(tables):
        rows = " ".join(f"6'd{i}: table{n} = 4'd{v};" for i, v in enumerate(table))
        lines += [f"function [3:0] table{n}(input [5:0] i);", f"  case (i) {rows} endcase", "endfunction"]
    lines += ["wire [31:0] l0 = x[63:32], r0 = x[31:0];"]
    for r in range(16):
        key = ", ".join(f"key[{made.randrange(56)}]" for _ in range(48))
        parts = []
        for n in range(8):
            bits = ", ".join(f"r{r}[{(4 * n + i - 1) % 32}]" for i in range(6))
            parts.append(f"table{n}({{{bits}}} ^ k{r}[{6 * n + 5}:{6 * n}])")
        lines += [f"wire [47:0] k{r} = {{{key}}};", f"wire [31:0] s{r} = {{{', '.join(parts)}}};"]
        mixed = ", ".join(f"s{r}[{i}]" for i in order)
        wrong = " ^ {31'd0, r9[3] & l9[7] & k9[2]}" if faulty and r == 9 else ""
        if r % 2:
            lines += [f"reg [31:0] l{r + 1}, r{r + 1};", f"always @(posedge clk) begin l{r + 1} <= r{r}; r{r + 1} <= l{r} ^ {{{mixed}}}{wrong}; end"]
        else:
            lines += [f"wire [31:0] l{r + 1} = r{r};", f"wire [31:0] r{r + 1} = l{r} ^ {{{mixed}}}{wrong};"]
    return "\n".join([*lines, "assign y = {r16, l16};", "endmodule", ""])


def hashed(other=False, faulty=False):
    """One round of a hash of eight words, its sums in one order or in another one."""
    turn = lambda v, n: f"{{{v}[{n - 1}:0], {v}[31:{n}]}}"
    big = lambda v, *ns: "(" + " ^ ".join(turn(v, n) for n in ns) + ")"
    names = "abcdefgh"
    choose = "(g ^ (e & (f ^ g)))" if other else "((e & f) | (~e & g))"
    most = "((a & b) | (c & (a | b)))" if other else "((a & b) ^ (a & c) ^ (b & c))"
    one, zero = big("e", 6, 11, 25), big("a", 2, 13, 22)
    if other:
        first = f"(({choose} + k) + (w + {one})) + h"
        lines = [f"wire [31:0] t = {first};", f"wire [31:0] n = ({zero} + t) + {most};", f"wire [31:0] m = (d + h) + (({one} + w) + (k + {choose}));"]
    else:
        lines = [f"wire [31:0] t = h + {one} + {choose} + k + w;", f"wire [31:0] n = t + ({zero} + {most});", "wire [31:0] m = d + t;"]
    wrong = " ^ {31'd0, &t[7:0]}" if faulty else ""
    ports = ", ".join(f"input [31:0] {v}_in" for v in names)
    outs = ", ".join(f"output reg [31:0] {v}_out" for v in names)
    inner = "\n".join(f"reg [31:0] {v}; always @(posedge clk) {v} <= {v}_in;" for v in names)
    ends = {"a": f"n{wrong}", "b": "a", "c": "b", "d": "c", "e": "m", "f": "e", "g": "f", "h": "g"}
    last = "\n".join(f"always @(posedge clk) {v}_out <= {it};" for v, it in ends.items())
    return "\n".join([f"module top (input clk, {ports}, input [31:0] k, input [31:0] w, {outs});", inner, *lines, last, "endmodule", ""])


ADDERS = {
    "ripple": """module adder (input [15:0] a, b, input c, output [15:0] s);
  wire [16:0] k; assign k[0] = c;
  genvar i; generate for (i = 0; i < 16; i = i + 1) begin : g
    assign s[i] = a[i] ^ b[i] ^ k[i]; assign k[i + 1] = (a[i] & b[i]) | (k[i] & (a[i] ^ b[i]));
  end endgenerate
endmodule
""",
    "prefix": """module adder (input [15:0] a, b, input c, output [15:0] s);
  wire [15:0] g [0:4], p [0:4];
  assign g[0] = (a & b) | ({15'd0, c} & (a ^ b)); assign p[0] = a ^ b;
  genvar l, i; generate for (l = 0; l < 4; l = l + 1) begin : u for (i = 0; i < 16; i = i + 1) begin : v
    if (i >= (1 << l)) begin
      assign g[l + 1][i] = g[l][i] | (p[l][i] & g[l][i - (1 << l)]); assign p[l + 1][i] = p[l][i] & p[l][i - (1 << l)];
    end else begin assign g[l + 1][i] = g[l][i]; assign p[l + 1][i] = p[l][i]; end
  end end endgenerate
  assign s = p[0] ^ {g[4][14:0], c};
endmodule
""",
}


def rotations(adder, faulty=False):
    """A vector turned in 12 steps, with a stage for each three."""
    lines = ["module top (input clk, input [15:0] x, y, z, output [15:0] u, v, w);", "wire [15:0] x0 = x, y0 = y, z0 = z;"]
    for i in range(12):
        angle = int(45.0 / (1 << i) * 182) & 0xFFFF if i else 8192
        shifted = lambda v: f"{{{{{i}{{{v}{i}[15]}}}}, {v}{i}[15:{i}]}}" if i else f"{v}{i}"
        sign = f"z{i}[15]"
        if faulty and i == 7:
            sign = f"(z{i}[15] & ~(x{i}[3] & y{i}[5] & z{i}[0]))"
        lines += [f"wire n{i} = {sign};", f"wire [15:0] xs{i}, ys{i}, zs{i};"]
        for to, a, b, flip in (("xs", "x", shifted("y"), f"~n{i}"), ("ys", "y", shifted("x"), f"n{i}"), ("zs", "z", f"16'd{angle}", f"~n{i}")):
            lines.append(f"adder {to}_{i} (.a({a}{i}), .b({b} ^ {{16{{{flip}}}}}), .c({flip}), .s({to}{i}));")
        kind, by = ("reg", "always @(posedge clk)") if i % 3 == 2 else ("wire", "")
        for v in "xyz":
            lines.append(f"reg [15:0] {v}{i + 1}; always @(posedge clk) {v}{i + 1} <= {v}s{i};" if by else f"{kind} [15:0] {v}{i + 1} = {v}s{i};")
    return "\n".join([*lines, "assign u = x12, v = y12, w = z12;", "endmodule", ADDERS[adder]])


def fir(other=False, faulty=False):
    """A filter of eight taps of eight bits by fixed numbers, its products summed as a row or as a tree."""
    by = (3, 11, 37, 53, 53, 37, 11, 3)
    lines = ["module top (input clk, input [7:0] x, output reg [15:0] y);"]
    lines += [f"reg [7:0] d{i}; always @(posedge clk) d{i} <= {f'd{i - 1}' if i else 'x'};" for i in range(8)]
    lines += [f"reg [15:0] p{i}; always @(posedge clk) p{i} <= {{8'd0, d{i}}} * 16'd{n};" for i, n in enumerate(by)]
    row = " + ".join(f"p{i}" for i in range(8))
    total = "((p0 + p1) + (p2 + p3)) + ((p4 + p5) + (p6 + p7))" if other else row
    wrong = " ^ {15'd0, p1[4] & p3[6] & p6[5]}" if faulty else ""
    return "\n".join([*lines, f"always @(posedge clk) y <= ({total}){wrong};", "endmodule", ""])


def run(words, text=None):
    subprocess.run(words, input=text, text=True, check=True, stdout=subprocess.DEVNULL)


def blif(folder, name, verilog):
    source, made = folder / f"{name}.v", folder / f"{name}.blif"
    source.write_text(verilog)
    run(["yosys", "-q", "-p", f"read_verilog {source}; synth -flatten -top top -noabc; abc -g AND,OR,XOR,MUX,NAND,NOR,ANDNOT,ORNOT; opt_clean -purge; write_blif -noalias {made}"])
    return made


def changed(source, target, words):
    run(["berkeley-abc", "-q", f"read_blif {source}; {words}; write_blif {target}"])


def main():
    if len(sys.argv) != 2 or sys.argv[1].startswith("-"):
        sys.exit(__doc__)
    folder = pathlib.Path(sys.argv[1])
    folder.mkdir(parents=True, exist_ok=True)
    designs = {
        "cipher": (cipher(), None, cipher(faulty=True)),
        "hash": (hashed(), hashed(other=True), hashed(other=True, faulty=True)),
        "rotations": (rotations("ripple"), rotations("prefix"), rotations("prefix", faulty=True)),
        "fir": (fir(), fir(other=True), fir(faulty=True)),
    }
    for name, (first, second, faulty) in designs.items():
        a = blif(folder, name, first)
        others = {"rewritten": blif(folder, f"{name}_other", second)} if second else {}
        others["fault"] = blif(folder, f"{name}_fault", faulty)
        for how, words in ABC.items():
            others[how] = folder / f"{name}_{how}.blif"
            changed(a, others[how], words)
        others["fault_dch"] = folder / f"{name}_fault_dch.blif"
        changed(others["fault"], others["fault_dch"], ABC["dch"])
        for how, b in others.items():
            (folder / f"{name}_{how}.a.blif").write_bytes(a.read_bytes())
            (folder / f"{name}_{how}.b.blif").write_bytes(b.read_bytes())


main()
