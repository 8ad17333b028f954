#!/usr/bin/env python3
"""Writes two circuits of equal outputs as BLIF and as Verilog, and a stimulus: bench/replay/make.py FOLDER [COLUMNS LAYERS STAGES CYCLES]

There are STAGES stages of LAYERS layers of COLUMNS gates of two fan-ins each. In a.blif each
stage ends with a latch a column; in b.blif the latches stand before the last layer, and each gate is written by its rows of 0.
Half of the gates are exclusive ors, so that the values keep changing. COLUMNS is above 64, for main.cpp. s is the stimulus, s.bits the same for a test bench,
pair.v has the modules `a` and `b`.
"""
import os
import random
import sys

if len(sys.argv) not in (2, 6) or sys.argv[1].startswith("-") or not all(word.isdecimal() for word in sys.argv[2:]):
    sys.exit(__doc__)
folder = sys.argv[1]
os.makedirs(folder, exist_ok=True)
columns, layers, stages, cycles = (int(word) for word in (sys.argv[2:6] or ("100", "20", "5", "2000")))
draw = random.Random(7)

ON = {"and": "11 1\n", "or": "1- 1\n-1 1\n", "xor": "10 1\n01 1\n"}
OFF = {"and": "0- 0\n-0 0\n", "or": "00 0\n", "xor": "11 0\n00 0\n"}
SIGN = {"and": "&", "or": "|", "xor": "^"}


def source(late, stage, layer, column):
    """What a gate of the layer reads in that column: the layer before, or the latches or inputs before it."""
    if late and layer == 0:
        return f"x{column}" if stage == 0 else f"q{stage - 1}_{column}"
    if not late and layer == layers - 1:
        return f"r{stage}_{column}"
    if layer > 0:
        return f"g{stage}_{layer - 1}_{column}"
    return f"x{column}" if stage == 0 else f"g{stage - 1}_{layers - 1}_{column}"


gates = [(s, l, c, draw.choice(("and", "or", "xor", "xor")), (c + 1 + draw.randrange(columns - 1)) % columns)
         for s in range(stages) for l in range(layers) for c in range(columns)]
inputs = [f"x{c}" for c in range(columns)]
outputs = [f"y{c}" for c in range(columns)]


def latches(late):
    last = layers - 1 if late else layers - 2
    name = "q" if late else "r"
    return [(f"g{s}_{last}_{c}", f"{name}{s}_{c}") for s in range(stages) for c in range(columns)]


def ends(late):
    return [f"q{stages - 1}_{c}" if late else f"g{stages - 1}_{layers - 1}_{c}" for c in range(columns)]


for late, name, rows in ((True, "a", ON), (False, "b", OFF)):
    with open(f"{folder}/{name}.blif", "w") as out:
        out.write(f".model {name}\n.inputs {' '.join(inputs)}\n.outputs {' '.join(outputs)}\n")
        for s, l, c, kind, other in gates:
            out.write(f".names {source(late, s, l, c)} {source(late, s, l, other)} g{s}_{l}_{c}\n{rows[kind]}")
        for data, latch in latches(late):
            out.write(f".latch {data} {latch} 2\n")
        for end, output in zip(ends(late), outputs):
            out.write(f".names {end} {output}\n1 1\n")
        out.write(".end\n")

with open(f"{folder}/pair.v", "w") as out:
    for late, name in ((True, "a"), (False, "b")):
        out.write(f"module {name}(input clk, input [{columns - 1}:0] x, output [{columns - 1}:0] y);\n")
        for s, l, c, kind, other in gates:
            out.write(f"wire g{s}_{l}_{c};\n")
        for data, latch in latches(late):
            out.write(f"reg {latch} = 0;\nalways @(posedge clk) {latch} <= {data};\n")

        def bit(word):
            return f"x[{word[1:]}]" if word[0] == "x" else word

        for s, l, c, kind, other in gates:
            out.write(f"assign g{s}_{l}_{c} = {bit(source(late, s, l, c))} {SIGN[kind]} {bit(source(late, s, l, other))};\n")
        for c, end in enumerate(ends(late)):
            out.write(f"assign y[{c}] = {end};\n")
        out.write("endmodule\n")

rows = [[draw.randrange(2) for _ in inputs] for _ in range(cycles)]
with open(f"{folder}/s", "w") as out:
    out.write("inputs " + " ".join(inputs) + "\n")
    for row in rows:
        out.write("".join(map(str, row)) + "\n")
with open(f"{folder}/s.bits", "w") as out:
    for row in rows:
        out.write("".join(map(str, reversed(row))) + "\n")

with open(f"{folder}/bench.v", "w") as out:
    out.write(f"""module bench;
reg clk = 0;
reg [{columns - 1}:0] x;
wire [{columns - 1}:0] left, right;
reg [{columns - 1}:0] rows [0:{cycles - 1}];
integer t, count = 0;
a first(clk, x, left);
b second(clk, x, right);
initial begin
  $readmemb("s.bits", rows);
  for (t = 0; t < {cycles}; t = t + 1) begin
    x = rows[t];
    #1;
    if (t >= {stages} && left !== right) count = count + 1;
    clk = 1;
    #1 clk = 0;
    #1;
  end
  $display("%0d", count);
  $finish;
end
endmodule
""")
with open(f"{folder}/top.v", "w") as out:
    out.write(f"""module top(input clk, input [{columns - 1}:0] x, output [{columns - 1}:0] left, output [{columns - 1}:0] right);
a first(clk, x, left);
b second(clk, x, right);
endmodule
""")
words = (columns + 31) // 32
with open(f"{folder}/main.cpp", "w") as out:
    out.write(f"""#include "Vtop.h"
#include <cstdio>
#include <cstring>
int main() {{
  Vtop top;
  FILE *rows = fopen("s.bits", "r");
  static char row[{columns + 3}];
  int t = 0, count = 0;
  while (fgets(row, sizeof row, rows)) {{
    for (int i = 0; i < {words}; i++) top.x[i] = 0;
    for (int i = 0; i < {columns}; i++)
      if (row[{columns} - 1 - i] == '1') top.x[i / 32] |= 1u << (i % 32);
    top.clk = 0;
    top.eval();
    if (t >= {stages} && memcmp(&top.left, &top.right, sizeof top.left)) count++;
    top.clk = 1;
    top.eval();
    t++;
  }}
  printf("%d\\n", count);
}}
""")
