#!/usr/bin/env python3
"""Writes circuits with load enables as BLIF files, whose latches are told in the event mode: bench/enables/make.py FOLDER

The register files go through Debian's yosys by the flow of docs/GUIDE.md: words of 32 bits, written and read by an address, so that
the 32 latches of a word share an enable. The others are written as they stand: latches that share one cone of gates as their enable.
"""
import pathlib
import random
import subprocess
import sys

if len(sys.argv) != 2 or sys.argv[1].startswith("-"):
    sys.exit(__doc__)
folder = pathlib.Path(sys.argv[1])
folder.mkdir(parents=True, exist_ok=True)

FLOW = "synth -flatten -top top; dfflegalize -cell $_DFF_P_ 01; opt_clean; abc; opt_clean -purge; write_blif -noalias"


def register_file(words):
    """Words of 32 bits, of which one is written where `write` is 1."""
    address = (words - 1).bit_length() - 1
    return f"""module top(
  input clk, input write, input [{address}:0] to, input [31:0] data,
  input [{address}:0] from, output [31:0] read
);
  reg [31:0] held [0:{words - 1}];
  always @(posedge clk) if (write) held[to] <= data;
  assign read = held[from];
endmodule
"""


def synthesise(name, verilog):
    source = folder / f"{name}.v"
    source.write_text(verilog)
    subprocess.run(["yosys", "-q", "-p", f"read_verilog {name}.v; {FLOW} {name}.blif"], cwd=folder, check=True)


def shared(latches, gates):
    """Latches that load where one cone of ands and exclusive ors over 64 inputs is 1, each from an input of its own."""
    draw = random.Random(1)
    yield ".model m"
    yield ".inputs " + " ".join([f"x{i}" for i in range(64)] + [f"d{i}" for i in range(latches)])
    yield ".outputs " + " ".join(f"q{i}" for i in range(latches))
    for i in range(gates):
        # Each gate reads the one before, so that all of them are in the cone.
        other = f"x{draw.randrange(64)}" if i < 2 or draw.random() < 0.5 else f"g{draw.randrange(i - 1)}"
        yield f".names {f'g{i - 1}' if i else 'x0'} {other} g{i}"
        yield from (("11 1",), ("10 1", "01 1"))[draw.randrange(2)]
    for i in range(latches):
        yield f".names q{i} d{i} g{gates - 1} n{i}"
        yield from ("1-0 1", "-11 1")
        yield f".latch n{i} q{i}"
    yield ".end"


for words in (79, 157, 313):
    synthesise(f"registers_{32 * words}", register_file(words))
for latches, gates in ((250, 20_000), (500, 20_000), (1_000, 20_000), (1_000, 10_000), (1_000, 5_000)):
    (folder / f"shared_{latches}_{gates}.blif").write_text("\n".join(shared(latches, gates)) + "\n")
