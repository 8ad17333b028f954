#!/usr/bin/env python3
"""Makes pairs of sequential circuits, family by family, with Yosys and ABC: bench/induct/make.py FOLDER

For each pair NAME it writes NAME.a.blif and NAME.b.blif, and for some also NAME.fault.blif, the second one with another initial value.
Counters, state machines, accumulators, queues and shift registers with feedback are changed by hand, which renames, doubles or merges
registers, by ABC's `scorr`, `dretime` and `retime`, which compute the initial values anew, and by rewriting the gates alone. Each
register starts with 0 or 1. Two families are written as they stand: a shift register twice, and registers that start in one block, where
each of A falls into a block with one of B.
"""
import pathlib
import subprocess
import sys

FLOW = "synth -flatten -top top; dfflegalize -cell $_DFF_P_ 01; opt_clean; abc -g AND,OR,XOR; opt_clean -purge; write_blif -noalias"
REWRITTEN = "balance; rewrite; refactor; balance; rewrite; rewrite -z; balance; refactor -z; rewrite -z; balance"


def module(ports, body):
    return f"module top(input clk, {ports});\n{body}\nendmodule\n"


def counter(n):
    return module(
        f"input go, clear, output [{n-1}:0] y",
        f"reg [{n-1}:0] c = 0; assign y = c;\nalways @(posedge clk) if (clear) c <= 0; else if (go) c <= c + 1;",
    )


def counter_by_toggles(n):
    """Each bit changes where all lower ones are 1."""
    return module(
        f"input go, clear, output [{n-1}:0] y",
        f"reg [{n-1}:0] c = 0; assign y = c; integer i;\nalways @(posedge clk) for (i = 0; i < {n}; i = i + 1)\n"
        "c[i] <= !clear & (c[i] ^ (go & &(c | ~((64'd1 << i) - 64'd1))));",
    )


def machine(states, one_hot, turned=0):
    """A state machine whose next states follow a fixed rule, by numbers of states or by a register for each, in a turned order."""
    bits = (states - 1).bit_length()
    places = [(s + turned) % states for s in range(states)]
    steps = [[(5 * s + 3 * x + 1 + s * x) % states for x in range(4)] for s in range(states)]
    shown = [s for s in range(states) if s % 3 == 1]
    if one_hot:
        lines = [f"reg [{states-1}:0] s = {states}'d1 << {places[0]};", "always @(posedge clk) begin"]
        for t in range(states):
            into = [f"(s[{places[s]}] & x == {x})" for s in range(states) for x in range(4) if steps[s][x] == t]
            lines.append(f"s[{places[t]}] <= {' | '.join(into) if into else '0'};")
        lines += ["end", f"assign y = {' | '.join(f's[{places[s]}]' for s in shown)};"]
    else:
        lines = [f"reg [{bits-1}:0] s = 0;", "always @(posedge clk) case (s)"]
        lines += [f"{s}: s <= x == 0 ? {a} : x == 1 ? {b} : x == 2 ? {c} : {d};" for s, (a, b, c, d) in enumerate(steps)]
        lines += ["default: s <= 0; endcase", f"assign y = {' | '.join(f'(s == {s})' for s in shown)};"]
    return module("input [1:0] x, output y", "\n".join(lines))


def accumulator(n):
    return module(
        f"input clear, input [{n-1}:0] x, output [{n-1}:0] y",
        f"reg [{n-1}:0] sum = 0; assign y = sum;\nalways @(posedge clk) sum <= clear ? 0 : sum + x;",
    )


def products(n):
    """Sums of products."""
    return module(
        f"input clear, input [{n-1}:0] a, b, output [{2*n+3}:0] y",
        f"reg [{2*n+3}:0] sum = 0; assign y = sum;\nalways @(posedge clk) sum <= clear ? 0 : sum + a * b;",
    )


def queue(words, width):
    """A queue in registers, with the places of the next word to write and to read."""
    bits = (words - 1).bit_length()
    lines = [f"reg [{width-1}:0] w{i} = 0;" for i in range(words)]
    lines.append(f"reg [{bits-1}:0] to = 0, from = 0; reg [{bits}:0] held = 0;")
    lines.append(f"wire push = put & held != {words}, pull = take & held != 0; assign full = held == {words}, empty = held == 0;")
    lines.append("always @(posedge clk) begin if (push) to <= to + 1; if (pull) from <= from + 1; held <= held + push - pull; end")
    lines += [f"always @(posedge clk) if (push & to == {i}) w{i} <= x;" for i in range(words)]
    lines.append(f"reg [{width-1}:0] read; assign y = read; always @* case (from)")
    lines += [f"{i}: read = w{i};" for i in range(words)]
    lines.append("default: read = 0; endcase")
    return module(f"input put, take, input [{width-1}:0] x, output full, empty, output [{width-1}:0] y", "\n".join(lines))


def feedback(n, steps):
    """A shift register with feedback and an input, so many steps a cycle. It starts with ones."""
    lines = [f"reg [{n-1}:0] s = {{{n}{{1'b1}}}}; reg [{n-1}:0] t; integer i; assign y = s[{n-1}:{n-8}];"]
    lines.append(f"always @* begin t = s; for (i = 0; i < {steps}; i = i + 1) t = {{t[{n-2}:0], t[{n-1}] ^ t[{n-2}] ^ t[{n//2}] ^ t[3] ^ x[i]}}; end")
    lines.append("always @(posedge clk) s <= t;")
    return module(f"input [{steps-1}:0] x, output [7:0] y", "\n".join(lines))


def pipeline(n):
    """Sums of two words behind two rows of registers, so that registers can move over gates."""
    return module(
        f"input [{n-1}:0] a, b, output [{n-1}:0] y",
        f"reg [{n-1}:0] p = 0, q = 0, r = 0; assign y = r;\nalways @(posedge clk) begin p <= a; q <= b; r <= r ^ (p + q); end",
    )


def statements(text):
    """The lines of a BLIF text, with those that a backslash divides put together."""
    return [line for line in text.replace("\\\n", " ").split("\n") if line.strip() and not line.startswith("#")]


def synthesised(folder, verilog):
    """The circuit's BLIF lines, without its clock."""
    (folder / "top.v").write_text(verilog)
    subprocess.run(["yosys", "-q", "-p", f"read_verilog top.v; {FLOW} top.blif"], cwd=folder, check=True)
    lines = []
    for line in statements((folder / "top.blif").read_text()):
        words = line.split()
        if words[0] == ".inputs":
            words.remove("clk")
        if words[0] == ".latch":
            words = [".latch", words[1], words[2], words[-1]]
        lines.append(" ".join(words))
    for name in ("top.v", "top.blif"):
        (folder / name).unlink()
    return lines


def registers(lines):
    return [line.split()[2] for line in lines if line.startswith(".latch")]


def renamed(lines):
    """Registers under other names, in the other order, after the gates. An output that was a register reads it."""
    names = {name: f"r{i}_" for i, name in enumerate(registers(lines))}
    outputs = [name for line in lines if line.startswith(".outputs") for name in line.split()[1:] if name in names]
    gates, latches = [], []
    for line in lines:
        words = line.split()
        if words[0] != ".outputs":
            words = [names.get(word, word) for word in words]
        (latches if words[0] == ".latch" else gates).append(" ".join(words))
    for name in outputs:
        gates[-1:] = [f".names {names[name]} {name}", "1 1", gates[-1]]
    return gates[:-1] + latches[::-1] + gates[-1:]


def doubled(lines):
    """Each register twice, and each second reader reads the second one."""
    twice = set(registers(lines))
    made, reads = [], dict.fromkeys(twice, 0)
    for line in lines:
        words = line.split()
        if words[0] in (".names", ".latch"):
            last = len(words) - 1 if words[0] == ".names" else 2
            for i in range(1, last):
                if words[i] in twice:
                    reads[words[i]] += 1
                    words[i] += "_2" if reads[words[i]] % 2 else ""
        made.append(" ".join(words))
        if words[0] == ".latch":
            made.append(f".latch {words[1]} {words[2]}_2 {words[3]}")
    return made


def started_otherwise(lines):
    """The last register starts with its other value."""
    last = max(i for i, line in enumerate(lines) if line.startswith(".latch"))
    words = lines[last].split()
    return [*lines[:last], " ".join([*words[:3], str(1 - int(words[3]))]), *lines[last + 1 :]]


def write(folder, name, lines):
    (folder / f"{name}.blif").write_text("\n".join(lines) + "\n")


def change(folder, name, script):
    """What ABC makes of the first side."""
    a, b = f"{name}.a.blif", f"{name}.b.blif"
    subprocess.run(["berkeley-abc", "-q", f"read_blif {a}; strash; {script}; write_blif {b}"], cwd=folder, check=True, stdout=subprocess.DEVNULL)


CIRCUITS = [
    ("counter_32", lambda: counter(32)),
    ("counter_64", lambda: counter(64)),
    ("machine_60", lambda: machine(60, False)),
    ("machine_60_one_hot", lambda: machine(60, True)),
    ("machine_200_one_hot", lambda: machine(200, True)),
    ("accumulator_64", lambda: accumulator(64)),
    ("accumulator_256", lambda: accumulator(256)),
    ("products_6", lambda: products(6)),
    ("products_8", lambda: products(8)),
    ("queue_16_of_8", lambda: queue(16, 8)),
    ("queue_64_of_32", lambda: queue(64, 32)),
    ("feedback_64", lambda: feedback(64, 8)),
    ("feedback_256", lambda: feedback(256, 32)),
    ("pipeline_32", lambda: pipeline(32)),
    ("pipeline_128", lambda: pipeline(128)),
]


def changes(folder, name, lines):
    write(folder, f"{name}_renamed.a", lines)
    write(folder, f"{name}_renamed.b", renamed(lines))
    write(folder, f"{name}_renamed.fault", renamed(started_otherwise(lines)))
    write(folder, f"{name}_doubled.a", lines)
    write(folder, f"{name}_doubled.b", renamed(doubled(lines)))
    write(folder, f"{name}_doubled.fault", renamed(doubled(started_otherwise(lines))))
    write(folder, f"{name}_merged.a", doubled(lines))
    write(folder, f"{name}_merged.b", renamed(lines))
    write(folder, f"{name}_scorr.a", doubled(lines))
    change(folder, f"{name}_scorr", "scorr")
    for kind, script in (("rewritten", REWRITTEN), ("dretime", "dretime"), ("retime", "retime -M 3; strash")):
        write(folder, f"{name}_{kind}.a", lines)
        change(folder, f"{name}_{kind}", script)


def shift_register(stages, letter):
    yield ".model m"
    yield ".inputs x"
    yield ".outputs y"
    for i in range(stages):
        yield f".latch {f'{letter}{i - 1}' if i else 'x'} {letter}{i} 0"
    yield f".names {letter}{stages - 1} y"
    yield "1 1"
    yield ".end"


def apart(registers, letter):
    """Each register takes over an input of its own, and all start with 0."""
    yield ".model m"
    yield ".inputs " + " ".join(f"x{i}" for i in range(registers))
    yield ".outputs " + " ".join(f"y{i}" for i in range(registers))
    for i in range(registers):
        yield f".latch x{i} {letter}{i} 0"
        yield f".names {letter}{i} y{i}"
        yield "1 1"
    yield ".end"


def families(folder):
    for n in (500, 1_000, 2_000):
        for side, letter in (("a", "p"), ("b", "q")):
            write(folder, f"shift_{n:05}.{side}", shift_register(n, letter))
    for n in (2_500, 5_000, 10_000):
        for side, letter in (("a", "p"), ("b", "q")):
            write(folder, f"apart_{n:05}.{side}", apart(n, letter))


def two_ways(folder):
    """Pairs with one set of registers and other gates before it, or with registers for the same states in another order."""
    for n in (32, 64):
        write(folder, f"counter_{n}_toggles.a", synthesised(folder, counter(n)))
        write(folder, f"counter_{n}_toggles.b", renamed(synthesised(folder, counter_by_toggles(n))))
    for n in (60, 200):
        write(folder, f"machine_{n}_turned.a", synthesised(folder, machine(n, True)))
        write(folder, f"machine_{n}_turned.b", renamed(synthesised(folder, machine(n, True, 7))))
    write(folder, "machine_60_two_codings.a", synthesised(folder, machine(60, False)))
    write(folder, "machine_60_two_codings.b", renamed(synthesised(folder, machine(60, True))))


def main():
    if len(sys.argv) != 2 or sys.argv[1].startswith("-"):
        sys.exit(__doc__)
    folder = pathlib.Path(sys.argv[1])
    folder.mkdir(parents=True, exist_ok=True)
    families(folder)
    two_ways(folder)
    for name, circuit in CIRCUITS:
        changes(folder, name, synthesised(folder, circuit()))
        print(name, flush=True)


main()
