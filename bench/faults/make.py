#!/usr/bin/env python3
"""Puts faults into designs with feedback: bench/faults/make.py FOLDER [DESIGN..]

The designs are those of bench/faults/*.v, or the files DESIGN, in flat BLIF of one clock. Each fault is one change: a gate's function, what a
gate reads, what a flip-flop takes over or starts with, an operator or a number in the Verilog. Of a design the same ones come each time, some
as they are and some resynthesised by ABC. A fault is kept where a simulation shows it: of 1,024 random runs of 20 cycles, behind four cycles of
reset, or from the initial values where no input resets the design, one has an output that is known in both circuits and differs. Each circuit
begins with flip-flops that aren't known but for their initial values. Kept pairs are NAME.a.blif and NAME.b.blif in FOLDER, NAME.rows has the
reset's cycles as a stimulus, and the file `list` tells each fault and where it shows first. `same_DESIGN` are the designs beside what
`dch; if -K 6` made of them. Yosys and ABC are wanted.
"""
import pathlib
import random
import re
import subprocess
import sys

import circuits

CYCLES = 20
KEPT = 10  # faults of each design
TRIES = 60
ABC = ["", "strash; dch; if -K 6", "", "strash; dc2", ""]
FLOW = "synth -flatten -top {top}; async2sync; dfflegalize -cell $_DFF_P_ 01; opt_clean; abc -g AND,OR,XOR,MUX; opt_clean -purge; write_blif -noalias {out}"
# Operators of Verilog, and what is put there in place of them.
SWAPS = {" + ": " - ", " - ": " + ", " == ": " != ", " != ": " == ", " < ": " <= ", " >= ": " > ", " & ": " | ", " | ": " & ", " ^ ": " | ", " && ": " || ", " || ": " && ", "!": "", "~": ""}


def blif(text, top, folder):
    """The design in Verilog as a circuit, or None where Yosys refuses it."""
    source, out = folder / "made.v", folder / "made.blif"
    source.write_text(text)
    done = subprocess.run(["yosys", "-q", "-p", f"read_verilog {source}; {FLOW.format(top=top, out=out)}"], stdout=subprocess.DEVNULL, stderr=subprocess.DEVNULL)
    return circuits.read(out) if done.returncode == 0 else None


def by_abc(circuit, words, folder):
    source, out = folder / "given.blif", folder / "changed.blif"
    source.write_text(circuit.text())
    out.unlink(missing_ok=True)
    subprocess.run(["berkeley-abc", "-q", f"read_blif {source}; {words}; write_blif {out}"], check=True, stdout=subprocess.DEVNULL)
    return circuits.read(out)


def gate(made, circuit):
    """One gate with one digit of a row changed, or with a row less."""
    name = made.choice([name for name, (fan_ins, rows) in circuit.gates.items() if fan_ins and rows])
    fan_ins, rows = circuit.gates[name]
    if len(rows) > 1 and made.random() < 0.3:
        rows.pop(made.randrange(len(rows)))
        return f"{name} has a row less"
    row, at = made.choice(rows), made.randrange(len(fan_ins))
    digit = made.choice([it for it in "01-" if it != row[0][at]])
    row[0] = row[0][:at] + digit + row[0][at + 1 :]
    return f"{name} has {digit} for {fan_ins[at]} in a row"


def inverted(made, circuit):
    """One gate turned around."""
    name = made.choice([name for name, (fan_ins, rows) in circuit.gates.items() if fan_ins and rows])
    for row in circuit.gates[name][1]:
        row[1] = "10"[int(row[1])]
    return f"{name} is turned around"


def wire(made, circuit):
    """One gate that reads a flip-flop or an input in place of something."""
    name = made.choice([name for name, (fan_ins, _) in circuit.gates.items() if fan_ins])
    fan_ins = circuit.gates[name][0]
    others = [it for it in [*circuit.inputs, *(latch[1] for latch in circuit.latches)] if it not in fan_ins]
    at, other = made.randrange(len(fan_ins)), made.choice(others)
    before, fan_ins[at] = fan_ins[at], other
    return f"{name} reads {other} for {before}"


def data(made, circuit):
    """One flip-flop that takes over what another one does, or a constant."""
    latch = made.choice(circuit.latches)
    if made.random() < 0.5:
        digit = made.choice("01")
        circuit.gates["stuck"] = [[], [["", "1"]] if digit == "1" else []]
        latch[0] = "stuck"
        return f"{latch[1]} takes over {digit}"
    other = made.choice(circuit.latches)
    latch[0] = other[0]
    return f"{latch[1]} takes over what {other[1]} does"


def start(made, circuit):
    """One flip-flop that starts with the other value."""
    started = [latch for latch in circuit.latches if latch[2] in "01"]
    if not started:
        return None
    latch = made.choice(started)
    latch[2] = "10"[int(latch[2])]
    return f"{latch[1]} starts with {latch[2]}"


def operator(made, text):
    """The Verilog text with another operator at one place, or with a number more or less by one."""
    begin = text.index(";")
    places = [(found.start(), old, new) for old, new in SWAPS.items() for found in re.finditer(re.escape(old), text) if found.start() > begin and not text.startswith("!=", found.start())]
    numbers = [(found.start(), found[0]) for found in re.finditer(r"(?<=[\w)\]] [=<+-] )\d+|(?<='d)\d+", text) if found.start() > begin]
    if numbers and made.random() < 0.3:
        at, old = made.choice(numbers)
        new = str(int(old) + 1 if int(old) == 0 or made.random() < 0.5 else int(old) - 1)
    else:
        at, old, new = made.choice(places)
    line = text.count("\n", 0, at) + 1
    return text[:at] + new + text[at + len(old) :], f"line {line} has {new.strip() or 'no'} for {old.strip()}"


def faulty(made, design, golden, folder):
    """A kind of fault, what it is, and the circuit with it; None where there is none of it or it makes no circuit."""
    kind = made.choice([gate, inverted, wire, data, start, operator, operator])
    if kind is operator:
        if not design.suffix == ".v":
            return None
        text, told = operator(made, design.read_text())
        circuit = blif(text, design.stem, folder)
    else:
        circuit = circuits.Circuit(golden.text())
        told = kind(made, circuit)
    if not told or not circuit or circuit.order() is None or sorted(circuit.inputs) != sorted(golden.inputs):
        return None
    return kind.__name__, told, circuit


def digits(rows, names):
    return ["".join(str(row[name]) for name in names) or "-" for row in rows]


def write(folder, name, sides, held):
    for side, circuit in zip("ab", sides):
        (folder / f"{name}.{side}.blif").write_text(circuit.text())
    names = sides[0].inputs
    (folder / f"{name}.rows").write_text("\n".join([" ".join(["inputs", *names]), *digits(held, names), ""]))


def faults_of(design, folder, told):
    """Writes the kept faults of one design, and prints how many were tried."""
    made = random.Random(design.stem)
    golden = blif(design.read_text(), design.stem, folder) if design.suffix == ".v" else circuits.read(design)
    held = circuits.held_rows(golden)
    if not held and any(latch[2] == "3" for latch in golden.latches):
        print(f"{design.stem}: left aside, since neither a reset nor initial values start it", flush=True)
        return
    rows = [{name: circuits.constant(bit) for name, bit in row.items()} for row in held] + circuits.random_rows(golden, CYCLES + 1, design.stem)
    right = golden.run(rows)[0][len(held) :]
    write(folder, f"same_{design.stem}", [golden, by_abc(golden, ABC[1], folder)], held)
    kept, tried, seen = 0, 0, set()
    while kept < KEPT and tried < TRIES:
        tried += 1
        fault = faulty(made, design, golden, folder)
        if not fault or fault[1] in seen:
            continue
        seen.add(fault[1])
        changed = by_abc(fault[2], ABC[kept % len(ABC)], folder) if ABC[kept % len(ABC)] else fault[2]
        found = circuits.differing(right, changed.run(rows)[0][len(held) :])
        if found:
            name = f"{design.stem}_{kept:02}"
            write(folder, name, [golden, changed], held)
            told.write("\t".join([name, fault[0], fault[1], ABC[kept % len(ABC)] or "-", golden.outputs[found[1]], str(found[0])]) + "\n")
            kept += 1
    print(f"{design.stem}: {len(golden.gates)} gates, {len(golden.latches)} flip-flops, {'reset' if held else 'initial values'}, {kept} of {tried} kept", flush=True)


def main():
    if len(sys.argv) < 2 or any(word.startswith("-") for word in sys.argv[1:]):
        sys.exit(__doc__)
    folder = pathlib.Path(sys.argv[1])
    folder.mkdir(parents=True, exist_ok=True)
    designs = [pathlib.Path(word) for word in sys.argv[2:]] or sorted(pathlib.Path(__file__).resolve().parent.glob("*.v"))
    with open(folder / "list", "w") as told:
        for design in designs:
            faults_of(design, folder, told)
    for name in ("made.v", "made.blif", "given.blif", "changed.blif"):
        (folder / name).unlink(missing_ok=True)


main()
