"""What make.py and compare share: circuits in flat BLIF, runs of them over 0, 1 and unknown, and what iverilog says of a sequence.

A run has many lanes at once. A signal is a pair of whole numbers: which lanes it is 1 in, and in which it is 0; in the others it isn't known.
A gate is what its rows say, each literal by itself, as a simulator of Verilog reads a sum of products.
"""
import pathlib
import random
import re
import subprocess

LANES = 1024
# What an input is called that resets, and how a name says that it does so at 0; as in verilog/settling.sh.
RESET = re.compile(r"(.*_)?[a-z]?(rst|reset)(_?n|_?b|_l|_i|_ni)?", re.I)
LOW = re.compile(r"(^|_)n_?(rst|reset)|(rst|reset)(_?n|_?b|_l|_ni)$", re.I)
HELD = 4


class Circuit:
    """A flat BLIF text: inputs but for the clock, outputs, gates as name, fan-ins and rows, latches as data, name and initial value."""

    def __init__(self, text):
        self.inputs, self.outputs, self.gates, self.latches, clocks = [], [], {}, [], set()
        gate = None
        for line in text.replace("\\\n", " ").split("\n"):
            words = line.partition("#")[0].split()
            if not words:
                continue
            if words[0] == ".inputs":
                self.inputs += words[1:]
            elif words[0] == ".outputs":
                self.outputs += words[1:]
            elif words[0] == ".latch":
                start = words[-1] if len(words) % 2 == 0 else "3"
                self.latches.append([words[1], words[2], start if start in "01" else "3"])
                clocks |= set(words[4:5]) - {"NIL"}
            elif words[0] == ".names":
                gate = []
                self.gates[words[-1]] = [words[1:-1], gate]
            elif words[0][0] != ".":
                gate.append(words if len(words) == 2 else ["", words[0]])
        self.clock = min(clocks) if clocks else None
        read = {name for fan_ins, _ in self.gates.values() for name in fan_ins} | {data for data, _, _ in self.latches} | set(self.outputs)
        # A file of ABC has the clock as an input that nothing reads.
        self.inputs = [name for name in self.inputs if name not in clocks and (name in read or name not in ("clk", "clock", "CLK", "i_clk"))]

    def text(self):
        lines = [".model top", " ".join([".inputs", *self.inputs, "clk"]), " ".join([".outputs", *self.outputs])]
        for name, (fan_ins, rows) in self.gates.items():
            lines += [" ".join([".names", *fan_ins, name]), *(" ".join(row).strip() for row in rows)]
        lines += [f".latch {data} {name} re clk {start}" for data, name, start in self.latches]
        return "\n".join([*lines, ".end", ""])

    def order(self):
        """The gates, each behind those that it reads, or None where they are in a circle."""
        done, order = set(), []
        for root in self.gates:
            stack = [(root, iter(self.gates[root][0]))] if root not in done else []
            open_ = {root}
            while stack:
                name, rest = stack[-1]
                for it in rest:
                    if it in open_:
                        return None
                    if it in self.gates and it not in done:
                        open_.add(it)
                        stack.append((it, iter(self.gates[it][0])))
                        break
                else:
                    stack.pop()
                    open_.discard(name)
                    done.add(name)
                    order.append(name)
        return order

    def step(self):
        """A function that is given a list of pairs for inputs and latches, and gives those of outputs and of what latches take over."""
        numbers = {name: at for at, name in enumerate([*self.inputs, *(latch[1] for latch in self.latches)])}
        lines = ["def step(given, every):"]
        lines += [f"  a{at}, b{at} = given[{at}]" for at in numbers.values()]
        for name in self.order():
            fan_ins, rows = self.gates[name]
            at = numbers.setdefault(name, len(numbers))
            ones, zeros = [], []
            for pattern, _ in rows:
                literals = [(numbers[it], bit) for it, bit in zip(fan_ins, pattern) if bit != "-"]
                ones.append(" & ".join(f"a{it}" if bit == "1" else f"b{it}" for it, bit in literals) or "every")
                zeros.append(" | ".join(f"b{it}" if bit == "1" else f"a{it}" for it, bit in literals) or "0")
            one = " | ".join(f"({it})" for it in ones) or "0"
            zero = " & ".join(f"({it})" for it in zeros) or "every"
            sides = (one, zero) if not rows or rows[0][1] == "1" else (zero, one)
            lines.append(f"  a{at} = {sides[0]}; b{at} = {sides[1]}")
        told = [numbers[name] for name in [*self.outputs, *(latch[0] for latch in self.latches)]]
        lines.append(f"  return [{', '.join(f'(a{at}, b{at})' for at in told)}]")
        space = {}
        exec("\n".join(lines), space)
        return space["step"]

    def run(self, rows):
        """The outputs in each cycle, from the initial values, over rows of pairs for the inputs, and at last what the latches hold."""
        step, every = self.step(), (1 << LANES) - 1
        state = [{"0": (0, every), "1": (every, 0), "3": (0, 0)}[latch[2]] for latch in self.latches]
        outputs = []
        for row in rows:
            told = step([*(row[name] for name in self.inputs), *state], every)
            outputs.append(told[: len(self.outputs)])
            state = told[len(self.outputs) :]
        return outputs, state

    def resets(self):
        """The inputs that reset by their names, with the level at which they do."""
        return {name: 0 if LOW.search(name) else 1 for name in self.inputs if RESET.fullmatch(name)}


def read(path):
    return Circuit(pathlib.Path(path).read_text())


def held_rows(circuit):
    """The cycles in which the reset is held and all else is 0, as rows of digits by name; none where there is no reset."""
    resets = circuit.resets()
    return [{name: resets.get(name, 0) for name in circuit.inputs}] * HELD if resets else []


def constant(bit):
    every = (1 << LANES) - 1
    return (every, 0) if bit else (0, every)


def random_rows(circuit, cycles, seed):
    """Inputs at random, seldom, mostly or half of the time 1 in each group of lanes; the reset isn't held again."""
    made, every, resets, rows = random.Random(seed), (1 << LANES) - 1, circuit.resets(), []
    group = LANES // 16
    kinds = {name: [made.randrange(4) for _ in range(16)] for name in circuit.inputs}
    for _ in range(cycles):
        row = {}
        for name in circuit.inputs:
            bits = 0
            for at in range(16):
                one, two, three = (made.getrandbits(group) for _ in range(3))
                bits |= [one, one, one & two & three, one | two | three][kinds[name][at]] << at * group
            row[name] = constant(1 - resets[name]) if name in resets else (bits, every & ~bits)
        rows.append(row)
    return rows


def differing(ours, theirs):
    """The first cycle in which an output is known in both runs and differs in some lane, that output's place and the lanes."""
    for cycle, (left, right) in enumerate(zip(ours, theirs)):
        for at, ((one, zero), (other_one, other_zero)) in enumerate(zip(left, right)):
            lanes = one & other_zero | zero & other_one
            if lanes:
                return cycle, at, lanes
    return None


def verilog(circuit, module):
    """The circuit as a module, its latches as one register of bits that starts from the initial values and from x."""
    wires = {name: f"w{at}" for at, name in enumerate([*circuit.inputs, *(latch[1] for latch in circuit.latches), *circuit.gates])}
    count = len(circuit.latches)
    lines = [f"module {module}(input clk, input [{max(len(circuit.inputs), 1) - 1}:0] i, output [{len(circuit.outputs) - 1}:0] o);"]
    lines += [f"reg [{max(count, 1) - 1}:0] q = {max(count, 1)}'b{''.join(latch[2].replace('3', 'x') for latch in reversed(circuit.latches)) or 'x'};"]
    lines += [f"wire {wires[name]} = i[{at}];" for at, name in enumerate(circuit.inputs)]
    lines += [f"wire {wires[latch[1]]} = q[{at}];" for at, latch in enumerate(circuit.latches)]
    for name in circuit.order():
        fan_ins, rows = circuit.gates[name]
        terms = [" & ".join(("" if bit == "1" else "~") + wires[it] for it, bit in zip(fan_ins, pattern) if bit != "-") or "1'b1" for pattern, _ in rows]
        whole = " | ".join(f"({term})" for term in terms) or "1'b0"
        lines.append(f"wire {wires[name]} = {'~' if rows and rows[0][1] == '0' else ''}({whole});")
    lines += [f"assign o[{at}] = {wires[name]};" for at, name in enumerate(circuit.outputs)]
    lines += ["always @(posedge clk) begin", *(f"q[{at}] <= {wires[latch[0]]};" for at, latch in enumerate(circuit.latches)), "end"]
    return "\n".join([*lines, "endmodule", ""])


def by_iverilog(sides, names, rows, powers, folder):
    """What both circuits show in the last of the rows, by iverilog: the outputs' digits of each, by name."""
    modules, shown = [], []
    for module, circuit, power in zip("ab", sides, powers):
        if power:
            circuit = read_power(circuit, power)
        modules.append(verilog(circuit, module))
        columns = [[row[names.index(name)] if name in names else "0" for row in rows] for name in circuit.inputs]
        words = ["".join(column[at] for column in reversed(columns)) or "0" for at in range(len(rows))]
        width = max(len(circuit.inputs), 1)
        shown += [f"reg clk_{module} = 0; reg [{width - 1}:0] i_{module}; wire [{len(circuit.outputs) - 1}:0] o_{module};"]
        shown += [f"{module} u_{module}(clk_{module}, i_{module}, o_{module}); initial begin"]
        for at, word in enumerate(words):
            shown.append(f"i_{module} = {width}'b{word}; #1 " + (f"clk_{module} = 1; #1 clk_{module} = 0;" if at + 1 < len(words) else f'$display("{module} %b", o_{module});'))
        shown.append("end")
    source = folder / "both.v"
    source.write_text("\n".join([*modules, "module both;", *shown, "endmodule", ""]))
    subprocess.run(["iverilog", "-o", folder / "both", "-s", "both", source], check=True)
    told = subprocess.run(["vvp", "-n", folder / "both"], check=True, stdout=subprocess.PIPE).stdout.decode()
    digits = dict(line.split(" ") for line in told.splitlines() if line[:2] in ("a ", "b "))
    return [dict(zip(circuit.outputs, reversed(digits[module]))) for module, circuit in zip("ab", sides)]


def read_power(circuit, power):
    """The circuit with what a report says that its latches hold at first."""
    made = Circuit(circuit.text())
    for latch, bit in zip(made.latches, power):
        latch[2] = bit
    return made
