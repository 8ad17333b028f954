"""Large hostile texts: those at the limits of a size, and families of any size, whose time is told by the byte."""
import functools
import pathlib
import subprocess
import tempfile

from running import Text
from small_texts import chain

LARGEST = 16 << 20
# As many names as the tables can have before they have more groups than this power of two.
PLACES = 16


def text(lines, stimulus=b"inputs\n", power=None):
    circuit = "\n".join(lines).encode() + b"\n"
    return Text(circuit, stimulus, power)


def model(inputs, outputs, *body):
    """A model `m`; each part of the body is a line or a list of lines."""
    yield ".model m"
    yield ".inputs " + " ".join(inputs)
    yield ".outputs " + " ".join(outputs)
    for part in body:
        yield from [part] if isinstance(part, str) else part
    yield ".end"


def cycles(inputs):
    """A stimulus of two cycles."""
    row = "01" * (len(inputs) // 2) + "1" * (len(inputs) % 2) or "-"
    return "\n".join([" ".join(["inputs", *inputs]), row, row[::-1], ""]).encode()


def flat(inputs, outputs, *body):
    """A circuit of one model, with a stimulus of two cycles."""
    return text(model(inputs, outputs, *body), cycles(inputs))


def clocked(outputs, *body):
    """A circuit of one model whose input `c` clocks the latches."""
    return text(model(["q0", "c"], outputs, *body), cycles(["q0"]))


def ids(letter, count):
    return [f"{letter}{i}" for i in range(count)]


def gates(count):
    """A chain of inverters."""
    return [line for i in range(count) for line in (f".names g{i} g{i + 1}", "0 1")]


def gates_from_the_end(count):
    return [line for i in reversed(range(count)) for line in (f".names g{i} g{i + 1}", "0 1")]


def ands(count, second):
    return [line for i in range(count) for line in (f".names g{i} {second(i)} g{i + 1}", "11 1")]


def latches(count, before="q"):
    return [f".latch {before}{i} q{i + 1}" for i in range(count)]


def parity(columns):
    return ["".join("1" if i == j else "0" for i in range(columns)) + " 1" for j in range(columns)]


def leaf(inputs, outputs, *body):
    return [".model leaf", ".inputs " + " ".join(inputs), ".outputs " + " ".join(outputs), *body, ".end"]


def instances(count, *body, ports=("u", "w")):
    """A main model with so many instances of one leaf."""
    lines = [".model m", ".inputs a", ".outputs " + " ".join(ids("y", count))]
    lines += [f".subckt leaf {ports[0]}=a {ports[1]}=y{i}" for i in range(count)]
    return text([*lines, ".end", *leaf(["u"], ["w"], *body)], b"inputs a\n0\n1\n")


def models(count):
    """A main model with an instance of each other model."""
    lines = [".model m", ".inputs a", ".outputs y0", *[f".subckt n{i} u=a w=y{i}" for i in range(count)], ".end"]
    for i in range(count):
        lines += [f".model n{i}", ".inputs u", ".outputs w", ".names u w", "1 1", ".end"]
    return text(lines, b"inputs a\n0\n1\n")


def ports(count, turned=False):
    """One instance with so many pairs."""
    pairs = [f"u{i}=a{i}" for i in range(count)] + [f"w{i}=y{i}" for i in range(count)]
    lines = [*model(ids("a", count), ids("y", count), ".subckt leaf " + " ".join(pairs[::-1] if turned else pairs))]
    body = [line for i in range(count) for line in (f".names u{i} w{i}", "0 1")]
    return text(lines + leaf(ids("u", count), ids("w", count), *body), cycles(ids("a", count)))


def levels(count, ports):
    """A hierarchy of so many levels, through each of which so many nets go."""
    pairs = " ".join(f"u{i}=u{i}" for i in range(ports)) + " " + " ".join(f"w{i}=w{i}" for i in range(ports))
    lines = []
    for i in range(count):
        name = "top" if i == 0 else f"m{i}"
        lines += [f".model {name}", ".inputs " + " ".join(ids("u", ports)), ".outputs " + " ".join(ids("w", ports)), f".subckt m{i + 1} {pairs}", ".end"]
    lines += [f".model m{count}", ".inputs " + " ".join(ids("u", ports)), ".outputs " + " ".join(ids("w", ports))]
    return text([*lines, *[f".latch u{i} w{i}" for i in range(ports)], ".end"], cycles(ids("u", ports)))


def held(count, enable="e{0}"):
    """Latches with a load enable."""
    return [line for i in range(count) for line in (f".names {enable.format(i)} x q{i} n{i}", "11- 1", "0-1 1", f".latch n{i} q{i}")]


def ring(count):
    return [f".latch q{(i - 1) % count} q{i}" for i in range(count)]


def rings(count):
    """Rings of 50 latches, each of which leads on to the next ring."""
    lines = []
    for i in range(count):
        if i % 50:
            lines.append(f".latch q{i - 1} q{i}")
        else:
            lines += [f".names q{i + 49} {f'q{i - 1}' if i else 'a'} n{i}", "11 1", f".latch n{i} q{i}"]
    return lines


def tangle(count):
    """Latches that each read two others, picked by a fixed rule."""
    return [line for i in range(count) for line in (f".names q{(7 * i + 3) % count} q{(i * i + 1) % count} n{i}", "10 1", f".latch n{i} q{i}")]


def stimulus(count, rows, last=None):
    """A circuit of so many inputs, and so many rows of its stimulus."""
    circuit = "\n".join(model(ids("a", count), ["y"], ".names a0 n", "0 1", ".latch n y")).encode() + b"\n"
    lines = ["inputs " + " ".join(ids("a", count)), *["01" * (count // 2) + "1" * (count % 2)] * rows, *([last] if last else []), ""]
    return Text(circuit, "\n".join(lines).encode(), None)


@functools.cache
def meeting_names():
    """20,000 names that a table looks for at the same places, found by a small program that cc compiles."""
    with tempfile.TemporaryDirectory() as folder:
        program = f"{folder}/meeting_names"
        subprocess.run(["cc", "-O2", "-o", program, str(pathlib.Path(__file__).with_name("meeting_names.c"))], check=True)
        return subprocess.run([program, "20000", str(PLACES)], check=True, capture_output=True, text=True).stdout.split()


def listed():
    """The large texts, each with what it is. Those of one kind are cut off, too."""
    nothing = b"inputs\n"
    yield "16 MiB of line feeds", lambda: Text(b"\n" * LARGEST, nothing, None)
    yield "16 MiB of line feeds and one more", lambda: Text(b"\n" * (LARGEST + 1), nothing, None)
    for name, byte in (("NUL bytes", b"\0"), ("blanks", b" "), ("backslashes", b"\\"), ("number signs", b"#"), ("continued empty lines", b"\\\n"), ("CR LF", b"\r\n"),
                       ("letters", b"n"), ("words of one letter", b"n "), ("bytes 255", b"\xff"), ("lines `.inputs`", b".inputs\n"), ("lines `1`", b"1\n")):
        yield f"16 MiB of {name}", lambda byte=byte: Text(byte * (LARGEST // len(byte)), nothing, None)
        yield f"16 MiB of {name} in a model", lambda byte=byte: Text(b".model m\n" + byte * ((LARGEST - 9) // len(byte)), nothing, None)
        yield f"16 MiB of {name} behind .names", lambda byte=byte: Text(b".model m\n.names " + byte * ((LARGEST - 16) // len(byte)), nothing, None)
    for name, line in (("`.names a`", b".names a\n"), ("`.outputs`", b".outputs\n"), ("`.clock c`", b".clock c\n"), ("`.latch a a`", b".latch a a\n"), ("`.subckt m a=a`", b".subckt m a=a\n"),
                       ("`.names`, `1`", b".names y\n1\n"), ("`.model m`", b".model m\n"), ("`.end`", b".end\n")):
        yield f"16 MiB of lines {name} in a model", lambda line=line: Text(b".model m\n" + line * ((LARGEST - 9) // len(line)), nothing, None)
    letters = [chr(c) for c in (*range(33, 35), *range(36, 92), *range(93, 127), *range(128, 192))]
    for count in (100_000, 1_000_000):
        yield f"{count:,} models", lambda count=count: text(f".model {i}" for i in range(count))
        yield f"{count:,} models of one letter and once more", lambda count=count: text(f".model {letters[i % len(letters)]}{i // len(letters) or ''}" for i in range(count + 1))
        yield f"{count:,} models, the last name twice", lambda count=count: text(f".model {min(i, count - 2)}" for i in range(count))
    for count in (399_999, 400_000, 400_001):
        wide = ".names " + "a " * count + "y"
        for row in ("1" * count + " 1", "-" * count + " 0", "1" * (count - 1) + " 1", "1" * count + " 2"):
            yield f"a row of {count:,} columns", lambda wide=wide, row=row: flat(["a"], ["y"], wide, row)
        yield f"{count:,} inputs", lambda count=count: flat(ids("a", count), ["a0"])
        yield f"{count:,} outputs", lambda count=count: flat(["a"], ids("y", count))
        yield f"{count:,} latches", lambda count=count: flat(["q0"], [f"q{count}"], latches(count))
        yield f"{count:,} statements", lambda count=count: flat(["a"], ["a"], [f".names b{i}" for i in range(count)])
    for count in (1_333_332, 1_333_333, 1_333_334):
        yield f"{count:,} places thrice", lambda count=count: flat(["a"], ["y"], ".names " + "a " * (3 * count - 3) + "y")
    for count in (100_000, 400_000):
        for way in (gates, gates_from_the_end):
            yield f"{count:,} gates in a row", lambda count=count, way=way: flat(["g0"], [f"g{count}"], way(count))
        yield f"{count:,} gates in a ring", lambda count=count: flat(["a"], ["g1"], gates(count - 1), f".names g{count - 1} g0")
        yield f"{count:,} latches in a row, each an output", lambda count=count: flat(["q0"], ids("q", count)[-20:], latches(count))
    for rows in (1_997, 1_998, 10_000):
        yield f"a cover of {rows:,} rows of 1,000 columns", lambda rows=rows: flat(ids("x", 1_000), ["y"], ".names " + " ".join(ids("x", 1_000)) + " y", ["-" * 1_000 + " 1"] * rows)
    yield "a parity of 1,000 columns", lambda: flat(ids("x", 1_000), ["y"], ".names " + " ".join(ids("x", 1_000)) + " y", parity(1_000))
    yield "4,000,000 rows of one column", lambda: flat(["a"], ["y"], ".names a y", ["1 1"] * 4_000_000)
    for size in (10, 100, 240, 4_000):
        for count in (2, 12, 17, 18, 30, 63):
            yield f"doublings, names of {size} bytes", lambda count=count, size=size: text([chain(count, count <= 30, "n" * size + "{}").decode()])
    for size in (16, 60):
        yield f"a row of {size * 100_000:,} bytes over continued lines", lambda size=size: flat(["a"], ["y"], ".names \\\n" + "a \\\n" * (size * 25_000) + "y")
    yield "4,096 names of 4,096 bytes", lambda: flat([f"{i:04}".ljust(4_096, "n") for i in range(2_040)], ["y"], ".names y")
    yield "names of 4,096 bytes that differ at their end", lambda: flat([f"{i:04}".rjust(4_096, "n") for i in range(2_040)], ["y"], ".names y")
    yield "20,000 inputs whose names meet in a table", lambda: flat(meeting_names(), ["y"], ".names y")
    yield "names in UTF-8", lambda: flat([chr(0x1F600 + i) for i in range(1_000)], [chr(0x1F600)])
    yield "64 levels of 2,000 ports", lambda: levels(63, 2_000)
    yield "64 levels of 500 ports, cut", lambda: text([levels(63, 500).circuit.decode()[:-2_000]])
    yield "16 MiB of a stimulus", lambda: stimulus(1, (LARGEST - 10) // 2)
    yield "16 MiB of a stimulus and a row more", lambda: stimulus(1, (LARGEST - 9) // 2 + 1)
    yield "a stimulus of 400,000 names", lambda: stimulus(400_000, 20)
    yield "16 MiB of a stimulus of line feeds", lambda: stimulus(1, 0)._replace(stimulus=b"\n" * LARGEST)
    yield "a stimulus of one name of 16 MiB", lambda: stimulus(1, 0)._replace(stimulus=b"inputs " + b"n" * (LARGEST - 8))
    yield "a stimulus of 5,000,000 names", lambda: stimulus(1, 0)._replace(stimulus=b"inputs" + b" n" * 5_000_000)
    yield "power of 100,000 digits", lambda: flat(["q0"], ["q100000"], latches(100_000))._replace(power="01" * 50_000)


# The families, each with the size at which it is begun. The texts grow in proportion to the size.
FAMILIES = {
    "line feeds": (250_000, lambda n: text(["\n" * n])),
    "comments": (25_000, lambda n: text(["# a comment"] * n)),
    "continued lines": (25_000, lambda n: flat(["a"], ["y"], ".names \\\n" + "a \\\n" * n + "y")),
    "continued empty lines": (50_000, lambda n: text(["\\"] * n)),
    "lines that end in CR LF": (7_500, lambda n: text([line + "\r" for line in model(["g0"], [f"g{n}"], gates(n))], cycles(["g0"]))),
    "models": (12_500, lambda n: text(f".model {i}" for i in range(n))),
    "models whose names meet in a table": (2_500, lambda n: text(f".model {name}" for name in meeting_names()[:n])),
    "models with an instance each": (2_000, models),
    "instances of one leaf": (2_000, lambda n: instances(n, ".names u w", "0 1")),
    "instances of one latch": (2_000, lambda n: instances(n, ".latch u w")),
    "pairs of one instance": (2_000, ports),
    "pairs of one instance, turned": (2_000, lambda n: ports(n, True)),
    "nets through 60 levels": (50, lambda n: levels(60, n)),
    "inputs": (7_500, lambda n: flat(ids("a", n), ["a0"])),
    "inputs with long names": (125, lambda n: flat([f"{i:04}".rjust(4_000, "n") for i in range(n)], ["y"], ".names y")),
    "clocks": (12_500, lambda n: clocked(["q0"], [".clock c"] * n)),
    "outputs of one input": (2_500, lambda n: flat(["a"], ids("y", n), [line for i in range(n) for line in (f".names a y{i}", "1 1")])),
    "outputs of an input each": (2_500, lambda n: flat(ids("a", n), ids("y", n), [line for i in range(n) for line in (f".names a{i} y{i}", "1 1")])),
    "columns of one net": (25_000, lambda n: flat(["a"], ["y"], ".names " + "a " * n + "y", "1" * n + " 1")),
    "columns of a net each": (5_000, lambda n: flat(ids("a", n), ["y"], ".names " + " ".join(ids("a", n)) + " y", "1" * n + " 1")),
    "rows": (25_000, lambda n: flat(ids("a", 4), ["y"], ".names a0 a1 a2 a3 y", ["1-01 1", "0-1- 1"] * (n // 2))),
    "rows of 1,000 columns": (200, lambda n: flat(ids("a", 1_000), ["y"], ".names " + " ".join(ids("a", 1_000)) + " y", ["01-1" * 250 + " 1"] * n)),
    "constants": (12_500, lambda n: flat(["a"], ["a"], [f".names b{i}" for i in range(n)])),
    "gates in a row": (5_000, lambda n: flat(["g0"], [f"g{n}"], gates(n))),
    "gates in a row, from the end": (5_000, lambda n: flat(["g0"], [f"g{n}"], gates_from_the_end(n))),
    "gates of two inputs": (5_000, lambda n: flat(["g0", "x"], [f"g{n}"], ands(n, lambda i: f"g{i // 2}"))),
    "gates of an input each": (2_500, lambda n: flat(["g0", *ids("x", n)], [f"g{n}"], ands(n, lambda i: f"x{i}"))),
    "gates in a ring": (5_000, lambda n: flat(["a"], ["g1"], gates(n - 1), f".names g{n - 1} g0")),
    "a gate without a driver at the end": (5_000, lambda n: flat(["g0"], [f"g{n}", "none"], gates(n))),
    "a net driven twice at the end": (5_000, lambda n: flat(["g0"], [f"g{n}"], gates(n), ".names g1")),
    "latches in a row": (5_000, lambda n: flat(["q0"], [f"q{n}"], latches(n))),
    "latches in a row, from the end": (5_000, lambda n: flat(["q0"], [f"q{n}"], latches(n)[::-1])),
    "latches with a clock": (5_000, lambda n: clocked([f"q{n}"], [f"{line} re c 2" for line in latches(n)])),
    "latches of two clocks": (5_000, lambda n: clocked([f"q{n}"], [f"{line} re c 2" for line in latches(n - 1)], ".clock d", f".latch q{n - 1} q{n} re d 2")),
    "latches that hold themselves": (500, lambda n: flat([], [f"q{n - 1}"], [f".latch q{i} q{i}" for i in range(n)])),
    "latches in a ring": (1_250, lambda n: flat([], ["q0"], ring(n))),
    "latches in rings of 50": (500, lambda n: flat(["a"], [f"q{n - 1}"], rings(n))),
    "latches in a tangle": (125, lambda n: flat([], ["q0"], tangle(n))),
    "latches with an enable each": (500, lambda n: flat([*ids("e", n), "x"], ["q0"], held(n))),
    "latches with one enable": (500, lambda n: flat(["e", "x"], ["q0"], held(n, "e"))),
    "latches that read one row of gates": (50, lambda n: flat(["g0"], ids("q", n), gates(20 * n), [f".latch g{20 * n} q{i}" for i in range(n)])),
    "enables at the end of one row of gates": (50, lambda n: flat(["g0", "x"], ["q0"], gates(20 * n), held(n, f"g{20 * n}"))),
    "outputs along a row of gates": (250, lambda n: flat(["g0"], ids("g", n), gates(n))),
    "outputs along a row of gates of an input each": (250, lambda n: flat(["g0", *ids("x", n)], ids("g", n)[1:], ands(n, lambda i: f"x{i}"))),
    "outputs at the end of a row of gates": (250, lambda n: flat(["g0"], ids("y", n), gates(n), [line for i in range(n) for line in (f".names g{n} y{i}", "1 1")])),
    "outputs along a row of latches": (250, lambda n: flat(["q0"], ids("q", n), latches(n))),
    "rows of a stimulus": (50_000, lambda n: stimulus(4, n)),
    "names of a stimulus": (5_000, lambda n: stimulus(n, 4)),
    "rows of a stimulus, a fault at the end": (50_000, lambda n: stimulus(4, n, "012")),
}
