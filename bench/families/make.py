#!/usr/bin/env python3
"""Makes pairs of circuits without latches, family by family, with Yosys and ABC: bench/families/make.py FOLDER

For each pair NAME it writes NAME.a.blif and NAME.b.blif, and for most also NAME.fault.blif, which differs from the first under few
assignments. A pair is a function written in two ways, or a circuit and what ABC made of it.
"""
import pathlib
import subprocess
import sys

RESYNTHESISED = "balance; rewrite; refactor; balance; rewrite; rewrite -z; balance; refactor -z; rewrite -z; balance"
MAPPED = "if -K 6; mfs; strash"
COMPRESSED = "dc2; dc2"


def module(top, ports, body):
    return f"module {top}({ports});\n{body}\nendmodule\n"


def ripple(n, majority):
    carry = "(a[i]&b[i])|(a[i]&c[i])|(b[i]&c[i])" if majority else "(a[i]&b[i])|(h[i]&c[i])"
    return module(
        "top",
        f"input [{n-1}:0] a, b, input c0, output [{n}:0] s",
        f"wire [{n}:0] c; wire [{n-1}:0] h = a^b; assign c[0] = c0; genvar i;\n"
        f"generate for (i = 0; i < {n}; i = i + 1) begin: g assign s[i] = h[i]^c[i]; assign c[i+1] = {carry}; end endgenerate\n"
        f"assign s[{n}] = c[{n}];",
    )


def prefix(n, fault):
    """An adder by parallel prefixes, each twice as long as before. The carry into the sum is the lowest of the terms."""
    some = ["c0"] + [f"(a[{i}] & b[{i}])" for i in range(n)]
    every = ["1'b0"] + [f"(a[{i}] ^ b[{i}])" for i in range(n)]
    lines, d = [], 1
    while d <= n:
        wires = [(f"g{d}_{i}", f"p{d}_{i}") for i in range(n + 1)]
        for i, (g, p) in enumerate(wires):
            lower = i - d
            lines.append(f"wire {g} = {some[i]}" + (f" | ({every[i]} & {some[lower]});" if lower >= 0 else ";"))
            lines.append(f"wire {p} = {every[i]}" + (f" & {every[lower]};" if lower >= 0 else ";"))
        some, every, d = [g for g, _ in wires], [p for _, p in wires], 2 * d
    lines += [f"assign s[{i}] = a[{i}] ^ b[{i}] ^ {some[i]};" for i in range(n)]
    wrong = f" ^ (a[{n-1}] & b[{n-2}] & ~a[0] & b[1] & a[2] & b[3])" if fault else ""
    lines.append(f"assign s[{n}] = {some[n]}{wrong};")
    return module("top", f"input [{n-1}:0] a, b, input c0, output [{n}:0] s", "\n".join(lines))


def product(n, up, fault=False):
    rows = [f"(b[{i}] ? ({{{n}'b0, a}} << {i}) : {2*n}'b0)" for i in range(n)]
    wrong = f" ^ {{a == {n}'d{3 * n} && b[{n-1}:{n//2}] == 5, {2*n-1}'b0}}" if fault else ""
    return module("top", f"input [{n-1}:0] a, b, output [{2*n-1}:0] p", f"assign p = {chain(rows if up else rows[::-1])}{wrong};")


def chain(terms):
    whole = terms[0]
    for term in terms[1:]:
        whole = f"({whole} + {term})"
    return whole


def tree(terms):
    while len(terms) > 1:
        terms = [f"({terms[i]} + {terms[i+1]})" if i + 1 < len(terms) else terms[i] for i in range(0, len(terms), 2)]
    return terms[0]


def filter_of(taps, width, shifts, sums, fault=False):
    wide = 2 * width + 6
    factors = [(37 * i * i + 11 * i + 5) % ((1 << width) - 1) | 1 for i in range(taps)]
    if shifts:
        terms = [chain([f"({{{wide-width}'b0, x{i}}} << {j})" for j in range(width) if factor >> j & 1]) for i, factor in enumerate(factors)]
    else:
        terms = [f"({{{wide-width}'b0, x{i}}} * {wide}'d{factor})" for i, factor in enumerate(factors)]
    wrong = f" ^ {{{wide-1}'b0, x0 == {width}'d77 && x1[3:0] == 9}}" if fault else ""
    return module("top", ", ".join(f"input [{width-1}:0] x{i}" for i in range(taps)) + f", output [{wide-1}:0] y", f"assign y = {sums(terms)}{wrong};")


def checksum(n):
    polynomial = 0x42F0E1EBA9EA3693 & ((1 << n) - 1)
    lines = [f"wire [{n-1}:0] s0 = c;"]
    for i in range(64):
        lines.append(f"wire [{n-1}:0] s{i+1} = (s{i}[{n-1}] ^ d[{63-i}]) ? ((s{i} << 1) ^ {n}'h{polynomial:x}) : (s{i} << 1);")
    return module("top", f"input [{n-1}:0] c, input [63:0] d, output [{n-1}:0] q", "\n".join(lines) + "\nassign q = s64;")


def count(n, sums):
    width = n.bit_length()
    return module("top", f"input [{n-1}:0] x, output [{width-1}:0] y", f"assign y = {sums([f'{{{width-1}' + chr(39) + f'b0, x[{i}]}}' for i in range(n)])};")


def barrel(n, up, fault=False):
    steps = n.bit_length() - 1
    lines = [f"wire [{n-1}:0] t0 = x;"]
    for j, i in enumerate(range(steps) if up else reversed(range(steps))):
        d = 1 << i
        lines.append(f"wire [{n-1}:0] t{j+1} = h[{i}] ? {{t{j}[{n-1-d}:0], t{j}[{n-1}:{n-d}]}} : t{j};")
    wrong = f" ^ {{{n-1}'b0, x[7:0] == 8'd200 && h == {steps}'d3}}" if fault else ""
    return module("top", f"input [{n-1}:0] x, input [{steps-1}:0] h, output [{n-1}:0] y", "\n".join(lines) + f"\nassign y = t{steps}{wrong};")


def sorter(words, width, odd_even):
    """Words put in order by comparisons of neighbours, or by merging halves."""
    lines, wires, fresh = [], [f"x{i}" for i in range(words)], iter(range(10**6))

    def exchange(i, j):
        a, b, k = wires[i], wires[j], next(fresh)
        lines.append(f"wire [{width-1}:0] l{k} = {a} < {b} ? {a} : {b}, m{k} = {a} < {b} ? {b} : {a};")
        wires[i], wires[j] = f"l{k}", f"m{k}"

    if odd_even:
        for step in range(words):
            for i in range(step % 2, words - 1, 2):
                exchange(i, i + 1)
    else:
        p = 1
        while p < words:
            k = p
            while k >= 1:
                for j in range(k % p, words - k, 2 * k):
                    for i in range(min(k, words - j - k)):
                        if (i + j) // (2 * p) == (i + j + k) // (2 * p):
                            exchange(i + j, i + j + k)
                k //= 2
            p *= 2
    return module(
        "top",
        ", ".join(f"input [{width-1}:0] x{i}" for i in range(words)) + ", " + ", ".join(f"output [{width-1}:0] y{i}" for i in range(words)),
        "\n".join(lines) + "\n" + "\n".join(f"assign y{i} = {wires[i]};" for i in range(words)),
    )


def times(a, b):
    """The product in the field of AES, whose polynomial is x^8 + x^4 + x^3 + x + 1."""
    whole = 0
    for i in range(8):
        whole ^= (a << i) * (b >> i & 1)
    for i in range(14, 7, -1):
        whole ^= (0x11B << (i - 8)) * (whole >> i & 1)
    return whole


def substitute(x):
    inverse = 1 if x else 0
    for _ in range(254 if x else 0):
        inverse = times(inverse, x)
    turned = [inverse << i & 0xFF | inverse >> (8 - i) for i in range(5)]
    return turned[0] ^ turned[1] ^ turned[2] ^ turned[3] ^ turned[4] ^ 0x63


def column(table, fault=False):
    """Four bytes of AES substituted and mixed (FIPS 197), the substitution as a table or by inverses in the field."""
    if table:
        rows = " ".join(f"8'd{x}: s = 8'd{substitute(x)};" for x in range(256))
        lines = [f"function [7:0] s(input [7:0] x); case (x) {rows} endcase endfunction"]
    else:
        lines = [
            "function [7:0] t(input [7:0] a, input [7:0] b); reg [14:0] w; integer i; begin w = 0;",
            "for (i = 0; i < 8; i = i + 1) if (b[i]) w = w ^ ({7'b0, a} << i);",
            "for (i = 14; i > 7; i = i - 1) if (w[i]) w = w ^ (15'h11b << (i - 8)); t = w[7:0]; end endfunction",
            "function [7:0] s(input [7:0] x); reg [7:0] p, q; integer i; begin p = t(x, x); q = p;",
            "for (i = 0; i < 6; i = i + 1) begin p = t(p, p); q = t(q, p); end",
            "s = q ^ {q[6:0], q[7]} ^ {q[5:0], q[7:6]} ^ {q[4:0], q[7:5]} ^ {q[3:0], q[7:4]} ^ 8'h63; end endfunction",
        ]
    lines.append("function [7:0] d(input [7:0] x); d = {x[6:0], 1'b0} ^ (x[7] ? 8'h1b : 8'h0); endfunction")
    lines += [f"wire [7:0] y{i} = s(x{i}), z{i} = d(y{i});" for i in range(4)]
    for i in range(4):
        j, k, l = (i + 1) % 4, (i + 2) % 4, (i + 3) % 4
        wrong = " ^ {7'b0, x0 == 8'd200 && x1[7:4] == 9}" if fault and i == 3 else ""
        lines.append(f"assign w{i} = z{i} ^ z{j} ^ y{j} ^ y{k} ^ y{l}{wrong};")
    return module("top", ", ".join(f"input [7:0] x{i}" for i in range(4)) + ", " + ", ".join(f"output [7:0] w{i}" for i in range(4)), "\n".join(lines))


def synthesise(folder, name, text):
    source, target = folder / f"{name}.v", folder / f"{name}.blif"
    source.write_text(text)
    script = f"read_verilog {source}; synth -flatten -top top; abc -g AND,OR,XOR; opt_clean -purge; write_blif {target}"
    subprocess.run(["yosys", "-q", "-p", script], check=True)
    source.unlink()


def change(folder, name, script):
    a, b = folder / f"{name}.a.blif", folder / f"{name}.b.blif"
    subprocess.run(["berkeley-abc", "-q", f"read {a}; strash; {script}; write_blif {b}"], check=True, stdout=subprocess.DEVNULL)


def families():
    """Each pair's name, its first side, the second one or the script that makes it, and a side with a fault."""
    for n in (64, 256):
        yield f"adder_{n}_sums", ripple(n, True), ripple(n, False), None
        yield f"adder_{n}_prefix", ripple(n, True), prefix(n, False), prefix(n, True)
    for n in (8, 12, 16):
        yield f"product_{n}_resynthesised", product(n, True), RESYNTHESISED, product(n, True, True)
    for n in (8, 9, 10):
        yield f"product_{n}_order", product(n, True), product(n, False), product(n, False, True)
    yield "product_12_mapped", product(12, True), MAPPED, None
    for taps in (4, 8, 16):
        yield f"filter_{taps}_two_ways", filter_of(taps, 8, True, chain), filter_of(taps, 8, False, chain), filter_of(taps, 8, False, chain, True)
    yield "filter_4_tree", filter_of(4, 8, True, chain), filter_of(4, 8, False, tree), None
    yield "checksum_64_resynthesised", checksum(64), RESYNTHESISED, None
    yield "checksum_64_compressed", checksum(64), COMPRESSED, None
    yield "count_128_resynthesised", count(128, tree), RESYNTHESISED, None
    yield "count_32_two_ways", count(32, tree), count(32, chain), None
    for n in (64, 256):
        yield f"barrel_{n}_two_orders", barrel(n, True), barrel(n, False), barrel(n, False, True)
    yield "column_of_aes", column(True), column(False), column(False, True)
    yield "sorter_8_of_4", sorter(8, 4, True), sorter(8, 4, False), None


def main():
    if len(sys.argv) != 2 or sys.argv[1].startswith("-"):
        sys.exit(__doc__)
    folder = pathlib.Path(sys.argv[1])
    folder.mkdir(parents=True, exist_ok=True)
    for name, a, b, fault in families():
        synthesise(folder, f"{name}.a", a)
        if b.startswith("module"):
            synthesise(folder, f"{name}.b", b)
        else:
            change(folder, name, b)
        if fault:
            synthesise(folder, f"{name}.fault", fault)
        print(name, flush=True)


main()
