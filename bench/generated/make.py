#!/usr/bin/env python3
"""The circuits of a generated pair as BLIF: bench/generated/make.py NUMBER FOLDER [NUMBER ..]

For each NUMBER it writes NUMBER.a.blif, NUMBER.b.blif and NUMBER.regrouped.blif to FOLDER, the circuits that `sec gen NUMBER` and
`sec gen NUMBER --regroup` make, by the rules of the generator and the published algorithms of SplitMix64 and xoshiro256++ (Blackman and
Vigna); and the same with a wire in place of each latch, NUMBER.a.wires.blif and so on, for tools that compare circuits without latches.
It shares nothing with the program, so the two can be held against one another: `sec check` of a file and of the pair's other one, and
`sec graph`.
"""
import pathlib
import sys

WORD = (1 << 64) - 1
ROWS = {
    "a": {0: ["11 1"], 1: ["1- 1", "-1 1"], 2: ["10 1", "01 1"], 3: ["10 1"]},
    "b": {0: ["0- 0", "-0 0"], 1: ["00 0"], 2: ["10 1", "01 1"], 3: ["0- 0", "-1 0"]},
}
REGROUPED = ["11 0", "00 0"]


def splitmix(state):
    while True:
        state = (state + 0x9E3779B97F4A7C15) & WORD
        z = state
        z = ((z ^ (z >> 30)) * 0xBF58476D1CE4E5B9) & WORD
        z = ((z ^ (z >> 27)) * 0x94D049BB133111EB) & WORD
        yield z ^ (z >> 31)


def turned(x, k):
    return ((x << k) | (x >> (64 - k))) & WORD


def xoshiro(seed):
    seeds = splitmix(seed)
    s = [next(seeds) for _ in range(4)]
    while True:
        yield (turned((s[0] + s[3]) & WORD, 23) + s[0]) & WORD
        shifted = (s[1] << 17) & WORD
        s[2] ^= s[0]
        s[3] ^= s[1]
        s[1] ^= s[2]
        s[0] ^= s[3]
        s[2] ^= shifted
        s[3] = turned(s[3], 45)


def column(circuit, stage, layer, c):
    """What a gate of this layer reads as column c."""
    if layer == 0:
        if stage == 0:
            return f"x{c}"
        return f"q{stage - 1}_{c}" if circuit == "a" else f"g{stage - 1}_41_{c}"
    if circuit == "b" and layer == 41:
        return f"r{stage}_{c}"
    return f"g{stage}_{layer - 1}_{c}"


def blif(seed, circuit, regroup, wires):
    words = xoshiro(seed)
    letter, last = ("q", 41) if circuit == "a" else ("r", 40)
    lines = [".model m", ".inputs " + " ".join(f"x{c}" for c in range(40)), ".outputs " + " ".join(f"y{c}" for c in range(40))]
    for stage in range(3):
        for c in range(40):
            data, out = f"g{stage}_{last}_{c}", f"{letter}{stage}_{c}"
            lines += [f".names {data} {out}", "1 1"] if wires else [f".latch {data} {out} 2"]
    for stage in range(3):
        for layer in range(42):
            for c in range(40):
                word = next(words)
                second = (c + 1 + word // 4 % 39) % 40
                rows = ROWS[circuit][word % 4]
                if regroup and word % 4 == 2 and stage == 0 and layer == 0:
                    rows = REGROUPED
                reads = f"{column(circuit, stage, layer, c)} {column(circuit, stage, layer, second)}"
                lines += [f".names {reads} g{stage}_{layer}_{c}", *rows]
    for c in range(40):
        shown = f"q2_{c}" if circuit == "a" else f"g2_41_{c}"
        lines += [f".names {shown} y{c}", "1 1"]
    return "\n".join([*lines, ".end"]) + "\n"


def main():
    numbers = sys.argv[1:2] + sys.argv[3:]
    if len(sys.argv) < 3 or sys.argv[2].startswith("-") or not all(word.isdecimal() for word in numbers):
        sys.exit(__doc__)
    folder = pathlib.Path(sys.argv[2])
    folder.mkdir(parents=True, exist_ok=True)
    for seed in map(int, numbers):
        for name, circuit, regroup in (("a", "a", False), ("b", "b", False), ("regrouped", "b", True)):
            (folder / f"{seed}.{name}.blif").write_text(blif(seed, circuit, regroup, False))
            (folder / f"{seed}.{name}.wires.blif").write_text(blif(seed, circuit, regroup, True))


if __name__ == "__main__":
    main()
