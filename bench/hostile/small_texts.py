"""Small hostile texts: circuits and stimuli that are cut, changed, put together or made up."""
import pathlib

from running import Text

TOP = pathlib.Path(__file__).resolve().parents[2]
ROWS = "crates/run_rows/data"
# The ten files that are cut at each byte.
CUT = [f"examples/{name}/a.blif" for name in ("counter", "fault", "hierarchy", "decade", "encoding", "registers")]
CUT += [f"{ROWS}/{name}.blif" for name in ("hierarchy", "yosys", "twins", "levels_63")]
# What else is changed.
CHANGED = CUT + [f"examples/{name}.blif" for name in ("carry/a", "carry/b", "counter/b", "decade/b", "encoding/b", "gates/b", "hierarchy/b", "longer/b")]
CHANGED += [f"{ROWS}/{name}.blif" for name in ("abc", "and_by_zeros", "hold_not", "less", "loop", "ring", "toggle", "two_clocks", "wide_early", "wide_hold")]
WORDS = b".model .inputs .outputs .clock .names .latch .subckt .end .gate .mlatch .exdc .area .blackbox .x NIL re fe ah as 0 1 2 3 4 - = a=b a== =a".split()
STRANGE = [bytes([byte]) for byte in (0, 1, 9, 11, 12, 13, 27, 31, 32, 34, 35, 39, 45, 46, 48, 49, 61, 92, 127, 128, 192, 255)]
STRANGE += ["\u00e9".encode(), "\u20ac".encode(), "\U0001f600".encode(), b"\xef\xbb\xbf", b"\xed\xa0\x80", b"\\\n", b"\r\n", b"\n\n", b"#", b" # \\\n"]


def bases():
    return [TOP.joinpath(name).read_bytes() for name in CHANGED]


def inputs_of(circuit):
    """The inputs of the circuit's first model, without the nets that clock a latch."""
    names, clocks, models = [], set(), 0
    for line in circuit.replace(b"\\\n", b" ").split(b"\n"):
        words = line.partition(b"#")[0].split()
        if not words:
            continue
        models += words[0] == b".model"
        if words[0] == b".end" or models > 1:
            break
        if words[0] == b".inputs":
            names += words[1:]
        elif words[0] == b".clock":
            clocks.update(words[1:])
        elif words[0] == b".latch" and len(words) > 4:
            clocks.add(words[4])
    return [name for name in dict.fromkeys(names) if name not in clocks]


def stimulus_of(random, names):
    """A few cycles over the names, as a rule in another order."""
    names = random.sample(names, len(names))
    rows = [bytes(random.choice(b"01") for _ in names) or b"-" for _ in range(random.randrange(4))]
    return b"\n".join([b" ".join([b"inputs", *names]), *rows, b""])


def with_stimulus(random, circuit):
    return Text(circuit, stimulus_of(random, inputs_of(circuit)), None)


def byte_changed(random, text):
    if not text:
        return bytes([random.randrange(256)])
    place = random.randrange(len(text))
    return text[:place] + bytes([random.randrange(256)]) + text[place + 1:]


def bytes_changed(random, text):
    """Some bytes changed, dropped, or put in."""
    for _ in range(random.randrange(1, 6)):
        place, length = random.randrange(len(text) + 1), random.randrange(1, 9)
        put = random.choice([b"", random.choice(STRANGE), text[place:place + 2 * length], random.randbytes(length)])
        text = text[:place] + put + text[place + random.choice([0, length]):]
    return text


def strange_bytes(random, text):
    for _ in range(random.randrange(1, 4)):
        place = random.randrange(len(text) + 1)
        text = text[:place] + random.choice(STRANGE) + text[place + random.randrange(2):]
    return text


def lines_changed(random, text):
    """Lines repeated, swapped, joined, dropped, or moved."""
    lines = text.split(b"\n")
    for _ in range(random.randrange(1, 4)):
        first, second = random.randrange(len(lines)), random.randrange(len(lines))
        way = random.randrange(5)
        if way == 0:
            lines[first:first] = lines[second:second + random.randrange(1, 4)] * random.randrange(1, 4)
        elif way == 1:
            lines[first], lines[second] = lines[second], lines[first]
        elif way == 2:
            lines[first:first + 2] = [random.choice([b"", b" ", b"\\\n", b"\t", b"\\", b"#"]).join(lines[first:first + 2])]
        elif way == 3 and len(lines) > 1:
            del lines[first]
        else:
            lines.insert(second, lines.pop(first))
    return b"\n".join(lines)


def words_changed(random, text):
    """Words exchanged, repeated, dropped, or put in from elsewhere."""
    lines = [line.split(b" ") for line in text.split(b"\n")]
    every = [word for line in lines for word in line if word]
    for _ in range(random.randrange(1, 4)):
        line = random.choice(lines)
        place = random.randrange(len(line))
        other = random.choice(every) if every and random.random() < 0.7 else random.choice(WORDS)
        line[place:place + 1] = random.choice([[other], [line[place], other], [], [line[place]] * 2])
        if not line:
            line.append(b"")
    return b"\n".join(b" ".join(line) for line in lines)


def line_ends(random, text):
    """Carriage returns, continued lines, comments, tabs and blanks, which mostly leave the circuit as it is."""
    lines = []
    for line in text.split(b"\n"):
        words = line.split(b" ")
        if random.random() < 0.2 and len(words) > 1:
            place = random.randrange(1, len(words))
            line = b" ".join(words[:place]) + b"\\\n" + b" ".join(words[place:])
        line = line.replace(b" ", random.choice([b" ", b" ", b"\t", b"  ", b" \\\n "]))
        lines.append(line + random.choice([b"", b"", b"\r", b" ", b"\t \r", b" # \\", b"#", b"\\\n"]))
    return random.choice([b"\n", b"\n", b"\n", b"\r\n", b"\n\n", b"\n# \xff\n"]).join(lines)


def two_files(random, text, other):
    """The front of one file and the back of another, cut at a line or anywhere."""
    def cut(text):
        place = random.randrange(len(text) + 1)
        return text.find(b"\n", place) + 1 if random.random() < 0.7 else place
    return text[:cut(text)] + other[cut(other):]


def words_in_no_order(random):
    names = [b"a", b"b", b"m", b"q", b"y", b"11", b"1-", b"u=a", b"w=y", b"\\", b"#"]
    lines = []
    for _ in range(random.randrange(12)):
        line = [random.choice(WORDS)] + [random.choice(names + WORDS[-13:]) for _ in range(random.randrange(5))]
        lines.append(b" ".join(line))
    return random.choice([b"", b".model m\n", b".model m\n.inputs a b\n.outputs y\n"]) + b"\n".join(lines) + b"\n" * random.randrange(2)


def cover(random, columns):
    rows = []
    for _ in range(random.randrange(4)):
        rows.append(("".join(random.choice("01-") for _ in range(columns)) + " " if columns else "") + "%s")
    output = random.choice("01")
    return [row % output for row in rows]


def statements(random, name, ports, driven, late, leaves):
    """The lines of a model's body: gates read what is driven before them or by a latch, and latches read anything."""
    lines = []
    for k in range(random.randrange(9)):
        way = random.random()
        if way < 0.5 or not driven:
            reads = [random.choice(driven + late) for _ in range(random.randrange(5))] if driven + late else []
            lines += [" ".join([".names", *reads, f"{name}g{k}"]), *cover(random, len(reads))]
            driven.append(f"{name}g{k}")
        elif way < 0.75 and late:
            latch = late.pop()
            driven.append(latch)
            if random.random() < 0.5:
                enable, data = random.choice(driven), random.choice(driven)
                lines += [f".names {enable} {data} {latch} {latch}n", "11- 1", "0-1 1", f".latch {latch}n {latch} {random.choice('0123')}"]
            else:
                lines.append(f".latch {random.choice(driven)} {latch}")
        elif leaves:
            leaf = random.choice(leaves)
            inputs, outputs = ports[leaf]
            pairs = [f"{formal}={random.choice(driven)}" for formal in inputs]
            made = [f"{name}i{k}{formal}" for formal in outputs if random.random() < 0.8]
            pairs += [f"{actual[len(name) + 1 + len(str(k)):]}={actual}" for actual in made]
            if pairs:
                lines.append(f".subckt {leaf} " + " ".join(random.sample(pairs, len(pairs))))
                driven += made
    return lines


def design(random):
    """A made-up design of up to four models, most of which are accepted; the latches that nothing drives aren't."""
    count = random.randrange(1, 5)
    ports = {f"m{i}": ([f"x{j}" for j in range(random.randrange(4))], [f"z{j}" for j in range(random.randrange(4))]) for i in range(count)}
    text = []
    for i, (name, (inputs, outputs)) in enumerate(ports.items()):
        driven, late = list(inputs), [f"q{j}" for j in range(random.randrange(4))]
        body = statements(random, "n", ports, driven, late, [f"m{j}" for j in range(i + 1, count)])
        reads = [f"q{j}" for j in range(4) if f"q{j}" in late]
        for latch in reads:
            body.append(f".latch {random.choice(driven or reads)} {latch}")
        for output in outputs:
            body += [f".names {random.choice(driven)} {output}", random.choice(["1 1", "0 1", "1 0"])] if driven else [f".names {output}"]
        text += [f".model {name}", " ".join([".inputs", *inputs]), " ".join([".outputs", *outputs]), *body, ".end"]
    return "\n".join(text).encode() + b"\n"


def changed(change):
    """The kind of texts that a change of a file makes."""
    return lambda random, bases: with_stimulus(random, change(random, random.choice(bases)))


def stimulus_changed(random, bases):
    """A circuit as it is, with a stimulus that fits it but for a change."""
    circuit = random.choice(bases)
    names = inputs_of(circuit)
    stimulus = stimulus_of(random, names)
    way = random.randrange(8)
    if way < 6:
        change = [byte_changed, bytes_changed, strange_bytes, lines_changed, words_changed, line_ends][way]
        stimulus = change(random, stimulus)
    elif way == 6:
        stimulus = stimulus[:random.randrange(len(stimulus) + 1)]
    return Text(circuit, stimulus, random.choice([None, None, "", "0", "1", "01", "0" * 8, "2", "\u00e9", "0" * 5000]))


# The kinds, each with its part of a hundred of the texts that aren't listed.
KINDS = {
    "one byte changed": (20, changed(byte_changed)),
    "bytes changed, dropped, put in": (10, changed(bytes_changed)),
    "control bytes, UTF-8, NUL": (10, changed(strange_bytes)),
    "lines repeated, swapped, joined, dropped": (14, changed(lines_changed)),
    "words exchanged, repeated, dropped": (12, changed(words_changed)),
    "line ends, continuations, comments": (6, changed(line_ends)),
    "two files joined": (6, lambda random, bases: with_stimulus(random, two_files(random, random.choice(bases), random.choice(bases)))),
    "words in no order": (4, lambda random, bases: with_stimulus(random, words_in_no_order(random))),
    "designs made up": (6, lambda random, bases: with_stimulus(random, design(random))),
    "designs made up, words exchanged": (4, lambda random, bases: with_stimulus(random, words_changed(random, design(random)))),
    "stimuli changed": (8, stimulus_changed),
}


def cuts(random):
    """Each of the ten files, cut at each of its bytes."""
    for name in CUT:
        text = TOP.joinpath(name).read_bytes()
        for length in range(len(text) + 1):
            yield Text(text[:length], b"inputs\n", None)


def names(random):
    """Names of 4,095, 4,096 and 4,097 bytes, at each place where a name stands."""
    places = [
        b".model %s\n.inputs a\n.outputs a\n.end\n",
        b".model m\n.inputs %s\n.outputs %s\n.end\n",
        b".model m\n.inputs a\n.outputs %s\n.names a %s\n1 1\n.end\n",
        b".model m\n.inputs %s\n.outputs y\n.names %s y\n1 1\n.end\n",
        b".model m\n.inputs a\n.outputs %s\n.latch a %s\n.end\n",
        b".model m\n.inputs a %s\n.outputs y\n.latch a y re %s 2\n.end\n",
        b".model m\n.inputs a\n.outputs y\n.clock %s\n.latch a y re %s 2\n.end\n",
        b".model m\n.inputs a\n.outputs y\n.subckt %s u=a w=y\n.end\n.model %s\n.inputs u\n.outputs w\n.names u w\n1 1\n.end\n",
        b".model m\n.inputs a\n.outputs y\n.subckt n %s=a w=y\n.end\n.model n\n.inputs %s\n.outputs w\n.names %s w\n1 1\n.end\n",
        b".model m\n.inputs a\n.outputs y\n.subckt n u=a w=y\n.end\n.model n\n.inputs u\n.outputs w\n.names u %s\n1 1\n.names %s w\n0 1\n.end\n",
        b".model m\n.inputs a\n.outputs y\n.names a y\n%s 1\n.end\n",
        b".model m\n%s\n.end\n",
        b".model m\n.%s\n.end\n",
    ]
    for place in places:
        for length in (4_088, 4_089, 4_090, 4_091, 4_092, 4_093, 4_095, 4_096, 4_097):
            yield with_stimulus(random, place.replace(b"%s", b"n" * length))


def chain(levels, doubled, name="m{}", latch=False, gate="u w"):
    """A hierarchy of so many levels, each model with one instance of the next, or two."""
    lines = [".model top", ".inputs a", f".subckt {name.format(1)} u=a", ".end"]
    for i in range(1, levels):
        lines += [f".model {name.format(i)}", ".inputs u", *[f".subckt {name.format(i + 1)} u=u"] * (1 + doubled), ".end"]
    lines += [f".model {name.format(levels)}", ".inputs u", ".latch u w" if latch else f".names {gate}\n1 1", ".end"]
    return "\n".join(lines).encode() + b"\n"


def levels(random):
    """Hierarchies of up to 70 levels, with and without a latch, cut and in pieces."""
    for count in range(1, 71):
        for latch in (False, True):
            whole = chain(count, False, latch=latch)
            models = whole.split(b".end\n")
            yield with_stimulus(random, whole)
            yield with_stimulus(random, b".end\n".join([models[0], *random.sample(models[1:], len(models) - 1)]))


def doublings(random):
    """Hierarchies of up to 40 levels with two instances each; most of them are more than 400,000 statements."""
    for count in range(1, 41):
        yield with_stimulus(random, chain(count, True))
        yield with_stimulus(random, chain(count, True, latch=True))


LISTED = {"cut at each byte of ten files": cuts, "names of 4,088 to 4,097 bytes": names, "1 to 70 levels of hierarchy": levels, "1 to 40 levels, doubled": doublings}
