"""Clauses and refutations read and checked as their formats say, line by line, in sets: what `sec lrat` answers, slowly."""
import re

NUMBER = re.compile(rb"-?[0-9]+\Z")
MOST = 2**30
LONGEST = 16_777_216


class Fault(Exception):
    def __init__(self, line, kind):
        super().__init__(line, kind)
        self.text = f"line {line} {kind}"


def tokens(line):
    return [token for token in re.split(rb"[ \t]", line) if token]


def lines(text):
    pieces = text.split(b"\n")
    rest = pieces.pop()
    whole = [piece[:-1] if piece.endswith(b"\r") else piece for piece in pieces]
    return enumerate(whole + ([rest] if rest else []), 1)


def number(token):
    """The number that a token spells, or none."""
    if not NUMBER.match(token):
        return None
    value = int(token)
    if abs(value) > 2**63 - 1 or (value == 0 and token.startswith(b"-")):
        return None
    return value


def formula(text):
    """The greatest variable, and the clauses by their numbers."""
    header, clauses, literals = None, {}, []
    for place, line in lines(text):
        words = tokens(line)
        if not words or words[0].startswith(b"c"):
            continue
        if header is None:
            counts = [number(word) for word in words[2:]]
            if words[:2] != [b"p", b"cnf"] or len(words) != 4 or any(n is None or not 0 <= n <= MOST for n in counts):
                raise Fault(place, "BadHeader")
            header = counts
            continue
        values = [number(word) for word in words]
        if any(value is None or abs(value) > header[0] for value in values):
            raise Fault(place, "BadNumber")
        for value in values:
            if value:
                literals.append(value)
            else:
                clauses[len(clauses) + 1] = literals
                literals = []
        if len(clauses) + bool(literals) > header[1]:
            raise Fault(place, "BadCount")
    if header is None:
        raise Fault(0, "BadHeader")
    if literals or len(clauses) < header[1]:
        raise Fault(0, "BadCount")
    return header[0], clauses


def parts(words, variables):
    """The number of a line, whether it deletes, and its two lists; none where it isn't of the form."""
    deletes = len(words) > 1 and words[1] == b"d"
    values = [number(word) for word in words[:1] + words[2 if deletes else 1:]]
    if not values or None in values:
        return None
    name, values = values[0], values[1:]
    if deletes:
        return (name, True, [], values[:-1]) if values.count(0) == 1 and values[-1] == 0 else None
    if values.count(0) != 2 or values[-1] != 0:
        return None
    middle = values.index(0)
    literals = values[:middle]
    if any(abs(value) > variables for value in literals):
        return None
    return name, False, literals, values[middle + 1:-1]


def follow(live, literals, hints):
    """What is wrong with the hints, or nothing."""
    false = set(literals)
    for hint in hints:
        if hint < 0:
            return "NegativeHint"
        if hint not in live:
            return "BadHint"
        left = {literal for literal in live[hint] if literal not in false}
        if len(left) > 1:
            return "NotUnit"
        if not left:
            return None
        false.add(-left.pop())
    return "NoConflict"


def check(clauses_text, text):
    """The report and the status of `sec lrat`."""
    if len(clauses_text) > LONGEST:
        return "refused A TooLong", 4
    try:
        variables, live = formula(clauses_text)
    except Fault as fault:
        return f"refused A {fault.text}", 4
    if len(text) > LONGEST:
        return "refused B TooLong", 4
    try:
        refute(variables, live, text)
    except Fault as fault:
        return f"refused B {fault.text}", 4
    return "verified", 0


def refute(variables, live, text):
    greatest = len(live)
    for place, line in lines(text):
        if not line or line.startswith(b"c"):
            continue
        found = parts(tokens(line), variables)
        if found is None:
            raise Fault(place, "BadLine")
        name, deletes, literals, rest = found
        if deletes:
            for old in rest:
                if live.pop(old, None) is None:
                    raise Fault(place, "BadId")
            continue
        if name <= greatest:
            raise Fault(place, "BadId")
        wrong = follow(live, literals, rest)
        if wrong:
            raise Fault(place, wrong)
        if not literals:
            return
        live[name] = literals
        greatest = name
    raise Fault(0, "NoEmpty")
