#!/usr/bin/env python3
"""to_lrat.py F.cnf F.drat: what to_lrat.c does, where there is no C compiler. sec-drat calls it, and tells the words, the statuses and what is refused."""
import sys

LONGEST = 16_777_216


def stop(status, why):
    print(f"sec-drat: {why}", file=sys.stderr)
    sys.exit(status)


def lines_of(path):
    """The words of each line that is no comment and no header."""
    try:
        with open(path, encoding="latin-1") as file:
            for number, line in enumerate(file, 1):
                words = line.split()
                if words and words[0][0] not in "cp":
                    yield number, words
    except OSError as fault:
        stop(66, f"{path}: {fault.strerror}")


def literals_of(path):
    """The clauses of a DIMACS text, each literal as 2 * variable, and one more where it is negated."""
    clauses, literals = [], []
    for number, words in lines_of(path):
        try:
            values = [int(it) for it in words]
        except ValueError:
            stop(65, f"{path} line {number} isn't of a DIMACS text")
        for value in values:
            if value:
                literals.append(2 * value if value > 0 else -2 * value + 1)
            else:
                clauses.append(literals)
                literals = []
    return clauses


def steps_of(path):
    """The steps of a DRAT text: whether it deletes, and the literals."""
    for number, words in lines_of(path):
        deletes = words[0] == "d"
        try:
            values = [int(it) for it in words[deletes:]]
        except ValueError:
            values = []
        if not values or values[-1] != 0 or 0 in values[:-1]:
            stop(65, f"{path} line {number} isn't of a DRAT text; cadical writes one with --no-binary")
        yield deletes, [2 * it if it > 0 else -2 * it + 1 for it in values[:-1]]


class Clauses:
    """All clauses, two watched literals of each live one in front, and the literals that are known. `value` of a literal is 1, 0 or -1."""

    def __init__(self):
        self.clauses, self.live, self.needed, self.numbers = [], bytearray(), bytearray(), {}
        self.value, self.reason, self.place, self.seen = [], [], [], []
        self.first, self.rest = [], []  # the watches of clauses that are known to be needed, and of the others
        self.trail = []

    def room(self, literal):
        """Makes room for a variable."""
        while len(self.value) <= literal | 1:
            self.value += [0, 0]
            self.reason.append(-1)
            self.place.append(0)
            self.seen.append(0)
            self.first += [[], []]
            self.rest += [[], []]

    def add(self, literals):
        """A new clause, and the clause that is false then, or -1."""
        literals = list(dict.fromkeys(literals))
        for it in literals:
            self.room(it)
        number = len(self.clauses)
        self.clauses.append(literals)
        self.live.append(1)
        self.needed.append(0)
        self.numbers.setdefault(tuple(sorted(literals)), []).append(number)
        self.attach(number, self.rest)
        value = self.value
        if not literals or value[literals[0]] == -1:
            return number
        if (len(literals) == 1 or value[literals[1]] == -1) and value[literals[0]] == 0:
            self.put(literals[0], number)
            return self.propagate(len(self.trail) - 1)
        if len(literals) == 1 and len(self.clauses[self.reason[literals[0] >> 1]]) > 1:
            self.reason[literals[0] >> 1] = number
        return -1

    def attach(self, number, lists):
        """Watches a clause: literals that aren't false stand in front, and of false ones the last that became so."""
        literals, value, place = self.clauses[number], self.value, self.place
        if len(literals) > 1:
            literals.sort(key=lambda it: -place[it >> 1] if value[it] == -1 else -1 << 60)
            lists[literals[0]].append(number)
            lists[literals[1]].append(number)

    def put(self, literal, number):
        self.value[literal], self.value[literal ^ 1] = 1, -1
        self.reason[literal >> 1] = number
        self.place[literal >> 1] = len(self.trail)
        self.trail.append(literal)

    def back(self, length):
        """What is known is as long as it was."""
        value = self.value
        for literal in self.trail[length:]:
            value[literal] = value[literal ^ 1] = 0
        del self.trail[length:]

    def propagate(self, begin):
        """A clause that is false, or -1. Clauses that are known to be needed come first."""
        trail, before, behind = self.trail, begin, begin
        while True:
            if before < len(trail):
                false = self.scan(self.first, trail[before] ^ 1, False)
                before += 1
            elif behind < len(trail):
                false = self.scan(self.rest, trail[behind] ^ 1, True)
                behind += 1
            else:
                return -1
            if false >= 0:
                return false

    def scan(self, lists, false, is_rest):
        """Looks at the clauses that watch a literal which is false now."""
        clauses, value, live, needed = self.clauses, self.value, self.live, self.needed
        watching, kept = lists[false], 0
        for at, number in enumerate(watching):
            if not live[number] or is_rest and needed[number]:
                continue
            clause = clauses[number]
            if clause[0] == false:
                clause[0] = clause[1]
                clause[1] = false
            elif clause[1] != false:
                continue
            head = clause[0]
            if value[head] != 1:
                for other in range(2, len(clause)):
                    literal = clause[other]
                    if value[literal] != -1:
                        clause[1] = literal
                        clause[other] = false
                        lists[literal].append(number)
                        break
                else:
                    if value[head] == -1:
                        watching[kept : at] = []
                        return number
                    self.put(head, number)
                    watching[kept] = number
                    kept += 1
                continue
            watching[kept] = number
            kept += 1
        del watching[kept:]
        return -1

    def delete(self, literals):
        """The clause that dies, or -1: the reason of what is known stays."""
        held = self.numbers.get(tuple(sorted(dict.fromkeys(literals))))
        if not held:
            return -1
        number = held[-1]
        if any(self.value[it] == 1 and self.reason[it >> 1] == number for it in self.clauses[number]):
            return -1
        held.pop()
        self.live[number] = 0
        return number

    def need(self, number):
        if not self.needed[number]:
            self.needed[number] = 1
            literals = self.clauses[number]
            if len(literals) > 1:
                self.first[literals[0]].append(number)
                self.first[literals[1]].append(number)

    def used(self, conflict, asked):
        """The clauses that lead to one that is false, in the order in which they force something."""
        seen, reason, place = self.seen, self.reason, self.place
        touched, found, stack = [it >> 1 for it in asked], [], [conflict]
        for it in touched:
            seen[it] = 1
        while stack:
            for literal in self.clauses[stack.pop()]:
                variable = literal >> 1
                if not seen[variable]:
                    seen[variable] = 1
                    touched.append(variable)
                    if reason[variable] >= 0:
                        found.append(variable)
                        stack.append(reason[variable])
        for it in touched:
            seen[it] = 0
        found.sort(key=place.__getitem__)
        return [*(reason[it] for it in found), conflict]

    def hints(self, number):
        """The clauses that show a clause which isn't live; nothing where unit propagation doesn't."""
        literals, known, conflict = self.clauses[number], len(self.trail), -1
        for literal in literals:
            if self.value[literal] == 1:
                conflict = self.reason[literal >> 1]
                break
            if self.value[literal] == 0:
                self.put(literal ^ 1, -1)
        if conflict < 0:
            conflict = self.propagate(known)
        found = self.used(conflict, literals) if conflict >= 0 else None
        self.back(known)
        return found


def forwards(store, path):
    """Adds and deletes as the text says, up to the first conflict: the steps, with how much was known before each, and the reason that a clause
    of one literal takes the place of; and the clause that is false."""
    steps = []
    for deletes, literals in steps_of(path):
        known = len(store.trail)
        if deletes:
            number = store.delete(literals)
            if number >= 0:
                steps.append((True, number, known, -1))
            continue
        old = store.reason[literals[0] >> 1] if len(set(literals)) == 1 and literals[0] >> 1 < len(store.reason) else -1
        steps.append((False, len(store.clauses), known, old))
        false = store.add(literals)
        if false >= 0:
            return steps, false
    stop(1, f"{path} leads to no conflict")


def backwards(store, steps, path):
    """The hints of each added clause that is needed, by its number."""
    found, length = {}, 0
    for deletes, number, known, old in reversed(steps):
        if deletes:
            store.live[number] = 1
            store.attach(number, store.first if store.needed[number] else store.rest)
            continue
        store.back(known)
        store.live[number] = 0
        if old >= 0:
            store.reason[store.clauses[number][0] >> 1] = old
        if store.needed[number]:
            hints = store.hints(number)
            if hints is None:
                text = " ".join(str(-(it >> 1) if it & 1 else it >> 1) for it in store.clauses[number])
                stop(1, f"{path}: {text} 0 isn't shown by unit propagation")
            for it in hints:
                store.need(it)
            found[number] = hints
            # Each number takes two bytes at least, and a line two zeros.
            length += 2 * (len(hints) + len(store.clauses[number])) + 6
            if length > LONGEST:
                stop(1, f"{path} gets too long as LRAT")
    return found


def main(words):
    store, false, steps = Clauses(), -1, []
    for literals in literals_of(words[0]):
        if false < 0:
            false = store.add(literals)
        else:
            store.clauses.append(literals)
    count = len(store.clauses)
    if false < 0:
        steps, false = forwards(store, words[1])
    last = store.used(false, [])
    for it in last:
        store.need(it)
    found = backwards(store, steps, words[1])
    names, lines = {it: it + 1 for it in range(count)}, []
    for number in sorted(found):
        names[number] = len(names) + 1
        text = [-(it >> 1) if it & 1 else it >> 1 for it in store.clauses[number]]
        lines.append(" ".join(map(str, [names[number], *text, 0, *(names[it] for it in found[number]), 0])))
    lines.append(" ".join(map(str, [len(names) + 1, 0, *(names[it] for it in last), 0])))
    if sum(map(len, lines)) + len(lines) > LONGEST:
        stop(1, f"{words[1]} gets too long as LRAT")
    print("\n".join(lines))


main(sys.argv[1:])
