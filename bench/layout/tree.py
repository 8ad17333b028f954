"""Where the paths of definitions and proofs lead, by what the crates' node files declare and hand on.

A path is `Rattle.CRATE.SIDE.PLACE`, where SIDE is `specs` or `proofs`. What a node file hands on (`pub use Rattle.low.specs.Grid`, or
`.. as low` for all of a library) is followed; what stands below `declared` and `contracts`, and below a module of `src`, rattle makes."""
import pathlib
import re

TOP = pathlib.Path(__file__).resolve().parent.parent.parent
SIDES = ("specs", "proofs")
PATH = r"Rattle\.(\w+)\.(specs|proofs)((?:\.[^\s.{}(),;\[\]]+)*)"
HANDED = re.compile(r"\s*pub use " + PATH + r"(?:\.\{(.*)\})?(?: as (\S+))?\s*$")


def parts_of(place):
    return [part for part in place.split(".") if part]


def path_of(crate, side, place):
    return ".".join(["Rattle", crate, side, *place])


class Tree:
    """The sources of a repository, in memory, and where its paths lead."""

    def __init__(self, top):
        self.top = pathlib.Path(top)
        self.below, self.nodes = {}, {}
        for row in (self.top / "crates.txt").read_text().splitlines():
            name, colon, libraries = row.partition(":")
            if colon and not row.startswith("#"):
                self.below[name.strip()] = libraries.split()
        kinds = ("*.rt", "*.antt")
        found = (file for name in self.below for kind in kinds for file in (self.crates / name).rglob(kind))
        self.texts = {file: file.read_text() for file in found if "out" not in file.relative_to(self.crates).parts}

    @property
    def crates(self):
        return self.top / "crates"

    def crate_of(self, file):
        return file.relative_to(self.crates).parts[0]

    def node_file(self, crate, side, place):
        return self.crates / crate / side / ("/".join(place) + ".antt" if place else "Lib.antt")

    def handed_on(self, crate, side, place):
        """What the node at this place hands on: the name there, and crate, side and place of what it stands for."""
        node = crate, side, tuple(place)
        if node not in self.nodes:
            self.nodes[node] = self.handed_by(self.texts.get(self.node_file(crate, side, place), ""))
        return self.nodes[node]

    @staticmethod
    def handed_by(text):
        found = {}
        for line in text.splitlines():
            if match := HANDED.match(line):
                low, low_side, low_place, names, name = match.groups()
                low_place = parts_of(low_place)
                if names is None:
                    found[name or (low_place[-1] if low_place else low)] = low, low_side, low_place
                else:
                    found |= {it.strip(): (low, low_side, [*low_place, it.strip()]) for it in names.split(",")}
        return found

    def resolve(self, crate, side, place):
        """Crate, side and place where the path's module is declared."""
        done = []
        for at, part in enumerate(place):
            handed = self.handed_on(crate, side, done)
            if part in handed:
                low, low_side, low_place = handed[part]
                return self.resolve(low, low_side, [*low_place, *place[at + 1 :]])
            done.append(part)
        return crate, side, done
