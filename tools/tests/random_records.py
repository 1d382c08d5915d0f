"""Random records in space, the same for the same seed: trees of many elements with rings, multiple bonds, alternating
rings, isotopes, and centres that carry the same branch twice with senses by lot.

Their places are by lot too, so that every unit has a sense, and nothing is meant of their chemistry.
"""
import random

ELEMENTS = (("C", 60), ("N", 10), ("O", 12), ("S", 6), ("P", 4), ("Si", 2), ("F", 2), ("Cl", 2), ("Br", 2))
FREE = {"C": 4, "N": 3, "O": 2, "S": 2, "P": 3, "Si": 4, "F": 1, "Cl": 1, "Br": 1}
ISOTOPES = {"C": 13, "N": 15, "O": 18, "Cl": 37}
# the atoms of alternating rings of six
RINGS = ("CCCCCC", "CCCCCN", "CCCNCN", "CCNCCN")


class Molecule:
    """Atoms with the valences that are free, bonds, and isotopes."""

    def __init__(self, deal):
        self.deal, self.atoms, self.free, self.bonds, self.isotopes = deal, [], [], {}, {}

    def add(self, symbol, to=None, order=1):
        self.atoms.append(symbol)
        self.free.append(FREE[symbol])
        if to is not None:
            self.join(len(self.atoms) - 1, to, order)
        return len(self.atoms) - 1

    def join(self, one, other, order=1):
        self.bonds[min(one, other), max(one, other)] = order
        self.free[one] -= order
        self.free[other] -= order

    def with_room(self, places, room=1):
        return [place for place in places if self.free[place] >= room]

    def grow(self, count, first):
        """A tree of some atoms below an atom."""
        places = [first]
        for _ in range(count):
            rooms = self.with_room(places)
            if not rooms:
                break
            symbol = self.deal.choices(*zip(*ELEMENTS))[0]
            places.append(self.add(symbol, self.deal.choice(rooms)))
        return places

    def add_ring(self, to):
        """An alternating ring at an atom, one more condensed to it now and then."""
        symbols = self.deal.choice(RINGS)
        ring = [self.add(symbol) for symbol in symbols]
        self.alternate(ring)
        self.join(ring[0], to)
        if self.deal.random() < 0.4 and self.bonds[ring[1], ring[2]] == 2 and symbols[1:3] == "CC":
            more = [ring[1], *(self.add("C") for _ in range(4)), ring[2]]
            for one, other, order in zip(more, more[1:], (1, 2, 1, 2, 1)):
                self.join(one, other, order)
        return ring

    def alternate(self, ring):
        form = self.deal.randint(1, 2)
        for place, (one, other) in enumerate(zip(ring, ring[1:] + ring[:1])):
            self.join(one, other, 1 + (place + form) % 2)

    def close(self, places):
        """A ring more, between two atoms that aren't neighbours."""
        rooms = self.with_room(places)
        if len(rooms) > 1:
            one, other = sorted(self.deal.sample(rooms, 2))
            if (one, other) not in self.bonds:
                self.join(one, other)

    def raise_bonds(self, places):
        """Double and triple bonds by lot, and the =O of sulfur and phosphorus."""
        kept = set(places)
        for (one, other), order in list(self.bonds.items()):
            free = min(self.free[one], self.free[other])
            if order == 1 and free and {one, other} <= kept and self.deal.random() < 0.25:
                more = self.deal.choice((1, 1, 1, 2)) if free > 1 else 1
                self.join(one, other, more)
                self.bonds[one, other] += order
        for place in places:
            if self.atoms[place] in ("S", "P") and self.deal.random() < 0.5:
                self.free[place] += 2
                self.add("O", place, 2)

    def twice(self, root, count):
        """The same branch twice at an atom."""
        before = len(self.atoms)
        branch = self.grow(count, self.add("C", root))
        self.raise_bonds(branch)
        atoms, moved = self.atoms[before:], len(self.atoms) - before
        inner = {pair: order for pair, order in self.bonds.items() if min(pair) >= before}
        for symbol in atoms:
            self.add(symbol)
        for (one, other), order in inner.items():
            self.join(one + moved, other + moved, order)
        self.join(before + moved, root)


def twins(made, root):
    """A centre that carries the same branch twice."""
    made.twice(root, made.deal.randint(2, 6))
    made.grow(made.deal.randint(2, 6), root)


def tree(made, root):
    """A tree with an alternating ring, some rings more and multiple bonds."""
    made.add_ring(root)
    places = made.grow(made.deal.randint(3, 9), root)
    for _ in range(made.deal.randint(0, 2)):
        made.close(places)
    made.raise_bonds(places)


def two_rings(made, root):
    """A centre with two alternating rings, of which often a mean tells which is higher."""
    made.add_ring(root)
    made.add_ring(root)
    made.raise_bonds(made.grow(made.deal.randint(2, 6), root))


def cage(made, root):
    """Rings of carbon alone."""
    places = [root]
    for _ in range(made.deal.randint(5, 11)):
        places.append(made.add("C", made.deal.choice(made.with_room(places[-4:]) or made.with_room(places))))
    for _ in range(made.deal.randint(2, 4)):
        made.close(places)


def molecule(deal):
    made = Molecule(deal)
    deal.choices((twins, tree, two_rings, cage), (35, 35, 15, 15))[0](made, made.add("C"))
    for place, symbol in enumerate(made.atoms):
        if symbol in ISOTOPES and deal.random() < 0.03:
            made.isotopes[place + 1] = ISOTOPES[symbol]
    return made


def record(made, number):
    """A record of version 2000 with places by lot."""
    lines = [f"random {number}", "", "", f"{len(made.atoms):3d}{len(made.bonds):3d}  0  0  0  0            999 V2000"]
    for symbol in made.atoms:
        place = "".join(f"{made.deal.uniform(-9, 9):10.4f}" for _ in range(3))
        lines.append(f"{place} {symbol:3s} 0  0  0  0  0  0  0  0  0  0  0  0")
    lines += [f"{one + 1:3d}{other + 1:3d}{order:3d}  0" for (one, other), order in made.bonds.items()]
    pairs = list(made.isotopes.items())
    for begin in range(0, len(pairs), 8):
        some = pairs[begin:begin + 8]
        lines.append(f"M  ISO{len(some):3d}" + "".join(f" {place:3d} {mass:3d}" for place, mass in some))
    return "\n".join([*lines, "M  END", "$$$$", ""]).encode()


def records(count, seed=1):
    deal = random.Random(seed)
    return b"".join(record(molecule(deal), number) for number in range(1, count + 1))
