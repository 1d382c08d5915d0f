"""Symmetric molecules as graphs of drawn atoms, and their records: atoms stand in space where chance puts them, so that
the senses of their centres are any."""
import random

MOST_ATOMS = 999


class Molecule:
    """Drawn atoms with their symbols, charges and isotopes, and the bonds between them."""

    def __init__(self):
        self.symbols, self.charges, self.isotopes, self.bonds = [], {}, {}, []

    def add(self, symbol="C"):
        self.symbols.append(symbol)
        return len(self.symbols) - 1

    def bind(self, a, b, order=1):
        self.bonds.append([a, b, order])

    def put_on(self, atom, symbol):
        new = self.add(symbol)
        self.bind(atom, new)
        return new

    def close(self, atoms):
        """Bonds from each of these atoms to the next one, and from the last to the first."""
        for a, b in zip(atoms, atoms[1:] + atoms[:1]):
            self.bind(a, b)

    def degree(self, atom):
        return sum(atom in bond[:2] for bond in self.bonds)


def ring(count, substituents=("Cl",)):
    """A ring of carbon atoms that bear these in turn; None is none."""
    molecule = Molecule()
    corners = [molecule.add() for _ in range(count)]
    molecule.close(corners)
    for place, corner in enumerate(corners):
        symbol = substituents[place % len(substituents)]
        if symbol:
            molecule.put_on(corner, symbol)
    return molecule


def cage(jumps, times):
    """A ring of CH with a bond from each corner to the one so many corners on."""
    molecule = Molecule()
    count = len(jumps) * times
    corners = [molecule.add() for _ in range(count)]
    molecule.close(corners)
    known = {frozenset(bond[:2]) for bond in molecule.bonds}
    for place, corner in enumerate(corners):
        other = corners[(place + jumps[place % len(jumps)]) % count]
        if frozenset((corner, other)) not in known:
            known.add(frozenset((corner, other)))
            molecule.bind(corner, other)
    return molecule


def prismane(corners):
    """Two rings of CH, one above the other."""
    molecule = Molecule()
    below = [molecule.add() for _ in range(corners)]
    above = [molecule.add() for _ in range(corners)]
    molecule.close(below)
    molecule.close(above)
    for a, b in zip(below, above):
        molecule.bind(a, b)
    return molecule


def ring_of_rings(count, size):
    """Rings of CHCl, each at one atom that is bound to the next one's by a CH2."""
    molecule = Molecule()
    joints = []
    for _ in range(count):
        joint = molecule.add()
        corners = [molecule.add() for _ in range(size)]
        molecule.close([joint, *corners])
        for corner in corners:
            molecule.put_on(corner, "Cl")
        joints.append(joint)
    for place, joint in enumerate(joints):
        between = molecule.put_on(joint, "C")
        molecule.bind(between, joints[(place + 1) % count])
    return molecule


def inositols(count, is_closed=True):
    """Rings of six CHOH, joined by oxygen atoms to a chain, or to a ring."""
    molecule = Molecule()
    rings = []
    for _ in range(count):
        corners = [molecule.add() for _ in range(6)]
        molecule.close(corners)
        for corner in (1, 2, 4, 5):
            molecule.put_on(corners[corner], "O")
        rings.append(corners)
    for place in range(count if is_closed else count - 1):
        between = molecule.put_on(rings[place][3], "O")
        molecule.bind(between, rings[(place + 1) % count][0])
    return molecule


def ladder(steps):
    """Two chains of CH with a bond at each atom."""
    molecule = Molecule()
    before = None
    for _ in range(steps):
        pair = molecule.add(), molecule.add()
        molecule.bind(*pair)
        if before:
            molecule.bind(before[0], pair[0])
            molecule.bind(before[1], pair[1])
        before = pair
    return molecule


def bridges(length, count=3):
    """Two CH joined by so many chains of CHCl."""
    molecule = Molecule()
    ends = molecule.add(), molecule.add()
    for _ in range(count):
        at = ends[0]
        for _ in range(length):
            at = molecule.put_on(at, "C")
            molecule.put_on(at, "Cl")
        molecule.bind(at, ends[1])
    return molecule


def star(arms, length):
    """A CHOH with chains of CHCl."""
    molecule = Molecule()
    centre = molecule.add()
    molecule.put_on(centre, "O")
    for _ in range(arms):
        at = centre
        for _ in range(length):
            at = molecule.put_on(at, "C")
            molecule.put_on(at, "Cl")
    return molecule


def tree(depth):
    """Three dendrons at a CH, each atom with two more."""
    molecule = Molecule()
    outer = [molecule.add()]
    for sphere in range(depth):
        outer = [molecule.put_on(at, "C") for at in outer for _ in range(2 if sphere else 3)]
    return molecule


# by the lengths of their jumps
CAGES = {
    "cubane": ((3, -3), 4),
    "truncated tetrahedron": ((2, 6, -2), 4),
    "Heawood": ((5, -5), 7),
    "Moebius-Kantor": ((5, -5), 8),
    "Pappus": ((5, 7, -7, 7, -7, -5), 3),
    "dodecahedrane": ((10, 7, 4, -4, -7, 10, -4, 7, -7, 4), 2),
    "Desargues": ((5, -5, 9, -9), 5),
    "Nauru": ((5, -9, 7, -7, 9, -5), 4),
}


def named_cage(name):
    return cage(*CAGES[name])


def hard():
    """Molecules that take long, each with its name."""
    for name in CAGES:
        yield name, named_cage(name)
    for corners in (10, 11, 12):
        yield f"{corners}-prismane", prismane(corners)
    for count in (10, 20):
        yield f"ring of {count} rings", ring_of_rings(count, 5)
    for count in (6, 12):
        yield f"ring of {count} inositols", inositols(count)
        yield f"chain of {count} inositols", inositols(count, False)
    yield "ring of 100 CHCl-CH2", ring(200, ("Cl", None))
    yield "ring of 60 CHCl-(CH2)3", ring(240, ("Cl", None, None, None))
    yield "ring of 50 CHCl-CHBr", ring(100, ("Cl", "Br"))
    yield "ring of 100 CHCl, one CHBr", ring(100, ("Cl",) * 99 + ("Br",))
    yield "ladder of 40 steps", ladder(40)
    yield "three bridges of 20 CHCl", bridges(20)
    yield "star of two chains of 200", star(2, 200)
    yield "star of three chains of 60", star(3, 60)
    yield "tree of six spheres", tree(6)


def record(name, molecule, chooser=None, places=None):
    """The record of a molecule in space, at these places or where chance puts its atoms."""
    chooser = chooser or random.Random(name)
    count = len(molecule.symbols)
    if count > MOST_ATOMS or len(molecule.bonds) > MOST_ATOMS:
        raise ValueError(f"{name} is too large for V2000")
    lines = [name, f"  {'cip':8}{'':10}3D", "", f"{count:3}{len(molecule.bonds):3}  0  0  0  0            999 V2000"]
    for atom, symbol in enumerate(molecule.symbols):
        x, y, z = places[atom] if places else (chooser.uniform(-50, 50) for _ in range(3))
        lines.append(f"{x:10.4f}{y:10.4f}{z:10.4f} {symbol:3} 0  0  0  0  0  0  0  0  0  0  0  0")
    lines += [f"{a + 1:3}{b + 1:3}{order:3}  0" for a, b, order in molecule.bonds]
    for word, values in (("CHG", molecule.charges), ("ISO", molecule.isotopes)):
        lines += [f"M  {word}  1 {atom + 1:3} {value:3}" for atom, value in sorted(values.items())]
    return "\n".join([*lines, "M  END", "$$$$", ""])
