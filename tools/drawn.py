"""A record's molecule as the page draws it: atoms in the plane, and the hydrogens that aren't drawn."""
import math
import statistics

BOND = 380
MARKS = {"": 0, "up": 1, "either": 4, "down": 6}
NO_VALENCE = 15
VALENCES = {
    ("B", 0): (3,), ("B", -1): (4,), ("C", 0): (4,), ("C", 1): (3,), ("C", -1): (3,), ("N", 0): (3, 5), ("N", 1): (4,),
    ("N", -1): (2,), ("O", 0): (2,), ("O", 1): (3,), ("O", -1): (1,), ("F", 0): (1,), ("Cl", 0): (1,), ("Br", 0): (1,),
    ("I", 0): (1,), ("Si", 0): (4,), ("P", 0): (3, 5), ("P", 1): (4,), ("S", 0): (2, 4, 6), ("S", 1): (3,),
    ("S", -1): (1,), ("As", 0): (3, 5), ("Se", 0): (2, 4, 6),
}


def trimmed(values):
    """Values without the zeros at their end, but the first three."""
    while len(values) > 3 and not values[-1]:
        values.pop()
    return values


def hydrogens(atom, orders):
    """How many hydrogens an atom has that aren't drawn."""
    used = int(sum(1.5 if order == 4 else order for order in orders))
    if atom.valence:
        return 0 if atom.valence == NO_VALENCE else max(0, atom.valence - used)
    need = used + (0, 2, 1, 2)[max(0, min(atom.radical, 3))]
    return next((valence - need for valence in VALENCES.get((atom.symbol, atom.charge), ()) if valence >= need), 0)


def dot(one, other):
    return sum(a * b for a, b in zip(one, other))


def cross(one, other):
    (a, b, c), (d, e, f) = one, other
    return (b * f - c * e, c * d - a * f, a * e - b * d)


def unit(vector):
    length = math.sqrt(dot(vector, vector))
    return tuple(part / length for part in vector) if length else (1.0, 0.0, 0.0)


def widest(matrix):
    """The direction in which a symmetric matrix stretches most."""
    vector = (0.6, 0.5, 0.62)
    for _ in range(60):
        vector = unit(tuple(dot(row, vector) for row in matrix))
    return vector


def projected(places):
    """Places in space seen from where they are spread most; turned, never reflected."""
    centre = [statistics.fmean(part) for part in zip(*places)]
    away = [tuple(part - middle for part, middle in zip(place, centre)) for place in places]
    spread = [[sum(place[i] * place[j] for place in away) for j in range(3)] for i in range(3)]
    trace = sum(spread[i][i] for i in range(3))
    right = widest(spread)
    least = widest([[(trace if i == j else 0) - spread[i][j] for j in range(3)] for i in range(3)])
    towards = unit(tuple(a - b * dot(least, right) for a, b in zip(least, right)))
    up = cross(towards, right)
    return [(dot(place, right), dot(place, up)) for place in away]


def plane(drawing):
    """The places of atoms in the plane of the page, a bond 38 long, in tenths; y runs down."""
    places = [atom.place for atom in drawing.atoms]
    flat = projected(places) if any(z for _, _, z in places) else [(x, y) for x, y, _ in places]
    lengths = [math.dist(flat[bond.first], flat[bond.second]) for bond in drawing.bonds]
    long = [length for length in lengths if length > 1e-6]
    scale = BOND / statistics.median(long) if long else BOND
    left, top = (min(part) for part in zip(*flat))
    return [(round((x - left) * scale), round((top - y) * scale)) for x, y in flat]


def drawn(drawing):
    """The atoms and bonds of a drawing as the script of the page reads them, and whether it's in space."""
    orders = [[] for _ in drawing.atoms]
    for bond in drawing.bonds:
        orders[bond.first].append(bond.order)
        orders[bond.second].append(bond.order)
    atoms = [
        trimmed([x, y, atom.symbol or "?", hydrogens(atom, around), atom.charge, atom.isotope, atom.radical])
        for atom, (x, y), around in zip(drawing.atoms, plane(drawing), orders)
    ]
    bonds = [trimmed([bond.first, bond.second, bond.order, MARKS[bond.mark]]) for bond in drawing.bonds]
    return {"a": atoms, "b": bonds, "z": int(any(atom.place[2] for atom in drawing.atoms))}
