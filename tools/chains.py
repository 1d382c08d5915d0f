"""Chains of double bonds and rings of a drawing, by its bonds alone; atoms count from 1 as in a record."""
LARGEST_ALTERNATING = 24
# the letters of axes and helices
AXIAL = ("M", "P", "m", "p")


def neighbours(drawing):
    """For each atom its neighbours, each with the order of the bond."""
    near = {number: {} for number in range(1, len(drawing.atoms) + 1)}
    for bond in drawing.bonds:
        near[bond.first + 1][bond.second + 1] = near[bond.second + 1][bond.first + 1] = bond.order
    return near


def chain_from(near, atom):
    """The atoms of a chain of double bonds from its end on; the end alone where none begins there."""
    chain = [atom]
    while True:
        further = [other for other, order in near[chain[-1]].items() if order == 2 and other not in chain]
        if len(further) != 1:
            return chain
        chain.append(further[0])


def ring_size(near, one, other):
    """How many atoms the smallest ring through a bond has, or None."""
    reached, sphere, size = {one}, [one], 1
    while sphere:
        size += 1
        sphere = list({further for atom in sphere for further in near[atom]
                       if further not in reached and {atom, further} != {one, other}})
        if other in sphere:
            return size
        reached.update(sphere)
    return None


def is_in_alternating_ring(near, one, other):
    """Whether a double bond lies in a ring of at most 24 atoms in which double and single bonds take turns."""
    def closes(path):
        order = 2 if len(path) % 2 else 1
        for further, found in near[path[-1]].items():
            if found == order == 1 and further == one and len(path) > 2:
                return True
            if found == order and further not in path and len(path) < LARGEST_ALTERNATING and closes([*path, further]):
                return True
        return False

    return closes([one, other])


def unit_name(near, atoms):
    """The name of a unit as `cip` would give it; `h` before two atoms of a helix, which no bond or chain joins."""
    first, *last = atoms
    kind = "a" if not last else kind_of_pair(near, first, last[0])
    return kind + "-".join(map(str, atoms))


def kind_of_pair(near, first, last):
    chain = chain_from(near, first)
    if chain[-1] == last:
        return {2: "b", 3: "x"}.get(len(chain), "c")
    return "t" if last in near[first] else "h"


def paired(near, ends):
    """Units of the ends that a list gives with a letter each: the ends of a chain of double bonds; of M and P the ends
    of a bond, or else any two. An end without another one is a unit by itself.
    """
    left, units = dict(ends), {}
    for others_of in (ends_of_chain, ends_of_bonds, other_ends):
        for end in sorted(ends):
            others = others_of(near, left, end) if end in left else []
            other = next((other for other in others if left.get(other) == left[end] and other != end), None)
            if other:
                units[tuple(sorted((end, other)))] = left.pop(end)
                del left[other]
    return {**units, **{(end,): letter for end, letter in left.items()}}


def ends_of_chain(near, _, end):
    return chain_from(near, end)[-1:]


def ends_of_bonds(near, left, end):
    return near[end] if left[end] in AXIAL else []


def other_ends(_, left, end):
    return left if left[end] in AXIAL else []
