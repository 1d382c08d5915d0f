"""Published lists of structures with their labels, drawn by RDKit as an SDfile.

A line holds, between tabs, a SMILES, a name and the labels (`2S 3E 4E`: atoms count from 1 in the order of the SMILES,
and both ends of a double bond or an axis have its letter), and where they are given a section, classes of units and the
rules that decide. RDKit draws neither the sense of an allene nor that of a cumulene, nor a double bond that is E in a
small ring: these are drawn here, from the SMILES. The sense of a biaryl axis or of a helix isn't in a SMILES.
"""
import re
from typing import NamedTuple

import sdf

COLUMNS = ("SMILES", "ID", "EXPECTED", "SECTION", "CLASS", "RULES")
# an atom, the number of a ring bond, a bracket around a branch, the sign of a bond
TOKEN = re.compile(r"(\[[^]]*\]|Br|Cl|[BCNOPSFIbcnops*])|(%\d\d|\d)|([()])|[-=#:/\\.~$]")
UNDRAWN = "\n\n(no drawing)\n  0  0  0  0  0  0  0  0  0  0999 V2000\nM  END\n"


class Smiles(NamedTuple):
    """The atoms of a SMILES as they are written, and for each its neighbours in their order, from 0."""

    atoms: list
    near: list


class Wedge(NamedTuple):
    """The mark of a bond from the end of an allene to one of its ligands, from 0."""

    end: int
    ligand: int
    is_up: bool


def rows(file):
    """The lines of a list, each as its columns; a column that is missing is empty."""
    for number, line in enumerate(file, 1):
        values = line.rstrip("\r\n").split("\t")
        if line.strip():
            if len(values) < 2:
                raise sdf.Fault(f"line {number} has no tab between a SMILES and a name")
            yield dict(zip(COLUMNS, values + [""] * len(COLUMNS)))


def record(row):
    """The record of a row: its drawing, and its columns as data items."""
    items = "".join(f">  <{name}>\n{row[name] or '-'}\n\n" for name in COLUMNS[1:])
    return f"{row['ID']}{drawn(row['SMILES']) or UNDRAWN}{items}$$$$\n"


def read(smiles):
    atoms, near, branches, rings, last = [], [], [], {}, None
    for found in TOKEN.finditer(smiles):
        atom, ring, bracket = found.groups()
        if atom:
            near.append([] if last is None else [last])
            if last is not None:
                near[last].append(len(atoms))
            last = len(atoms)
            atoms.append(atom)
        elif ring and ring in rings:
            other, place = rings.pop(ring)
            near[other][place] = last
            near[last].append(other)
        elif ring:
            rings[ring] = last, len(near[last])
            near[last].append(None)
        elif bracket == "(":
            branches.append(last)
        elif bracket:
            last = branches.pop()
        elif found[0] == ".":
            last = None
    return Smiles(atoms, near)


def drawn(smiles):
    """A molfile of a SMILES from the end of its name line on, or None if RDKit can't read or draw it."""
    from rdkit import Chem
    from rdkit.Chem import AllChem

    parameters = Chem.SmilesParserParams()
    # else RDKit drops the marks of centres that its older rules don't find to be any
    parameters.sanitize = parameters.removeHs = False
    molecule = Chem.MolFromSmiles(smiles, parameters)
    if molecule is None:
        return None
    try:
        written = read(smiles)
        chains = cumulenes(molecule)
        sides = [stated_sides(molecule, written, chain) for chain in chains]
        molecule = prepared(molecule, chains)
        AllChem.Compute2DCoords(molecule)
        bend_rings(molecule)
        for chain, stated in zip(chains, sides):
            if stated:
                keep_sides(molecule, chain, *stated)
        wedges = [wedge_of(molecule, written, chain) for chain in chains if len(chain) % 2]
        return with_wedges(Chem.MolToMolBlock(molecule), [wedge for wedge in wedges if wedge])
    except (ValueError, RuntimeError):
        return None


def prepared(molecule, chains):
    """The molecule as RDKit draws it: no marks inside chains, and a further hydrogen atom, after all others, at each
    end that has one ligand."""
    from rdkit import Chem

    molecule = Chem.RWMol(molecule)
    for chain in chains:
        for atom in chain:
            molecule.GetAtomWithIdx(atom).SetChiralTag(Chem.ChiralType.CHI_UNSPECIFIED)
        for end in (chain[0], chain[-1]):
            if molecule.GetAtomWithIdx(end).GetDegree() == 2:
                molecule.AddBond(end, molecule.AddAtom(Chem.Atom(1)), Chem.BondType.SINGLE)
    Chem.SanitizeMol(molecule)
    Chem.SetBondStereoFromDirections(molecule)
    return molecule


def cumulenes(molecule):
    """Chains of two double bonds and more between carbon atoms, each from the end that the SMILES has first."""
    from rdkit import Chem

    double: dict = {}
    for bond in molecule.GetBonds():
        ends = bond.GetBeginAtomIdx(), bond.GetEndAtomIdx()
        if bond.GetBondType() == Chem.BondType.DOUBLE and all(is_carbon(molecule, end) for end in ends):
            for one, other in (ends, ends[::-1]):
                double.setdefault(one, []).append(other)
    chains = [chain_from(double, end) for end in sorted(double) if len(double[end]) == 1]
    return [chain for chain in chains if len(chain) > 2 and chain[0] < chain[-1]]


def is_carbon(molecule, atom):
    return molecule.GetAtomWithIdx(atom).GetAtomicNum() == 6


def chain_from(double, end):
    chain = [end, *double[end]]
    while len(double[chain[-1]]) == 2:
        chain.append(next(atom for atom in double[chain[-1]] if atom != chain[-2]))
    return chain


def stated_sides(molecule, written, chain):
    """Of a chain of three double bonds a ligand at each end, and whether both lie on one side; else None."""
    marks = [mark_at(molecule, written, *ends) for ends in (chain[:2], chain[:-3:-1])]
    if len(chain) % 2 or None in marks:
        return None
    (one, is_above), (other, is_also_above) = marks
    return one, other, is_above == is_also_above


def mark_at(molecule, written, end, inner):
    """A ligand of an end with a mark on its bond, and whether the mark puts it above the end."""
    from rdkit import Chem

    for ligand in written.near[end]:
        bond = molecule.GetBondBetweenAtoms(end, ligand)
        if ligand != inner and bond.GetBondDir() in (Chem.BondDir.ENDUPRIGHT, Chem.BondDir.ENDDOWNRIGHT):
            is_up = bond.GetBondDir() == Chem.BondDir.ENDUPRIGHT
            return ligand, is_up == (bond.GetBeginAtomIdx() == end)
    return None


def keep_sides(molecule, chain, one, other, are_together):
    """Reflects what hangs at the last end in the line through a chain, if its ligand is drawn on the wrong side."""
    conformer = molecule.GetConformer()
    begin, end = (conformer.GetAtomPosition(atom) for atom in (chain[0], chain[-1]))
    sides = [side(begin, end, conformer.GetAtomPosition(atom)) for atom in (one, other)]
    part = reached(molecule, chain[-1], chain[-2])
    if (sides[0] * sides[1] > 0) == are_together or chain[0] in part:
        return
    along = end - begin
    for atom in part:
        away = conformer.GetAtomPosition(atom) - begin
        conformer.SetAtomPosition(atom, begin + along * (2 * away.DotProduct(along) / along.LengthSq()) - away)


def reached(molecule, atom, but):
    """The atoms that bonds reach from one, not by way of its neighbour `but`."""
    part, ahead = {atom}, [atom]
    while ahead:
        place = ahead.pop()
        for other in (neighbour.GetIdx() for neighbour in molecule.GetAtomWithIdx(place).GetNeighbors()):
            if other not in part and (place, other) != (atom, but):
                part.add(other)
                ahead.append(other)
    return part


def side(begin, end, place):
    """On which side of a line a place lies, as the sign of a number."""
    return (end.x - begin.x) * (place.y - begin.y) - (end.y - begin.y) * (place.x - begin.x)


def wedge_of(molecule, written, chain):
    """The mark that shows the sense of an allene or its like: seen from the first ligand the three others run
    counterclockwise if the SMILES has `@`. None if it has no sense."""
    turn = re.search("@+", written.atoms[chain[len(chain) // 2]])
    near, far = (ligands(molecule, written, *ends) for ends in (chain[:2], chain[:-3:-1]))
    if not turn or len(near + far) < 4:
        return None
    places = [molecule.GetConformer().GetAtomPosition(atom) for atom in near + far]
    # the first ligand in front of the plane, the second one at the back
    for place, height in zip(places, (1, -1, 0, 0)):
        place.z = height
    first, *others = places
    one, other, last = (place - first for place in others)
    is_counterclockwise = one.DotProduct(other.CrossProduct(last)) < 0
    return Wedge(chain[0], near[0], is_counterclockwise == (turn[0] == "@"))


def ligands(molecule, written, end, inner):
    """The ligands of an end in the order of the SMILES: a hydrogen that isn't written follows the atom before."""
    named = [atom for atom in written.near[end] if atom != inner]
    added = [atom.GetIdx() for atom in molecule.GetAtomWithIdx(end).GetNeighbors()
             if atom.GetIdx() >= len(written.atoms)]
    follows = written.near[end][0] < end and written.near[end][0] != inner
    return named[:1] + added + named[1:] if follows else added + named


def bend_rings(molecule):
    """Draws double bonds that are E in a ring, where RDKit draws a polygon, by an atom in the middle of the ring."""
    from rdkit import Chem

    conformer, rings = molecule.GetConformer(), molecule.GetRingInfo().AtomRings()
    for bond in molecule.GetBonds():
        ends = [bond.GetBeginAtomIdx(), bond.GetEndAtomIdx()]
        ring = min((ring for ring in rings if set(ends) <= set(ring)), key=len, default=None)
        free = [end for end in ends if molecule.GetAtomWithIdx(end).GetDegree() == 2]
        if not (ring and free) or bond.GetStereo() not in (Chem.BondStereo.STEREOE, Chem.BondStereo.STEREOTRANS):
            continue
        line = [conformer.GetAtomPosition(end) for end in ends]
        sides = [side(*line, conformer.GetAtomPosition(atom)) for atom in bond.GetStereoAtoms()]
        if sides[0] * sides[1] > 0:
            first, *others = (conformer.GetAtomPosition(atom) for atom in ring if atom not in ends)
            conformer.SetAtomPosition(free[0], sum(others, first) / (len(others) + 1))


def with_wedges(block, wedges):
    """A molfile from the end of its name line on, with marks at the ends of allenes, the first atoms of their bonds."""
    lines = block.split("\n")
    atoms, bonds = int(lines[3][:3]), int(lines[3][3:6])
    for end, ligand, is_up in wedges:
        for place in range(4 + atoms, 4 + atoms + bonds):
            if {int(lines[place][:3]), int(lines[place][3:6])} == {end + 1, ligand + 1}:
                lines[place] = f"{end + 1:3d}{ligand + 1:3d}  1  {1 if is_up else 6}"
    return "\n".join(["", *lines[1:]])
