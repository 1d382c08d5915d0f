"""The molecules that bench/growth draws, each as an SDfile of one record, by RDKit."""
import itertools

from rdkit import Chem
from rdkit.Chem import AllChem

RESIDUES = ("NC(C)C(=O)", "NC(CO)C(=O)", "NC(C(C)C)C(=O)", "NC(CCCCN)C(=O)", "NC(Cc9ccccc9)C(=O)")
FULLERENE = (
    "c12c3c4c5c1c1c6c7c2c2c8c3c3c9c4c4c%10c5c5c1c1c6c6c%11c7c2c2c7c8c3c3c8c9c4c4c9c%10c5c5c1c1c6c6c%11c2c2c7c3c3c8c4"
    "c4c9c5c1c1c6c2c3c41"
)


def chain(atoms):
    return "O" + "C(C)C(=O)O" * (atoms // 5) + "C"


def peptide(atoms):
    text = ""
    for residue in itertools.cycle(RESIDUES):
        text += residue
        if sum(letter in "CNOc" for letter in text) >= atoms:
            return text + "O"


def sugar(atoms):
    text = "O"
    for _ in range(atoms // 11):
        text = f"OC1OC(CO)C({text})C(O)C1O"
    return text


def rings(atoms):
    """Rings of six, each joined to the one before at a bond, an alcohol at the first."""
    molecule = Chem.RWMol(Chem.MolFromSmiles("OC1CCCCC1"))
    joint = (3, 4)
    while molecule.GetNumAtoms() < atoms:
        new = [molecule.AddAtom(Chem.Atom(6)) for _ in range(4)]
        way = [joint[0], *new, joint[1]]
        for a, b in zip(way, way[1:]):
            molecule.AddBond(a, b, Chem.BondType.SINGLE)
        joint = (new[1], new[2])
    return Chem.MolToSmiles(molecule)


def prismane(corners):
    """Two rings of CH, one above the other."""
    molecule = Chem.RWMol()
    for _ in range(2 * corners):
        molecule.AddAtom(Chem.Atom(6))
    for corner in range(corners):
        above = (corner + 1) % corners
        for a, b in ((corner, above), (corners + corner, corners + above), (corner, corners + corner)):
            molecule.AddBond(a, b, Chem.BondType.SINGLE)
    return Chem.MolToSmiles(molecule)


def branch(depth, end):
    return end if depth == 0 else f"C({branch(depth - 1, end)}){branch(depth - 1, 'C')}"


def fullerenol():
    molecule = Chem.RWMol(Chem.MolFromSmiles(FULLERENE))
    Chem.Kekulize(molecule, clearAromaticFlags=True)
    bond = next(bond for bond in molecule.GetBonds() if bond.GetBondType() == Chem.BondType.DOUBLE)
    bond.SetBondType(Chem.BondType.SINGLE)
    molecule.AddBond(bond.GetBeginAtomIdx(), molecule.AddAtom(Chem.Atom(8)), Chem.BondType.SINGLE)
    return Chem.MolToSmiles(molecule)


def symmetric():
    yield "inositol", "OC1C(O)C(O)C(O)C(O)C1O"
    yield "cyclodextrin", (
        "OCC1OC2OC3C(O)C(O)C(OC4C(O)C(O)C(OC5C(O)C(O)C(OC6C(O)C(O)C(OC7C(O)C(O)C(OC1C(O)C2O)"
        "OC7CO)OC6CO)OC5CO)OC4CO)OC3CO"
    )
    yield "cubane", "OC12C3C4C1C5C2C3C45"
    yield "dodecahedrane", "C12C3C4C5C1C6C7C2C8C3C9C4C1C5C6C2C7C8C9C12"
    yield "prismane of ten corners", prismane(10)
    yield "chain of 300 CHOH, alike ends", "C" + "C(O)" * 300 + "C"
    yield "ring of 50 CHMe-CH2", "C1(C)C" + "C(C)C" * 48 + "C(C)C1"
    yield "dendrimer, a tie", f"OC({branch(6, 'C')}){branch(6, 'C')}"
    yield "dendrimer, told at its end", f"OC({branch(6, 'C')}){branch(6, 'N')}"
    yield "polyphenyl", "OC(" + "c1ccc(cc1)-" * 5 + "c1ccccc1)" + "c1ccc(cc1)-" * 5 + "c1ccc(N)cc1"
    yield "fullerenol", fullerenol()
    yield "rings, all marked", rings(51)
    yield "more rings, all marked", rings(103)


def is_marked(atom, all_of_them):
    bears_oxygen = any(other.GetSymbol() == "O" for other in atom.GetNeighbors())
    return (
        atom.GetSymbol() == "C"
        and atom.GetTotalDegree() == 4
        and atom.GetTotalNumHs() < 2
        and (all_of_them or bears_oxygen)
    )


def record(smiles, all_of_them=True):
    """The molecule drawn, with its marks."""
    molecule = Chem.MolFromSmiles(smiles)
    for atom in molecule.GetAtoms():
        if is_marked(atom, all_of_them):
            atom.SetChiralTag(Chem.ChiralType.CHI_TETRAHEDRAL_CW)
    AllChem.Compute2DCoords(molecule)
    return molecule.GetNumAtoms(), Chem.MolToMolBlock(molecule, kekulize=True) + "$$$$\n"
