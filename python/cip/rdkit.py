"""Labels of RDKit's molecules, where RDKit has its own.

    import cip.rdkit
    from rdkit import Chem

    molecule = Chem.MolFromSmiles("N[C@@H](C)C(=O)O")
    labels = cip.rdkit.assign(molecule)
    print(molecule.GetAtomWithIdx(1).GetProp("_CIPCode"))  # S
"""
import threading
from dataclasses import replace
from typing import Any, Iterator, List, Optional, Set, Tuple

from rdkit import Chem  # type: ignore
from rdkit.Chem import rdDepictor  # type: ignore

from cip import Label, Labeller, Labels

__all__ = ["assign"]

_CODE = "_CIPCode"
# RDKit's own names of letters
_NAMES = {"seqCis": "z", "seqTrans": "e"}
_TAGS = (Chem.ChiralType.CHI_TETRAHEDRAL_CW, Chem.ChiralType.CHI_TETRAHEDRAL_CCW)
_TOGETHER = {Chem.BondStereo.STEREOZ: True, Chem.BondStereo.STEREOCIS: True,
             Chem.BondStereo.STEREOE: False, Chem.BondStereo.STEREOTRANS: False}

_of_thread = threading.local()


def assign(molecule: Any, labeller: Optional[Labeller] = None) -> Labels:
    """Sets the property `_CIPCode` of each labelled atom and double bond, and gives the labels.

    What counts is the molecule's stereo as RDKit has it: chiral tags, and the stereo of double bonds. Its drawing shows
    it if it has one in 2D; otherwise, or where that leaves a letter open, one that RDKit makes of a copy, one by
    CoordGen, and at last its own places in space, each also with all hydrogens. A unit whose sense none of them shows
    has no letter. seqCis and seqTrans are z and e, as RDKit has them. The atoms of labels count from 1. Allenes have no
    label, since RDKit knows no stereo of them. Codes that were there before are cleared.

    `Refused`, with all codes as they were, if `cip` doesn't read such molecules, for example one with a query atom.
    """
    if not isinstance(molecule, Chem.Mol):
        raise TypeError(f"a molecule is one of RDKit, not {type(molecule).__name__}")
    labels = _best(_sound(molecule), labeller or _usual())
    for part in (*molecule.GetAtoms(), *molecule.GetBonds()):
        part.ClearProp(_CODE)
    for label in labels:
        atoms = [number - 1 for number in label.atoms]
        if label.unit[0] == "a":
            part = molecule.GetAtomWithIdx(atoms[0])
        else:
            part = molecule.GetBondBetweenAtoms(*atoms)
        part.SetProp(_CODE, _NAMES.get(label.letter, label.letter))
    return labels


# The labeller of this thread for molecules that come without one.
def _usual() -> Labeller:
    if not hasattr(_of_thread, "labeller"):
        _of_thread.labeller = Labeller()
    return _of_thread.labeller  # type: ignore[no-any-return]


# A copy of a molecule in which a double bond is undecided if its stereo doesn't say of which atoms, since drawing it
# would end the process.
def _sound(molecule: Any) -> Any:
    copy = Chem.Mol(molecule)
    for bond in copy.GetBonds():
        if bond.GetStereo() in _TOGETHER and len(bond.GetStereoAtoms()) != 2:
            bond.SetStereo(Chem.BondStereo.STEREOANY)
    return copy


# The labels of the first drawing that shows all stereo of a molecule, or else of the one that shows most.
def _best(molecule: Any, labeller: Labeller) -> Labels:
    wanted, best, fewest = _stereo(molecule), Labels(), -1
    for drawing in _drawings(molecule):
        labels, lost = _labelled(molecule, drawing, wanted, labeller)
        if fewest < 0 or len(lost) < fewest:
            best, fewest = labels, len(lost)
        if not lost:
            break
    return best


# The labels of a molecule as it is drawn, and which of some units have none because of that, or all of them where it
# shows what the molecule hasn't, as a place in space may.
def _labelled(molecule: Any, drawing: Any, wanted: Set[str], labeller: Labeller) -> Tuple[Labels, Set[str]]:
    _open_what_is_not_shown(drawing)
    block, labels = _consistent(molecule, drawing, labeller)
    found = {label.unit for label in labels}
    if not found <= wanted or _wrong(molecule, labels):
        return Labels(), wanted
    lost = wanted - found
    if lost:
        lines = [line.split(" ") for line in labeller.explain(block).splitlines()]
        lost &= {words[0] for words in lines if words[1] == "none"}
    return labels, lost


# The molfile and labels of a drawing, without the wedges of centres that read as the mirror image of the molecule's.
def _consistent(molecule: Any, drawing: Any, labeller: Labeller) -> Tuple[str, Labels]:
    while True:
        block: str = Chem.MolToMolBlock(drawing)
        labels = _with_own_atoms(labeller.labels(block), molecule.GetNumAtoms())
        wrong = map(drawing.GetAtomWithIdx, _wrong(molecule, labels))
        tagged = [atom for atom in wrong if atom.GetChiralTag() in _TAGS]
        if not tagged:
            return block, labels
        for atom in tagged:
            atom.SetChiralTag(Chem.ChiralType.CHI_UNSPECIFIED)


# The atoms whose labels are those of the mirror image of what a molecule has there.
def _wrong(molecule: Any, labels: Labels) -> List[int]:
    centres = {label.atoms[0] - 1: label for label in labels if label.unit[0] == "a"}
    return [place for place, label in centres.items() if not _has_sense(molecule.GetAtomWithIdx(place), label)]


# The labels with `H` in place of a hydrogen atom that only the drawing has.
def _with_own_atoms(labels: Labels, count: int) -> Labels:
    for place, label in enumerate(labels):
        order = (["H" if ligand.isdigit() and int(ligand) > count else ligand for ligand in end] for end in label.order)
        labels[place] = replace(label, order=tuple(map(tuple, order)))
    return labels


# Whether an atom's tag is the sense of a label: the tag is that of its neighbours in the order of its bonds, with what
# isn't drawn as the last one, and R that of the ligands in rank order, both seen from the first one.
def _has_sense(atom: Any, label: Label) -> bool:
    ligands = list(label.order[0])
    drawn = [str(bond.GetOtherAtomIdx(atom.GetIdx()) + 1) for bond in atom.GetBonds()]
    places = [drawn.index(ligand) if ligand in drawn else len(drawn) for ligand in ligands]
    swaps = sum(one > other for place, one in enumerate(places) for other in places[place:])
    is_clockwise = bool(atom.GetChiralTag() == Chem.ChiralType.CHI_TETRAHEDRAL_CW)
    return is_clockwise == ((label.letter in "Rr") == (swaps % 2 == 0))


# The units that have a sense in a molecule.
def _stereo(molecule: Any) -> Set[str]:
    atoms = {f"a{atom.GetIdx() + 1}" for atom in molecule.GetAtoms() if atom.GetChiralTag() in _TAGS}
    return atoms | {_name(bond) for bond in molecule.GetBonds() if bond.GetStereo() in _TOGETHER}


def _name(bond: Any) -> str:
    first, second = sorted((bond.GetBeginAtomIdx() + 1, bond.GetEndAtomIdx() + 1))
    return f"b{first}-{second}"


# Drawings of copies of a molecule, one after the other as they are needed, each also with all hydrogens.
def _drawings(molecule: Any) -> Iterator[Any]:
    for draw in (_as_it_is, _by_rdkit, _by_coordgen, _in_space):
        drawing = draw(molecule)
        if drawing is not None:
            yield Chem.Mol(drawing)
            yield Chem.AddHs(drawing, addCoords=True)


def _as_it_is(molecule: Any) -> Any:
    is_drawn = molecule.GetNumConformers() and not molecule.GetConformer().Is3D()
    return molecule if is_drawn else None


def _by_rdkit(molecule: Any) -> Any:
    drawing = Chem.Mol(molecule)
    rdDepictor.Compute2DCoords(drawing, forceRDKit=True)
    return drawing


def _by_coordgen(molecule: Any) -> Any:
    try:
        from rdkit.Chem import rdCoordGen
    except ImportError:
        return None
    drawing = Chem.Mol(molecule)
    rdCoordGen.AddCoords(drawing)
    return drawing


def _in_space(molecule: Any) -> Any:
    return molecule if molecule.GetNumConformers() and molecule.GetConformer().Is3D() else None


# Marks double bonds as undecided that have no sense, or one that isn't drawn: RDKit draws trans bonds of rings as cis.
def _open_what_is_not_shown(drawing: Any) -> None:
    places = drawing.GetConformer().GetPositions().tolist()
    for bond in drawing.GetBonds():
        stereo = bond.GetStereo()
        is_shown = stereo in _TOGETHER and _TOGETHER[stereo] == _is_drawn_together(bond, places)
        if bond.GetBondType() == Chem.BondType.DOUBLE and not is_shown:
            bond.SetStereo(Chem.BondStereo.STEREOANY)


# Whether a double bond is drawn with both of its stereo atoms on one side.
def _is_drawn_together(bond: Any, places: List[List[float]]) -> bool:
    begin, end = places[bond.GetBeginAtomIdx()], places[bond.GetEndAtomIdx()]
    axis = _way(begin, end)
    one, other = (_way(root, places[atom]) for root, atom in zip((begin, end), bond.GetStereoAtoms()))
    # the product of what each has across the axis, times the square of its length
    return _dot(one, other) * _dot(axis, axis) > _dot(one, axis) * _dot(other, axis)


def _way(start: List[float], end: List[float]) -> List[float]:
    return [to - of for of, to in zip(start, end)]


def _dot(one: List[float], other: List[float]) -> float:
    return sum(a * b for a, b in zip(one, other))
