"""The module's labels of RDKit's molecules, beside letters of names and those of RDKit's newer labeller."""
import json
import os
import re
import unittest

import script
import trying
from program_scripts import needs_module

# molecules, each with the letters of its name, or of what it has in its stereo
NAMED = (
    ("L-alanine", "N[C@@H](C)C(=O)O", "a2 S"),
    ("menthol", "CC(C)[C@@H]1CC[C@@H](C)C[C@H]1O", "a4 S, a7 R, a10 R"),
    ("(E)-but-2-ene", "C/C=C/C", "b2-3 E"),
    ("but-2-ene", "CC=CC", ""),
    ("(Z)-cyclodecene", "C1CCC/C=C\\CCCC1", "b5-6 Z"),
    ("(E)-cyclodecene, which RDKit draws as Z", "C1CCC/C=C/CCCC1", "b5-6 E"),
    ("(E)-cyclooctene, which neither RDKit nor CoordGen draws", "C1CC/C=C/CCC1", ""),
    ("cyclooctene", "C1CCC=CCCC1", ""),
    ("(2R,3r,4S)-pentane-2,3,4-triol", "C[C@@H](O)[C@H](O)[C@H](C)O", "a2 R, a4 r, a6 S"),
    ("(1s,4s)-1,4-dimethylcyclohexane", "C[C@H]1CC[C@@H](C)CC1", "a2 s, a5 s"),
    ("a double bond that a mirror turns", "C/C=C(/[C@H](C)O)[C@@H](C)O", "a4 S, a7 R, b2-3 z"),
    ("(R)-methyl phenyl sulfoxide", "C[S@@](=O)c1ccccc1", "a2 R"),
)
# what RDKit's newer labeller gives and what the module gives, for molecules that Debian's Python has
ASSIGN = """
import json, sys
import cip.rdkit
from rdkit import Chem, RDLogger
from rdkit.Chem import AllChem, rdCIPLabeler
RDLogger.DisableLog("rdApp.*")

def codes(molecule):
    found = {}
    for atom in molecule.GetAtoms():
        if atom.HasProp("_CIPCode"):
            found[f"a{atom.GetIdx() + 1}"] = atom.GetProp("_CIPCode")
    for bond in molecule.GetBonds():
        if bond.HasProp("_CIPCode"):
            ends = sorted((bond.GetBeginAtomIdx() + 1, bond.GetEndAtomIdx() + 1))
            found["b%d-%d" % tuple(ends)] = bond.GetProp("_CIPCode")
    return found

def assigned(molecule):
    cip.rdkit.assign(molecule)
    return codes(molecule)

def text(codes):
    places = sorted(codes, key=lambda unit: (unit[0], int(unit[1:].split("-")[0])))
    return ", ".join(f"{unit} {codes[unit]}" for unit in places)

def of_rdkit(molecule):
    for part in (*molecule.GetAtoms(), *molecule.GetBonds()):
        part.ClearProp("_CIPCode")
    rdCIPLabeler.AssignCIPLabels(molecule)
    return codes(molecule)
"""


@trying.needs_library()
@trying.needs("cc", "gcc")
@needs_module("rdkit", "python3-rdkit")
class Molecules(unittest.TestCase):
    @classmethod
    def setUpClass(cls):
        trying.installed_for(cls)

    def told(self, lines, given=b""):
        """What lines of Python print as JSON, behind those that they share."""
        paths = {**os.environ, "PYTHONPATH": trying.path("python")}
        done = trying.ran(script.DEBIAN_PYTHON, "-c", ASSIGN + lines, given=given, env=paths)
        self.assertEqual(done.returncode, 0, done.stderr.decode())
        return json.loads(done.stdout)

    def test_molecules_have_the_letters_of_their_names(self):
        told = self.told("""
molecules = map(Chem.MolFromSmiles, json.load(sys.stdin))
print(json.dumps([text(assigned(molecule)) for molecule in molecules]))
""", json.dumps([smiles for _, smiles, _ in NAMED]).encode())
        for (name, _, wanted), letters in zip(NAMED, told):
            with self.subTest(name):
                self.assertEqual(letters, wanted)

    def test_compounds_have_those_of_rdkit_with_and_without_their_drawings(self):
        drawn, new = self.told("""
drawn, new = [], []
for molecule in Chem.ForwardSDMolSupplier(sys.stdin.buffer, removeHs=False):
    wanted = of_rdkit(Chem.Mol(molecule))
    drawn.append([molecule.GetProp("_Name"), wanted, assigned(molecule)])
    molecule.RemoveAllConformers()
    new.append([molecule.GetProp("_Name"), wanted, assigned(molecule)])
print(json.dumps([drawn, new]))
""", trying.bytes_of("examples", "compounds.sdf"))
        self.assertGreater(len(drawn), 50)
        for name, wanted, letters in [*drawn, *new]:
            with self.subTest(name):
                self.assertEqual(letters, wanted)

    def test_the_molecule_s_stereo_counts_and_no_drawing_that_says_otherwise(self):
        told = self.told("""
molecule = Chem.MolFromSmiles("C[C@H](O)/C=C/C")
AllChem.Compute2DCoords(molecule)
flat = text(assigned(molecule))
molecule.GetAtomWithIdx(1).InvertChirality()
molecule.GetBondWithIdx(3).SetStereo(Chem.BondStereo.STEREOZ)
turned = text(assigned(molecule))
solid = Chem.AddHs(Chem.MolFromSmiles("C[C@H](O)/C=C/C"))
AllChem.EmbedMolecule(solid, randomSeed=1)
solid.GetAtomWithIdx(1).InvertChirality()
print(json.dumps([flat, turned, text(assigned(solid))]))
""")
        self.assertEqual(told[0][-1], "E")
        self.assertEqual({told[0][3], told[1][3]}, {"R", "S"})
        self.assertEqual((told[1][-1], told[2][3]), ("Z", told[1][3]))

    def test_a_centre_that_a_drawing_shows_the_wrong_way_round_is_drawn_anew(self):
        told = self.told("""
from cip.rdkit import _has_sense
atom = Chem.MolFromSmiles("N[C@@H](C)C(=O)O").GetAtomWithIdx(1)
ranks = [("1", "4", "3", "H"), ("4", "1", "3", "H"), ("1", "H", "4", "3"), ("1", "3", "4", "H")]
labels = [[cip.Label("a2", letter, "1a", 2, (order,)) for letter in "SR"] for order in ranks]
print(json.dumps([[_has_sense(atom, label) for label in pair] for pair in labels]))
""")
        self.assertEqual(told, [[True, False], [False, True], [True, False], [False, True]])

    def test_the_readme_s_lines(self):
        block = re.search(r"```python\n(import cip.rdkit.*?)```", trying.text_of("README.md"), re.DOTALL)[1]
        paths = {**os.environ, "PYTHONPATH": trying.path("python")}
        done = trying.ran(script.DEBIAN_PYTHON, "-c", block, env=paths)
        self.assertEqual((done.returncode, done.stdout), (0, b"[((2,), 'S')]\n"))

    def test_old_codes_go_and_stay_where_a_molecule_is_not_read(self):
        told = self.told("""
molecule = Chem.MolFromSmiles("CCO")
molecule.GetAtomWithIdx(1).SetProp("_CIPCode", "R")
labels = cip.rdkit.assign(molecule)
query = Chem.MolFromSmiles("*[C@H](F)Cl")
query.GetAtomWithIdx(1).SetProp("_CIPCode", "R")
try:
    cip.rdkit.assign(query)
except cip.Refused as refused:
    print(json.dumps([codes(molecule), labels, refused.cause, codes(query)]))
""")
        self.assertEqual(told, [{}, [], "Symbol", {"a2": "R"}])

    def test_what_is_no_molecule_is_told_so_and_a_bond_without_stereo_atoms_has_no_letter(self):
        told = self.told("""
molecule = Chem.MolFromSmiles("CC=CC")
molecule.GetBondWithIdx(1).SetStereo(Chem.BondStereo.STEREOE)
try:
    cip.rdkit.assign(Chem.MolFromSmiles("no SMILES"))
except TypeError as fault:
    print(json.dumps([str(fault), assigned(molecule)]))
""")
        self.assertEqual(told, ["a molecule is one of RDKit, not NoneType", {}])

    def test_an_allene_has_no_letter_in_the_plane_or_in_space(self):
        told = self.told("""
molecule = Chem.AddHs(Chem.MolFromSmiles("CC=C=CC[C@H](O)F"))
flat = text(assigned(molecule))
AllChem.EmbedMolecule(molecule, randomSeed=1)
solid = text(assigned(molecule))
trans = Chem.AddHs(Chem.MolFromSmiles("C1CC/C=C/CCC1CC=C=CC"))
AllChem.EmbedMolecule(trans, randomSeed=1)
print(json.dumps([flat, solid, text(assigned(trans))]))
""")
        self.assertEqual(told, ["a6 R", "a6 R", ""])

    def test_a_large_molecule_is_labelled(self):
        told = self.told('print(json.dumps(assigned(Chem.MolFromSmiles("F[C@H](Cl)" + "C" * 1000))))')
        self.assertEqual(len(told), 1)
