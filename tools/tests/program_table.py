"""Tables beside the letters that RDKit leaves in a file."""
import unittest

import script
import trying
from program_scripts import needs_module

# RDKit's two ways to leave letters: an item with a word for each atom, and a list of pairs
LEFT = """
import sys
from rdkit import Chem, RDLogger
from rdkit.Chem import rdCIPLabeler
RDLogger.DisableLog("rdApp.*")
writer = Chem.SDWriter(sys.argv[2])
for molecule in Chem.SDMolSupplier(sys.argv[1], removeHs=False):
    rdCIPLabeler.AssignCIPLabels(molecule)
    Chem.CreateAtomStringPropertyList(molecule, "_CIPCode")
    pairs = [(atom.GetIdx(), atom.GetProp("_CIPCode")) for atom in molecule.GetAtoms() if atom.HasProp("_CIPCode")]
    molecule.SetProp("pairs", str(pairs))
    writer.write(molecule)
writer.close()
"""


class Compared(unittest.TestCase):
    @needs_module("rdkit", "python3-rdkit")
    def test_the_letters_of_rdkit_are_the_same(self):
        compounds = trying.path("examples", "compounds.sdf")
        done = trying.ran(script.DEBIAN_PYTHON, "-c", LEFT, compounds, "/dev/stdout")
        self.assertEqual(done.returncode, 0, done.stderr.decode())
        labelled = trying.annotated(done.stdout)
        for name in ("atom.prop._CIPCode", "pairs"):
            made = trying.script_ran("tools/table", "--compare", name, given=labelled)
            self.assertRegex(made.stderr.decode(), "(?m)^table: same [1-9][0-9]*, different 0, cip alone 0, item alone 0, ")
            self.assertEqual(made.returncode, 0)
