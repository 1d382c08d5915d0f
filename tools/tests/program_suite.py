"""tools/suite on a list of structures whose labels are known, drawn by RDKit."""
import os
import tempfile
import unittest

import program_scripts
import script
import trying

# SMILES, name, labels, and the rules where Rule 6 decides
STRUCTURES = (
    ("N[C@@H](C)C(=O)O", "L-alanine", "2S"),
    ("C[C@@H]1CC[C@H]([C@@H](C1)O)C(C)C", "menthol", "2R 5S 6R"),
    ("C[C@@H](O)/C=C/C", "(2R,3E)-pent-3-en-2-ol", "2R 4E 5E"),
    ("C1CCC/C=C/CC1", "trans-cyclooctene", "5E 6E"),
    ("C1CCC/C=C\\CC1", "cis-cyclooctene", "5Z 6Z"),
    ("ClC=[C@]=CCl", "(M)-1,3-dichloropropa-1,2-diene", "2M 4M"),
    ("ClC=[C@@]=CCl", "(P)-1,3-dichloropropa-1,2-diene", "2P 4P"),
    ("C(Cl)=[C@]=CCl", "the same from its end", "1P 4P"),
    ("C1(Cl)=[C@]=C(Br)CCCCCC1", "a ring of nine atoms with an allene", "1M 4M"),
    ("C/C=C=C=C/C", "(E)-hexa-2,3,4-triene", "2E 5E"),
    ("C/C=C=C=C\\C", "(Z)-hexa-2,3,4-triene", "2Z 5Z"),
    ("C1CC[C@@]2(O1)CCCO2", "1,6-dioxaspiro[4.4]nonane", "4S"),
)
RULE_6 = {"1,6-dioxaspiro[4.4]nonane"}


def lines(structures):
    return "".join(f"{smiles}\t{name}\t{labels}\t\t\t{'6' if name in RULE_6 else '1a'}\n"
                   for smiles, name, labels in structures)


def compared(text):
    with tempfile.TemporaryDirectory() as folder:
        path = os.path.join(folder, "list.smi")
        with open(path, "w", encoding="utf-8") as file:
            file.write(text)
        done = trying.ran(trying.path("tools", "suite"), "--program", trying.program(), path)
        return done.returncode, done.stdout.decode().splitlines() or [done.stderr.decode()]


@program_scripts.needs_module("rdkit", "python3-rdkit")
class Suite(unittest.TestCase):
    def test_each_structure_has_its_labels(self):
        status, found = compared(lines(STRUCTURES))
        wanted = {name: "same" for _, name, _ in STRUCTURES}
        wanted.update({name: "a4 S outside: Rule 6" for name in RULE_6},
                      **{"(E)-hexa-2,3,4-triene": "c2-5 E by axes", "(Z)-hexa-2,3,4-triene": "c2-5 Z by axes"})
        self.assertEqual(found[:len(STRUCTURES)], [f"{number} {name}: {wanted[name]}"
                                                   for number, (_, name, _) in enumerate(STRUCTURES, 1)])
        self.assertEqual(status, script.FINE)

    def test_a_label_that_was_changed_has_status_1(self):
        others = str.maketrans("RSEZMP", "SRZEPM")
        for smiles, name, labels in STRUCTURES:
            if name not in RULE_6:
                with self.subTest(name):
                    status, found = compared(lines([(smiles, name, labels.translate(others))]))
                    self.assertEqual(status, script.DIFFERENT)
                    self.assertIn(" expected ", found[0])
