"""docs/VALIDATION.md beside what the scripts say that it names."""
import os
import re
import tempfile
import unittest

import program_scripts
import trying

PAGE = trying.text_of("docs", "VALIDATION.md")
KNOWN = re.compile(r"([^|]+?), (axes )?(\d+): ([A-Za-z]+) +\|")
TOLD = re.compile(r"^(same|left out|DIFFERENT)  (.*?)  (.*?): ", re.MULTILINE)
COMPARED = re.compile(r"^record \d+ [a-z][\d-]+: cip .*$", re.MULTILINE)
# methyl methylphosphonate, whose oxygen atoms without a neighbour rank alike: RDKit's older labeller gives it a letter
PHOSPHONATE = b"""methyl methylphosphonate


  6  5  0  0  0  0            999 V2000
    0.0000    0.0000    0.0000 P   0  0
    1.0000    0.0000    0.0000 O   0  0
    0.0000    1.0000    0.0000 O   0  5
   -1.0000    0.0000    0.0000 O   0  0
    0.0000   -1.0000    0.0000 C   0  0
   -2.0000    0.0000    0.0000 C   0  0
  1  2  2  0
  1  3  1  0
  1  4  1  0
  1  5  1  1
  4  6  1  0
M  END
$$$$
"""


def said(name, *words):
    return trying.ran(trying.path(name), *words).stdout.decode()


def compared(*words):
    """What tools/compare-rdkit prints, but for its last line."""
    return said("tools/compare-rdkit", *words).splitlines()[:-1]


class Page(unittest.TestCase):
    def test_known_compounds_have_the_letters_of_the_page(self):
        told = [(name, letters.replace(" ", "")) for _, letters, name in
                TOLD.findall(said("tools/known-compounds", trying.program()))]
        count = trying.bytes_of("examples", "compounds.sdf").count(b"\n$$$$\n")
        listed = [(name.strip(), int(number) + (count if axes else 0), letters)
                  for name, axes, number, letters in KNOWN.findall(PAGE)]
        self.assertGreaterEqual(len(listed), 60)
        for name, number, letters in listed:
            with self.subTest(name):
                self.assertEqual(told[number - 1], (name, letters))


@program_scripts.needs_module("rdkit", "python3-rdkit")
class Differences(unittest.TestCase):
    EXAMPLES = trying.path("examples", "differences.sdf")

    def test_an_example_of_each_kind_differs_as_the_page_says(self):
        self.assertEqual(compared(trying.program(), self.EXAMPLES), COMPARED.findall(PAGE))

    def test_with_hydrogens_drawn_marks_between_two_ligands_make_no_difference(self):
        records = {line.split()[1] for line in compared("--hydrogens", trying.program(), self.EXAMPLES)}
        self.assertEqual(records & {"1", "2", "3"}, {"3"})

    def test_letters_of_the_older_labeller_are_left_out(self):
        with tempfile.TemporaryDirectory() as folder:
            path = os.path.join(folder, "phosphonate.sdf")
            with open(path, "wb") as file:
                file.write(PHOSPHONATE)
            self.assertEqual(said("tools/compare-rdkit", trying.program(), path),
                             "same 0, different 0, by cip alone 0, by RDKit alone 0, "
                             "records that RDKit doesn't read or label 0\n")
