"""The letters of names beside those of drawings: known compounds, their mirror images and an isotopic one."""
import unittest

import script
import trying

COMPOUNDS = trying.bytes_of("examples", "compounds.sdf")
ETHANOL = b"""ethanol with one deuterium


  4  3  0  0  0  0            999 V2000
    0.0000    0.0000    0.0000 C   0  0
    1.0000    0.0000    0.0000 O   0  0
   -0.5000   -0.8660    0.0000 C   0  0
   -0.5000    0.8660    0.0000 H   1  0
  1  2  1  0
  1  3  1  0
  1  4  1  1
M  END
> <NAME>
ethanol

$$$$
"""


class Names(unittest.TestCase):
    def compared(self, given, *words):
        return trying.script_ran("tools/names", "--field", "NAME", *words, given=given)

    def test_known_compounds_have_the_letters_of_their_names(self):
        done = self.compared(trying.annotated(COMPOUNDS))
        self.assertEqual((done.returncode, done.stdout.count(b"\n")), (script.FINE, 1))
        self.assertRegex(done.stderr, b"^names: same 5[0-9], ")

    def test_their_mirror_images_do_not(self):
        mirrored = trying.ran(trying.program(), "mirror", given=COMPOUNDS).stdout
        done = self.compared(mirrored)
        self.assertEqual(done.returncode, script.DIFFERENT)
        self.assertGreater(done.stdout.count(b"\tother letters\t"), 30)

    def test_letters_that_only_isotopes_give_are_told_apart(self):
        given = trying.annotated(ETHANOL)
        self.assertRegex(given, rb"\na1 [RS] 2 1 ")
        alone, tried = (self.compared(given, *words) for words in ((), ("--program", trying.program(), "--all")))
        self.assertEqual((alone.returncode, tried.returncode), (script.DIFFERENT, script.FINE))
        self.assertIn(b"\tname has none\t", alone.stdout)
        self.assertIn(b"\tsame without isotopes\t", tried.stdout)
