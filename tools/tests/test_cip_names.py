"""tools/names: the letters of names, beside those of drawings."""
import os
import tempfile
import unittest
from collections import Counter

import isotopes
import name_letters
import script
import trying
from test_table import MOLFILE, record

TWO = "a1 R 1a 2 order 2 3 4 5\na7 S 1a 2 order 8 9 10 H\nb11-12 E 1a 1 order 1 H | 6 H"
# names beside the labels of TWO, and what is found
NAMES = (
    ("(2E,4R,6S)-one", "same"), ("(4R)-one-[(2S)-2-two](E)-", "same"), ("(4aS,7'R,8E)-one", "same"),
    ("(1R*,2S*,3E)-one", "same"), ("(1RS,2SR,3E)-one", "same"), ("rac-(1R,2S,3E)-one", "same"),
    ("(1R,2S,3seqTrans)-one", "same"), ("menthol", "name has none"), ("2(5H)-[3.2.0]-(+)-one", "name has none"),
    ("(1R,2S)-one", "name has fewer"), ("(1R,2S,3E,4R)-one", "drawing has fewer"), ("(1R,2R,3E)-one", "other letters"),
    ("(1R,2S,3Z)-one", "other letters"), ("(1R,2S,3e)-one", "name has none"), ("rac-(1R,2R,3E)-one", "other letters"),
)
DEUTERATED = """ethanol


  3  2  0  0  0  0            999 V2000
    0.0000    0.0000    0.0000 C   0  0
    1.0000    0.0000    0.0000 O   0  0
    0.0000    1.0000    0.0000 {symbol} {mass}  0
  1  2  1  0
  1  3  1  1
{properties}M  END
$$$$
"""


def compared(text, *words):
    done = trying.script_ran("tools/names", *words, given=text.encode())
    rows = [line.split("\t") for line in done.stdout.decode().splitlines()[1:]]
    return done.returncode, rows, done.stderr.decode()


class Names(unittest.TestCase):
    def test_what_is_found_of_each_name(self):
        text = "".join(record(TWO, name=name) for name, _ in NAMES)
        status, rows, counts = compared(text, "--all")
        self.assertEqual((status, [(row[5], row[2]) for row in rows]), (script.DIFFERENT, list(NAMES)))
        self.assertIn("names: same 7, same without isotopes 0, no letters 0, name has none 3, name has fewer 1, ", counts)

    def test_rows_have_both_multisets_and_the_same_ones_are_left_out(self):
        text = record(TWO, name="one", IUPAC="(1R,2S,3E)-one") + record(TWO, name="two", IUPAC="(1S,2S)-two")
        status, rows, _ = compared(text, "--field", "IUPAC")
        self.assertEqual((status, rows),
                         (script.DIFFERENT, [["2", "two", "other letters", "S S", "E R S", "(1S,2S)-two"]]))

    def test_the_same_letters_have_status_0(self):
        text = record(TWO, IUPAC="(1R,2S,3E)-one") + record("none", IUPAC="ethanol") + record("none")
        self.assertEqual(compared(text, "--field", "IUPAC")[:2], (script.FINE, []))

    def test_records_that_are_not_labelled_are_counted_apart(self):
        text = record(TWO, name="(1R,2S,3E)-one") + record("refused 4 Version", name="(R)-one")
        status, rows, counts = compared(text + record("a1 over", name="(R)-one"))
        self.assertEqual((status, rows), (script.FINE, []))
        self.assertIn("refused 1, over 1, no name 0", counts)

    def test_a_comparison_of_nothing_is_a_fault(self):
        for text, words in ((record(TWO, NAME="(R)-one"), ("--field", "IUPAC")), (record("refused 4 Version"), ()),
                            ("", ())):
            status, rows, complaint = compared(text, *words)
            self.assertEqual((status, rows), (script.UNUSABLE, []))
            self.assertIn("nothing is compared", complaint)

    def test_a_record_without_the_item_is_a_fault(self):
        status, _, complaint = compared(record(TWO) + MOLFILE + "$$$$\n")
        self.assertEqual(status, script.UNUSABLE)
        self.assertIn("record 2 has no item CIP_LABELS", complaint)

    def test_axes_are_named_either_way(self):
        for name, letters in (("(Ra)-one", "M"), ("(aS,2R)-one", "PR"), ("(Sa,2R)-one", "PR"), ("(M)-one", "M")):
            self.assertEqual(name_letters.named(name), (Counter(letters), False))
        self.assertFalse(name_letters.named("(M,R*)-one").are(Counter("MS")))
        self.assertTrue(name_letters.named("(M,R*)-one").are(Counter("PS")))


class Isotopes(unittest.TestCase):
    def test_a_record_is_compared_without_its_isotopes(self):
        item = record("a1 R 2 1 order 2 3 4 H", name="x").split("M  END\n")[1]
        given = DEUTERATED.format(symbol="D", mass=" 0", properties="").replace("$$$$\n", item)
        with tempfile.TemporaryDirectory() as folder:
            program = os.path.join(folder, "program")
            for lines, wanted in (("none", ("same without isotopes", script.FINE)),
                                  ("a1 S 1a 1 order 2 3 4 H", ("name has none", script.DIFFERENT))):
                with open(program, "w", encoding="ascii") as file:
                    answer = record(lines).replace("\n", "\\n")
                    file.write(f"#!/bin/sh\ngrep -q ' H  ' && printf '%b' '{answer}'\n")
                os.chmod(program, 0o755)
                status, rows, _ = compared(given, "--program", program, "--all")
                self.assertEqual((rows[0][2], status), wanted)

    def test_isotopes_go_from_both_versions(self):
        plain = DEUTERATED.format(symbol="H ", mass=" 0", properties="").encode()
        for symbol, mass, properties in (("H ", " 1", ""), ("D ", " 0", ""), ("H ", " 0", "M  ISO  1   3   2\n")):
            text = DEUTERATED.format(symbol=symbol, mass=mass, properties=properties).encode()
            self.assertEqual(isotopes.without_isotopes(text), plain)
        self.assertIsNone(isotopes.without_isotopes(plain))
        line = b"M  V30 3 %s 0 0 0 0%s CHG=1"
        head = b"one\n\n\n  0  0  0     0  0            999 V3000\n%s\nM  END\n$$$$\n"
        for symbol, key in ((b"D", b""), (b"H", b" MASS=2"), (b"T", b" MASS=3")):
            self.assertEqual(isotopes.without_isotopes(head % (line % (symbol, key))), head % (line % (b"H", b"")))

    def test_a_record_that_is_not_read_is_left_out(self):
        for text in (b"", b"$$$$\n", b"one\n\n\n -5\nM  END\n", b"one\nM  END\n", b"\n\n\nxxx\nM  END\n"):
            self.assertIsNone(isotopes.without_isotopes(text))
