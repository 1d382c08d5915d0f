"""tools/resume before any program is run: which files it takes for a front of what is due."""
import os
import tempfile
import unittest

import script
import trying

RECORD = b"%s\n\n\n  0  0  0  0  0  0            999 V2000\nM  END\n"
ITEM = b"> <CIP_LABELS>\n%s\n\n"
END = b"$$$$\n"
SETTINGS = b"cip 2 rule1b 2018 nodes 100000"


class Resume(unittest.TestCase):
    def resumed(self, given, front, *words):
        with tempfile.TemporaryDirectory() as folder:
            paths = [os.path.join(folder, name) for name in ("in.sdf", "out.sdf")]
            for path, text in zip(paths, (given, front)):
                with open(path, "wb") as file:
                    file.write(text)
            done = trying.script_ran("tools/resume", "/bin/true", *paths, *words)
            with open(paths[1], "rb") as file:
                return done.returncode, done.stderr.decode(), file.read()

    def test_a_record_that_is_not_whole_is_taken_away(self):
        whole = RECORD % b"one" + ITEM % (SETTINGS + b"\nnone") + END
        status, told, left = self.resumed(RECORD % b"one" + END + RECORD % b"two" + END, whole + b"two\n\n\n  0")
        self.assertEqual((status, told, left), (script.FINE, "resume: 1 records are whole\n", whole))

    def test_an_item_of_version_1_is_a_fault_that_names_the_record(self):
        front = RECORD % b"one" + ITEM % b"a1 S 1a 1" + END
        status, told, left = self.resumed(RECORD % b"one" + END, front)
        self.assertEqual((status, left), (script.UNUSABLE, front))
        self.assertRegex(told, "^resume: OUT: record 1: .*'a1 S 1a 1'; annotate the file again\n$")

    def test_other_settings_are_refused(self):
        front = RECORD % b"one" + ITEM % (SETTINGS + b"\nnone") + END
        status, told, left = self.resumed(RECORD % b"one" + END, front, "--nodes", "5")
        self.assertEqual((status, left), (script.WORDS, front))
        self.assertIn("was written with cip 2", told)

    def test_a_record_without_a_line_or_a_name_is_known_again(self):
        refused = SETTINGS + b"\nrefused 1 Short"
        for given in (END, b"> <CIP_LABELS>\nold\n\n" + END, b"\n" + END, b"cut\r\n\r\n" + END):
            kept = given.replace(b"> <CIP_LABELS>\nold\n\n", b"").replace(END, b"")
            front = kept + ITEM % refused + END
            self.assertEqual(self.resumed(given, front), (script.DIFFERENT, "resume: 1 records are whole\n", front))

    def test_a_file_that_is_no_front_is_not_emptied(self):
        for front in (b"a letter to somebody\n", b"\x1f\x8b\x08", RECORD % b"other"):
            status, told, left = self.resumed(RECORD % b"one" + END, front)
            self.assertEqual((status, left), (script.UNUSABLE, front))
            self.assertEqual(told, "resume: record 1 of OUT isn't that of IN\n")

    def test_a_front_of_the_first_record_is_begun_anew(self):
        for length in (0, 1, 20, 80):
            status, _, left = self.resumed(RECORD % b"one" + END, (RECORD % b"one" + ITEM % SETTINGS)[:length])
            self.assertEqual((status, left), (script.FINE, b""))

    def test_another_file_is_left_alone(self):
        front = RECORD % b"other" + ITEM % (SETTINGS + b"\nnone") + END
        status, told, left = self.resumed(RECORD % b"one" + END, front)
        self.assertEqual((status, told, left), (script.UNUSABLE, "resume: record 1 of OUT isn't that of IN\n", front))
