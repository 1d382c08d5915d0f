"""A list of corrections beside as many runs of `set`, byte by byte."""
import io
import os
import tempfile
import unittest

import script
import sdf
import trying

GIVEN = trying.bytes_of("examples", "compounds.sdf")
OPPOSITE = {"R": "S", "S": "R", "r": "s", "s": "r"}
MOST = 12


def corrections(text):
    """Record, atom and the opposite letter of stereocentres of an annotated file, up to two of each record."""
    found = []
    for number, record in enumerate(sdf.records(io.BytesIO(text)), 1):
        centres = [label for label in sdf.answer(record).labels if label.letter in OPPOSITE]
        found += [(number, sdf.atoms_of(label.unit)[0], OPPOSITE[label.letter]) for label in centres[:2]]
    return found[:MOST]


class Correct(unittest.TestCase):
    def corrected(self, wanted, given):
        with tempfile.TemporaryDirectory() as folder:
            paths = [os.path.join(folder, name) for name in ("list", "mine.sdf")]
            texts = ("".join("\t".join(map(str, row)) + "\n" for row in wanted).encode(), given)
            for path, text in zip(paths, texts):
                with open(path, "wb") as file:
                    file.write(text)
            done = trying.script_ran("tools/correct", trying.program(), *paths)
        return done.returncode, done.stdout, done.stderr.decode()

    def test_a_list_gives_what_as_many_runs_of_set_give(self):
        wanted, text = corrections(trying.annotated(GIVEN)), GIVEN
        self.assertEqual(len(wanted), MOST)
        for record, atom, letter in wanted:
            words = ("set", "--record", str(record), "--atom", str(atom), "--letter", letter)
            done = trying.ran(trying.program(), *words, given=text)
            self.assertEqual(done.returncode, script.FINE, done.stderr.decode())
            text = done.stdout
        self.assertEqual(self.corrected(wanted, GIVEN), (script.FINE, text, ""))

    def test_what_set_refuses_is_told_with_its_cause(self):
        groups = trying.bytes_of("examples", "groups.sdf")
        status, text, told = self.corrected([(1, 2, "R"), (99, 1, "S")], groups)
        self.assertEqual((status, text), (script.DIFFERENT, trying.annotated(groups)))
        self.assertEqual(told, "correct: line 1: atom 2 of record 1 isn't set: OnlyV2000\n"
                               "correct: line 2: atom 1 of record 99 isn't set: NoRecord\n")

    def test_an_empty_list_gives_what_annotate_gives(self):
        self.assertEqual(self.corrected([], GIVEN), (script.FINE, trying.annotated(GIVEN), ""))
