"""What changed between a labelled file and others that the program writes of the same records."""
import os
import tempfile
import unittest
from collections import Counter

import script
import trying

GIVEN = trying.bytes_of("examples", "compounds.sdf")
MIRRORED = {"R": "S", "S": "R", "M": "P", "P": "M", "seqCis": "seqTrans", "seqTrans": "seqCis"}


class Changes(unittest.TestCase):
    def compared(self, old, new):
        with tempfile.TemporaryDirectory() as folder:
            paths = [os.path.join(folder, name) for name in ("old.sdf", "new.sdf")]
            for path, text in zip(paths, (old, new)):
                with open(path, "wb") as file:
                    file.write(text)
            done = trying.script_ran("tools/changes", *paths)
        return done.returncode, [line.split("\t") for line in done.stdout.decode().splitlines()[1:]], done.stderr.decode()

    def test_nothing_changes_if_nothing_does(self):
        labelled = trying.annotated(GIVEN)
        self.assertEqual(self.compared(labelled, labelled)[:2], (script.FINE, []))

    def test_a_mirror_changes_the_letters_that_it_exchanges(self):
        labelled, mirrored = trying.annotated(GIVEN), trying.ran(trying.program(), "mirror", given=GIVEN).stdout
        status, rows, _ = self.compared(labelled, mirrored)
        self.assertEqual((status, {row[5] for row in rows}), (script.DIFFERENT, {"other letter"}))
        self.assertTrue(all(MIRRORED[row[6]] == row[8] for row in rows))
        counts = Counter(line.split()[1] for line in labelled.decode().splitlines() if " order " in line)
        self.assertEqual(Counter(row[6] for row in rows), Counter({key: counts[key] for key in MIRRORED if counts[key]}))

    def test_a_smaller_bound_takes_labels_away(self):
        status, rows, told = self.compared(trying.annotated(GIVEN), trying.annotated(GIVEN, "--nodes", "20"))
        self.assertEqual((status, {row[5] for row in rows}, {row[8] for row in rows}),
                         (script.DIFFERENT, {"other letter"}, {"over"}))
        self.assertNotIn("other settings 0", told)
