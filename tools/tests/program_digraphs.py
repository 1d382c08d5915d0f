"""The digraphs of the page beside the program's labels, and whether faults in them are seen."""
import glob
import os
import shutil
import tempfile
import unittest

import random_records
import sdf
import trying

CHECK = trying.path("tools", "tests", "digraphs.mjs")
VIEW = trying.path("tools", "view")
RECORDS = 2000
SOME_RECORDS = 300
FAULTS = {
    "no duplicates for a delocalised double bond": ("digraph.mjs", "const isSpread =", "const isSpread = false &&"),
    "bonds of sulfur and phosphorus that count": ("molecule.mjs", "vertex.neglects =", "vertex.neglects = false &&"),
    "alternating rings of three atoms at most": ("molecule.mjs", "LARGEST_RING = 24", "LARGEST_RING = 3"),
    "no duplicates for multiple bonds": ("digraph.mjs", "edge.counted && order < edge.order", "order < 1"),
    "one wording of Rule 1b": ("digraph.mjs", 'tree.wording !== "2013"', "true"),
    "closures as duplicates of multiple bonds": ("digraph.mjs", '"closure" : "real"', '"multiple" : "real"'),
}


def worked_cases():
    """The records of the worked cases that are whole."""
    found = []
    for path in sorted(glob.glob(trying.path("crates", "gate_cases", "data", "*.sdf"))):
        with open(path, "rb") as file:
            try:
                found += [record for record in sdf.records(file) if sdf.is_closed(record) and record.endswith(b"\n")]
            except sdf.Fault:
                continue
    return b"".join(found)


@trying.needs("node", "nodejs")
class Digraphs(unittest.TestCase):
    def setUp(self):
        folder = tempfile.TemporaryDirectory()
        self.addCleanup(folder.cleanup)
        self.folder = folder.name

    def page(self, name, records, *words):
        """A page of records with all that the program explains."""
        made = trying.script_ran("tools/page", "--program", trying.program(), *words, given=records)
        self.assertEqual(made.returncode, 0, made.stderr.decode())
        path = os.path.join(self.folder, f"{name}.html")
        with open(path, "wb") as file:
            file.write(made.stdout)
        return path

    def worked_pages(self):
        wordings = [self.page(f"worked-{year}", worked_cases(), "--", "--rule1b", year) for year in ("2013", "2018")]
        return [*wordings, self.page("compounds", trying.bytes_of("examples", "compounds.sdf")),
                self.page("axes", trying.bytes_of("examples", "axes.sdf"))]

    def compared(self, view, *pages):
        done = trying.ran("node", CHECK, view, *pages)
        return done.returncode, (done.stdout + done.stderr).decode()

    def test_worked_cases_and_compounds(self):
        status, told = self.compared(VIEW, *self.worked_pages())
        self.assertEqual(status, 0, told)
        self.assertIn(" Rule 1b: agrees", told)

    def test_random_records(self):
        status, told = self.compared(VIEW, self.page("random", random_records.records(RECORDS)))
        self.assertEqual(status, 0, told)
        for rule in ("2", "3", "4b", "5"):
            self.assertIn(f" Rule {rule}: agrees", told)

    def test_faults_are_seen(self):
        pages = [*self.worked_pages(), self.page("random", random_records.records(SOME_RECORDS))]
        for name, (module, text, other) in FAULTS.items():
            with self.subTest(name):
                view = os.path.join(self.folder, "view")
                shutil.copytree(VIEW, view, dirs_exist_ok=True)
                source = trying.text_of("tools", "view", module)
                self.assertEqual(source.count(text), 1)
                with open(os.path.join(view, module), "w", encoding="utf-8") as file:
                    file.write(source.replace(text, other))
                status, told = self.compared(view, *pages)
                self.assertEqual(status, 1, told)
                self.assertNotIn("Error", told)
