"""The page of stored labels: what it takes, what it refuses, what it writes."""
import json
import os
import re
import tempfile
import unittest

import script
import sdf
import senses
import trying

MOLECULE = b"%s\n\n\n  1  0  0  0  0  0            999 V2000\n    0.0000    0.0000    0.0000 C   0  0\nM  END\n"
ITEM = b"> <CIP_LABELS>\n%s\n\n$$$$\n"
SETTINGS = b"cip 2 rule1b 2018 nodes 100000\n"
RECORDS = re.compile(rb'id="records">(.*?)</script>', re.DOTALL)


def page_of(*items):
    text = b"".join(MOLECULE % b"carbon" + ITEM % item for item in items)
    return trying.script_ran("tools/page", given=text)


class Page(unittest.TestCase):
    def test_each_record_is_in_the_page(self):
        done = page_of(SETTINGS + b"a1 S 1a 1 order 4 3 2 5", SETTINGS + b"none", SETTINGS + b"refused 5 Symbol")
        self.assertEqual((done.returncode, done.stderr), (script.FINE, b""))
        first, other, last = json.loads(RECORDS.search(done.stdout)[1])
        self.assertEqual(first["l"], [["a1", "S", "1a", 1, [["4", "3", "2", "5"]]]])
        self.assertEqual((other["l"], last["f"]), ([], [5, "Symbol"]))

    def test_nothing_of_a_name_is_markup(self):
        text = MOLECULE % b"</script><script>x" + ITEM % (SETTINGS + b"none")
        page = trying.script_ran("tools/page", given=text).stdout
        self.assertEqual(page.count(b"</script>"), 3)

    def test_no_record_is_a_fault(self):
        done = trying.script_ran("tools/page", given=b"\n")
        self.assertEqual((done.returncode, done.stderr), (script.UNUSABLE, b"page: the input has no record\n"))

    def test_a_file_without_labels_is_a_fault(self):
        done = trying.script_ran("tools/page", given=MOLECULE % b"carbon" + b"$$$$\n")
        self.assertEqual((done.returncode, done.stdout), (script.UNUSABLE, b""))
        self.assertIn(b"no item CIP_LABELS", done.stderr)

    def test_an_item_of_version_1_is_a_fault_that_names_the_record(self):
        done = page_of(SETTINGS + b"none", b"a1 S 1a 1")
        self.assertEqual(done.returncode, script.UNUSABLE)
        self.assertRegex(done.stderr.decode(), "^page: record 2: .*'a1 S 1a 1'; annotate the file again\n$")


OUTPUTS = {
    "explain": b"record 1\na1 S 1a 1 order 4 3 2 5\nrecord 2\na1 tie\na2 none NoMark\n",
    "axes": b"record 1\nt1-7 P 1a 2 order 2 6 | 8 12\nrecord 2\nt1-7 none NoMark\n",
    "groups": b"record 1\nrac1 a1 S R\nrecord 2\nabs a1 - -\n",
    "undefined": b"record 1\nrecord 2\na1 open 1a 2 order 3 4 1 H\na2 tie\na3 dependent\n",
}


class Beside(unittest.TestCase):
    """What stands in files beside the labelled one."""

    def made(self, *words):
        items = SETTINGS + b"a1 S 1a 1 order 4 3 2 5", SETTINGS + b"none"
        text = b"".join(MOLECULE % b"carbon" + ITEM % item for item in items)
        return trying.script_ran("tools/page", *words, given=text)

    def test_what_the_program_tells_is_in_the_page(self):
        words = []
        with tempfile.TemporaryDirectory() as folder:
            for name, text in OUTPUTS.items():
                path = os.path.join(folder, name)
                with open(path, "wb") as file:
                    file.write(text)
                words += [f"--{name}", path]
            done = self.made(*words)
        self.assertEqual((done.returncode, done.stderr), (script.FINE, b""))
        first, other = json.loads(RECORDS.search(done.stdout)[1])
        self.assertEqual(first["x"], [["t1-7", "P", "1a", 2, [["2", "6"], ["8", "12"]]]])
        self.assertEqual(other["e"], [["a1", "tie"], ["a2", "NoMark"], ["t1-7", "NoMark"]])
        self.assertEqual((first["g"], other["g"]), ([["rac1", "a1", "S", "R"]], [["abs", "a1", "-", "-"]]))
        self.assertEqual(other["u"], [["a1", "open", "1a", 2, [["3", "4", "1", "H"]]], ["a2", "tie"],
                                      ["a3", "dependent"]])
        self.assertFalse({"e", "u"} & set(first))

    def test_a_file_of_other_records_is_a_fault(self):
        for text in (b"record 1\n", b"record 2\n", b"a1 tie\n", b"record 1\nrecord 2\nrecord 3\n"):
            with self.subTest(text), tempfile.NamedTemporaryFile() as file:
                file.write(text)
                file.flush()
                self.assertEqual(self.made("--explain", file.name).returncode, script.UNUSABLE)

    def test_words_without_a_program_are_refused(self):
        self.assertEqual(self.made("--", "--nodes", "9").returncode, script.WORDS)


class Senses(unittest.TestCase):
    """The records by which senses of units that tie are asked."""

    def test_each_atom_of_version_2000_has_another_isotope(self):
        lines = senses.with_isotopes(MOLECULE % b"carbon" + b"$$$$\n").splitlines()
        self.assertEqual(lines[-3:], [b"M  ISO  1   1   2", b"M  END", b"$$$$"])

    def test_each_atom_of_version_3000_has_another_isotope(self):
        record = sdf.contents(trying.bytes_of("examples", "groups.sdf"))
        made = senses.with_isotopes(b"\n".join(record[:record.index(b"M  END") + 1])).splitlines()
        masses = [line.rsplit(b"MASS=", 1)[1] for line in made if b"MASS=" in line]
        self.assertEqual(masses, [b"%d" % (number + 1) for number in range(1, len(masses) + 1)])
        self.assertGreater(len(masses), 4)

    def test_ligands_with_two_ends_alike_never_differ(self):
        atom = sdf.Atom("C", (0, 0, 0), 0, 0, 0, 0)
        chlorine = atom._replace(symbol="Cl")
        drawing = sdf.Drawing([atom, atom, chlorine, chlorine, atom], [sdf.Bond(0, place, 1, "") for place in (1, 2, 3)]
                              + [sdf.Bond(1, 4, 1, "")])
        self.assertEqual(senses.which_may_differ(drawing, ["a1", "a2", "b1-2"]), ["a2"])
