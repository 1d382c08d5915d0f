"""What the page says of drawings, by its modules under node."""
import json
import os
import tempfile
import unittest

import trying

ITEM = b"> <CIP_LABELS>\ncip 2 rule1b 2018 nodes %d\n%s\n\n$$$$\n"
# the worked labels of these records
MENTHOL = b"a4 S 1a 2 order 10 2 5 H\na7 R 1a 3 order 9 6 8 H\na10 R 1a 2 order 11 4 9 H"
HALOMETHANE = b"a1 S 1a 1 order 4 3 2 5"
BIPHENYL, AXIS = 6, b"t1-7 P 1a 2 order 2 6 | 8 12"


def molfile(name, place=0):
    """The molfile of a record of the examples."""
    record = trying.bytes_of("examples", f"{name}.sdf").split(b"$$$$\n")[place]
    return record[:record.index(b"M  END")] + b"M  END\n"


HALOMETHANE_ALONE = molfile("bromochlorofluoromethane") + ITEM % (100_000, b"none")
BIPHENYL_ALONE = molfile("axes", BIPHENYL) + ITEM % (100_000, b"none")


@trying.needs("node", "nodejs")
class View(unittest.TestCase):
    def setUp(self):
        folder = tempfile.TemporaryDirectory()
        self.addCleanup(folder.cleanup)
        self.folder = folder.name

    def page(self, *records, **beside):
        """A page of records, with files beside them."""
        words = []
        for name, text in beside.items():
            path = os.path.join(self.folder, name)
            with open(path, "wb") as file:
                file.write(text)
            words += [f"--{name}", path]
        made = trying.script_ran("tools/page", *words, given=b"".join(records))
        self.assertEqual((made.returncode, made.stderr), (0, b""))
        path = os.path.join(self.folder, "page.html")
        with open(path, "wb") as file:
            file.write(made.stdout)
        return path

    def told(self, *records, **beside):
        done = trying.ran("node", trying.path("tools", "tests", "reasons.mjs"), self.page(*records, **beside))
        self.assertEqual(done.stderr, b"")
        return [json.loads(line) for line in done.stdout.splitlines()]

    def test_digraphs_give_worked_labels_and_see_another_order(self):
        page = self.page(molfile("menthol") + ITEM % (100_000, MENTHOL),
                         molfile("bromochlorofluoromethane") + ITEM % (100_000, HALOMETHANE),
                         molfile("bromochlorofluoromethane") + ITEM % (100_000, b"a1 R 1a 1 order 4 2 3 5"))
        done = trying.ran("node", trying.path("tools", "tests", "digraphs.mjs"), trying.path("tools", "view"), page)
        self.assertEqual(done.returncode, 1)
        lines = done.stdout.decode().splitlines()
        self.assertTrue(lines[0].endswith("record 3 a1 R 1a 1: another order"), lines)
        self.assertEqual(lines[1:3], ["4 Rule 1a: agrees", "1 Rule 1a: differs"])

    def test_a_wedge_without_a_letter_asks_for_explain(self):
        told, over = self.told(HALOMETHANE_ALONE, molfile("menthol") + ITEM % (19, b"a7 over"))
        self.assertIn("cip explain says why", told["wedges"][0])
        self.assertEqual(over["drawn"][0], ["a7", "no letter: its digraph is larger than the bound on nodes",
                                            "They tie up to sphere 2. The next one has more nodes than are looked at."])

    def test_a_wedge_without_a_letter_has_its_reason(self):
        explained = b"record 1\na1 tie\nrecord 2\nrecord 3\nrecord 4\na2 none NoMark\n" + MENTHOL + b"\n"
        tie, no_unit, biphenyl, menthol = self.told(
            HALOMETHANE_ALONE, HALOMETHANE_ALONE, BIPHENYL_ALONE, molfile("menthol") + ITEM % (100_000, MENTHOL),
            explain=explained)
        self.assertEqual((tie["drawn"][0][:2], tie["wedges"]),
                         (["a1", "no letter: two of its ligands are alike by Rules 1a to 5; a centre of C2 symmetry "
                           "may still be one"], []))
        self.assertEqual(no_unit["wedges"],
                         ["The wedge at C1 has no letter: no unit that cip annotate labels stands there."])
        self.assertTrue(biphenyl["wedges"][0].endswith("A biaryl axis is labelled by cip axes."))
        self.assertEqual((menthol["drawn"], menthol["others"]), ([], ["a2"]))

    def test_a_wedge_that_is_wide_at_a_centre_is_to_be_turned_round(self):
        turned = molfile("menthol").replace(b"  4  2  1  1", b"  2  4  1  1")
        self.assertNotEqual(turned, molfile("menthol"))
        record = turned + ITEM % (100_000, b"none")
        explained = b"a4 none NoMark\n"
        plain, tied, undefined = self.told(
            record, record, record, explain=b"record 1\n" + explained + b"record 2\n" + explained + b"record 3\n",
            undefined=b"record 1\nrecord 2\na4 tie\nrecord 3\na4 open 1a 2 order 10 2 5 H\n")
        words = "The wedge at C2 has no letter: it counts at C2, its narrow end. Turn it round for C4."
        self.assertEqual((plain["wedges"][0], undefined["wedges"][0]), (words, words))
        self.assertNotIn("Turn", tied["wedges"][0])

    def test_an_open_double_bond_lacks_no_wedge(self):
        told, = self.told(molfile("menthol") + ITEM % (100_000, b"none"), explain=b"record 1\nb4-5 none Either\n",
                          undefined=b"record 1\nb4-5 open 1a 1 order 2 H | 6 H\n")
        self.assertEqual(told["drawn"][0][1], "undefined: its ligands differ, and it is drawn as undecided")

    def test_a_wedge_at_a_biaryl_is_that_of_the_axes(self):
        without, axis = self.told(BIPHENYL_ALONE, BIPHENYL_ALONE, explain=b"record 1\nrecord 2\n",
                                  axes=b"record 1\nrecord 2\n" + AXIS + b"\n")
        self.assertTrue(without["wedges"][0].endswith("cip axes finds no axis there either."))
        self.assertEqual((axis["wedges"], axis["groups"]), ([], [None]))

    def test_open_units_say_that_they_are_undefined(self):
        plain = molfile("menthol") + ITEM % (100_000, b"none")
        told, either = self.told(
            plain, plain, explain=b"record 1\na4 none NoMark\na2 none NoMark\nrecord 2\na2 none Either\n",
            undefined=b"record 1\na2 tie\na4 open 1a 2 order 10 2 5 H\nrecord 2\na2 tie\n")
        self.assertEqual([words[0] for words in told["drawn"]], ["a4"])
        self.assertTrue(told["drawn"][0][1].startswith("undefined: its ligands differ"))
        self.assertEqual([words[0] for words in either["drawn"]], ["a2"])

    def test_racemic_and_relative_groups_are_open(self):
        groups = ("rac1 a2 S R", "rel2 a2 S R", "abs a2 S R", "rac1 a2 - -")
        lines = "".join(f"record {number}\n{group}\n" for number, group in enumerate(groups, 1))
        record = molfile("alanine") + ITEM % (100_000, b"a2 S 1a 2 order 1 4 3 H")
        told = self.told(*[record] * 4, groups=lines.encode())
        self.assertEqual([one["groups"] for one in told], [[True], [True], [False], [False]])
