"""tools/changes: which records belong together, and what it tells of units whose labels aren't the same."""
import os
import tempfile
import unittest

import script
import trying

MOLFILE = """{name}


  3  2  0  0  0  0            999 V2000
    0.0000    0.0000    0.0000 C   0  0
    {x}    0.0000    0.0000 {symbol}   0  0
    0.0000    1.0000    0.0000 O   0  0
  1  2  1  {mark}
  1  3  1  0
M  END
"""
SETTINGS = "cip 2 rule1b 2018 nodes {nodes}"
R, S, BOND = "a1 R 1a 2 order 2 3 4 H", "a1 S 1a 2 order 2 3 4 H", "b1-2 E 1a 1 order 1 H | 6 H"


def record(lines, name="one", key=None, mark=1, x="1.0000", symbol="N", nodes=100_000):
    item = f"> <KEY>\n{key}\n\n" if key else ""
    molfile = MOLFILE.format(name=name, mark=mark, x=x, symbol=symbol)
    return f"{molfile}> <CIP_LABELS>\n{SETTINGS.format(nodes=nodes)}\n{lines}\n\n{item}$$$$\n"


def changes(old, new, *words):
    """The status, the rows as lists of cells, and what is told besides."""
    with tempfile.TemporaryDirectory() as folder:
        paths = [os.path.join(folder, name) for name in ("old.sdf", "new.sdf")]
        for path, text in zip(paths, (old, new)):
            with open(path, "w", encoding="utf-8") as file:
                file.write(text)
        done = trying.script_ran("tools/changes", *words, *paths)
    return done.returncode, [line.split("\t") for line in done.stdout.decode().splitlines()[1:]], done.stderr.decode()


# items of both files, and what is found of which unit
CASES = (
    (R, S, (("a1", "other letter"),)), (R, "none", (("a1", "lost"),)), ("none", R, (("a1", "gained"),)),
    (R, R.replace("1a 2", "1b 2"), (("a1", "other rule"),)), (R, "a1 over", (("a1", "other letter"),)),
    (R + "\n" + BOND, S, (("a1", "other letter"), ("b1-2", "lost"))), (R, "refused 4 Short", (("", "now refused"),)),
    ("refused 4 Short", R, (("", "now read"),)), (R, R, ()), ("refused 4 Short", "refused 9 BondType", ()),
    (R, R.replace("1a 2", "1a 3"), ()),
)


class Changes(unittest.TestCase):
    def test_units_of_the_same_molecule_are_compared_by_their_atoms(self):
        for old, new, wanted in CASES:
            status, rows, _ = changes(record(old), record(new, mark=6, x="2.0000"))
            with self.subTest(old=old, new=new):
                self.assertEqual(tuple((row[3], row[5]) for row in rows), wanted)
                self.assertEqual(status, script.DIFFERENT if wanted else script.FINE)

    def test_letters_of_another_molecule_are_counted(self):
        old, new = R + "\n" + R.replace("a1", "a2") + "\n" + BOND, S + "\n" + R.replace("a1", "a3") + "\n" + BOND
        status, rows, _ = changes(record(old), record(new, symbol="P"))
        self.assertEqual((status, [row[4:] for row in rows]), (script.DIFFERENT, [
            ["centre", "lost", "R", "", "", ""], ["centre", "gained", "", "", "S", ""]]))
        self.assertEqual(changes(record(R), record(R.replace("a1", "a7"), symbol="P"))[:2], (script.FINE, []))

    def test_records_belong_together_by_name_in_their_order(self):
        old = record(R, "x") + record(R, "x") + record(R, "gone")
        new = record(R, "new") + record(R, "x") + record(S, "x")
        status, rows, told = changes(old, new)
        self.assertEqual((status, [row[:6] for row in rows]), (script.DIFFERENT, [
            ["new", "", "1", "", "", "new record"], ["x", "2", "3", "a1", "centre", "other letter"],
            ["gone", "3", "", "", "", "gone"]]))
        self.assertIn("records the same 1, gained 0, lost 0, other letter 1, ", told)

    def test_records_belong_together_by_an_item(self):
        old, new = record(R, "a", key=1) + record(S, "b", key=2), record(S, "c", key=2) + record(R, "d", key=1)
        self.assertEqual(changes(old, new, "--key", "KEY")[:2], (script.FINE, []))

    def test_a_comparison_of_nothing_is_a_fault(self):
        keyed = record(R, key=1)
        for old, new, words in ((record(R, "x"), record(R, "y"), ()), (record(R), keyed, ("--key", "KEY")),
                                (keyed, record(R), ("--key", "KEY")), (keyed, keyed, ("--key", "KYE"))):
            status, _, told = changes(old, new, *words)
            self.assertEqual(status, script.UNUSABLE)
            self.assertIn("nothing is compared", told)

    def test_other_settings_are_counted(self):
        status, _, told = changes(record(R) + record(S), record(R) + record(S, nodes=5))
        self.assertEqual((status, told.endswith(", records with other settings 1\n")), (script.FINE, True))

    def test_a_record_without_the_item_is_named(self):
        status, _, told = changes(record(R), record(R) + MOLFILE.format(name="x", x="1.0000", symbol="C", mark=0) + "$$$$\n")
        self.assertEqual(status, script.UNUSABLE)
        self.assertRegex(told, r"^changes: .*new\.sdf: record 2 has no item CIP_LABELS")
