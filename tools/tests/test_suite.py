"""tools/suite over a program that answers what a test wants: what is the same, outside, not drawn or different."""
import os
import tempfile
import unittest

import chains
import listed
import script
import sdf
import trying

ANSWERING = "#!/bin/sh\ncat > /dev/null\ncat \"$0.$1\"\n"
LABEL = " {} 1a 2 order 3 4"
HEXAGON = [(1, 2, 2), (2, 3, 1), (3, 4, 2), (4, 5, 1), (5, 6, 2), (6, 1, 1)]


def drawing(symbols, bonds):
    atoms = [sdf.Atom(symbol, (0.0, 0.0, 0.0), 0, 0, 0, 0) for symbol in symbols]
    return sdf.Drawing(atoms, [sdf.Bond(one - 1, other - 1, order, "") for one, other, order in bonds])


def near(count, bonds):
    return chains.neighbours(drawing(["C"] * count, bonds))


def record(symbols, bonds, expected, rules="1a"):
    """A record that is drawn on one line."""
    lines = [f"{place:10.4f}    0.0000    0.0000 {symbol:3} 0  0" for place, symbol in enumerate(symbols)]
    lines += [f"{one:3d}{other:3d}{order:3d}  0" for one, other, order in bonds]
    head = f"one\n\n\n{len(symbols):3d}{len(bonds):3d}  0  0  0  0            999 V2000\n"
    items = f">  <EXPECTED>\n{expected}\n\n>  <RULES>\n{rules}\n\n"
    return head + "\n".join([*lines, "M  END", items]) + "$$$$\n"


def chain(orders):
    """A chain of bonds of these orders."""
    return [(place, place + 1, order) for place, order in enumerate(orders, 1)]


def compared(text, explained="", further="", name="suite.sdf", words=()):
    """The status and the lines of a run over a program that explains a record so."""
    with tempfile.TemporaryDirectory() as folder:
        paths = {word: os.path.join(folder, word) for word in (name, "cip", "cip.explain", "cip.axes")}
        contents = {name: text, "cip": ANSWERING, "cip.explain": "record 1\n" + explained,
                    "cip.axes": "record 1\n" + further}
        for word, content in contents.items():
            with open(paths[word], "w", encoding="utf-8") as file:
                file.write(content)
        os.chmod(paths["cip"], 0o755)
        done = trying.script_ran("tools/suite", "--program", paths["cip"], *words, paths[name])
        return done.returncode, done.stdout.decode().splitlines() or [done.stderr.decode()]


class Compared(unittest.TestCase):
    def is_line(self, status, line, *answers, **how):
        found = compared(*answers, **how)
        self.assertEqual((found[0], found[1][0]), (status, line))

    def test_the_same_letters_have_status_0(self):
        bonds = [(1, 2, 1), (2, 3, 2), (3, 4, 1), (4, 5, 1)]
        explained = "b2-3" + LABEL.format("Z") + "\na4" + LABEL.format("s") + "\n"
        status, lines = compared(record("CCCCC", bonds, "2Z 3Z 4s"), explained)
        self.assertEqual((status, lines[0]), (script.FINE, "1 one: same"))
        self.assertEqual(lines[-1], "2 labels: 2 same, 0 by axes, 0 outside, 0 not drawn, 0 different; 0 not expected")
        self.assertIn("class centre: 1 same", lines)
        self.assertIn("decided by Rule 1a: 2 same", lines)

    def test_another_letter_has_status_1(self):
        given = record("CCC", chain([1, 1]), "2R")
        self.is_line(script.DIFFERENT, "1 one: a2 expected R, cip S", given, "a2" + LABEL.format("S"))
        self.is_line(script.DIFFERENT, "1 one: a2 expected R, cip over", given, "a2 over")
        self.is_line(script.DIFFERENT, "1 one: a2 expected R, cip no unit", given)

    def test_another_letter_of_axes_has_status_1(self):
        given = record("CCCCCC", chain([1, 2, 2, 2, 1]), "2E 5E")
        self.is_line(script.FINE, "1 one: c2-5 E by axes", given, "", "c2-5" + LABEL.format("E"))
        self.is_line(script.DIFFERENT, "1 one: c2-5 expected E, cip Z", given, "", "c2-5" + LABEL.format("Z"))

    def test_a_tie_is_outside_where_rule_6_decides(self):
        given = record("CCC", chain([1, 1]), "2R", "1a,6")
        self.is_line(script.FINE, "1 one: a2 R outside: Rule 6", given, "a2 tie")
        self.is_line(script.DIFFERENT, "1 one: a2 expected R, cip tie", record("CCC", chain([1, 1]), "2R"), "a2 tie")

    def test_what_a_drawing_does_not_show_has_its_cause(self):
        given = record("CCCC", chain([1, 1, 1]), "2R 3S")
        self.is_line(script.FINE, "1 one: a2 R not drawn: NoMark; a3 S not drawn: a tie, since another unit isn't",
                     given, "a2 none NoMark\na3 tie")
        self.is_line(script.FINE, "1 one: 7 R not drawn: no such atom in the drawing", record("C", [], "a7:R"))

    def test_a_label_that_is_not_expected_differs_where_all_is_drawn(self):
        given = record("CCCC", chain([1, 1, 1]), "-")
        self.is_line(script.DIFFERENT, "1 one: a2 expected none, cip S", given, "a2" + LABEL.format("S"))
        self.is_line(script.FINE, "1 one: a2 expected none, cip S", given,
                     "a2" + LABEL.format("S") + "\na3 none NoMark")

    def test_each_reason_without_a_unit(self):
        ring = [(1, 2, 2), *((place, place + 1, 1) for place in range(2, 7)), (7, 1, 1)]
        cases = (("CNC", chain([1, 1]), "2R", "a2 R outside: a nitrogen atom that counts as inverting"),
                 ("C" * 7, ring, "1Z 2Z", "b1-2 Z outside: a ring of fewer than eight atoms"),
                 ("C" * 9, [*chain([2, 1, 2, 1, 2, 1, 2, 1, 2])[:-1], (9, 10, 2), (10, 1, 1)], "1Z 2Z",
                  "b1-2 Z outside: an alternating ring"),
                 ("C" * 10, [*chain([2, 2, 2, 1, 1, 1, 1, 1, 1]), (10, 1, 1)], "1Z 4Z",
                  "c1-4 Z outside: a cumulene in a ring"),
                 ("C" * 4, [*chain([1, 1, 1]), (4, 1, 1)], "1M 2M", "t1-2 M outside: an axis in a ring"),
                 ("C" * 4, chain([1, 1, 1]), "2M 3M",
                  "t2-3 M outside: an axis with fewer than three hindered neighbours"),
                 ("C" * 9, chain([1] * 8), "2P 8P", "h2-8 P outside: a helix"))
        for symbols, bonds, expected, line in cases:
            with self.subTest(line):
                symbols = symbols + "C" * (max(max(bond[:2]) for bond in bonds) - len(symbols))
                self.is_line(script.FINE, f"1 one: {line}", record(symbols, bonds, expected))

    def test_units_and_other_items_can_be_named(self):
        given = record("CCCC", chain([1, 2, 1]), "b2-3:Z").replace("EXPECTED", "other")
        self.is_line(script.FINE, "1 one: same", given, "b2-3" + LABEL.format("Z"), words=("--item", "other"))

    def test_what_cannot_be_used_has_status_3(self):
        self.is_line(script.UNUSABLE, "suite: record 1, item EXPECTED: 'racemic' is neither an atom nor a letter\n",
                  record("C", [], "racemic"))
        status, lines = compared("no tab\n", name="list.smi")
        self.assertEqual(status, script.UNUSABLE)
        self.assertRegex(lines[0], "line 1 has no tab between a SMILES and a name|RDKit isn't installed")


class Chains(unittest.TestCase):
    def test_ends_are_those_of_chains_of_double_bonds(self):
        bonds = chain([1, 2, 1, 2, 1, 2, 2, 1])
        self.assertEqual(chains.paired(near(9, bonds), {2: "E", 3: "E", 4: "E", 5: "E", 6: "M", 8: "M"}),
                         {(2, 3): "E", (4, 5): "E", (6, 8): "M"})

    def test_ends_of_other_letters_stay_alone(self):
        self.assertEqual(chains.paired(near(4, chain([1, 2, 1])), {2: "E", 3: "Z"}), {(2,): "E", (3,): "Z"})
        self.assertEqual(chains.paired(near(4, chain([1, 1, 1])), {1: "Z", 2: "Z"}), {(1,): "Z", (2,): "Z"})

    def test_the_smallest_ring_through_a_bond(self):
        self.assertEqual(chains.ring_size(near(6, HEXAGON), 1, 2), 6)
        self.assertEqual(chains.ring_size(near(6, [*HEXAGON, (2, 6, 1)]), 1, 2), 3)
        self.assertIsNone(chains.ring_size(near(7, [*HEXAGON, (1, 7, 1)]), 1, 7))

    def test_alternating_rings(self):
        self.assertTrue(chains.is_in_alternating_ring(near(6, HEXAGON), 1, 2))
        self.assertFalse(chains.is_in_alternating_ring(near(6, [*HEXAGON[1:], (1, 2, 1)]), 3, 4))
        large = [(place, place % 26 + 1, 1 + place % 2) for place in range(1, 27)]
        self.assertFalse(chains.is_in_alternating_ring(near(26, large), 1, 2))


class Listed(unittest.TestCase):
    def test_neighbours_stand_in_the_order_of_a_smiles(self):
        written = listed.read("C1CC%12[C@](F)(Cl1)/C=%12.[O-]")
        self.assertEqual(written.atoms, ["C", "C", "C", "[C@]", "F", "Cl", "C", "[O-]"])
        self.assertEqual(written.near, [[5, 1], [0, 2], [1, 6, 3], [2, 4, 5, 6], [3], [3, 0], [3, 2], []])

    def test_columns_that_are_missing_are_empty(self):
        row = next(listed.rows(["C\tmethane\n", "\n"]))
        self.assertEqual(row, {"SMILES": "C", "ID": "methane", "EXPECTED": "", "SECTION": "", "CLASS": "", "RULES": ""})
