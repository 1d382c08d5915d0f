"""What a digraph's panel and an exercise sheet say, by the page's modules under node."""
import json
import os
import re
import tempfile
import unittest

import trying

PANELS = trying.path("tools", "tests", "panels.mjs")
ITEM = b"> <CIP_LABELS>\ncip 2 rule1b 2018 nodes 100000\n%s\n\n$$$$\n"
CODE = re.compile(r"<script>(.*?)</script>", re.DOTALL)
ROW = re.compile(r"^\| ([\w ]+) \| [^|]* \| ([^|]*) \|$", re.MULTILINE)
# a unit's line of an item, with what its letter says of the drawing: IUPAC 2013, P-91.2.1.1, P-92.1.2.1, P-93
SENSES = {
    b"a1 S 1a 1 order 4 3 2 5": "Lowest ligand d (F5) away from you: a, b, c (Br4, Cl3, N2) run counterclockwise: S.",
    b"a1 R 1a 1 order 4 3 2 :":
        "Lowest ligand d (lone pair) away from you: a, b, c (Br4, Cl3, N2) run clockwise: R.",
    b"a1 r 5 2 order 4 3 2 H":
        "Lowest ligand d (H) away from you: a, b, c (Br4, Cl3, N2) run clockwise: r. A small letter, since inverting "
        "Rule 5 would give s; the mirror image keeps the letter.",
    b"b1-2 Z 1a 1 order 4 | 3 H": "The ligands a of both ends (Br4 and Cl3) are on the same side of the double bond: Z.",
    b"b1-2 E 1a 1 order 4 | 3 H": "The ligands a of both ends (Br4 and Cl3) are on opposite sides of the double bond: E.",
    b"b1-2 seqCis 5 2 order 4 3 | 5 H":
        "The ligands a of both ends (Br4 and F5) are on the same side of the double bond: seqCis. A small letter, since "
        "inverting Rule 5 would give seqTrans; the mirror image is seqTrans.",
    b"x1-2 P 1a 1 order 4 3 | 5 H":
        "Seen along the axis, the shorter way from a in front (Br4) to a at the other end (F5) runs clockwise: P.",
    b"x1-2 m 5 2 order 4 3 | 5 H":
        "Seen along the axis, the shorter way from a in front (Br4) to a at the other end (F5) runs counterclockwise: "
        "m. A small letter, since inverting Rule 5 would give p; the mirror image keeps the letter.",
}
ALWAYS = ["hierarchical digraph", "root", "ligand", "branch", "sphere"]


def molfile(*symbols):
    """A star of atoms around a carbon atom."""
    atoms = "".join(f"{place:10.4f}{place % 2:10.4f}    0.0000 {symbol:3} 0  0\n" for place, symbol in
                    enumerate(("C", *symbols)))
    bonds = "".join(f"  1{place:3}  1  0\n" for place in range(2, len(symbols) + 2))
    counts = f"{len(symbols) + 1:3}{len(symbols):3}  0  0  0  0            999 V2000\n"
    return f"star\n\n\n{counts}{atoms}{bonds}M  END\n".encode()


STAR = molfile("N", "Cl", "Br", "F")


@trying.needs("node", "nodejs")
class View(unittest.TestCase):
    def page(self, *records):
        made = trying.script_ran("tools/page", given=b"".join(records))
        self.assertEqual((made.returncode, made.stderr), (0, b""))
        return made.stdout

    def told(self, *words):
        done = trying.ran("node", PANELS, *words)
        self.assertEqual(done.stderr, b"")
        return [json.loads(line) for line in done.stdout.splitlines()]

    def panels(self, *records, wanted=()):
        with tempfile.TemporaryDirectory() as folder:
            path = os.path.join(folder, "page.html")
            with open(path, "wb") as file:
                file.write(self.page(*records))
            return self.told(path, *wanted)

    def test_a_letter_says_how_the_ligands_lie(self):
        panels = self.panels(*(STAR + ITEM % line for line in SENSES))
        for wanted, panel in zip(SENSES.values(), panels):
            with self.subTest(wanted):
                self.assertEqual(panel["senses"], [wanted])

    def test_terms_are_those_that_a_digraph_needs(self):
        acid = trying.bytes_of("examples", "alanine.sdf").split(b"M  END\n")[0] + b"M  END\n"
        star, small, alanine = self.panels(
            STAR + ITEM % b"a1 S 1a 1 order 4 3 2 5", STAR + ITEM % b"a1 s 5 1 order 4 3 2 5",
            acid + ITEM % b"a2 S 1a 2 order 1 4 3 H", wanted=["terms"])
        self.assertEqual(star, [ALWAYS])
        self.assertEqual(small, [[*ALWAYS, "small descriptor"]])
        self.assertEqual(alanine, [[*ALWAYS, "duplicate atom"]])

    def test_terms_have_the_words_of_the_glossary(self):
        glossary = dict(ROW.findall(trying.text_of("docs", "GLOSSARY.md")))
        terms = self.told()[0]
        self.assertGreater(len(terms), 5)
        for term, meaning in terms:
            with self.subTest(term):
                self.assertEqual(meaning, glossary[term])

    def test_answers_name_each_letter_or_none(self):
        with_letters, without = self.panels(STAR + ITEM % b"a1 S 1a 1 order 4 3 2 5\nb1-2 Z 1a 1 order 4 | 3 H",
                                            STAR + ITEM % b"none")
        self.assertEqual(with_letters["answer"], {"name": "1 star", "letters": "1 S, 1=2 Z"})
        self.assertEqual(without["answer"], {"name": "2 star", "letters": "none"})

    def test_the_modules_of_a_page_are_one_script(self):
        code = CODE.search(self.page(STAR + ITEM % b"none").decode())[1]
        with tempfile.NamedTemporaryFile("w", suffix=".js") as file:
            file.write(code)
            file.flush()
            done = trying.ran("node", "--check", file.name)
        self.assertEqual((done.returncode, done.stderr), (0, b""))
