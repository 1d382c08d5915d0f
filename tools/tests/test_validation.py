"""docs/VALIDATION.md: its length, and that its tables add up."""
import re
import unittest

import trying

PAGE = trying.text_of("docs", "VALIDATION.md")
MOST_WORDS, MOST_IN_A_CELL = 2500, 15
CLASSES = ("stereocentres", "double bonds", "allenes", "cumulenes", "biaryl axes", "helices", "all")


def rows(text):
    """The rows of a page's tables, each as its cells."""
    found = [[cell.strip() for cell in line.strip("|").split("|")] for line in text.splitlines() if line[:1] == "|"]
    return [row for row in found if set(row[0]) != {"-"}]


def number(cell):
    return int(cell.replace(",", "") or 0)


def section(title):
    return PAGE.split(f"\n## {title}\n")[1].split("\n## ")[0]


class Page(unittest.TestCase):
    def test_it_can_be_read_in_a_sitting(self):
        self.assertLessEqual(len(PAGE.split()), MOST_WORDS)

    def test_cells_are_short(self):
        for row in rows(PAGE):
            for cell in row:
                with self.subTest(cell):
                    self.assertLessEqual(len(cell.split()), MOST_IN_A_CELL)

    def test_labels_of_the_suite_add_up(self):
        text = section("The CIP validation suite")
        table = {row[0]: [number(cell) for cell in row[1:]] for row in rows(text) if row[0] in CLASSES}
        self.assertEqual(list(table), list(CLASSES))
        for labels, *found in table.values():
            self.assertEqual(labels, sum(found))
        *classes, whole = table.values()
        self.assertEqual([sum(column) for column in zip(*classes)], whole)
        decided = text.split(" are decided by ")[1].split(". ")[0]
        self.assertEqual(sum(map(int, re.findall(r"\((\d+)\)", decided))), whole[1])

    def test_structures_of_the_suite_add_up(self):
        text = section("The CIP validation suite")
        structures = [row for row in rows(text) if row[0].isdigit()]
        self.assertEqual(int(re.search(r"^(\d+) structures are the same", text, re.MULTILINE)[1]), 300 - len(structures))
        _, *counts = next([number(cell) for cell in row[1:]] for row in rows(text) if row[0] == "all")
        labels = [row for row in structures if not row[2].startswith("none")]
        self.assertEqual(sum(row[2].count(",") + 1 for row in labels), sum(counts[1:]))

    def test_each_difference_from_rdkit_is_of_a_kind(self):
        text = section("RDKit's newer labeller")
        differences = sum(sum(map(number, row[3:6])) for row in rows(text) if row[0] != "Collection")
        self.assertEqual(int(re.search(r"Each of the (\d+) differences", text)[1]), differences)
        kinds = re.findall(r"^\d+\. \*\*", text, re.MULTILINE)
        numbers = set(re.findall(r"^record (\d+) ", text, re.MULTILINE))
        self.assertEqual(numbers, {str(kind) for kind in range(1, len(kinds) + 1)})
