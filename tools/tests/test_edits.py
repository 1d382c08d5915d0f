"""Wrong bodies: whether what each of them changes stands once in the code. `rt ci` passes over one that can't be made."""
import glob
import os
import re
import unittest

import trying

PART = re.compile(r"^(file|old|new): (.*)$")
ROW = re.compile(r"^\| `(\w+)` \| `(\w+)` \| (.*) \|$", re.MULTILINE)
WHEN = re.compile(r"in each gate|not yet|\d{4}-\d\d-\d\d")


def edits():
    return sorted(glob.glob(trying.path("crates", "*", "must-fail", "*.edit")) +
                  glob.glob(trying.path("crates", "*", "wrong", "*.edit")))


def counts(edit):
    """How often each old line stands in its file, where those before it were changed."""
    text = ""
    with open(edit, encoding="utf-8") as lines:
        for line in lines:
            part, value = PART.match(line).groups()
            if part == "file":
                with open(os.path.join(os.path.dirname(edit), os.pardir, value), encoding="utf-8") as file:
                    text = file.read()
            elif part == "old":
                old = value
                yield text.count(old)
            else:
                text = text.replace(old, value)


class Edits(unittest.TestCase):
    def test_old_lines_stand_once(self):
        self.assertTrue(edits())
        for edit in edits():
            with self.subTest(edit=os.path.relpath(edit, trying.path())):
                self.assertEqual(set(counts(edit)), {1})

    def test_the_page_has_a_row_for_each(self):
        rows = ROW.findall(trying.text_of("docs", "WRONG-BODIES.md"))
        there = {tuple(os.path.relpath(edit, trying.path("crates")).removesuffix(".edit").split(os.sep)) for edit in edits()}
        self.assertEqual({(crate, name) for crate, name, _ in rows}, {(crate, name) for crate, _, name in there})
        self.assertEqual({(crate, name) for crate, name, day in rows if day == "in each gate"},
                         {(crate, name) for crate, folder, name in there if folder == "must-fail"})
        for crate, name, day in rows:
            with self.subTest(crate=crate, name=name):
                self.assertRegex(day, WHEN)
