"""What the documents show of the program, block by block."""
import re
import unittest

import trying

def given(name):
    return trying.bytes_of("examples", name)


def told(name, *words):
    return trying.ran(trying.program(), *words, given=given(name)).stdout.decode()


def shown(part):
    """The block of the README that has a part."""
    blocks = re.findall(r"^```text\n(.*?)^```", trying.text_of("README.md"), re.MULTILINE | re.DOTALL)
    return next(block for block in blocks if part in block)


class Readme(unittest.TestCase):
    def test_the_item(self):
        self.assertIn(shown("> <CIP_LABELS>"), told("bromochlorofluoromethane.sdf", "annotate"))

    def test_explain(self):
        self.assertEqual(told("menthol.sdf", "explain"), shown("record 1\na2 none NoMark"))

    def test_groups(self):
        self.assertEqual(told("groups.sdf", "groups"), shown("record 1\nrac1"))

    def test_set(self):
        wrong = re.sub(rb"(?m)^  4  2  1  1", b"  4  2  1  6", given("menthol.sdf"))
        words = ("set", "--record", "1", "--atom", "4", "--letter", "S")
        done = trying.ran(trying.program(), *words, given=wrong)
        self.assertNotEqual(wrong, given("menthol.sdf"))
        self.assertEqual(done.stdout.decode(), told("menthol.sdf", "annotate"))

    def test_mirror(self):
        text = told("alanine.sdf", "mirror")
        self.assertIn("\n  2  3  1  6", text)
        self.assertIn("\na2 R 1a 2 order 1 4 3 H\n", text)
        self.assertIn("\na2 S ", told("alanine.sdf", "annotate"))

    def test_axes(self):
        records = told("axes.sdf", "axes").split("record ")
        self.assertIn("t1-7 P 1a 2 order 2 6 | 8 12\n", records[7])
        self.assertIn("c2-5 E 1a 1 order 1 H | 6 H\n", records[9])


class Handbook(unittest.TestCase):
    def test_trial(self):
        line = re.search(r"^records 2000 .*\n", trying.text_of("docs", "USE.md"), re.MULTILINE)[0]
        self.assertEqual(told("alanine.sdf", "trial", "--start", "7", "--records", "2000"), line)

    def test_help(self):
        stored = trying.text_of("crates", "cip_words", "src", "help.rt")
        lines = re.findall(r'^ *"?(cip .*?)\\n', stored, re.MULTILINE)
        self.assertEqual(told("alanine.sdf", "help").splitlines(), lines)

    def test_words_that_are_no_command_are_refused(self):
        for words in (["--help"], ["annotate", "mine.sdf"], ["annotate", "--workers", "17"], []):
            with self.subTest(words):
                done = trying.ran(trying.program(), *words)
                self.assertEqual((done.returncode, done.stdout, done.stderr), (2, b"", b"cip: words refused\n"))
