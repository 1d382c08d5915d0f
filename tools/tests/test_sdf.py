"""sdf.py: records, lines and items as bytes."""
import io
import random
import unittest

import sdf

RECORD = b"name\n\n\n  0  0  0  0  0  0            999 V2000\nM  END\n> <CIP_LABELS>\n%s\n\n$$$$\n"
SETTINGS = b"cip 2 rule1b 2018 nodes 100000"
LINES = (b"> <CIP_LABELS>", b"> <CIP_LABELS>\r", b"x<CIP_LABELS>", b"CIP_LABELS", b"", b"$$$$", b"M  END", b" ", b"> <a>", b"v")


def records(text):
    return list(sdf.records(io.BytesIO(text)))


class Records(unittest.TestCase):
    def test_records_are_cut_behind_terminator_lines(self):
        one, other = b"a\nM  END\n$$$$\n", b"b\nM  END\n$$$$\n"
        self.assertEqual(records(one + other), [one, other])

    def test_terminator_lines_may_have_crlf(self):
        record = b"a\r\nM  END\r\n$$$$\r\n"
        self.assertEqual(records(record + record), [record, record])

    def test_terminator_lines_may_have_spaces_behind(self):
        record = b"a\nM  END\n$$$$  \n"
        self.assertEqual(records(record + record), [record, record])

    def test_a_line_that_ends_in_dollars_is_no_terminator(self):
        record = b"a\nM  END\n> <price>\n5 $$$$\n\n$$$$\n"
        self.assertEqual(records(record), [record])

    def test_a_record_that_is_cut_comes_last(self):
        whole, cut = b"a\nM  END\n$$$$\n", b"b\n\n\n  1"
        self.assertEqual(records(whole + cut), [whole, cut])

    def test_blank_lines_behind_the_last_record_are_none(self):
        record = b"a\nM  END\n$$$$\n"
        self.assertEqual(records(record + b"\n \r\n"), [record])

    def test_what_is_no_sdfile_is_a_fault(self):
        with self.assertRaises(sdf.Fault):
            records(b"SMILES name\nCCO ethanol\n")

    def test_records_are_found_whatever_the_pieces(self):
        text = b"a\nM  END\n$$$$ \r\n" * 3
        whole = records(text)
        for size in (1, 3, 7):
            piece, sdf.PIECE = sdf.PIECE, size
            try:
                self.assertEqual(records(text), whole)
            finally:
                sdf.PIECE = piece


class Items(unittest.TestCase):
    def test_an_item_has_its_values_without_line_ends(self):
        record = b"a\r\nM  END\r\n> <one>\r\n1\r\n2\r\n\r\n> <two>\r\n3\r\n\r\n$$$$\r\n"
        self.assertEqual(sdf.items(record), [sdf.Item(b"one", [b"1", b"2"]), sdf.Item(b"two", [b"3"])])

    def test_a_label_item_says_its_settings_and_labels(self):
        answer = sdf.answer(RECORD % (SETTINGS + b"\na1 S 1a 1 order 4 3 2 5\nb2-3 over"))
        self.assertEqual(answer.setting, SETTINGS.decode())
        self.assertEqual(answer.labels, [sdf.Label("a1", "S", "1a", 1, [["4", "3", "2", "5"]])])
        self.assertEqual((answer.over, answer.refused), (["b2-3"], None))

    def test_both_ends_of_a_bond_have_their_ligands(self):
        answer = sdf.answer(RECORD % (SETTINGS + b"\nb2-3 E 1a 1 order 1 H | 6 H"))
        self.assertEqual(answer.labels[0].order, [["1", "H"], ["6", "H"]])

    def test_a_refused_record_says_line_and_cause(self):
        self.assertEqual(sdf.answer(RECORD % (SETTINGS + b"\nrefused 10 Short")).refused, (10, "Short"))

    def test_none_is_an_answer_without_labels(self):
        answer = sdf.answer(RECORD % (SETTINGS + b"\nnone"))
        self.assertEqual((answer.labels, answer.over, answer.refused), ([], [], None))

    def test_a_record_without_the_item_has_no_answer(self):
        self.assertIsNone(sdf.answer(b"a\nM  END\n> <other>\n1\n\n$$$$\n"))

    def test_a_label_item_is_found_as_among_all_items(self):
        chance = random.Random(5)
        for _ in range(5000):
            lines = (chance.choice(LINES) for _ in range(chance.randrange(1, 9)))
            record = b"\n".join(lines) + chance.choice((b"", b"\n", b"\r\n"))
            wanted = next((item.values for item in sdf.items(record) if item.name == sdf.LABEL_ITEM), None)
            self.assertEqual(sdf.label_values(record), wanted, record)

    def test_an_item_of_version_1_is_a_fault_that_names_the_record(self):
        with self.assertRaisesRegex(sdf.Fault, "^record 7: .*'a1 S 1a 1'; annotate the file again$"):
            sdf.answer(RECORD % b"a1 S 1a 1", 7)
        with self.assertRaises(sdf.Fault):
            sdf.answer(RECORD % b"a1 S 1a 1\na4 R 1a 2")

    def test_an_item_of_another_program_is_a_fault(self):
        for value in (b"2:R (ChemDraw)", b"R", b"cip 3 rule1b 2018 nodes 5\nnone", b"cip 2 rule1b 2018 nodes 0\nnone"):
            with self.subTest(value), self.assertRaises(sdf.Fault):
                sdf.answer(RECORD % value)

    def test_an_item_without_a_line_is_a_fault(self):
        with self.assertRaises(sdf.Fault):
            sdf.answer(b"a\nM  END\n> <CIP_LABELS>\n\n$$$$\n")

    def test_a_line_that_is_no_label_is_a_fault(self):
        for line in (b"a1 Q 1a 1 order 4 3", b"a1 S 9 1 order 4 3", b"a1 S 1a x order 4 3", b"a1 S 1a 1 4 3", b"a1"):
            with self.subTest(line), self.assertRaises(sdf.Fault):
                sdf.answer(RECORD % (SETTINGS + b"\n" + line))
