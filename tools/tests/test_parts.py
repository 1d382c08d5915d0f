"""Parts of an SDfile that are labelled on their own, and their rows in one table."""
import io
import sys
import types
import unittest
import unittest.mock

import parts

RECORD = b"%d\n\n\n  0  0  0  0  0  0            999 V2000\nM  END\n$$$$\n"
FILE = b"".join(RECORD % number for number in range(1, 8))


class Labeller:
    """A labeller that finds an R centre in each record but the third, which it refuses."""

    def __init__(self, nodes, rule_1b):
        self.setting = f"cip 2 rule1b {rule_1b} nodes {nodes}"

    def values(self, record):
        return [self.setting, "refused 4 Counts" if record.startswith(b"3") else "a1 R 1a 1 order 2 3 4 5"]


class Parts(unittest.TestCase):
    def test_parts_are_whole_records_with_their_numbers(self):
        length = len(RECORD % 1)
        for size, firsts in ((1, [1, 2, 3, 4, 5, 6, 7]), (2 * length, [1, 3, 5, 7]), (100 * length, [1])):
            found = list(parts.parts_of(io.BytesIO(FILE), size))
            self.assertEqual([first for first, _ in found], firsts)
            self.assertEqual(b"".join(record for _, records in found for record in records), FILE)

    def test_rows_go_on_over_parts(self):
        with unittest.mock.patch.dict(sys.modules, cip=types.SimpleNamespace(Labeller=Labeller)):
            rows = [row for part in parts.parts_of(io.BytesIO(FILE), 200) for row in parts.rows_of(part, 9, 2018)]
        self.assertEqual([row["record"] for row in rows], list(range(1, 8)))
        self.assertEqual([row["name"] for row in rows], [str(number) for number in range(1, 8)])
        self.assertEqual([row.get("cause") for row in rows], [None, None, "Counts", None, None, None, None])
