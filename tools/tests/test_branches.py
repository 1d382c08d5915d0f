"""tools/branches: the rows of the gate, and the lot and the ranking behind them."""
import unittest

import trying


class Branches(unittest.TestCase):
    def test_the_rows_of_the_gate_are_those_that_it_writes(self):
        made = trying.script_ran("tools/branches")
        self.assertEqual((made.returncode, made.stderr), (0, b""))
        self.assertEqual(made.stdout, trying.bytes_of("crates", "gate_cases", "data", "made_branches.txt"))
