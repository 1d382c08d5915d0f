"""Words before and behind the build: what ./cip refuses without a program is what the program refuses."""
import unittest

import forms
import trying

FINE = (["annotate"], ["annotate", "--nodes", "5"], ["explain", "--workers", "16", "--nodes", "1000000"],
        ["annotate", "--rule1b", "2013"], ["make", "--start", "0", "--records", "1"],
        ["make", "--records", "1", "--start", "4294967295"], ["help"], ["axes"], ["groups"], ["mirror"],
        ["set", "--record", "1", "--atom", "1000000000", "--letter", "s"])
REFUSED: tuple = ([], [""], ["--help"], ["mine.sdf"], ["annotate", "mine.sdf"], ["annotate", "--nodes=5"],
           ["annotate", "--nodes"], ["annotate", "--nodes", "0"], ["annotate", "--nodes", "1000001"],
           ["annotate", "--nodes", "05"], ["annotate", "--nodes", "+5"], ["annotate", "--nodes", ""],
           ["annotate", "--nodes", "5", "--nodes", "5"], ["annotate", "--workers", "17"], ["annotate", "--rule1b", "2014"],
           ["annotate", "--start", "1"], ["make"], ["make", "--start", "1"], ["make", "--start", "1", "--records", "0"],
           ["make", "--start", "4294967296", "--records", "1"], ["set", "--record", "1", "--atom", "1"],
           ["set", "--record", "1", "--atom", "1", "--letter", "E"], ["help", "annotate"], ["Annotate"],
           ["annotate", "--nodes", "99999999999999999999999"])


class Words(unittest.TestCase):
    def test_the_table_tells_what_the_program_refuses(self):
        for words, is_fine in [*((words, True) for words in FINE), *((words, False) for words in REFUSED)]:
            with self.subTest(words):
                self.assertEqual(forms.fit(words), is_fine)
                self.assertEqual(trying.ran(trying.program(), *words).returncode != 2, is_fine)
