"""tools/correct: which lists of corrections it takes, and what it tells of corrections that aren't made."""
import os
import stat
import tempfile
import unittest

import script
import trying

RECORD = "%s\n\n\n  0  0  0  0  0  0            999 V2000\nM  END\n> <CIP_LABELS>\ncip 2 rule1b 2018 nodes 100000\n%s\n\n$$$$\n"
FILE = "".join(RECORD % (name, "a4 S 1a 2 order 10 2 5 H") for name in ("one", "two", "three"))
# what stands in for the program: `set` gives atom 4 the letter and writes that to the name line; any other is no centre
PROGRAM = """#!/bin/sh
if [ "$1" = annotate ]; then echo "$*" >> "$0.calls"; exec cat; fi
[ "$5" = 4 ] || { cat; echo "cip: not set NoCentre" >&2; exit 8; }
sed "s/^a4 ./a4 $7/; 1s/$/ $5$7/"
"""


class Correct(unittest.TestCase):
    def setUp(self):
        room = tempfile.TemporaryDirectory()
        self.addCleanup(room.cleanup)
        self.paths = [os.path.join(room.name, name) for name in ("program", "list", "mine.sdf")]
        self.put(self.paths[0], PROGRAM)
        os.chmod(self.paths[0], stat.S_IRWXU)

    def put(self, path, text):
        with open(path, "w", encoding="utf-8", newline="") as file:
            file.write(text)

    def corrected(self, corrections, text=FILE, words=()):
        self.put(self.paths[1], corrections)
        self.put(self.paths[2], text)
        done = trying.script_ran("tools/correct", *self.paths, *words)
        return done.returncode, done.stdout.decode(), done.stderr.decode()

    def test_each_record_has_its_corrections_and_the_others_stay(self):
        for corrections in ("1 4 R\n3 4 r\n", "record\tatom\tletter\n3\t4\tr\n\n# why\n1\t4\tR\n", "\ufeff1, 4, R\r\n3,4,r\r\n"):
            status, text, complaint = self.corrected(corrections)
            wanted = FILE.replace("one\n", "one 4R\n").replace("three\n", "three 4r\n").split("$$$$\n")
            wanted[0], wanted[2] = wanted[0].replace("a4 S", "a4 R"), wanted[2].replace("a4 S", "a4 r")
            self.assertEqual((status, text, complaint), (script.FINE, "$$$$\n".join(wanted), ""))

    def test_what_follows_the_records_stays(self):
        self.assertEqual(self.corrected("1 4 S\n", FILE + "\n \n")[1][-6:], "$$$$\n\n \n"[-6:])

    def test_those_that_are_not_made_are_told(self):
        status, text, complaint = self.corrected("1 5 R\n9 4 S\n1 4 S\n")
        self.assertEqual((status, text), (script.DIFFERENT, FILE.replace("one\n", "one 4S\n")))
        self.assertEqual(complaint, "correct: line 1: atom 5 of record 1 isn't set: NoCentre\n"
                                    "correct: line 2: atom 4 of record 9 isn't set: NoRecord\n")

    def test_a_letter_that_is_lost_again_is_told(self):
        self.put(self.paths[0], PROGRAM.replace("s/^a4 ./a4 $7/", "s/^a4 ./a4 S/"))
        status, _, complaint = self.corrected("1 4 R\n")
        self.assertEqual((status, complaint), (script.DIFFERENT, "correct: line 1: atom 4 of record 1 was set, and a later "
                                                                 "line undid that\n"))

    def test_other_lists_are_faults_that_name_the_line(self):
        for line in ("1 4", "1 4 Z", "0 4 R", "1 04 R", "one 4 R", "1 4 R S", "1 4 R\n1 4 S", "1 " + "4" * 5000 + " R", "1 ² R"):
            status, text, complaint = self.corrected("2 4 R\n" + line + "\n")
            with self.subTest(line[:20]):
                self.assertEqual((status, text), (script.UNUSABLE, ""))
                self.assertRegex(complaint, r"^correct: line [23] [^\n]{1,400}\n$")

    def test_words_go_to_both_commands(self):
        self.assertEqual(self.corrected("1 4 R\n", words=("--nodes", "7"))[0], script.FINE)
        with open(self.paths[0] + ".calls", encoding="utf-8") as file:
            self.assertEqual(file.read(), "annotate --nodes 7\n")

    def test_a_program_that_fails_is_a_fault(self):
        self.put(self.paths[0], "#!/bin/sh\nexit 5\n")
        status, _, complaint = self.corrected("1 4 R\n")
        self.assertEqual(status, script.UNUSABLE)
        self.assertIn("ended with status 5", complaint)

    def test_a_program_whose_output_is_closed_has_status_4(self):
        self.put(self.paths[0], "#!/bin/sh\nexit 4\n")
        self.assertEqual(self.corrected("7 4 R\n")[0], script.UNWRITTEN)
