"""tools/table: rows of labels, of refused records and of units over the bound, and letters beside another program's."""
import contextlib
import csv
import io
import json
import os
import sqlite3
import tempfile
import unittest

import letters
import trying

MOLFILE = "{name}\n\n\n  0  0  0  0  0  0            999 V2000\nM  END\n"
ITEM = "> <CIP_LABELS>\ncip 2 rule1b 2018 nodes 100000\n{lines}\n\n"
ONE = "a4 S 1a 2 order 10 2 5 H"
BOTH = "a4 S 1a 2 order 10 2 5 H\nb2-3 E 1a 1 order 1 H | 6 H"


def record(lines, name="one", **items):
    others = "".join(f"> <{item}>\n{value}\n\n" for item, value in items.items())
    return MOLFILE.format(name=name) + others + ITEM.format(lines=lines) + "$$$$\n"


def table(text, *words):
    return trying.script_ran("tools/table", *words, given=text.encode())


def rows(text, *words):
    """The rows of a table as JSON tells them, and the status."""
    made = table(text, "--json", *words)
    return [json.loads(line) for line in made.stdout.splitlines()], made.returncode


class Rows(unittest.TestCase):
    def test_a_row_stands_for_each_label_each_refusal_and_each_unit_over_the_bound(self):
        made, status = rows(record(BOTH, CAS="7") + record("none") + record("a1 R 4b 3 order 2 3 4 5", name="three")
                            + record("refused 12 BondType") + record("a3 over"), "--field", "CAS")
        self.assertEqual([(row["record"], row["name"], row["unit"]) for row in made],
                         [(1, "one", "a4"), (1, "one", "b2-3"), (3, "three", "a1"), (4, "one", None), (5, "one", "a3")])
        self.assertEqual(made[0]["ligands"], [["10", "2", "5", "H"]])
        self.assertEqual([made[1][column] for column in ("kind", "letter", "rule", "sphere", "cause")],
                         ["double bond", "E", "1a", 1, None])
        self.assertEqual([(row["cause"], row["line"]) for row in made[3:]], [("BondType", 12), ("over", None)])
        self.assertEqual([row["CAS"] for row in made], ["7", "7", None, None, None])
        self.assertEqual(status, 0)

    def test_a_tab_in_a_name_divides_no_row(self):
        lines = table(record(BOTH, name="a\tb")).stdout.decode().splitlines()
        self.assertEqual(lines[0].split("\t")[:3], ["record", "name", "unit"])
        self.assertEqual(lines[2].split("\t"), ["1", "a b", "b2-3", "double bond", "E", "1a", "1", "1 H | 6 H", "", ""])

    def test_csv_keeps_quotes_commas_and_lines(self):
        text = record(BOTH, name='a "b", c', CAS="1\n2")
        made = list(csv.DictReader(io.StringIO(table(text, "--csv", "--field", "CAS").stdout.decode(), newline="")))
        self.assertEqual([(row["name"], row["CAS"]) for row in made], [('a "b", c', "1\n2")] * 2)

    def test_csv_has_a_row_for_each_label_whatever_a_name_holds(self):
        names = ["a\rb", "a\vb", "a\x85b", "a\u2028b", '"', "a\0b", " a", "=1", "a\fb\x1c"]
        text = table("".join(record(ONE, name=name) for name in names), "--csv").stdout.decode()
        for newline in ("", None):
            made = list(csv.reader(io.StringIO(text, newline=newline)))
            self.assertEqual({len(row) for row in made}, {10})
            self.assertEqual([row[0] for row in made[1:]], [str(number + 1) for number in range(len(names))])
        self.assertEqual([row[1] for row in csv.reader(io.StringIO(text, newline=""))][1:],
                         [name.replace("\0", " ") for name in names])

    @trying.needs("sqlite3")
    def test_sqlite_reads_csv_as_the_same_rows(self):
        names = ["a\rb", "a\nb", '"', "a\0b", "a,b", "'"]
        with tempfile.TemporaryDirectory() as folder:
            path = os.path.join(folder, "labels.csv")
            with open(path, "wb") as file:
                file.write(table("".join(record(ONE, CAS=name) for name in names), "--csv", "--field", "CAS").stdout)
            done = trying.ran("sqlite3", ":memory:", f".import --csv '{path}' labels",
                              "SELECT count(*), count(DISTINCT CAS), min(letter), max(line) FROM labels")
        self.assertEqual((done.stdout, done.stderr), (b"6|6|S|\n", b""))

    def test_all_jobs_make_the_same_table(self):
        text = "".join(record(BOTH, name=str(number), CAS="x" * 999) for number in range(3000))
        for words in (("--csv",), ("--json", "--field", "CAS")):
            one, many = table(text, *words), table(text, "--jobs", "3", *words)
            self.assertEqual((one.returncode, one.stdout, one.stderr), (many.returncode, many.stdout, many.stderr))
        self.assertEqual(one.stderr, b"table: records 3000, labels 6000, refused 0, over 0\n")
        one, many = (table(text + MOLFILE + "$$$$\n", "--jobs", jobs) for jobs in ("1", "3"))
        self.assertEqual((one.returncode, one.stdout, one.stderr), (many.returncode, many.stdout, many.stderr))
        self.assertIn(b"record 3001 has no item", one.stderr)

    def test_a_record_without_the_item_is_named(self):
        made = table(record(BOTH) + MOLFILE.format(name="two") + "$$$$\n")
        self.assertEqual(made.returncode, 3)
        self.assertIn(b"record 2", made.stderr)

    def test_a_field_of_the_name_of_a_column_is_refused(self):
        self.assertEqual(table(record(BOTH), "--field", "letter").returncode, 2)

    def test_a_field_that_no_record_has_is_a_fault(self):
        self.assertEqual(table(record(BOTH, CAS="7") + record(BOTH), "--field", "CAS").returncode, 0)
        made = table(record(BOTH, CAS="7"), "--field", "CSA")
        self.assertEqual(made.returncode, 3)
        self.assertIn(b"no record has an item CSA", made.stderr)


class Database(unittest.TestCase):
    """Tables in a database of SQLite."""

    def setUp(self):
        room = tempfile.TemporaryDirectory()
        self.addCleanup(room.cleanup)
        self.path = os.path.join(room.name, "labels.db")

    def told(self, statement):
        with contextlib.closing(sqlite3.connect(self.path)) as connection:
            return connection.execute(statement).fetchall()

    def test_numbers_are_numbers_and_names_are_text(self):
        text = "".join(record(ONE, name=f"{number:07}", CAS="7") for number in range(1, 30)) + record("none")
        made = table(text, "--sqlite", self.path, "--field", "CAS", "--jobs", "2")
        self.assertEqual((made.returncode, made.stdout), (0, b""))
        self.assertEqual(self.told("SELECT record, name, sphere, ligands, CAS FROM labels WHERE record BETWEEN 9 AND 20"),
                         [(number, f"{number:07}", 2, "10 2 5 H", "7") for number in range(9, 21)])
        self.assertEqual(self.told("SELECT count(*), max(record) FROM records"), [(30, 30)])
        table(record(ONE), "--sqlite", self.path)
        self.assertEqual(self.told("SELECT count(*) FROM labels"), [(1,)])

    def test_a_fault_leaves_a_database_as_it_was(self):
        table(record(ONE), "--sqlite", self.path)
        for text, words in ((record(ONE) + MOLFILE + "$$$$\n", ()), (record(ONE), ("--compare", "NOPE"))):
            self.assertEqual(table(text, "--sqlite", self.path, *words).returncode, 3)
            self.assertEqual(self.told("SELECT name FROM labels"), [("one",)])
        other = self.path + "-2"
        self.assertEqual(table(MOLFILE + "$$$$\n", "--sqlite", other).returncode, 3)
        self.assertFalse(os.path.exists(other))

    def test_another_file_is_no_database(self):
        with open(self.path, "wb") as file:
            file.write(b"a letter to somebody" * 100)
        made = table(record(ONE), "--sqlite", self.path)
        self.assertEqual((made.returncode, os.path.getsize(self.path)), (3, 2000))


# labels, another program's item, and what a comparison finds of each unit
COMPARED = (
    (BOTH, "4R 2-3E", [("a4", "R", "different"), ("b2-3", "E", "same")]),
    (ONE, "7R", [("a4", "", "cip alone"), ("a7", "R", "item alone")]),
    (ONE, "7-8E", [("a4", "", "cip alone"), ("b7-8", "E", "item alone")]),
    (ONE, "racemic", [("a4", None, None), (None, "racemic", "unread")]),
    ("a4 over", "4:S", [("a4", "S", "item alone")]),
)
# the same where nothing differs: double bonds wait for an item that names one
SAME = (
    (BOTH, "4:S, 2-3:E", [("a4", "S", "same"), ("b2-3", "E", "same")]),
    (BOTH, "4S", [("a4", "S", "same"), ("b2-3", None, None)]),
    (BOTH, None, [("a4", None, None), ("b2-3", None, None)]),
    ("refused 12 BondType", "4S", [(None, None, None)]),
)


class Compared(unittest.TestCase):
    def is_found(self, cases, wanted):
        text = "".join(record(lines, **({"old": value} if value else {})) for lines, value, _ in cases)
        made, status = rows(text, "--compare", "old")
        self.assertEqual(status, wanted)
        for number, (_, value, units) in enumerate(cases, 1):
            found = [(row["unit"], row["other"], row["compared"]) for row in made if row["record"] == number]
            self.assertEqual(found, units, value)

    def test_differences_have_status_1(self):
        self.is_found(COMPARED, 1)

    def test_the_same_letters_have_status_0(self):
        self.is_found(SAME, 0)

    def test_a_comparison_of_nothing_is_a_fault(self):
        for text in (record(BOTH, old="4R"), record(BOTH), record("refused 12 BondType", odl="4R"), ""):
            made = table(text, "--compare", "odl")
            self.assertEqual(made.returncode, 3, text)
            self.assertIn(b"nothing is compared", made.stderr)

    def test_records_without_the_item_are_counted(self):
        made = table(record(ONE, old="4S") + record(ONE) + record("refused 12 BondType"), "--compare", "old")
        self.assertEqual(made.returncode, 0)
        self.assertEqual(made.stderr.decode().splitlines(), [
            "table: records 3, labels 2, refused 1, over 0",
            "table: same 1, different 0, cip alone 0, item alone 0, unread 0, records without the item 2"])


class Letters(unittest.TestCase):
    def test_pairs_are_read_in_either_order(self):
        values = ("2:R 5:S", "2R,5S", "(2R,5S)", "R2 S5", "2(R), 5(S)", "C2:R C5:S", "2:R\n5:S", "2:R, 5:S (ChemDraw)")
        for value in values:
            self.assertEqual(letters.letters_of("old", value), {(2,): "R", (5,): "S"}, value)

    def test_lists_of_rdkit_count_from_0(self):
        self.assertEqual(letters.letters_of("old", "[(1, 'R'), (3, '?'), (4, 'S')]"), {(2,): "R", (5,): "S"})

    def test_a_list_has_a_word_for_each_atom(self):
        for value in ("n/a R n/a n/a S", "[-] - R - - S"):
            self.assertEqual(letters.letters_of("atom.prop._CIPCode", value), {(2,): "R", (5,): "S"}, value)

    def test_pairs_of_atoms_are_bonds(self):
        self.assertEqual(letters.letters_of("old", "3-2:E 4=5z"), {(2, 3): "E", (4, 5): "seqCis"})

    def test_anything_else_is_unread(self):
        for value in ("racemic", "3aS", "2R,2S", "2", "R S", "R2,5S"):
            with self.assertRaises(letters.Unread, msg=value):
                letters.letters_of("old", value)

    def test_numbers_of_thousands_of_digits_are_unread(self):
        for value in ("9" * 5000 + "R", f"[({'9' * 5000}, 'R')]", "\u0662:R"):
            with self.assertRaises(letters.Unread):
                letters.letters_of("old", value)
