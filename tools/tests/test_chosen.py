"""Pages of chosen records, and another program's letters beside the labels."""
import json
import os
import tempfile
import unittest

import chosen
import script
import trying
from test_page import RECORDS
from test_table import BOTH, ITEM, ONE, record
from test_view import STAR

REASONS = trying.path("tools", "tests", "reasons.mjs")
# records with another program's letters, and the units in which these aren't the same
GIVEN = (record(BOTH, old="4R 2-3E"), record(ONE, old="4S"), record(ONE, old="7R"), record(ONE, old="racemic"),
         record("refused 4 Short"), record("a4 over"))
DIFFERENCES = {1: [["a4", "R", "different"]], 3: [["a4", "", "cip alone"], ["a7", "R", "item alone"]],
               4: [["", "racemic", "unread"]]}
UNDEFINED = "record 1\na2 tie\nrecord 2\na2 dependent\nrecord 3\nrecord 4\na2 open 1a 2 order 3 4 1 H\nrecord 5\nrecord 6\n"


class Pages(unittest.TestCase):
    def setUp(self):
        room = tempfile.TemporaryDirectory()
        self.addCleanup(room.cleanup)
        self.room = room.name

    def put(self, name, text):
        path = os.path.join(self.room, name)
        with open(path, "wb") as file:
            file.write(text)
        return path

    def table(self, *words, given=GIVEN):
        made = trying.script_ran("tools/table", *words, "--compare", "old", given="".join(given).encode())
        self.assertEqual(made.returncode, script.DIFFERENT)
        return self.put("table", made.stdout)

    def page(self, *words, given=GIVEN, status=script.FINE):
        done = trying.script_ran("tools/page", *words, given="".join(given).encode())
        self.assertEqual(done.returncode, status, done.stderr.decode())
        return done

    def records(self, *words):
        return json.loads(RECORDS.search(self.page(*words).stdout)[1])

    def test_differences_are_those_of_a_table_in_each_form(self):
        for form in ((), ("--csv",), ("--json",)):
            found = self.records("--compare", self.table(*form))
            self.assertEqual({number: told["c"] for number, told in enumerate(found, 1) if "c" in told}, DIFFERENCES)

    def test_records_of_a_kind_keep_their_numbers(self):
        table, undefined = self.table(), self.put("undefined", UNDEFINED.encode())
        cases = {("refused",): [5, 6], ("different",): [1, 3, 4], ("undefined",): [2, 4], ("refused", "undefined"): [2, 4, 5, 6]}
        for kinds, wanted in cases.items():
            words = [word for kind in kinds for word in ("--only", kind)]
            found = self.records("--compare", table, "--undefined", undefined, *words)
            self.assertEqual([told["r"] for told in found], wanted)

    def test_a_page_of_no_record_is_written_too(self):
        done = self.page("--only", "refused", given=GIVEN[:2])
        self.assertEqual(json.loads(RECORDS.search(done.stdout)[1]), [])

    def test_a_page_that_browsers_open_slowly_is_told(self):
        given = [record("refused 4 Short")] + [record("none")] * 20_000
        self.assertIn(b"page: a page of 20001 records, ", self.page(given=given).stderr)
        self.assertEqual(self.page("--only", "refused", given=given).stderr, b"")

    def test_a_kind_of_which_nothing_is_known_is_refused(self):
        for words in (("--only", "different"), ("--only", "undefined"), ("--only", "wrong")):
            self.page(*words, status=script.WORDS)

    def test_other_tables_are_faults(self):
        for text in (b"", b"record\tunit\n1\ta4\n", b"{}\n", b"[" * 5000, b"{" + b'"a":[' * 50_000, b"\xff\0\t",
                     b'{"record": 1, "unit": "q2", "other": "R", "compared": "different"}\n',
                     b"record,unit,other,compared\n\xc2\xb2,a4,R,different\n",
                     b"record\tunit\tother\tcompared\n99\ta4\tR\tdifferent\n"):
            path = self.put("table", text)
            if text:
                self.page("--compare", path, status=script.UNUSABLE)
            else:
                self.assertEqual(chosen.differences_in(path), {})

    @trying.needs("node", "nodejs")
    def test_units_of_another_program_are_on_the_card(self):
        items = ("a1 S 1a 1 order 4 3 2 5", "1R"), ("none", "1S, 3R"), ("none", "1-9E")
        given = [f"{STAR.decode()}> <old>\n{value}\n\n{ITEM.format(lines=lines)}$$$$\n" for lines, value in items]
        path = self.put("page.html", self.page("--compare", self.table(given=given), given=given).stdout)
        done = trying.ran("node", REASONS, path)
        self.assertEqual(done.stderr, b"")
        found = [json.loads(line) for line in done.stdout.splitlines()]
        self.assertEqual([one["compared"] for one in found], [[["a1", "R"]], [["a1", "S"], ["a3", "R"]], []])
        self.assertEqual([[unit for unit, *_ in one["drawn"]] for one in found], [[], ["a1", "a3"], []])
        self.assertEqual([one["unread"] for one in found], [[], [], ["b1-9"]])
