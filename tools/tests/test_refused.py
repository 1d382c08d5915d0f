"""tools/refused and tools/unmirrored: what they tell of stored items, and the causes in words."""
import os
import re
import tempfile
import unittest

import causes
import script
import trying

MOLECULE = b"%s\n\n\n  1  0  0  0  0  0            999 %s\n    0.0000    0.0000%10.4f C   0  0\nM  END\n"
ITEM = b"> <CIP_LABELS>\ncip 2 rule1b 2018 nodes 100000\n%s\n\n"
END = b"$$$$\n"


def record(name, lines=b"none", version=b"V2000", height=0.0):
    return MOLECULE % (name, version, height) + ITEM % lines + END


def told(*records, words=()):
    done = trying.script_ran("tools/refused", *words, given=b"".join(records))
    return done.returncode, done.stdout.decode(), done.stderr.decode()


class Refused(unittest.TestCase):
    def test_nothing_is_told_where_all_is_labelled_but_the_counts(self):
        counts = "refused: records 2, labels 1, refused 0, over 0\n"
        self.assertEqual(told(record(b"one"), record(b"two", b"a1 S 1a 1 order 4 3 2 5")), (script.FINE, "", counts))

    def test_a_refused_record_is_told_with_its_cause_in_words(self):
        status, text, _ = told(record(b"one"), record(b"ferrocene", b"refused 31 Degree"))
        wanted = "record 2, ferrocene: refused at its line 31: an atom has more than eight bonds (Degree)\n"
        self.assertEqual((status, text), (script.DIFFERENT, wanted))

    def test_each_unit_over_the_bound_is_told(self):
        _, text, counts = told(record(b" ", b"a1 over\na4 S 1a 1 order 4 3 2 5\nb2-3 over"))
        wanted = "record 1: no label for {}: its digraph has more than 100000 nodes (over)\n"
        self.assertEqual(text, wanted.format("a1") + wanted.format("b2-3"))
        self.assertEqual(counts, "refused: records 1, labels 1, refused 0, over 2\n")

    def test_a_record_without_a_line_has_no_name(self):
        _, text, _ = told(ITEM % b"refused 1 Short" + END, b"> <other>\n1\n\n" + ITEM % b"refused 4 Short" + END)
        self.assertEqual(re.findall(r"^record (.*): refused", text, re.MULTILINE), ["1", "2, > <other>"])

    def test_a_packed_file_is_named_as_one(self):
        for begin, unpacker in ((b"\x1f\x8b\x08", "zcat"), (b"\xfd7zXZ\0", "xzcat")):
            status, text, complaint = told(begin + ITEM % b"refused 4 Version" + END)
            self.assertEqual((status, text), (script.UNUSABLE, ""))
            self.assertIn(f": {unpacker} FILE | cip annotate\n", complaint)

    def test_all_jobs_tell_the_same(self):
        many = [record(b"%d" % number, b"refused 31 Degree" if number % 7 else b"a1 over") for number in range(9000)]
        for more in ((), (MOLECULE % (b"two", b"V2000", 0) + END,)):
            one, other = (told(*many, *more, words=("--jobs", jobs)) for jobs in ("1", "3"))
            self.assertEqual(one, other)
            self.assertEqual(one[1].count("\n"), 9000)

    def test_a_record_without_the_item_is_a_fault(self):
        status, text, complaint = told(record(b"one"), MOLECULE % (b"two", b"V2000", 0) + END)
        self.assertEqual((status, text), (script.UNUSABLE, ""))
        self.assertIn("record 2 has no item CIP_LABELS", complaint)


class Unmirrored(unittest.TestCase):
    def compared(self, given, mirrored):
        with tempfile.TemporaryDirectory() as folder:
            paths = [os.path.join(folder, name) for name in ("given.sdf", "mirrored.sdf")]
            for path, text in zip(paths, (given, mirrored)):
                with open(path, "wb") as file:
                    file.write(text)
            done = trying.script_ran("tools/unmirrored", *paths)
            return done.returncode, done.stdout.decode(), done.stderr.decode()

    def test_each_record_that_was_left_is_told_with_its_reason(self):
        given = [record(b"plain"), record(b"new", version=b"V3000"), record(b"high", height=12345.6789),
                 record(b"deep", height=-9999.9999), record(b"highest", height=9999.9999)]
        mirrored = [*given, record(b"cut", b"refused 3 Short")]
        status, text, _ = self.compared(b"".join([*given, record(b"cut")]), b"".join(mirrored))
        self.assertEqual(status, script.DIFFERENT)
        self.assertEqual(re.findall(r"^record (\d+), (\w+): not mirrored: ", text, re.MULTILINE),
                         [("2", "new"), ("3", "high"), ("6", "cut")])

    def test_nothing_is_told_where_all_are_mirrored(self):
        self.assertEqual(self.compared(record(b"one"), record(b"one")), (script.FINE, "", ""))

    def test_records_without_a_line_are_told_too(self):
        given, mirrored = record(b"one") + END + END, record(b"one") + 2 * (ITEM % b"refused 1 Short" + END)
        status, text, _ = self.compared(given, mirrored)
        self.assertEqual((status, re.findall(r"^record (\d+)", text, re.MULTILINE)), (script.DIFFERENT, ["2", "3"]))

    def test_files_of_other_records_are_a_fault(self):
        for other in (record(b"two"), record(b"one") + record(b"two")):
            with self.subTest(other):
                status, _, complaint = self.compared(record(b"one"), other)
                self.assertEqual(status, script.UNUSABLE)
                self.assertIn("of MIRRORED isn't", complaint)


class Causes(unittest.TestCase):
    def test_each_cause_of_the_code_has_its_words(self):
        code = trying.text_of("crates", "cip_mol", "src", "labels", "refusal.rt")
        variants = re.search(r"pub enum ReadCause \{(.*?)\n\}", code, re.DOTALL)[1]
        self.assertEqual(sorted(re.findall(r"^    (\w+),", variants, re.MULTILINE)), sorted(causes.CAUSES))

    def test_each_stands_in_the_handbook(self):
        part = trying.text_of("docs", "USE.md").split("## Records that are refused")[1].split("\n## ")[0]
        rows = re.findall(r"^\| (`\w+`(?:, `\w+`)*) \|", part, re.MULTILINE)
        self.assertEqual(sorted(name for row in rows for name in re.findall(r"`(\w+)`", row)), sorted(causes.CAUSES))
