"""The module for Python over a library that answers the same to all: what it takes, and what it raises."""
import io
import os
import pathlib
import re
import subprocess
import sys
import tempfile
import unittest

import trying

STUB = r"""
#include <cip.h>
#include <string.h>

static const char values[] = "cip 2 rule1b 2018 nodes 100000\na1 S 1a 1 order 4 3 2 5\nb2-3 E 3 1 order 1 H | 6 H\nx1-3 over\n";
static const char undefined[] =
    "a2 tie\na4 open 1a 2 order 10 2 5 H\nb6-7 open 1a 1 order 1 H | 4 H\nx1-3 dependent\n";

size_t cip_labeller_size(void) { return sizeof(cip_labeller); }
uint32_t cip_version(void) { return CIP_VERSION; }
int64_t cip_make(cip_labeller *labeller, uint32_t nodes, uint32_t year) { return labeller && nodes && year ? 0 : -2; }
int64_t cip_release(cip_labeller *labeller) { return labeller ? 0 : -2; }
static int64_t told(const char *told, size_t length, uint8_t *text, size_t room) {
    memcpy(text, told, length < room ? length : room);
    return (int64_t)length;
}
int64_t cip_annotate(cip_labeller *labeller, const uint8_t *record, size_t length, uint8_t *text, size_t room) {
    return labeller ? told((const char *)record, length, text, room) : -2;
}
int64_t cip_values(cip_labeller *labeller, const uint8_t *record, size_t length, uint8_t *text, size_t room) {
    return labeller && record ? told(values, length ? sizeof values - 1 : 0, text, room) : -2;
}
int64_t cip_undefined(cip_labeller *labeller, const uint8_t *record, size_t length, uint8_t *text, size_t room) {
    return labeller && record ? told(undefined, length ? sizeof undefined - 1 : 0, text, room) : -2;
}
int64_t cip_explain(cip_labeller *labeller, uint64_t number, const uint8_t *record, size_t length, uint8_t *text,
                    size_t room) {
    return labeller && number + 1 ? told((const char *)record, length, text, room) : -2;
}
"""
WITHOUT = """
import cip
try:
    cip.Labeller()
except cip.Error as fault:
    print(fault)
"""
RECORD = b"name\n\n\n  0  0  0  0  0  0            999 V2000\nM  END\n"
END = b"$$$$\n"


@trying.needs("gcc")
class Module(unittest.TestCase):
    @classmethod
    def setUpClass(cls):
        cls.room = tempfile.TemporaryDirectory()
        source, library = (os.path.join(cls.room.name, name) for name in ("stub.c", "libcip.so.1"))
        with open(source, "w", encoding="ascii") as file:
            file.write(STUB)
        subprocess.run(["gcc", "-shared", "-fPIC", "-I", trying.path("include"), "-o", library, source], check=True)
        os.environ["CIP_LIBRARY"] = library
        sys.path.insert(0, trying.path("python"))
        import cip

        cls.cip, cls.labeller = cip, cip.Labeller()

    @classmethod
    def tearDownClass(cls):
        cls.labeller.close()
        cls.room.cleanup()

    def test_labels_have_their_parts(self):
        labels = self.labeller.labels(RECORD)
        self.assertEqual([(label.unit, label.letter, label.atoms) for label in labels],
                         [("a1", "S", (1,)), ("b2-3", "E", (2, 3))])
        self.assertEqual(labels[1].order, (("1", "H"), ("6", "H")))
        self.assertEqual((labels.settings, labels.over), ("cip 2 rule1b 2018 nodes 100000", ("x1-3",)))

    def test_some_labels_keep_what_is_told_of_the_record(self):
        labels = self.labeller.labels(RECORD)
        self.assertEqual([label.unit for label in labels[1:]], ["b2-3"])
        self.assertEqual((labels[1:].settings, labels[1:].over), (labels.settings, labels.over))

    def test_a_notebook_shows_labels_as_a_table(self):
        told = self.labeller.labels(RECORD)._repr_html_()
        self.assertEqual(re.findall("<t[hd]>(.*?)</t[hd]>", told), [
            "unit", "letter", "rule", "sphere", "ligands", "a1", "S", "1a", "1", "4 3 2 5",
            "b2-3", "E", "3", "1", "1 H | 6 H", "x1-3", "over", "", "", ""])
        self.assertIn("<caption>cip 2 rule1b 2018 nodes 100000</caption>", told)

    def test_a_notebook_shows_a_page_in_a_frame_that_it_can_not_leave(self):
        page = self.cip.Page('<p class="one">')
        told = page._repr_html_()
        self.assertEqual(repr(page), "<cip.Page of 15 characters>")
        self.assertIn('srcdoc="&lt;p class=&quot;one&quot;&gt;" sandbox="allow-scripts allow-downloads"', told)

    def test_a_page_of_records_that_are_not_labelled_is_an_error(self):
        for given in (RECORD, [RECORD.decode()]):
            with self.subTest(given), self.assertRaisesRegex(self.cip.Error, "no item CIP_LABELS"):
                self.cip.page(given, title="--title")

    def test_what_is_no_record_makes_no_page(self):
        for given, fault, words in (([None], TypeError, "MolToMolBlock"), (__file__, self.cip.Error, "name of a file")):
            with self.subTest(given), self.assertRaisesRegex(fault, words):
                self.cip.page(given)

    def test_records_of_a_page_come_one_by_one_with_their_ends(self):
        from cip import notebook

        parts = [RECORD + END, RECORD]
        for given in (b"".join(parts), b"".join(parts).decode(), parts, iter(parts)):
            self.assertEqual(list(notebook._each(given)), parts)
        for record, closed in ((RECORD, RECORD + END), (RECORD + END, RECORD + END), (b"", b"\n$$$$\n"),
                               (b"cut", b"cut\n$$$$\n"), (b"a\r\n$$$$  \r\n",) * 2, (b"$$$$", b"$$$$\n")):
            self.assertEqual(notebook._closed(record), closed)

    def test_undefined_units_have_their_parts(self):
        tie, centre, bond, allene = self.labeller.undefined(RECORD)
        self.assertEqual((tie.kind, tie.atoms, tie.state, tie.rule, tie.sphere, tie.order),
                         ("centre", (2,), "tie", None, None, ()))
        self.assertEqual((centre.state, centre.rule, centre.sphere, centre.order),
                         ("open", "1a", 2, (("10", "2", "5", "H"),)))
        self.assertEqual((bond.kind, bond.atoms, bond.order), ("bond", (6, 7), (("1", "H"), ("4", "H"))))
        self.assertEqual((allene.kind, allene.atoms, allene.state), ("allene", (1, 3), "dependent"))

    def test_a_record_that_is_refused_has_no_undefined_units(self):
        self.assertEqual(self.cip._undefined(""), [])
        with self.assertRaisesRegex(self.cip.Refused, "line 7: BondType"):
            self.cip._undefined("refused 7 BondType\n")

    def test_a_text_longer_than_the_room_comes_whole(self):
        record = RECORD + b"x" * (1 << 17)
        self.assertEqual(self.labeller.annotate(record), record)
        self.assertEqual(self.labeller.annotate(record.decode()), record.decode())

    def test_a_text_of_several_records_is_an_error(self):
        labeller = self.labeller
        calls = labeller.annotate, labeller.labels, labeller.values, labeller.explain, labeller.undefined
        for text in (RECORD + END + RECORD, RECORD + END + RECORD + END, RECORD + b"$$$$  \r\n" + RECORD):
            for call in calls:
                with self.subTest(text=text, call=call), self.assertRaisesRegex(self.cip.Error, "several records"):
                    call(text)

    def test_one_record_is_none(self):
        for text in (RECORD, RECORD + END, RECORD + b"$$$$\r\n \r\n", RECORD + b"> <price>\n5 $$$$\n\n" + END):
            with self.subTest(text):
                self.assertEqual(self.labeller.annotate(text), text)

    def test_what_is_no_record_is_told_so(self):
        for thing in (None, 5, ["a"], object()):
            with self.subTest(thing), self.assertRaisesRegex(TypeError, "a record is str or bytes, not .*MolToMolBlock"):
                self.labeller.labels(thing)

    def test_settings_of_another_kind_are_told_so(self):
        for words in ({"nodes": "10"}, {"nodes": 1000.0}, {"rule_1b": None}):
            with self.subTest(words), self.assertRaisesRegex(TypeError, f"^{next(iter(words))}: an int, not "):
                self.cip.Labeller(**words)

    def test_settings_out_of_range_are_told_so(self):
        for words in ({"nodes": 0}, {"nodes": 1_000_001}, {"nodes": -1}, {"rule_1b": 2014}):
            with self.subTest(words), self.assertRaises(ValueError):
                self.cip.Labeller(**words)

    def test_an_item_of_another_version_is_an_error(self):
        with self.assertRaisesRegex(self.cip.Error, "another version"):
            self.cip._labels("cip 3 rule1b 2018 nodes 5\nnone\n")

    def test_the_records_of_a_file_come_one_by_one(self):
        parts = [RECORD + END, RECORD + b"$$$$  \r\n", b"cut"]
        self.assertEqual(list(self.cip.records(io.BytesIO(b"".join(parts)))), parts)
        self.assertEqual(list(self.cip.records(io.BytesIO(parts[0] + b"\n \n"))), parts[:1])
        self.assertEqual(list(self.cip.records(io.BytesIO(b""))), [])

    def test_the_records_of_a_path_are_those_of_its_file(self):
        path = os.path.join(self.room.name, "mine.sdf")
        with open(path, "wb") as file:
            file.write(RECORD + END + b"cut")
        for given in (path, pathlib.Path(path)):
            self.assertEqual(list(self.cip.records(given)), [RECORD + END, b"cut"])
        with self.assertRaisesRegex(self.cip.Error, "name of a file: cip.records"):
            self.labeller.labels(path)
        with self.assertRaises(OSError):
            list(self.cip.records(path + "-2"))

    def test_a_file_that_is_open_for_text_is_told_so(self):
        with self.assertRaisesRegex(TypeError, "rb"):
            list(self.cip.records(io.StringIO("a\n$$$$\n")))

    def test_the_library_tells_its_version(self):
        self.assertEqual(self.cip.library_version(), self.cip.__version__)


class Alone(unittest.TestCase):
    def without(self, **environment):
        environment = {**os.environ, "PYTHONPATH": trying.path("python"), **environment}
        done = trying.ran(sys.executable, "-c", WITHOUT, cwd="/", env=environment)
        self.assertEqual((done.returncode, done.stderr), (0, b""))
        return done.stdout.decode()

    def test_without_the_library_it_says_what_to_do(self):
        told = self.without(CIP_LIBRARY="/no/such/file")
        self.assertRegex(told, "tools/build library.*tools/install.*CIP_LIBRARY")

    def test_another_library_is_told_so(self):
        self.assertIn("libcip", self.without(CIP_LIBRARY="libc.so.6"))
