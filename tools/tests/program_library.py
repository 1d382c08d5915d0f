"""The library beside the program, record by record, where one stands that was proved from these sources."""
import io
import json
import os
import re
import sys
import unittest

import sdf
import trying

COMPOUNDS = trying.path("examples", "compounds.sdf")
LAST = 5


@trying.needs_library()
@trying.needs("cc", "gcc")
class Library(unittest.TestCase):
    @classmethod
    def setUpClass(cls):
        cls.prefix = trying.installed_for(cls)
        sys.path.insert(0, trying.path("python"))
        with open(COMPOUNDS, "rb") as file:
            cls.records = list(sdf.records(file))

    def test_the_module_for_python_gives_the_program_s_records_and_texts(self):
        import cip

        written = b"".join(cip.Labeller().annotate(record) for record in self.records)
        self.assertEqual(written, trying.annotated(trying.bytes_of("examples", "compounds.sdf")))
        labeller = cip.Labeller(nodes=20, rule_1b=2013)
        told = "".join(labeller.explain(record, number) for number, record in enumerate(self.records, 1))
        words = ("explain", "--nodes", "20", "--rule1b", "2013")
        given = trying.bytes_of("examples", "compounds.sdf")
        self.assertEqual(told.encode(), trying.ran(trying.program(), *words, given=given).stdout)

    def test_a_page_has_what_the_program_says_of_each_record(self):
        import cip

        text = cip.page(self.records, title="<Compounds>")
        self.assertIn("<title>&lt;Compounds&gt;</title>", text)
        told = json.loads(re.search(r'id="records">(.*?)</script>', text, re.DOTALL)[1])
        labelled = trying.annotated(trying.bytes_of("examples", "compounds.sdf"))
        answers = [sdf.answer(record) for record in sdf.records(io.BytesIO(labelled))]
        self.assertEqual([[label[:2] for label in one["l"]] for one in told],
                         [[[label.unit, label.letter] for label in answer.labels] for answer in answers])
        menthol = next(one for one in told if one["n"] == "menthol")
        self.assertIn(["a2", "NoMark"], menthol["e"])
        self.assertIn(["a2", "tie"], menthol["u"])
        self.assertEqual(cip.page(self.records[0]), cip.page(self.records[:1]))

    def test_its_version_is_that_of_all(self):
        import cip

        version = trying.text_of("VERSION").strip()
        self.assertEqual([cip.library_version(), cip.__version__], [version] * 2)
        with open(os.path.join(self.prefix, "lib", "pkgconfig", "cip.pc"), encoding="utf-8") as file:
            self.assertIn(f"\nVersion: {version}\n", file.read())

    def test_the_example_in_c_gives_the_program_s_records(self):
        made, lib = os.path.join(self.prefix, "label"), os.path.join(self.prefix, "lib")
        command = ["cc", "-o", made, trying.path("examples", "label.c"), "-I", os.path.join(self.prefix, "include"),
                   "-L", lib, "-lcip", f"-Wl,-rpath,{lib}"]
        done = trying.ran(*command)
        self.assertEqual(done.returncode, 0, done.stderr.decode())
        for record in self.records[-LAST:]:
            self.assertEqual(trying.ran(made, given=record).stdout, trying.annotated(record))

    def test_its_answers_to_worked_calls_and_to_a_want_of_memory(self):
        made = os.path.join(self.prefix, "inside")
        command = ["cc", "-std=c11", "-o", made, trying.path("tools", "inside.c"),
                   "-I", os.path.join(self.prefix, "include"), os.path.join(self.prefix, "lib", "libcip.a"),
                   "-Wl,--wrap=malloc,--wrap=realloc"]
        done = trying.ran(*command)
        self.assertEqual(done.returncode, 0, done.stderr.decode())
        # the status is the number of the first try that went wrong
        for tries in ("conditions", "memory"):
            self.assertEqual(trying.ran(made, tries).returncode, 0, tries)
