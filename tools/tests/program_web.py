"""The page that labels in a browser beside the program: the same bytes, and records as tools/page writes them."""
import hashlib
import json
import os
import re
import subprocess
import tempfile
import unittest

import narrowing
import test_web
import trying
import web_page

RECORDS = re.compile(r'<script type="application/json" id="records">(.*?)</script>', re.DOTALL)
MADE = 4000
COMMANDS = ("annotate", "explain", "axes", "groups", "mirror")
# words for some files, and words that are refused
FURTHER = ("annotate --nodes 1", "annotate --nodes 30 --rule1b 2013", "explain --nodes 1000000", "annotate --workers 4",
           "set --record 1 --atom 2 --letter R")
REFUSED = ("annotate --nodes", "annotate \u00e9", "", "help")
LONGEST = 16 << 20
# 64 MiB
FEW_PAGES = 1024


def needs_page():
    """Passes a test over where no page has been built of these sources."""
    line = 'top=$1; . "$top/tools/proved.sh"; ! is_old "$web" && ! is_old "$program"'
    return unittest.skipIf(trying.ran("sh", "-c", line, "sh", trying.TOP).returncode,
                           "no page has been built of these sources (tools/build web)")


def page():
    return trying.text_of("crates", "cip", "out", "cip.html")


def with_pages(module, count):
    """The module with a memory that grows to no more than a number of pages."""
    found = bytearray(narrowing.MAGIC)
    for kind, body in narrowing.sections(module):
        if kind == narrowing.MEMORIES:
            least, _ = narrowing.limits(narrowing.Reader(body, 1))
            body = narrowing.unsigned(1) + narrowing.as_limits(least, count)
        found += bytes([kind]) + narrowing.unsigned(len(body)) + body
    return bytes(found)


class Node:
    """The module of the page, run by Node."""

    def __init__(self, path):
        self.child = subprocess.Popen(["node", trying.path("tools", "tests", "web.mjs"), "runs", path],
                                      stdin=subprocess.PIPE, stdout=subprocess.PIPE)

    def ran(self, path, words):
        """The status of a run, and both of its outputs."""
        self.child.stdin.write("\t".join([path, *words]).encode() + b"\n")
        self.child.stdin.flush()
        status, out, errors = map(int, self.child.stdout.readline().split())
        return status, self.child.stdout.read(out), self.child.stdout.read(errors)

    def close(self):
        self.child.stdin.close()
        self.child.wait()
        self.child.stdout.close()


def native(path, words):
    with open(path, "rb") as file:
        done = subprocess.run([trying.program(), *words], stdin=file, capture_output=True, check=False)
    return done.returncode, done.stdout, done.stderr


@trying.needs("node", "nodejs")
@needs_page()
class Module(unittest.TestCase):
    @classmethod
    def setUpClass(cls):
        room = tempfile.TemporaryDirectory()
        cls.addClassCleanup(room.cleanup)
        cls.folder = room.name
        cls.module = cls.kept("cip.wasm", web_page.module_of(page()))
        cls.examples = [trying.path(name) for name in trying.in_folder("examples", ".sdf")]
        cls.node = Node(cls.module)
        cls.addClassCleanup(cls.node.close)

    @classmethod
    def kept(cls, name, text):
        path = os.path.join(cls.folder, name)
        with open(path, "wb") as file:
            file.write(text)
        return path

    def are_same(self, path, *lines):
        for line in lines:
            with self.subTest(path=os.path.basename(path), words=line):
                found, wanted = self.node.ran(path, line.split()), native(path, line.split())
                self.assertEqual(found[::2], wanted[::2])
                self.assertTrue(found[1] == wanted[1], "other bytes")

    def test_the_worked_cases_and_examples(self):
        worked = [trying.path(name) for name in trying.in_folder("crates/gate_cases/data", ".sdf")]
        for path in (*worked, *self.examples):
            self.are_same(path, *COMMANDS)

    def test_settings_changes_and_refused_words(self):
        for path in self.examples:
            self.are_same(path, *FURTHER)
        self.are_same(self.examples[0], *REFUSED)

    def test_broken_records(self):
        self.are_same(self.kept("broken.sdf", test_web.broken_records()), *COMMANDS[:4])

    def test_made_records(self):
        made = trying.ran(trying.program(), "make", "--start", "1", "--records", str(MADE)).stdout
        self.are_same(self.kept("made.sdf", made), "annotate", "explain", "mirror")

    def test_records_that_are_too_long(self):
        for name, count in (("at-the-limit", LONGEST), ("over-the-limit", LONGEST + 1)):
            self.are_same(self.kept(name, b"\n" * (count - 5) + b"$$$$\n"), "annotate")

    def test_a_record_that_uses_up_the_memory_is_named_and_all_else_is_labelled(self):
        short, large = trying.bytes_of("examples", "alanine.sdf"), b"\n" * (4 << 20) + b"$$$$\n"
        with open(self.module, "rb") as file:
            path = self.kept("small.wasm", with_pages(file.read(), FEW_PAGES))
        found, = test_web.told_by_node("labelled", path, self.kept("large.sdf", 2 * short + large + short))
        self.assertEqual([fault["number"] for fault in found["faults"]], [3])
        self.assertIn("memory", found["faults"][0]["fault"])
        labelled = trying.annotated(short)
        self.assertEqual(found["sum"], hashlib.sha256(2 * labelled + large + labelled).hexdigest())
        self.assertEqual((found["count"], found["unlabelled"]), (4, 1))

    def test_entries_are_those_of_tools_page(self):
        for path in (*self.examples, self.kept("broken.sdf", test_web.broken_records())):
            with self.subTest(os.path.basename(path)):
                found = test_web.told_by_node("entries", self.module, path)
                self.assertEqual(len(found), len(self.wanted(path)))
                for number, (one, other) in enumerate(zip(found, self.wanted(path)), 1):
                    drawings = [{"drawing": {"a": entry.pop("a", []), **entry}} for entry in (one, other)]
                    self.assertTrue(test_web.are_near(*drawings), f"record {number}: {one} and {other}")

    def wanted(self, path):
        """The records of a file as tools/page writes them, but for undefined units."""
        with open(path, "rb") as file:
            made = trying.script_ran("tools/page", "--program", trying.program(), given=file.read())
        self.assertEqual(made.returncode, 0, made.stderr.decode())
        records = json.loads(RECORDS.search(made.stdout.decode())[1])
        return [{key: value for key, value in record.items() if key != "u"} for record in records]


class Kept(unittest.TestCase):
    """The page of the last version, which the repository has."""

    def test_it_is_what_its_sources_give(self):
        if not os.path.exists(trying.path("page", "made-of")):
            self.skipTest("the repository has no page yet (tools/build page)")
        version, sources, of_web, of_page = trying.text_of("page", "made-of").split()
        kept = trying.text_of("page", "cip.html")
        self.assertEqual(hashlib.sha256(kept.encode()).hexdigest(), of_page)
        self.assertIn(f"<h1>cip {version}</h1>", kept)
        line = 'top=$1; . "$top/tools/proved.sh"; sources; web_sources'
        now = trying.ran("sh", "-c", line, "sh", trying.TOP).stdout.decode().split()
        # of other sources it's the page of the version that it names
        if [sources, of_web] == now:
            self.is_the_built_one(kept)

    @needs_page()
    def is_the_built_one(self, kept):
        self.assertTrue(web_page.module_of(kept) == web_page.module_of(page()), "another module")
        self.assertTrue(web_page.without_module(kept) == web_page.without_module(page()), "another page")
