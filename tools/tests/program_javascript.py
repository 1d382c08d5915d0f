"""The module for JavaScript beside the module for Python, record by record."""
import json
import os
import tempfile
import unittest

import narrowing
import script
import sdf
import test_web
import trying

MADE = 1000
WASM = trying.path("crates", "cip_c", "out", "libcip.wasm")


def needs_module():
    """Passes a test over where no module has been built of these sources."""
    line = 'top=$1; . "$top/tools/proved.sh"; ! is_old "$module"'
    return unittest.skipIf(trying.ran("sh", "-c", line, "sh", trying.TOP).returncode,
                           "no module has been built of these sources (tools/build module)")


def by_node(path):
    done = trying.ran("node", trying.path("tools", "tests", "javascript.mjs"), WASM, path)
    assert done.returncode == 0, done.stderr.decode()
    return [json.loads(line) for line in done.stdout.splitlines()]


def as_object(unit):
    """A label or an undefined unit as JavaScript has it."""
    found = {name: getattr(unit, name) for name in ("unit", "atoms", "letter", "state", "rule", "sphere", "order")
             if getattr(unit, name, None)}
    return json.loads(json.dumps(found))


def by_python(labeller, refusal, record):
    try:
        labels = labeller.labels(record)
        said = {"labels": [as_object(label) for label in labels], "over": list(labels.over),
                "undefined": [as_object(unit) for unit in labeller.undefined(record)]}
    except refusal as refused:
        said = {"refused": [refused.line, refused.cause]}
    return {**said, "text": labeller.annotate(record).decode("latin-1"),
            "explain": labeller.explain(record).splitlines()[1:]}


@trying.needs("node", "nodejs")
@trying.needs("gcc")
@trying.needs_library()
@needs_module()
class JavaScript(unittest.TestCase):
    @classmethod
    def setUpClass(cls):
        trying.installed_for(cls)
        cls.cip = script.module()

    def is_alike(self, path):
        found = by_node(path)
        with open(path, "rb") as file, self.cip.Labeller() as labeller:
            wanted = [by_python(labeller, self.cip.Refused, record) for record in sdf.records(file)]
        self.assertEqual(len(found), len(wanted))
        for number, (one, other) in enumerate(zip(found, wanted), 1):
            self.assertEqual(one, other, f"record {number}")

    def is_alike_of(self, text):
        with tempfile.NamedTemporaryFile() as file:
            file.write(text)
            file.flush()
            self.is_alike(file.name)

    def test_the_examples(self):
        for name in trying.in_folder("examples", ".sdf"):
            with self.subTest(os.path.basename(name)):
                self.is_alike(trying.path(name))

    def test_made_and_broken_records(self):
        self.is_alike_of(trying.ran(trying.program(), "make", "--start", "1", "--records", str(MADE)).stdout)
        self.is_alike_of(test_web.broken_records())

    def test_the_module_asks_its_host_for_nothing(self):
        with open(WASM, "rb") as file:
            self.assertEqual(narrowing.imported(file.read()), [])

    def test_memory_is_taken_and_given_back(self):
        self.assertEqual(by_node("heap"), [[]])
