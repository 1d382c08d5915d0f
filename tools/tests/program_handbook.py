"""The blocks of the README and the handbook that other programs run, each as it stands there."""
import io
import os
import re
import shutil
import tempfile
import unittest

import script
import sdf
import trying
from program_scripts import needs_module

PAGES = {name: trying.text_of(*name.split("/")) for name in ("README.md", "docs/USE.md")}


def blocks(language, start):
    """The blocks of a language that begin so, in either page."""
    found = [block for text in PAGES.values()
             for block in re.findall(rf"^```{language}\n(.*?)^```", text, re.MULTILINE | re.DOTALL)]
    return [block for block in found if block.startswith(start)]


class Blocks(unittest.TestCase):
    def setUp(self):
        room = tempfile.TemporaryDirectory()
        self.addCleanup(room.cleanup)
        self.room = room.name
        os.mkdir(os.path.join(self.room, "bin"))
        os.symlink(os.path.abspath(trying.program()), os.path.join(self.room, "bin", "cip"))
        self.given = trying.bytes_of("examples", "compounds.sdf")
        self.labelled = trying.annotated(self.given)
        self.put("mine.sdf", self.given)
        self.put("labelled.sdf", self.labelled)
        os.symlink(trying.path("tools"), os.path.join(self.room, "tools"))

    def put(self, name, content):
        with open(os.path.join(self.room, name), "wb") as file:
            file.write(content)

    def read(self, name):
        with open(os.path.join(self.room, name), "rb") as file:
            return file.read()

    def values(self):
        """The value lines of all items, as a property has them."""
        records = sdf.records(io.BytesIO(self.labelled))
        items = (item for record in records for item in sdf.items(record) if item.name == sdf.LABEL_ITEM)
        return "".join("\n".join(sdf.text(line) for line in item.values) + "\n" for item in items)

    def shell(self, block, *, status=0, **environment):
        paths = os.pathsep.join([os.path.join(self.room, "bin"), os.environ["PATH"]])
        done = trying.ran("sh", "-c", block, cwd=self.room, env={**os.environ, "PATH": paths, **environment})
        self.assertEqual(done.returncode, status, done.stderr.decode())
        return done.stdout.decode()

    def test_annotate(self):
        found = blocks("sh", "cip annotate < mine.sdf")
        self.assertNotEqual(found, [])
        for block in found:
            self.put("labelled.sdf", b"")
            self.shell(block)
            self.assertEqual(self.read("labelled.sdf"), self.labelled)

    def test_a_nightly_run_accepts_refused_records_and_no_other_failure(self):
        block = blocks("sh", "cip annotate < mine.sdf")[0]
        self.put("mine.sdf", self.given + b"cut\n\n\n$$$$\n")
        self.shell(block)
        self.assertEqual(self.read("labelled.sdf"), trying.annotated(self.read("mine.sdf")))
        self.assertRegex(self.read("refused.txt"), rb"\bcut\b")
        self.put("labelled.sdf", b"of yesterday")
        self.shell(block.replace("annotate", "annotate --workers 17"), status=script.UNUSABLE)
        self.assertEqual(self.read("labelled.sdf"), b"of yesterday")

    @trying.needs("parallel")
    def test_parallel(self):
        found = blocks("sh", "parallel --pipe --recend")
        self.assertGreaterEqual(len(found), 2)
        for block in found:
            self.put("labelled.sdf", b"")
            self.shell(block.replace("16M", "10k"), PARALLEL="--will-cite")
            self.assertEqual(self.read("labelled.sdf"), self.labelled)

    @trying.needs("parallel")
    def test_parts_of_an_array(self):
        self.shell(blocks("sh", "parallel --pipe-part")[0].replace("16M", "10k"), PARALLEL="--will-cite")
        names = [name for name in os.listdir(self.room) if name.startswith("part-")]
        self.assertGreater(len(names), 2)
        parts = [self.read(f"part-{number}.sdf") for number in range(1, len(names) + 1)]
        self.assertEqual(b"".join(map(trying.annotated, parts)), self.labelled)

    def tables(self):
        """The tables that recipes read."""
        for name, words in {"labels.tsv": (), "labels.csv": ("--csv",), "labels.jsonl": ("--json",)}.items():
            self.put(name, trying.script_ran("tools/table", *words, given=self.labelled).stdout)
        return self.read("labels.tsv").decode().splitlines()[1:]

    @trying.needs("sqlite3")
    def test_a_table_in_sqlite(self):
        rules = [line.split("\t")[5] for line in self.tables()]
        told = self.shell(blocks("sh", "sqlite3")[0])
        self.assertEqual(told.splitlines(), [f"{rule}|{rules.count(rule)}" for rule in sorted(set(rules))])
        types = self.shell("sqlite3 labels.db 'SELECT DISTINCT typeof(record), typeof(sphere), typeof(name) FROM labels'")
        self.assertEqual(types, "integer|integer|text\n")

    @needs_module("pandas", "python3-pandas")
    def test_a_table_in_pandas(self):
        lines = self.tables()
        block = "import pandas\n" + blocks("python", "labels = pandas")[0]
        # a name of digits, and a row whose numbers are missing
        self.put("labels.tsv", self.read("labels.tsv") + b"99\t0000001\t\t\t\t\t\t\tShort\t4\n")
        block += "assert labels.name.iloc[-1] == '0000001' and (labels.sphere > 2).sum() > 0\n"
        block += "print(len(pandas.read_json('labels.jsonl', lines=True)))\n"
        done = trying.ran(script.DEBIAN_PYTHON, "-c", block, cwd=self.room)
        self.assertEqual(done.returncode, 0, done.stderr.decode())
        self.assertRegex(done.stdout.decode(), r"(?m)^allene +P +1$")
        self.assertEqual(done.stdout.decode().splitlines()[-1], str(len(lines)))

    def test_a_table_joined_with_another(self):
        lines = self.tables()
        self.put("registry.tsv", b"menthol\t1490-04-6\n")
        wanted = sum(line.split("\t")[1] == "menthol" for line in lines)
        told = self.shell(blocks("sh", "tab=")[0], LC_ALL="C").splitlines()
        self.assertEqual([line.split("\t")[::10] for line in told], [["menthol", "1490-04-6"]] * wanted)

    @trying.needs("parallel")
    def test_the_greatest_status_of_parts(self):
        self.put("mine.sdf", self.given + b"cut\n\n\n$$$$\n" + self.given)
        words = "parallel --will-cite --joblog jobs.log --pipe --recend '\\n$$$$\\n' --block 10k cip annotate < mine.sdf"
        self.shell(f"{words} > /dev/null; true")
        self.shell(blocks("sh", "awk")[0], status=1)

    def test_resume(self):
        block = blocks("sh", "tools/resume cip mine.sdf labelled.sdf")[0]
        self.put("labelled.sdf", self.labelled[:len(self.labelled) // 2])
        self.shell(block)
        self.assertEqual(self.read("labelled.sdf"), self.labelled)

    @needs_module("rdkit", "python3-rdkit")
    def test_rdkit(self):
        block = "from rdkit import Chem\n" + blocks("python", "for molecule in Chem.SDMolSupplier")[0]
        done = trying.ran(script.DEBIAN_PYTHON, "-c", block, cwd=self.room)
        self.assertEqual((done.returncode, done.stdout.decode()), (0, self.values()))

    @needs_module("rdkit", "python3-rdkit")
    def test_smiles_that_rdkit_draws(self):
        block = blocks("python", "from rdkit import Chem\nfrom rdkit.Chem import AllChem\n\nwith Chem.SDWriter")[0]
        self.put("mine.smi", b"N[C@@H](C)C(=O)O alanine\nC/C=C/C butene\nCC[S@](C)=O sulfoxide\n")
        done = trying.ran(script.DEBIAN_PYTHON, "-c", block, cwd=self.room)
        self.assertEqual(done.returncode, 0, done.stderr.decode())
        told = trying.ran(trying.program(), "explain", given=self.read("mine.sdf")).stdout.decode()
        self.assertEqual([line.split(" ")[:2] for line in told.splitlines() if not line.startswith("record")],
                         [["a2", "S"], ["b2-3", "E"], ["a3", "S"]])

    @needs_module("openbabel", "python3-openbabel")
    def test_open_babel(self):
        block = blocks("python", "from openbabel import pybel")[0]
        done = trying.ran(script.DEBIAN_PYTHON, "-c", block, cwd=self.room)
        self.assertEqual((done.returncode, done.stdout.decode()), (0, self.values()))

    def test_a_page(self):
        self.assertIn("cip annotate < mine.sdf | ", PAGES["README.md"])
        os.symlink(trying.path("tools", "page"), os.path.join(self.room, "bin", "cip-page"))
        self.shell("cip annotate < mine.sdf | cip-page > page.html")
        self.assertIn(b"</html>", self.read("page.html"))

    def test_a_wrong_wedge_set_right(self):
        block = blocks("sh", "sed ")[0].replace("./cip", "cip")
        shutil.copytree(trying.path("examples"), os.path.join(self.room, "examples"))
        wanted = trying.annotated(trying.bytes_of("examples", "menthol.sdf")).decode()
        self.assertEqual(self.shell(block), wanted)
