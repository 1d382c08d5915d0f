"""The recipes of examples/ for engines that label a collection in parts, on a file with a record that is refused."""
import os
import re
import tempfile
import unittest

import trying

GIVEN = trying.bytes_of("examples", "compounds.sdf") + b"cut\n\n\n$$$$\n"


class Engines(unittest.TestCase):
    def setUp(self):
        room = tempfile.TemporaryDirectory()
        self.addCleanup(room.cleanup)
        self.room = room.name
        os.mkdir(os.path.join(self.room, "bin"))
        os.symlink(os.path.abspath(trying.program()), os.path.join(self.room, "bin", "cip"))
        with open(os.path.join(self.room, "mine.sdf"), "wb") as file:
            file.write(GIVEN)

    def called(self, *words, **environment):
        paths = os.pathsep.join([os.path.join(self.room, "bin"), os.environ["PATH"]])
        given = {**os.environ, "PATH": paths, "PARALLEL": "--will-cite", "HOME": self.room, **environment}
        done = trying.ran(*words, cwd=self.room, env=given)
        self.assertEqual(done.returncode, 0, done.stderr.decode())

    def is_labelled(self):
        with open(os.path.join(self.room, "labelled.sdf"), "rb") as file:
            self.assertEqual(file.read(), trying.annotated(GIVEN))

    @trying.needs("parallel")
    @trying.needs("snakemake")
    def test_snakemake_writes_what_one_run_writes(self):
        self.called("snakemake", "--snakefile", trying.path("examples", "Snakefile"), "--cores", "2", "--config",
                    "sdf=mine.sdf", "block=10k")
        self.assertGreater(len(os.listdir(os.path.join(self.room, "parts"))), 4)
        self.is_labelled()

    @trying.needs("parallel")
    def test_the_tasks_of_an_array_write_what_one_run_writes(self):
        cut = re.search(r"^#     (parallel .*)$", trying.text_of("examples", "label.sbatch"), re.MULTILINE)[1]
        self.called("sh", "-c", cut.replace("16M", "10k"))
        parts = [name for name in os.listdir(self.room) if name.startswith("part-")]
        self.assertGreater(len(parts), 4)
        for number in range(1, len(parts) + 1):
            self.called("sh", trying.path("examples", "label.sbatch"), SLURM_ARRAY_TASK_ID=str(number))
        self.called("sh", "-c", re.search(r"^#     (cat .*)$", trying.text_of("examples", "label.sbatch"), re.MULTILINE)[1])
        self.is_labelled()
