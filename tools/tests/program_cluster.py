"""A table that a Dask cluster makes, beside that of one run."""
import unittest

import script
import trying

COMPOUNDS = trying.path("examples", "compounds.sdf")


@trying.needs_library()
class Cluster(unittest.TestCase):
    @classmethod
    def setUpClass(cls):
        if trying.ran(script.DEBIAN_PYTHON, "-c", "import distributed").returncode:
            raise unittest.SkipTest("distributed isn't installed (Debian: python3-distributed)")
        trying.installed_for(cls)

    def test_two_workers_make_the_table_of_one_run(self):
        done = trying.ran(trying.path("tools", "cluster"), "--block", "8", COMPOUNDS)
        self.assertEqual(done.returncode, 0, done.stderr.decode())
        labelled = trying.annotated(trying.bytes_of("examples", "compounds.sdf"))
        self.assertEqual(done.stdout, trying.script_ran("tools/table", given=labelled).stdout)
