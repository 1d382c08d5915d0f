"""Scripts that are installed below a folder of one's own, which find the module and the library there."""
import os
import sys
import unittest

import script
import trying


@trying.needs_library()
@trying.needs("cc", "gcc")
class Installed(unittest.TestCase):
    @classmethod
    def setUpClass(cls):
        cls.prefix = trying.installed_for(cls)

    def test_undefined_units_are_listed_whatever_python_runs_the_script(self):
        environment = {name: value for name, value in os.environ.items() if name not in ("CIP_LIBRARY", "PYTHONPATH")}
        command = os.path.join(self.prefix, "bin", "cip-undefined")
        pythons = [path for path in (sys.executable, script.DEBIAN_PYTHON) if os.path.exists(path)]
        for python in pythons:
            done = trying.ran(python, command, trying.path("examples", "menthol.sdf"), env=environment, cwd=self.prefix)
            with self.subTest(python):
                self.assertEqual((done.returncode, done.stdout), (script.FINE, b"record 1\na2 tie\n"), done.stderr.decode())
