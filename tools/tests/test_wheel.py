"""The wheel by which pip leads Python to the module in the repository."""
import os
import re
import sys
import tempfile
import unittest
import zipfile

import trying

BUILD = "import sys; sys.path.insert(0, sys.argv[1]); import wheel_of_cip; print(wheel_of_cip.build_editable(sys.argv[2]))"
IMPORT = "import site, sys; site.addsitedir(sys.argv[1]); import cip; print(cip.__file__)"


class Editable(unittest.TestCase):
    def python(self, *words):
        done = trying.ran(sys.executable, "-B", "-c", *words)
        self.assertEqual(done.returncode, 0, done.stderr.decode())
        return done.stdout.decode().rstrip("\n")

    def test_python_finds_the_module_of_the_repository(self):
        with tempfile.TemporaryDirectory() as folder:
            name = self.python(BUILD, trying.path("python"), folder)
            with zipfile.ZipFile(os.path.join(folder, name)) as wheel:
                wheel.extractall(folder)
                record = wheel.read(f"cip-{trying.text_of('VERSION').strip()}.dist-info/RECORD").decode()
                self.assertEqual(re.findall(r"^([^,]+),", record, re.MULTILINE), wheel.namelist())
            self.assertEqual(self.python(IMPORT, folder), trying.path("python", "cip", "__init__.py"))
