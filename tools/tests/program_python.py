"""The module for Python as pip installs it."""
import importlib.util
import os
import sys
import tempfile
import unittest

import trying


@unittest.skipUnless(importlib.util.find_spec("pip"), "pip isn't installed (Debian: python3-pip)")
class Installed(unittest.TestCase):
    def test_pip_installs_it_with_its_types_and_fetches_nothing(self):
        with tempfile.TemporaryDirectory() as folder:
            words = ("-m", "pip", "install", "--quiet", "--no-index", "--target", folder, trying.path("python"))
            done = trying.ran(sys.executable, *words)
            self.assertEqual(done.returncode, 0, done.stderr.decode())
            installed = os.listdir(os.path.join(folder, "cip"))
            self.assertLessEqual({*os.listdir(trying.path("python", "cip")), "tools"} - {"__pycache__"}, set(installed))
            version = trying.text_of("VERSION").strip()
            self.assertIn(f"cip-{version}.dist-info", os.listdir(folder))
