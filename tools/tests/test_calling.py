"""./cip before anything is built."""
import os
import shutil
import tempfile
import unittest

import trying
from small_tree import put


class Calling(unittest.TestCase):
    """./cip in a clone in which nothing is built, and no toolchain is on the path."""

    def called(self, *words):
        with tempfile.TemporaryDirectory() as folder:
            for name in ("tools", "installed", "VERSION", "cip"):
                os.symlink(trying.path(name), os.path.join(folder, name))
            shutil.copy(trying.path("cip"), os.path.join(folder, "calling"))
            for crate in ("gate_cases", "cip_words"):
                shutil.copytree(trying.path("crates", crate), os.path.join(folder, "crates", crate),
                                ignore=shutil.ignore_patterns("out"))
            put(os.path.join(folder, "crates.txt"), "")
            done = trying.ran(os.path.join(folder, "calling"), *words, env={"PATH": "/usr/bin:/bin"})
            return done.returncode, done.stdout.decode(), done.stderr.decode()

    def test_help_and_version_come_at_once(self):
        self.assertEqual(self.called("--version"), (0, f"cip {trying.text_of('VERSION')}", ""))
        self.assertEqual(self.called("--help"), (0, trying.text_of("installed", "help.txt"), ""))
        status, told, complaint = self.called("help")
        self.assertEqual((status, complaint), (0, ""))
        self.assertTrue(told.startswith("cip annotate [--nodes N]") and told.endswith("\ncip help\n"), told)

    def test_refused_words_come_back_at_once(self):
        refused = (2, "", "cip: words refused\ncip: see ./cip --help\n")
        for words in ([], ["mine.sdf"], ["annotate", "--workers", "17"], ["set", "--record", "1"]):
            with self.subTest(words):
                self.assertEqual(self.called(*words), refused)

    def test_a_command_begins_the_build(self):
        status, told, complaint = self.called("annotate")
        self.assertEqual((status, told), (70, ""))
        self.assertIn("no proved program stands here yet", complaint)
        self.assertIn("last crates take longest", complaint)
