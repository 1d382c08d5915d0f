"""What tools/listings finds in the comments of the sources, and the pages that it writes."""
import os
import tempfile
import unittest

import crate_table
import trying


def listed(*words):
    done = trying.script_ran("tools/listings", *words)
    return done.returncode, done.stdout.decode()


class Listings(unittest.TestCase):
    def test_a_word_finds_the_files_and_definitions_that_have_it(self):
        status, text = listed("narrow end", "Single bond")
        self.assertEqual(status, 0)
        self.assertIn("crates/cip_mol/specs/Marks.antt: ", text)
        self.assertRegex(text, "(?m)^  is_narrow_at")
        self.assertNotIn("crates/cip_batch", text)

    def test_a_word_that_no_file_has_is_told_by_the_status(self):
        self.assertEqual(listed("no file has these words"), (1, ""))

    def test_the_pages_have_each_crate(self):
        with tempfile.TemporaryDirectory() as room:
            folder = os.path.join(room, "below")
            self.assertEqual(listed("--folder", folder), (0, ""))
            texts = [trying.text_of(folder, name) for name in ("DEFINITIONS.md", "MODULES.md")]
        self.assertEqual([name for name in crate_table.named() if f"`{name}`" not in texts[1]], [])
        self.assertIn("is_narrow_at", texts[0])

    def test_each_library_says_what_it_is_in_three_lines_or_more(self):
        for crate in crate_table.named():
            path = trying.path("crates", crate, "src", "lib.rt")
            if os.path.exists(path):
                with self.subTest(crate):
                    self.assertRegex(trying.text_of(path), r"\A(//!.*\n){3,}")

    def test_a_folder_that_can_not_be_written_is_a_fault_of_its_own(self):
        self.assertEqual(listed("--folder", trying.path("VERSION")), (4, ""))
