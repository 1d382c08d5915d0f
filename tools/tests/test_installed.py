"""What tools/install put somewhere: the program with its help, and the scripts."""
import ast
import os
import pty
import re
import subprocess

import trying
from small_tree import Tree

HELP = "cip: see cip --help, or man cip\n"


def read_of_terminal(file):
    """All that a terminal was written, which ends in an error of the system."""
    pieces = []
    try:
        while piece := file.read(1000):
            pieces.append(piece)
    except OSError:
        pass
    return b"".join(pieces)


class Installed(Tree):
    """What is installed, which no test changes."""

    def setUp(self):
        self.prefix = os.path.join(self.room, "prefix")
        if not os.path.exists(self.prefix):
            self.install(self.prefix)

    def called(self, name, *words, given=b""):
        done = trying.ran(os.path.join(self.prefix, "bin", name), *words, given=given)
        return done.returncode, done.stdout.decode(), done.stderr.decode()

    def test_the_program_labels_and_tells_help_and_version(self):
        self.assertEqual(self.called("cip", "annotate", given=b"text"), (0, "text", ""))
        self.assertEqual(self.called("cip", "--version"), (0, f"cip {trying.text_of('VERSION')}", ""))
        for word in ("-h", "--help"):
            self.assertEqual(self.called("cip", word), (0, trying.text_of("installed", "help.txt"), ""))

    def test_refused_words_lead_on(self):
        for words in ([], ["mine.sdf"], ["annotate", "mine.sdf"], ["annotate", "--nodes=5"], ["set", "--record"]):
            with self.subTest(words):
                self.assertEqual(self.called("cip", *words), (2, "", "cip: words refused\n" + HELP))

    def test_a_value_out_of_range_leads_on_where_somebody_looks(self):
        seen, terminal = pty.openpty()
        with open(seen, "rb", buffering=0) as seen_file:
            words = [os.path.join(self.prefix, "bin", "cip"), "annotate", "--workers", "17"]
            status = subprocess.run(words, stdin=subprocess.DEVNULL, stderr=terminal, check=False).returncode
            os.close(terminal)
            told = read_of_terminal(seen_file).decode().replace("\r\n", "\n")
        self.assertEqual((status, told), (2, "cip: words refused\n" + HELP))

    def test_a_link_to_it_works(self):
        link = os.path.join(self.room, "link")
        os.symlink(os.path.join(self.prefix, "bin", "cip"), link)
        self.assertEqual(trying.ran(link, "annotate", given=b"text").stdout, b"text")

    def test_scripts_tell_what_they_do(self):
        names = [name for name in os.listdir(os.path.join(self.prefix, "bin")) if name != "cip"]
        self.assertIn("cip-page", names)
        for name in names:
            with self.subTest(name):
                status, told, complaint = self.called(name, "--help")
                self.assertEqual((status, complaint), (0, ""))
                self.assertTrue(told.startswith(f"usage: {name} "), told[:60])

    def test_each_command_has_a_man_page_that_has_its_options(self):
        pages = os.path.join(self.prefix, "share", "man", "man1")
        self.assertEqual(sorted(os.listdir(pages)), sorted(f"{name}.1" for name in os.listdir(
            os.path.join(self.prefix, "bin"))))
        table = self.page("cip-table")
        for words in (".Nm cip-table\n.Nd makes a table", ".Op Fl -field Ar NAME\n", ".It Fl -csv\nCSV\n",
                      "\n.Sh EXIT STATUS\nThe status is 0 if", "cip-names compares its letters"):
            self.assertIn(words, table)
        self.assertIn(".Op Ar WORD ...\n", self.page("cip-page"))

    def page(self, name):
        with open(os.path.join(self.prefix, "share", "man", "man1", f"{name}.1"), encoding="utf-8") as file:
            return file.read()

    @trying.needs("mandoc")
    def test_the_man_pages_are_well_formed(self):
        folder = os.path.join(self.prefix, "share", "man", "man1")
        pages = [os.path.join(folder, name) for name in os.listdir(folder)]
        done = trying.ran("mandoc", "-T", "lint", "-W", "warning", *pages)
        self.assertEqual((done.returncode, done.stdout), (0, b""))

    def test_scripts_and_their_modules_name_one_another_as_they_are_installed(self):
        folder = os.path.join(self.prefix, "share", "cip", "tools")
        for name in sorted(os.listdir(folder)):
            if os.path.isfile(os.path.join(folder, name)):
                with self.subTest(name), open(os.path.join(folder, name), encoding="utf-8") as file:
                    self.assertEqual(re.findall(r"\btools/(?!build\b|install\b)\w+", file.read()), [])

    def test_scripts_and_their_modules_have_the_syntax_of_python_3_8(self):
        folder = os.path.join(self.prefix, "share", "cip", "tools")
        for name in sorted(os.listdir(folder)):
            if os.path.isfile(os.path.join(folder, name)):
                with self.subTest(name), open(os.path.join(folder, name), encoding="utf-8") as file:
                    ast.parse(file.read(), feature_version=(3, 8))

    def test_what_stands_already_is_left_alone(self):
        told = [line for line in self.install(self.prefix).splitlines() if not line.startswith("install: no ")]
        self.assertEqual([line for line in told if not line.endswith("stands already")], [])
