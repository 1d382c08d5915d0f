"""tools/package over a small tree whose program and library are stand-ins: the wheel, and Debian's package."""
import importlib.util
import os
import re
import shutil
import subprocess
import sys
import tarfile
import unittest
import zipfile

import script
import trying
from small_tree import Tree, note, put
from test_python import STUB

HEAP = "int cip_heap_of_a_stand_in;\n"
LABELS = """
import cip
print([(label.unit, label.letter) for label in cip.Labeller().labels("one record")])
print(cip.__file__)
"""


def object_of(folder, name, text):
    """An archive with one object, compiled from C."""
    source = os.path.join(folder, f"{name}.c")
    put(source, text)
    made = source[:-1] + "o"
    subprocess.run(["gcc", "-c", "-fPIC", "-I", trying.path("include"), "-o", made, source], check=True)
    subprocess.run(["ar", "rcs", os.path.join(folder, f"{name}.a"), made], check=True)
    os.remove(source)
    os.remove(made)


PAGE = ("crates", "cip", "out", "cip.html")
VERSION = trying.text_of("VERSION").strip()


@trying.needs("gcc")
@trying.needs("ar", "binutils")
@trying.needs("dpkg-deb", "dpkg")
class Packing(Tree):
    """All that is handed out of a tree, made once, and what each call makes by itself."""

    @classmethod
    def setUpClass(cls):
        super().setUpClass()
        folder = os.path.join(cls.tree, "crates", "cip_c", "out")
        os.makedirs(folder)
        object_of(folder, "libcip_c", STUB)
        object_of(folder, "liblibc_c", HEAP)
        note(cls.tree, "library")
        put(os.path.join(cls.tree, *PAGE), "<!DOCTYPE html>\n")
        note(cls.tree, "web")
        cls.all = os.path.join(cls.room, "all")
        done = cls.called("--all", cls.all)
        assert done.returncode == 0, done.stderr.decode()
        cls.wheel, = (os.path.join(cls.all, name) for name in os.listdir(cls.all) if name.endswith(".whl"))
        cls.deb, = (os.path.join(cls.all, name) for name in os.listdir(cls.all) if name.endswith(".deb"))

    @classmethod
    def called(cls, *words, tree=None, mask=0o022):
        """A run of tools/package by somebody whose new files have these rights, without a variable that it reads."""
        clean = {name: value for name, value in os.environ.items()
                 if name not in ("PREFIX", "DESTDIR", "SOURCE_DATE_EPOCH", "DEBFULLNAME", "DEBEMAIL", "CIP_LIBRARY")}
        return trying.ran(os.path.join(tree or cls.tree, "tools", "package"), *words, cwd=cls.room, env=clean,
                          preexec_fn=lambda: os.umask(mask))

    def ends_with(self, status, *words, **how):
        done = self.called(*words, **how)
        self.assertEqual(done.returncode, status, done.stderr.decode())
        return done.stdout.decode() + done.stderr.decode()

    def test_a_wheel_has_the_library_and_its_name_says_which_systems_load_it(self):
        found = re.fullmatch(rf"cip-{VERSION}-(py3-none-manylinux_2_\d+_x86_64)\.whl", os.path.basename(self.wheel))
        with zipfile.ZipFile(self.wheel) as inside:
            names, told = inside.namelist(), inside.read(f"cip-{VERSION}.dist-info/WHEEL").decode()
        self.assertIn(f"\nTag: {found[1]}\n", told)
        self.assertLessEqual({"cip/__init__.py", "cip/libcip.so.1", "cip/tools/page", "cip/tools/view/page.mjs"},
                             set(names))

    @unittest.skipUnless(importlib.util.find_spec("pip"), "pip isn't installed (Debian: python3-pip)")
    def test_pip_installs_a_wheel_that_needs_nothing_else(self):
        words = ("-m", "pip", "install", "--quiet", "--no-index", "--no-deps", "--target", self.prefix, self.wheel)
        done = trying.ran(sys.executable, *words)
        self.assertEqual(done.returncode, 0, done.stderr.decode())
        clean = {name: value for name, value in os.environ.items() if name != "CIP_LIBRARY"}
        done = trying.ran(sys.executable, "-c", LABELS, cwd="/", env={**clean, "PYTHONPATH": self.prefix})
        self.assertEqual(done.stdout.decode().splitlines(),
                         ["[('a1', 'S'), ('b2-3', 'E')]", os.path.join(self.prefix, "cip", "__init__.py")])
        page = os.path.join(self.prefix, "cip", "tools", "page")
        done = trying.ran(sys.executable, page, given=trying.bytes_of("crates", "cip", "stdout"), cwd="/")
        self.assertEqual((done.returncode, done.stderr), (0, b""))

    def test_a_package_for_debian_belongs_to_root_and_has_the_library(self):
        told = trying.ran("dpkg-deb", "--contents", self.deb).stdout.decode()
        self.assertEqual(set(re.findall(r"^\S+ (\S+)", told, re.MULTILINE)), {"root/root"})
        for name in ("lib/libcip.so.1", "lib/cip/cip", "share/man/man1/cip-page.1.gz", "share/doc/cip/PROOF.md"):
            self.assertIn(f" ./usr/{name}\n", told)

    @trying.needs("lintian")
    def test_lintian_finds_nothing_in_it_that_is_not_explained(self):
        done = trying.ran("lintian", "--allow-root", "--no-cfg", "--fail-on", "error,warning", self.deb)
        self.assertEqual((done.returncode, done.stdout), (0, b""))

    def test_a_package_made_by_itself_is_the_same(self):
        for words, wanted in (((), self.deb), (("--wheel",), self.wheel)):
            self.ends_with(script.FINE, *words, self.prefix)
            with self.subTest(words):
                self.assertTrue(script.are_same(os.path.join(self.prefix, os.path.basename(wanted)), wanted))
        self.assertEqual(len(os.listdir(self.prefix)), 2)

    def test_all_is_the_same_again_from_the_sources_in_it(self):
        names = sorted(os.listdir(self.all))
        self.assertEqual([name for name in names if not name.endswith((".deb", ".whl"))],
                         ["PROOF.md", "SHA256SUMS", f"cip-{VERSION}.tar.gz", "cip.html"])
        with tarfile.open(os.path.join(self.all, f"cip-{VERSION}.tar.gz")) as sources:
            sources.extractall(self.room)
        tree = os.path.join(self.room, f"cip-{VERSION}")
        self.assertEqual(trying.bytes_of(tree, "PROOF.md"), trying.bytes_of(self.all, "PROOF.md"))
        for crate in ("cip", "cip_c"):
            shutil.copytree(os.path.join(self.tree, "crates", crate, "out"), os.path.join(tree, "crates", crate, "out"))
        self.ends_with(script.FINE, "--all", self.prefix, tree=tree, mask=0o077)
        for name in names:
            with self.subTest(name):
                self.assertTrue(script.are_same(os.path.join(self.all, name), os.path.join(self.prefix, name)))

    def test_the_page_that_the_repository_keeps_will_do_for_its_own_sources_alone(self):
        line = 'top=$1; . "$top/tools/proved.sh"; keep_page; rm "$web.made-of"'
        self.assertEqual(trying.ran("sh", "-c", line, "sh", self.tree).returncode, 0)
        self.addCleanup(note, self.tree, "web")
        self.addCleanup(shutil.rmtree, os.path.join(self.tree, "page"))
        self.ends_with(script.FINE, "--all", self.prefix)
        self.assertTrue(script.are_same(os.path.join(self.prefix, "cip.html"), os.path.join(self.tree, *PAGE)))
        put(os.path.join(self.tree, "page", "cip.html"), "<!DOCTYPE html><p>another\n")
        self.assertIn("without cip.html", self.ends_with(script.FINE, "--all", self.prefix + "-2"))

    @trying.needs("git")
    def test_sources_that_are_not_committed_are_not_handed_out(self):
        self.assertEqual(trying.ran("git", "init", "--quiet", self.tree).returncode, 0)
        self.addCleanup(shutil.rmtree, os.path.join(self.tree, ".git"))
        self.assertIn("aren't committed", self.ends_with(script.UNUSABLE, "--all", self.prefix))

    def test_the_sums_are_those_of_the_files(self):
        done = trying.ran("sha256sum", "--check", "--quiet", "SHA256SUMS", cwd=self.all)
        self.assertEqual((done.returncode, done.stdout), (0, b""))
        told = trying.text_of(self.all, "SHA256SUMS").split()[1::2]
        self.assertEqual(sorted(told), sorted(set(os.listdir(self.all)) - {"SHA256SUMS"}))

    def test_each_has_the_page_of_what_was_proved(self):
        sources, program = trying.text_of(self.tree, "crates", "cip", "out", "cip.made-of").split()
        page = trying.text_of(self.all, "PROOF.md")
        for words in (sources, program, "`kit-0 logic 0123`", "low  logic=proved functions=1\n", "\nkept (proved in"):
            self.assertIn(words, page)
        with zipfile.ZipFile(self.wheel) as inside:
            self.assertEqual(inside.read(f"cip-{VERSION}.dist-info/PROOF.md").decode(), page)

    def test_without_what_the_checker_said_nothing_is_made(self):
        path = os.path.join(self.tree, "crates", "cip_c", "out", "libcip_c.a.proof")
        os.rename(path, path + ".away")
        self.addCleanup(os.rename, path + ".away", path)
        self.assertIn("isn't kept beside it: tools/build library", self.ends_with(script.UNUSABLE, self.prefix))
        self.assertFalse(os.path.exists(self.prefix))

    def test_without_what_is_proved_nothing_is_made(self):
        path = os.path.join(self.tree, "crates", "cip", "src", "main.rt")
        put(path, "// other\n")
        self.addCleanup(put, path, "// nothing\n")
        for words in ((), ("--wheel",), ("--all",)):
            with self.subTest(words):
                self.assertIn("tools/build proves it", self.ends_with(script.UNUSABLE, *words, self.prefix))
                self.assertFalse(os.path.exists(self.prefix))

    def test_the_head_of_changes_has_a_day(self):
        self.assertRegex(trying.text_of("CHANGELOG.md"), r"\n\*\*\d+\*\* \(\d+ [A-Z][a-z]+ \d{4}\b")
