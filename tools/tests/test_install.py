"""tools/install over a small tree whose program is a stand-in: where it puts files, and what counts as proved."""
import os
import shutil

from small_tree import STAND_IN, Tree, files_below, note, put


class Installing(Tree):
    def test_the_prefix_may_be_relative_or_in_the_environment_and_all_can_be_taken_away(self):
        self.install(os.path.basename(self.prefix))
        self.assertNotEqual(files_below(self.prefix), [])
        self.install(PREFIX=self.prefix + "-2")
        self.assertEqual(files_below(self.prefix), files_below(self.prefix + "-2"))
        self.install("--uninstall", self.prefix)
        self.assertEqual(files_below(self.prefix), [])

    def test_a_package_is_made_below_its_own_folder(self):
        self.install("/usr", DESTDIR=os.path.basename(self.prefix))
        self.assertIn("usr/bin/cip", files_below(self.prefix))
        self.assertIn("usr/lib/python3/dist-packages/cip/__init__.py", files_below(self.prefix))

    def test_the_page_and_the_module_for_javascript_are_put_if_they_are_of_these_sources(self):
        self.assertIn("no page that labels", self.install(self.prefix))
        for name, path in (("web", "cip/out/cip.html"), ("module", "cip_c/out/libcip.wasm")):
            put(os.path.join(self.tree, "crates", path), name)
            note(self.tree, name)
        self.install(self.prefix)
        share = os.path.join(self.prefix, "share")
        with open(os.path.join(share, "applications", "cip.desktop"), encoding="utf-8") as file:
            self.assertIn(f"\nExec=xdg-open {share}/cip/cip.html\n", file.read())
        self.assertIn("libcip.wasm", os.listdir(os.path.join(share, "cip", "javascript")))
        put(os.path.join(self.tree, "crates", "cip", "out", "cip.html"), "another")
        self.assertIn("no page that labels", self.install(self.prefix + "-2"))
        self.install("--uninstall", self.prefix)
        self.assertEqual(files_below(self.prefix), [])

    def test_a_copied_build_counts_as_proved_and_another_source_does_not(self):
        copy = self.tree + "-copy"
        shutil.copytree(self.tree, copy, copy_function=shutil.copyfile)
        program = os.path.join(copy, "crates", "cip", "out", "cip")
        for path in (os.path.join(copy, "tools", "install"), program):
            os.chmod(path, 0o755)
        self.install(self.prefix, tree=copy)
        put(os.path.join(copy, "crates", "cip", "src", "main.rt"), "// other\n")
        self.assertIn("no program stands", self.install(self.prefix + "-2", status=3, tree=copy))
        note(copy, "program")
        put(program, STAND_IN + "\n")
        self.install(self.prefix + "-2", status=3, tree=copy)
        self.assertEqual(files_below(self.prefix + "-2"), [])
