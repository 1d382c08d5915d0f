"""A small tree whose program is a stand-in, from which tools/install installs."""
import os
import shutil
import subprocess
import tempfile
import unittest

import trying

# what stands in for the proved program: it takes one command without options
STAND_IN = """#!/bin/sh
[ "$*" = annotate ] && exec cat
echo 'cip: words refused' >&2
exit 2
"""
SAID = "kit-0 logic 0123\nlow logic=proved functions=1\nhigh logic=proved functions=2\nkept"
PARTS = ("tools", "installed", "docs", "python", "javascript", "include", "examples", "VERSION", "CHANGELOG.md", "cip")


def make_tree(folder):
    """A tree of what isn't proved, with one source of a crate, and a program that is told to be made from it."""
    for part in PARTS:
        if os.path.isdir(trying.path(part)):
            ignored = shutil.ignore_patterns("out", "__pycache__", "tests")
            shutil.copytree(trying.path(part), os.path.join(folder, part), ignore=ignored)
        else:
            shutil.copy(trying.path(part), folder)
    put(os.path.join(folder, "crates.txt"), "# nothing\n")
    for part in ("src", "specs", "proofs"):
        put(os.path.join(folder, "crates", "cip", part, "main.rt"), "// nothing\n")
    program = os.path.join(folder, "crates", "cip", "out", "cip")
    put(program, STAND_IN)
    os.chmod(program, 0o755)
    note(folder, "program")


def put(path, text):
    os.makedirs(os.path.dirname(path), exist_ok=True)
    with open(path, "w", encoding="utf-8") as file:
        file.write(text)


def note(tree, what):
    """Notes of the program or the library that it was made from the sources as they stand, and what a checker said."""
    line = f'top=$1; . "$top/tools/proved.sh"; note_made "${what}" "$(sources)"; note_proof "${what}" "$2"'
    subprocess.run(["sh", "-c", line, "sh", tree, SAID], check=True)


def files_below(folder):
    return sorted(os.path.relpath(os.path.join(at, name), folder) for at, _, names in os.walk(folder) for name in names)


class Tree(unittest.TestCase):
    """A tree that was made once, and a folder to install to that each test has for itself."""

    @classmethod
    def setUpClass(cls):
        room = tempfile.TemporaryDirectory()
        cls.addClassCleanup(room.cleanup)
        cls.room, cls.tree = room.name, os.path.join(room.name, "tree")
        os.mkdir(cls.tree)
        make_tree(cls.tree)

    def setUp(self):
        self.prefix = os.path.join(self.room, self.id().rsplit(".", 1)[-1])

    def install(self, *words, status=0, tree=None, **environment):
        clean = {name: value for name, value in os.environ.items() if name not in ("PREFIX", "DESTDIR")}
        done = trying.ran(os.path.join(tree or self.tree, "tools", "install"), *words, env={**clean, **environment},
                          cwd=self.room)
        self.assertEqual(done.returncode, status, done.stderr.decode())
        return done.stdout.decode() + done.stderr.decode()
