"""What the tests share: where things stand, runs of scripts and programs, and what has to be installed."""
import os
import shutil
import subprocess
import sys
import tempfile
import unittest

import script

TOP = script.TOP
# where modules of Python stand
FOLDERS = ("tools", "tools/tests", "bench", "python", "python/cip")
SECONDS = 300
# packages that scripts can do without
OPTIONAL = ("rdkit", "openbabel", "dask", "pandas")


def path(*parts):
    """A file of the repository."""
    return os.path.join(TOP, *parts)


def text_of(*parts):
    """What a file of the repository holds, as text."""
    with open(path(*parts), encoding="utf-8") as file:
        return file.read()


def bytes_of(*parts):
    with open(path(*parts), "rb") as file:
        return file.read()


def needs(command, package=None):
    """Passes a test over where a command isn't installed."""
    return unittest.skipUnless(shutil.which(command), f"{command} isn't installed (Debian: {package or command})")


def ran(*words, given=b"", **how):
    """A run of a command with all that it wrote, as bytes."""
    return subprocess.run(words, input=given, capture_output=True, timeout=SECONDS, check=False, **how)


def is_of(name, what):
    """Whether the first line of a file of the repository names what runs it."""
    with open(path(name), "rb") as file:
        return what in file.readline()


def script_ran(name, *words, given=b"", **how):
    """A run of a script of the repository, by this Python where it is one of Python."""
    return ran(*([sys.executable] if is_of(name, b"python") else []), path(name), *words, given=given, **how)


def is_script(name):
    return os.path.isfile(path(name)) and os.access(path(name), os.X_OK) and is_of(name, b"#!")


def scripts():
    """The scripts that can be called, by their paths in the repository."""
    found = [f"{folder}/{name}" for folder in ("tools", "bench") for name in sorted(os.listdir(path(folder)))]
    return [name for name in found if is_script(name)]


def modules(*folders):
    """The files of Python that are imported, by their paths in the repository."""
    return [f"{folder}/{name}" for folder in folders for name in sorted(os.listdir(path(folder)))
            if name.endswith(".py")]


def in_folder(folder, ending):
    """The files of a folder of the repository whose names end so, by their paths there."""
    return [f"{folder}/{name}" for name in sorted(os.listdir(path(*folder.split("/")))) if name.endswith(ending)]


def below(folder, ending):
    """The files below a folder of the repository whose names end so, by their paths there."""
    return [os.path.relpath(os.path.join(at, name), script.TOP) for at, _, names in sorted(os.walk(path(*folder.split("/"))))
            for name in sorted(names) if name.endswith(ending)]


def program():
    """The program that is tried; tools/check --program names it."""
    return os.environ["CIP_PROGRAM"]


def annotated(given, *words):
    """What the program makes of an SDfile."""
    return ran(program(), "annotate", *words, given=given).stdout


def needs_library():
    """Passes a test over where no library stands beside the program."""
    line = 'top=$1; . "$top/tools/proved.sh"; ! is_old "$program" && ! is_old "$library"'
    return unittest.skipIf(ran("sh", "-c", line, "sh", TOP).returncode,
                           "no library stands that was proved from these sources (tools/build)")


def installed_for(case):
    """Installs all that stands for the tests of a class, and tells where; the module for Python finds the library."""
    room = tempfile.TemporaryDirectory()
    case.addClassCleanup(room.cleanup)
    done = script_ran("tools/install", room.name)
    assert done.returncode == 0, done.stderr.decode()
    os.environ["CIP_LIBRARY"] = os.path.join(room.name, "lib", "libcip.so.1")
    return room.name


class Checked(unittest.TestCase):
    """Sources in which a checker finds nothing."""

    def finds_nothing(self, *words, **environment):
        done = ran(*words, cwd=TOP, env={**os.environ, **environment})
        self.assertEqual(done.returncode, 0, (done.stdout + done.stderr).decode())
