"""What each script tells of itself."""
import os
import re
import runpy
import sys
import tempfile
import traceback
import unittest

import script
import trying

def help_of(name):
    """What a script gives to --help: its status, what it writes and what it complains of."""
    if not trying.is_of(name, b"python"):
        done = trying.script_ran(name, "--help")
        return done.returncode, done.stdout.decode(), done.stderr.decode()
    with tempfile.TemporaryFile("w+") as out, tempfile.TemporaryFile("w+") as complaints:
        child = os.fork()
        if child == 0:
            os.dup2(out.fileno(), 1)
            os.dup2(complaints.fileno(), 2)
            tell_help(name)
        _, ended = os.waitpid(child, 0)
        out.seek(0)
        complaints.seek(0)
        return os.waitstatus_to_exitcode(ended), out.read(), complaints.read()


def tell_help(name):
    """Runs a script of Python for its --help in this process, in which no optional package can be imported; ends it.

    A process forked from one that has read the modules that scripts share is ready in a fifth of the time.
    """
    status = 1
    try:
        sys.stdout, sys.stderr = (open(number, "w", encoding="utf-8", closefd=False) for number in (1, 2))
        sys.argv = [trying.path(name), "--help"]
        sys.path[0] = os.path.dirname(trying.path(name))
        sys.modules.update(dict.fromkeys(trying.OPTIONAL))
        script.DEBIAN_PYTHON = ""
        runpy.run_path(trying.path(name), run_name="__main__")
    except SystemExit as end:
        status = end.code
    except BaseException:
        traceback.print_exc()
    finally:
        sys.stdout.flush()
        sys.stderr.flush()
        os._exit(status)


class Scripts(unittest.TestCase):
    def test_each_tells_what_it_does_without_optional_packages(self):
        for name in trying.scripts():
            status, told, complaint = help_of(name)
            with self.subTest(name):
                self.assertEqual((status, complaint), (script.FINE, ""))
                self.assertTrue(told.startswith("usage: "), told[:80])
                self.assertIn("status is", told)

    def test_each_of_the_shell_refuses_an_option_that_it_has_not(self):
        for name in trying.scripts():
            if trying.is_of(name, b"/sh"):
                done = trying.script_ran(name, "--no-such-option")
                with self.subTest(name):
                    self.assertEqual((done.returncode, done.stdout), (script.WORDS, b""))
                    self.assertEqual(done.stderr.count(b"\n"), 1, done.stderr.decode())

    def test_each_of_python_has_its_words_from_the_module_that_they_share(self):
        for name in trying.scripts():
            if trying.is_of(name, b"python"):
                with self.subTest(name):
                    self.assertIn("    parser = script.Parser(__doc__)\n", trying.text_of(name))

    def test_the_module_that_they_share_refuses_other_options_in_one_line(self):
        done = trying.script_ran("tools/refused", "--no-such-option")
        wanted = b"tools/refused: unrecognized arguments: --no-such-option (see tools/refused --help)\n"
        self.assertEqual((done.returncode, done.stdout, done.stderr), (script.WORDS, b"", wanted))

    def test_each_is_told_of_in_the_handbook(self):
        told = set(re.findall(r"[\w-]+", trying.text_of("docs", "USE.md")))
        for name in trying.scripts():
            with self.subTest(name):
                self.assertTrue(os.path.basename(name) in told)

    def test_no_module_can_be_called(self):
        for name in trying.modules(*trying.FOLDERS):
            with self.subTest(name):
                self.assertFalse(trying.is_script(name))
