"""The bar of long scripts: on a terminal alone."""
import os
import pty
import subprocess
import sys
import tempfile
import unittest

import trying

MOLFILE = b"one\n\n\n  0  0  0  0  0  0            999 V2000\nM  END\n"
RECORD = MOLFILE + b"> <CIP_LABELS>\ncip 2 rule1b 2018 nodes 9\nnone\n\n$$$$\n"

# what a table ends with on standard error
COUNTS = b"table: records 1, labels 0, refused 0, over 0"

SLOW = "#!/bin/sh\nsleep 0.5\ncat > /dev/null\n"


def on_terminal(path, name, *words):
    """What a script writes on a terminal while it reads a file."""
    ours, theirs = pty.openpty()
    with open(path, "rb") as given:
        command = [sys.executable, trying.path("tools", name), *words]
        child = subprocess.Popen(command, stdin=given, stdout=subprocess.DEVNULL, stderr=theirs)
    os.close(theirs)
    text = b""
    try:
        while piece := os.read(ours, 4096):
            text += piece
    except OSError:
        # the terminal's other end was closed
        pass
    os.close(ours)
    return child.wait(), text


class Bars(unittest.TestCase):
    def setUp(self):
        held = tempfile.TemporaryDirectory()
        self.addCleanup(held.cleanup)
        self.folder = held.name
        self.given = self.put("labelled.sdf", RECORD)

    def put(self, name, content):
        path = os.path.join(self.folder, name)
        with open(path, "wb") as file:
            file.write(content)
        return path

    def test_a_terminal_shows_a_bar_that_goes_away(self):
        status, text = on_terminal(self.given, "table")
        self.assertEqual(status, 0)
        self.assertIn(b"[##############################] 100%", text)
        self.assertEqual(text.rpartition(b"\r\x1b[K")[2].rstrip(), COUNTS)

    def test_a_pipe_shows_none(self):
        made = trying.script_ran("tools/table", given=RECORD)
        self.assertEqual((made.returncode, made.stderr.rstrip()), (0, COUNTS))

    def test_a_program_that_goes_on_has_a_bar(self):
        program, out = self.put("slow", SLOW.encode()), os.path.join(self.folder, "out.sdf")
        os.chmod(program, 0o755)
        status, text = on_terminal(self.given, "resume", program, self.given, out)
        self.assertEqual(status, 0)
        self.assertRegex(text.decode(), r"resume: 0 records are whole\r\n(.*\r)?\x1b\[K\[[#.]{30}\] +\d+%")
        self.assertTrue(text.endswith(b"\r\x1b[K"))
