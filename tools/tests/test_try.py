"""What tools/try shows of cases, beside a toolchain that prints what it is given."""
import os

import trying
from small_tree import Tree

FAKE = """#!/bin/sh
cat <<'END'
{printed}
END
echo "$@" > "$(dirname "$0")/words"
exit 1
"""
STORED = "=== empty_input: status 0\n\nError: Os"


class Try(Tree):
    def tried(self, printed, *words):
        folder = os.path.join(self.room, "fake")
        os.makedirs(folder, exist_ok=True)
        path = os.path.join(folder, "rt")
        with open(path, "w", encoding="utf-8") as file:
            file.write(FAKE.format(printed=printed))
        os.chmod(path, 0o755)
        done = trying.script_ran("tools/try", *words, env={**os.environ, "PATH": f"{folder}:{os.environ['PATH']}"})
        return done.returncode, done.stdout.decode(), done.stderr.decode()

    def test_output_as_it_is_stored(self):
        self.assertEqual(self.tried(STORED, "empty_input"), (0, "try: 1 cases, as stored\n", ""))

    def test_it_runs_the_rows_that_fit_and_their_files(self):
        self.tried(STORED, "empty_*")
        with open(os.path.join(self.room, "fake", "words"), encoding="utf-8") as file:
            words = file.read()
        self.assertRegex(words, r"^try --seconds 600 --data cases\.txt=\S+ --data empty_input\.sdf=data/empty_input\.sdf$")

    def test_a_difference_is_shown(self):
        status, text, _ = self.tried("=== empty_input: status 3\ncip: read fault\nchecked: ended", "empty_input")
        self.assertEqual(status, 1)
        self.assertIn("-=== empty_input: status 0\n+=== empty_input: status 3\n+cip: read fault\n", text)

    def test_a_program_that_does_not_run_is_a_fault(self):
        status, _, complaint = self.tried("src/main.rt:1: error", "empty_input")
        self.assertEqual((status, complaint), (3, "try: the program didn't run:\nsrc/main.rt:1: error\n"))

    def test_a_case_that_is_not_there_is_refused(self):
        status, _, complaint = self.tried("", "no_such_case")
        self.assertEqual(status, 2)
        self.assertIn("no case has the name no_such_case", complaint)
