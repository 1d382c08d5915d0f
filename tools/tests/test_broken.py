"""Scripts on broken files and hostile ones: each ends with a status and a line, whatever the bytes are."""
import argparse
import concurrent.futures
import functools
import io
import multiprocessing
import os
import random
import re
import subprocess
import sys
import tempfile
import time
import traceback
import types
import unittest
import unittest.mock
from typing import List

import broken_files
import bundle
import script
import trying

FILES, SEED = 10_000, 15
files: List[bytes] = []
# what is the same in each page
CONSTANT = {name: functools.lru_cache(None)(getattr(bundle, name)) for name in ("source", "joined", "hash_of")}
# scripts that read standard input, with words of which each file has some
READERS = {
    "table": ((), ("--csv", "--field", "TITLE"), ("--json", "--compare", "old"), ("--compare", "TITLE"),
              ("--sqlite", ":memory:")),
    "refused": ((),),
    "names": ((), ("--field", "TITLE"), ("--all", "--json")),
    "page": ((), ("--title", "<&")),
}
TELLINGS = {
    "explain": b"record 1\na2 none NoMark\na4 S 1a 2 order 10 2 5 H\na5 tie\n",
    "axes": b"record 1\nt1-7 P 1a 2 order 2 6 | 8 12\nc2-5 none Either\n",
    "groups": b"record 1\nrac1 a2 R S\nabs a5 S R\nrel1 a3 - -\n",
    "undefined": b"record 1\na2 open 1a 2 order 3 4 1 H\na4 dependent\na5 tie\na6 over\n",
    "compare": b"record\tunit\tletter\tother\tcompared\n1\ta4\tS\tR\tdifferent\n1\tb9-99\t\tE\titem alone\n",
}
CORRECTIONS = b"record atom letter\n1\t4\tR\n1,7,S\n2 10 r\n# remark\n1000000000 1 s\n"
STATUSES = {script.FINE, script.DIFFERENT, script.WORDS, script.UNUSABLE}
LAST_LINE = re.compile(r"^(?:tools/)?[a-z]+: [^\n]+\n\Z", re.MULTILINE)
SECONDS = 5
# texts whose length an expression may take twice or more
LONG = (b">" + b"<" * 60_000, b"> <old>\n" + b"(" * 60_000, b"> <TITLE>\n" + b"(1R" * 60_000,
        b"> <old>\n" + b"[(1, 'R'), " * 20_000,
        b"$$$$" + b" " * 60_000 + b"x", b"$" * 60_000, b"> <old>\n" + b"2 " * 60_000, b"M  END" + b" " * 60_000 + b"x",
        b"> <CIP_LABELS>\n" + broken_files.SETTINGS + b"\na1 S 1a 1 order" + b" 1" * 60_000 + b" x", b"\r" * 60_000,
        b"> <old>\n(" + b"a " * 60_000, b"> <TITLE>\n[" + b"1'" * 60_000, b"M  V30 " + b"(" * 60_000, b"\n" * 60_000)


class Run:
    """A script as a function that is called over and over in this process."""

    def __init__(self, name):
        path = trying.path("tools", name)
        with open(path, encoding="utf-8") as file:
            code = compile(file.read(), path, "exec")
        self.path, self.input, self.output = path, tempfile.TemporaryFile(), tempfile.TemporaryFile()
        names = {"__name__": "__main__", "__file__": path}
        with unittest.mock.patch.object(script, "run") as run:
            exec(code, names)
        self.main = run.call_args[0][0]

    def status(self, given, words):
        """The status of a run, and what it complains of; what isn't a status of its own is raised."""
        for file in (self.input, self.output):
            file.seek(0)
            file.truncate()
        self.input.write(given)
        self.input.seek(0)
        complaints = io.StringIO()
        with open(self.input.fileno(), closefd=False, encoding="utf-8") as given_file, \
                open(self.output.fileno(), "w", closefd=False, encoding="utf-8") as output:
            streams = {"stdin": given_file, "stdout": output, "stderr": complaints}
            with unittest.mock.patch.multiple(sys, argv=[self.path, *words], **streams):
                try:
                    script.run(self.main)
                except SystemExit as end:
                    return end.code, complaints.getvalue()


def written(folder, name, text):
    """The path of a file with this text."""
    path = os.path.join(folder, name)
    with open(path, "wb") as file:
        file.write(text)
    return path


def record_with_item():
    return broken_files.annotated(broken_files.records()[0], random.Random(1))


class Labeller:
    """A labeller that has one answer for each record, and refuses those of another kind."""

    def __enter__(self):
        return self

    def __exit__(self, *_):
        pass

    def undefined(self, record):
        if len(record) % 2:
            raise Refused
        return [types.SimpleNamespace(unit="a1", state="tie")]

    def values(self, record):
        setting = broken_files.SETTINGS.decode()
        return [setting, "refused 4 Version" if len(record) % 2 else "a1 S 1a 1 order 4 3 2 5"]

    def close(self):
        pass


class Cluster:
    """A cluster, and the client of it, by which each part is made at once."""

    def __init__(self, *_, **__):
        pass

    def __enter__(self):
        return self

    def __exit__(self, *_):
        pass

    def scheduler_info(self):
        return {"workers": {}}

    def submit(self, function, *words, pure):
        made = function(*words)
        return types.SimpleNamespace(result=lambda: made)


class Refused(Exception):
    line, cause = 4, "Version"


class Ended:
    """A run of a program that takes what it is given, and writes nothing."""

    def __init__(self, *_, **__):
        self.stdin = io.BytesIO()

    def wait(self, *_):
        return 0


def set_by_turn(words, input, **_):
    """What stands in for `set`: it leaves a record as it is, and refuses every other atom."""
    is_set = int(words[words.index("--atom") + 1]) % 2
    return subprocess.CompletedProcess(words, 0 if is_set else 8, input, b"" if is_set else b"cip: not set NoCentre\n")


def of_readers(name, folder):
    """Each broken file with words of a script that reads standard input."""
    for number, text in enumerate(files):
        yield text, READERS[name][number % len(READERS[name])]


def of_pairs(name, folder):
    """Broken files beside whole ones."""
    whole, broken = written(folder, "whole.sdf", record_with_item()), os.path.join(folder, "broken.sdf")
    pairs = ((broken, whole), (whole, broken), (broken, broken))
    for number, text in enumerate(files):
        written(folder, "broken.sdf", text)
        yield b"", pairs[number % len(pairs)]


def of_resume(name, folder):
    """Broken files as IN and OUT of a program that writes nothing."""
    for _, words in of_pairs(name, folder):
        yield b"", ("/bin/true", *words)


def of_lists(name, folder):
    """Broken lists of corrections beside a whole file, and a whole list beside broken files, by turns."""
    whole, right = written(folder, "whole.sdf", record_with_item()), written(folder, "right", CORRECTIONS)
    chance = random.Random(SEED)
    for number, text in enumerate(files):
        if number % 2:
            yield b"", ("/bin/true", right, written(folder, "broken.sdf", text))
        else:
            yield b"", ("/bin/true", written(folder, "broken", broken_files.changed(CORRECTIONS, chance)), whole)


def of_files(name, folder):
    """Each broken file by its path, with an option of the script."""
    for text in files:
        yield b"", ("--csv" if name == "cluster" else "--open", written(folder, "broken.sdf", text))


def of_tellings(name, folder):
    """A page of one record with a broken file beside it."""
    names, chance = list(TELLINGS), random.Random(SEED)
    for number in range(FILES):
        told = names[number % len(names)]
        yield record_with_item(), (f"--{told}", written(folder, told, broken_files.changed(TELLINGS[told], chance)))


CASES = {**dict.fromkeys(READERS, of_readers), "unmirrored": of_pairs, "changes": of_pairs, "resume": of_resume,
         "correct": of_lists, "undefined": of_files, "cluster": of_files, "page beside tellings": of_tellings}


def tried(case):
    """What went wrong of a script on all broken files: the number of a file, and why."""
    name = case.split()[0]
    run, wrong = Run(name), []
    stubs = {"cip": types.SimpleNamespace(Labeller=lambda **_: Labeller(), Refused=Refused, Error=Refused),
             "distributed": types.SimpleNamespace(Client=Cluster, LocalCluster=Cluster, __spec__="a stub")}
    with tempfile.TemporaryDirectory() as folder, unittest.mock.patch.dict(sys.modules, stubs), \
            unittest.mock.patch.multiple(script.subprocess, Popen=Ended, run=set_by_turn), \
            unittest.mock.patch.object(argparse, "_", str), unittest.mock.patch.multiple(bundle, **CONSTANT):
        for number, (given, words) in enumerate(CASES[case](name, folder)):
            try:
                status, complaint = run.status(given, words)
            except Exception:
                wrong.append((number, traceback.format_exc()))
                continue
            if status not in STATUSES or status > script.DIFFERENT and not LAST_LINE.search(complaint):
                wrong.append((number, f"status {status}: {complaint}"))
    return wrong


class Broken(unittest.TestCase):
    def test_each_ends_with_a_status_and_a_line(self):
        files[:] = broken_files.made(FILES, SEED)
        jobs, context = max(2, os.cpu_count() or 1), multiprocessing.get_context("fork")
        with concurrent.futures.ProcessPoolExecutor(jobs, context) as workers:
            for case, wrong in zip(CASES, workers.map(tried, CASES)):
                with self.subTest(case):
                    self.assertEqual(wrong[:3], [])

    def test_what_is_long_takes_no_longer_than_its_length(self):
        head = b"long\n\n\n  0  0  0  0  0  0            999 V2000\nM  END\n> <CIP_LABELS>\n"
        record = head + broken_files.SETTINGS + b"\nnone\n\n%s\n\n$$$$\n"
        for name in READERS:
            run = Run(name)
            for text in LONG:
                for words in READERS[name]:
                    begun = time.process_time()
                    status, _ = run.status(record.replace(b"%s", text), words)
                    with self.subTest(name, text=text[:20], words=words):
                        self.assertIn(status, STATUSES)
                        self.assertLess(time.process_time() - begun, SECONDS)
