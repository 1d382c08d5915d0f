"""The page that labels in a browser, as far as it needs no program: how files are cut, and that its readers are those
of the scripts."""
import hashlib
import itertools
import json
import os
import random
import tempfile
import unittest

import broken
import bundle
import drawn
import narrowing
import sdf
import trying
import wasm

MIB = 1 << 20
PIECES = (b"$$$$\n", b"$$$$  \r\n", b"\n", b"$$$$x\n", b" $$$$\n", b"$$$", b"abc\n", b"M  END\n", b"x" * 70_000,
          b"\r\n")
# each 20th of the records of which a byte is changed
STEP = 20
MODULES = ("app.mjs", "worker.mjs")
# a module with a memory and a function `run` that does nothing but trap
TRAP = (b"\0asm\1\0\0\0" b"\1\4\1\x60\0\0" b"\3\2\1\0" b"\5\3\1\0\1" b"\7\x10\2\6memory\2\0\3run\0\0"
        b"\x0a\5\1\3\0\0\x0b")


def told_by_node(*words):
    done = trying.ran("node", trying.path("tools", "tests", "web.mjs"), *words)
    assert done.returncode == 0, done.stderr.decode()
    return [json.loads(line) for line in done.stdout.splitlines()]


def reading_of(record):
    """What the scripts make of a record, as web.mjs writes it."""
    drawing = sdf.drawing(record)
    items = [[sdf.text(item.name), [sdf.text(line) for line in item.values]] for item in sdf.items(record)]
    found = drawn.drawn(drawing) if drawing and drawing.atoms else None
    return json.loads(json.dumps({"name": sdf.name(record), "items": items, "drawing": found}))


def are_near(one, other):
    """Whether two readings are the same, but for a place that is rounded the other way."""
    if not (one["drawing"] and other["drawing"]):
        return one == other
    atoms = zip(one["drawing"].pop("a"), other["drawing"].pop("a"))
    return one == other and all(abs(a[0] - b[0]) <= 1 and abs(a[1] - b[1]) <= 1 and a[2:] == b[2:] for a, b in atoms)


def broken_records():
    """Records of the examples that are cut or changed, as records of one file."""
    text = trying.bytes_of("examples", "compounds.sdf") + trying.bytes_of("examples", "axes.sdf")
    records = [one + b"$$$$\n" for one in text.split(b"$$$$\n")[:-1]]
    named = itertools.chain(broken.cuts(records[::8]), itertools.islice(broken.changed(records[0]), 0, None, STEP))
    return b"".join(record + b"\n$$$$\n" for _, record in named)


@trying.needs("node", "nodejs")
class Readers(unittest.TestCase):
    def read_alike(self, *paths):
        for path, found in zip(paths, told_by_node("readings", *paths)):
            with open(path, "rb") as file:
                wanted = [reading_of(record) for record in sdf.records(file)]
            self.assertEqual(len(found), len(wanted), path)
            for number, (one, other) in enumerate(zip(found, wanted), 1):
                self.assertTrue(are_near(one, other), f"{path}: record {number}: {one} and {other}")

    def test_the_examples_and_the_worked_cases(self):
        names = [*trying.in_folder("examples", ".sdf"), *trying.in_folder("crates/gate_cases/data", ".sdf")]
        self.read_alike(*(trying.path(name) for name in names if sdf.molecule_end(trying.bytes_of(name))))

    def test_broken_records(self):
        with tempfile.NamedTemporaryFile() as file:
            file.write(broken_records())
            file.flush()
            self.read_alike(file.name)


@trying.needs("node", "nodejs")
class Parts(unittest.TestCase):
    def parts(self, text, size):
        with tempfile.NamedTemporaryFile() as file:
            file.write(text)
            file.flush()
            return told_by_node("parts", str(size), file.name)

    def test_parts_are_whole_records_and_give_the_file(self):
        deal = random.Random(1)
        for seed in range(12):
            text = b"".join(deal.choice(PIECES) for _ in range(400)) + b" \n" * deal.randrange(3)
            ends = [0, *sdf.record_ends(text)]
            begin = 0
            for first, length, _, summed in self.parts(text, deal.choice((1000, 65_536, MIB))):
                with self.subTest(seed=seed, place=begin):
                    self.assertEqual(ends[first], begin)
                    self.assertEqual(hashlib.sha256(text[begin:begin + length]).hexdigest(), summed)
                begin += length
                self.assertTrue(begin in ends or begin == len(text))
            self.assertEqual(begin, len(text))

    def test_a_record_that_is_too_long_is_cut_and_those_around_it_are_whole(self):
        short, long = b"a\nM  END\n$$$$\n", b"b\n" * (10 * MIB) + b"$$$$\n"
        parts = self.parts(short + long + short, MIB)
        whole = [(first, length) for first, length, is_cut, _ in parts if not is_cut]
        self.assertEqual(whole, [(0, len(short)), (2, len(short))])
        cut = [(first, length) for first, length, is_cut, _ in parts if is_cut]
        self.assertEqual((cut[0][0], sum(length for _, length in cut)), (1, len(long)))


@trying.needs("node", "nodejs")
class Ended(unittest.TestCase):
    """A program that traps at each run, as one that used up its stack."""

    def test_each_record_is_named_and_stays_as_it_is(self):
        record = trying.bytes_of("examples", "alanine.sdf")
        with tempfile.TemporaryDirectory() as folder:
            paths = [os.path.join(folder, name) for name in ("trap.wasm", "three.sdf")]
            for path, text in zip(paths, (TRAP, 3 * record)):
                with open(path, "wb") as file:
                    file.write(text)
            found, = told_by_node("labelled", *paths)
        self.assertEqual([fault["number"] for fault in found["faults"]], [1, 2, 3])
        self.assertEqual(found["sum"], hashlib.sha256(3 * record).hexdigest())
        self.assertEqual((found["count"], found["unlabelled"]), (3, 3))


@trying.needs("node", "nodejs")
class Workers(unittest.TestCase):
    def test_a_thread_that_ends_is_started_anew_once_and_no_job_waits_after_the_end(self):
        self.assertEqual(told_by_node("pool"), [["labelled", 1, "stopped"]])


class Sources(unittest.TestCase):
    def test_the_scripts_of_the_page_have_each_name_once(self):
        for name in MODULES:
            with self.subTest(name):
                self.assertIn("use strict", bundle.joined(os.pardir, "web", name))

    def test_code_that_calls_what_nothing_answers_is_refused(self):
        with self.assertRaises(sdf.Fault):
            wasm.line_of("declare i32 @system(i8*)\n")
        self.assertEqual(wasm.line_of("declare i64 @write(i32, i8*, i64)\n"), "declare i64 @write(i32, i8*, i64)\n")

    def test_code_with_assembly_is_refused(self):
        with self.assertRaises(sdf.Fault):
            wasm.line_of('  call void asm sideeffect "cpuid", "~{eax}"()\n')

    def test_code_of_another_target_is_refused(self):
        with self.assertRaises(sdf.Fault):
            wasm.retargeted('target triple = "aarch64"\n')

    def test_a_module_with_what_is_unknown_is_refused(self):
        for module in (b"", b"\0asm\2\0\0\0", narrowing.MAGIC + b"\x0d\x01\x00"):
            with self.subTest(module), self.assertRaises(narrowing.Refused):
                narrowing.narrowed(module)
