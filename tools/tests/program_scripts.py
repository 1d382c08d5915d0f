"""Each script that runs the program, on the examples."""
import os
import re
import tempfile
import unittest

import script
import trying

COMPOUNDS = trying.path("examples", "compounds.sdf")
DEBIAN = script.DEBIAN_PYTHON
# the records whose calls are refused in turn: V2000, symmetric, of many units, V3000, with groups, refused
REFUSED_IN_TURN = ("bromochlorofluoromethane", "meso_trihydroxyglutaric_acid", "menthol", "alanine_in_version_3000",
                   "racemic_group", "refused_bond_type")
# a record of each family that bench/growth draws
SHAPES = """
import shapes
import skeletons
for make in (shapes.chain, shapes.peptide, shapes.sugar, shapes.rings):
    print(shapes.record(make(50), make is not shapes.rings)[1], end="")
print(skeletons.record("ring", skeletons.ring(20)), end="")
"""


def has(module):
    """Whether Debian's Python, under which scripts look for a package, has it."""
    return os.path.exists(DEBIAN) and trying.ran(DEBIAN, "-c", f"import {module}").returncode == 0


def needs_module(module, package):
    return unittest.skipUnless(has(module), f"{module} isn't installed (Debian: {package})")


class Scripts(unittest.TestCase):
    def is_well(self, name, *words, status=script.FINE):
        done = trying.ran(trying.path(name), *words)
        self.assertEqual(done.returncode, status, (done.stdout + done.stderr).decode())
        return done.stdout.decode()

    def test_known_compounds(self):
        self.assertIn("\n0 differ, ", self.is_well("tools/known-compounds", trying.program()))

    def test_interrupted_and_resumed(self):
        told = self.is_well("tools/interrupted", "--times", "4", trying.program(), COMPOUNDS)
        self.assertEqual(told.count("the same"), 4)

    @trying.needs("parallel")
    def test_divided(self):
        told = self.is_well("tools/divided", "--times", "2", "--block", "10k", trying.program(), COMPOUNDS)
        self.assertEqual(told.count("the same"), 2)

    @trying.needs("parallel")
    def test_large(self):
        self.is_well("bench/large", "--records", "200", "--counts", "1,2", trying.program(), COMPOUNDS)

    def test_set_and_mirror(self):
        self.assertIn(" 0 differences", self.is_well("tools/set-and-mirror", trying.program(), COMPOUNDS))

    @trying.needs("cc", "gcc")
    def test_refusals(self):
        files = [trying.path("crates", "gate_cases", "data", f"{name}.sdf") for name in REFUSED_IN_TURN]
        last = self.is_well("tools/refusals", trying.program(), *files).splitlines()[-1]
        calls, wrong = re.fullmatch(r"(\d+) calls refused or failed, (\d+) of the runs ended wrongly", last).groups()
        self.assertEqual(int(wrong), 0)
        self.assertGreaterEqual(int(calls), 100 * len(REFUSED_IN_TURN))

    @trying.needs("cc", "gcc")
    def test_refusals_fail_where_nothing_is_refused(self):
        with tempfile.TemporaryDirectory() as folder:
            program = os.path.join(folder, "unloaded")
            with open(program, "w", encoding="ascii") as file:
                file.write(f"#!/bin/sh\nunset LD_PRELOAD\nexec '{trying.program()}' \"$@\"\n")
            os.chmod(program, 0o755)
            alanine = trying.path("examples", "alanine.sdf")
            told = self.is_well("tools/refusals", program, alanine, status=script.DIFFERENT)
        self.assertIn(": no call is refused", told)

    def test_refused_and_unmirrored(self):
        given = trying.bytes_of("examples", "groups.sdf") + trying.bytes_of("examples", "alanine.sdf") + b"cut\n\n\n"
        with tempfile.TemporaryDirectory() as folder:
            paths = [os.path.join(folder, name) for name in ("given.sdf", "mirrored.sdf")]
            mirrored = trying.ran(trying.program(), "mirror", given=given)
            self.assertEqual(mirrored.returncode, 8)
            for path, text in zip(paths, (given, mirrored.stdout)):
                with open(path, "wb") as file:
                    file.write(text)
            told = self.is_well("tools/unmirrored", *paths, status=script.DIFFERENT)
        self.assertEqual(re.findall(r"^record (\d+)", told, re.MULTILINE), ["1", "2", "4"])
        done = trying.script_ran("tools/refused", given=mirrored.stdout)
        self.assertEqual(re.findall(rb"^record (\d+)", done.stdout, re.MULTILINE), [b"4"])

    def test_hostile(self):
        told = self.is_well("tools/hostile", trying.program(), trying.path("examples", "alanine.sdf"))
        self.assertIn(" runs, 0 failed", told)

    def test_times(self):
        told = self.is_well("bench/times", "--program", trying.program(), "--times", "1", COMPOUNDS)
        self.assertIn("made records: 20000 records", told)

    @needs_module("rdkit", "python3-rdkit")
    def test_what_growth_draws(self):
        done = trying.ran(DEBIAN, "-c", SHAPES, cwd=trying.path("bench"))
        self.assertEqual(done.returncode, 0, done.stderr.decode())
        written = trying.ran(trying.program(), "annotate", given=done.stdout)
        self.assertEqual((written.returncode, written.stdout.count(b"> <CIP_LABELS>")), (0, 5))

    def test_symmetric_records(self):
        records = self.is_well("bench/symmetric", "--records", "60").encode()
        written = trying.ran(trying.program(), "annotate", given=records)
        self.assertEqual(written.stdout.count(b"> <CIP_LABELS>"), 60)

    def test_fused(self):
        with tempfile.TemporaryDirectory() as folder:
            self.is_well("bench/fused", "--program", "", "--folder", folder)
            self.assertNotEqual(os.listdir(folder), [])

    @needs_module("rdkit", "python3-rdkit")
    def test_beside_rdkit(self):
        self.assertIn(" different 0,", self.is_well("tools/compare-rdkit", trying.program(), COMPOUNDS))

    @needs_module("rdkit", "python3-rdkit")
    def test_groups_beside_rdkit(self):
        self.is_well("tools/compare-groups", trying.program(), COMPOUNDS)

    @needs_module("rdkit", "python3-rdkit")
    @trying.needs("obabel", "openbabel")
    def test_read_back(self):
        self.assertEqual(self.is_well("tools/read-back", trying.program(), COMPOUNDS).count(" 0 read otherwise"), 2)

    @trying.needs("chromium")
    def test_page_in_chromium(self):
        with tempfile.TemporaryDirectory() as folder:
            labelled = os.path.join(folder, "labelled.sdf")
            with open(labelled, "wb") as file:
                file.write(trying.annotated(trying.bytes_of("examples", "compounds.sdf")))
            self.is_well("tools/check-page", labelled)
