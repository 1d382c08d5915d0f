"""tools/undefined over a library that answers as a record's name says."""
import os
import subprocess
import sys
import tempfile
import unittest

import trying

STUB = r"""
#include <cip.h>
#include <string.h>

static const char open_one[] = "a2 open 1a 2 order 3 4 1 H\na4 tie\n", dependent[] = "b2-3 dependent\n";
static const char refused[] = "refused 12 BondType\n";

size_t cip_labeller_size(void) { return sizeof(cip_labeller); }
uint32_t cip_version(void) { return CIP_VERSION; }
int64_t cip_make(cip_labeller *labeller, uint32_t nodes, uint32_t year) {
    return !labeller ? -2 : nodes && nodes <= CIP_MOST_NODES ? (year == 2013 || year == 2018 ? 0 : -5) : -4;
}
int64_t cip_release(cip_labeller *labeller) { return labeller ? 0 : -2; }
int64_t cip_annotate(cip_labeller *labeller, const uint8_t *record, size_t length, uint8_t *text, size_t room) {
    return labeller && record && text ? (int64_t)(length - room) : -2;
}
int64_t cip_values(cip_labeller *labeller, const uint8_t *record, size_t length, uint8_t *text, size_t room) {
    return labeller && record && text ? (int64_t)(length - room) : -2;
}
int64_t cip_explain(cip_labeller *labeller, uint64_t number, const uint8_t *record, size_t length, uint8_t *text,
                    size_t room) {
    return labeller && record && text ? (int64_t)(number + length - room) : -2;
}
static int64_t told(const char *told, uint8_t *text, size_t room) {
    memcpy(text, told, strlen(told) < room ? strlen(told) : room);
    return (int64_t)strlen(told);
}
int64_t cip_undefined(cip_labeller *labeller, const uint8_t *record, size_t length, uint8_t *text, size_t room) {
    if (!labeller || length == 0) return -2;
    const char *line = record[0] == 'o' ? open_one : record[0] == 'd' ? dependent : record[0] == 'r' ? refused : "";
    return told(line, text, room);
}
"""
RECORD = "%s\n\n\n  0  0  0  0  0  0            999 V2000\nM  END\n$$$$\n"


def has_undefined():
    """Whether the module for Python has the call."""
    return "def undefined(" in trying.text_of("python", "cip", "__init__.py")


@trying.needs("gcc")
@unittest.skipUnless(has_undefined(), "the module for Python has no undefined units")
class Undefined(unittest.TestCase):
    @classmethod
    def setUpClass(cls):
        room = tempfile.TemporaryDirectory()
        cls.addClassCleanup(room.cleanup)
        cls.room = room.name
        source, library = (os.path.join(cls.room, name) for name in ("stub.c", "libcip.so.1"))
        with open(source, "w", encoding="ascii") as file:
            file.write(STUB)
        words = ["-D", "CIP_MOST_NODES=1000000", "-I", trying.path("include")]
        subprocess.run(["gcc", "-shared", "-fPIC", *words, "-o", library, source], check=True)
        cls.environment = {**os.environ, "CIP_LIBRARY": library}

    def ran(self, names, *words):
        path = os.path.join(self.room, "mine.sdf")
        with open(path, "w", encoding="ascii") as file:
            file.write("".join(RECORD % name for name in names))
        return trying.ran(sys.executable, trying.path("tools", "undefined"), *words, path, env=self.environment)

    def test_each_record_has_its_units(self):
        done = self.ran(["plain", "open", "refused", "dependent"])
        self.assertEqual(done.returncode, 1, done.stderr.decode())
        self.assertEqual(done.stdout.decode().splitlines(), [
            "record 1", "record 2", "a2 open 1a 2 order 3 4 1 H", "a4 tie", "record 3", "refused 12 BondType",
            "record 4", "b2-3 dependent"])
        self.assertEqual(done.stderr, b"undefined: open 1, dependent 1, tie 1, over 0, refused 1\n")

    def test_open_units_alone(self):
        done = self.ran(["plain", "open", "refused"], "--open")
        self.assertEqual(done.stdout, b"record 2\na2 open 1a 2 order 3 4 1 H\n")

    def test_nothing_open_is_status_0(self):
        self.assertEqual(self.ran(["plain", "refused"]).returncode, 0)

    def test_another_bound_is_refused(self):
        self.assertEqual(self.ran(["plain"], "--nodes", "0").returncode, 2)

    def test_without_the_library_it_says_so(self):
        done = trying.script_ran("tools/undefined", trying.path("examples", "menthol.sdf"),
                                 env={**os.environ, "CIP_LIBRARY": os.path.join(self.room, "none.so")})
        self.assertEqual((done.returncode, done.stdout), (3, b""))
        self.assertIn(b"can't be loaded", done.stderr)
