"""The function of SQL that gives a record's labels: as an extension of SQLite, and by the module for Python."""
import os
import re
import sqlite3
import sys
import unittest

import sdf
import trying

HEADER = "/usr/include/sqlite3ext.h"
REFUSED = b"cip 2 rule1b 2018 nodes 100000\nrefused 1 Short\n"


def values_of(record):
    """The value lines of the item that the program gives a record."""
    items = sdf.items(trying.annotated(record)) if record else ()
    return b"".join(line + b"\n" for item in items if item.name == sdf.LABEL_ITEM for line in item.values) or REFUSED


@trying.needs_library()
@trying.needs("cc", "gcc")
class Functions(unittest.TestCase):
    @classmethod
    def setUpClass(cls):
        cls.prefix = trying.installed_for(cls)
        sys.path.insert(0, trying.path("python"))
        with open(trying.path("examples", "compounds.sdf"), "rb") as file:
            cls.records = [*sdf.records(file), b"", b"cut\n"]

    @trying.needs("sqlite3")
    @unittest.skipUnless(os.path.exists(HEADER), "sqlite3ext.h isn't installed (Debian: libsqlite3-dev)")
    def test_that_of_sqlite_gives_the_program_s_values(self):
        made, lib = os.path.join(self.prefix, "cip_sqlite.so"), os.path.join(self.prefix, "lib")
        command = ["cc", "-Wall", "-Wextra", "-Werror", "-shared", "-fPIC", "-o", made,
                   trying.path("examples", "cip_sqlite.c"), "-I", os.path.join(self.prefix, "include"), "-L", lib, "-lcip",
                   f"-Wl,-rpath,{lib}"]
        done = trying.ran(*command)
        self.assertEqual(done.returncode, 0, done.stderr.decode())
        texts = [record.decode().replace("'", "''") for record in self.records]
        rows = [f"(x'{record.hex()}', '{text}')" for record, text in zip(self.records, texts)]
        wanted = b"".join(2 * values_of(record) + b"\n" for record in self.records) + b"1\n"
        for encoding in ("UTF-8", "UTF-16"):
            statements = (f"PRAGMA encoding = '{encoding}'", "CREATE TABLE molecules(bytes, text)",
                          f"INSERT INTO molecules VALUES {', '.join(rows)}",
                          "SELECT cip_labels(bytes) || cip_labels(text) FROM molecules", "SELECT cip_labels(NULL) IS NULL")
            given = f".load {made}\n{''.join(f'{statement};' for statement in statements)}\n"
            done = trying.ran("sqlite3", ":memory:", given=given.encode())
            with self.subTest(encoding):
                self.assertEqual((done.stdout, done.stderr), (wanted, b""))

    def test_that_of_the_module_gives_the_program_s_values(self):
        import cip

        page = trying.text_of("docs", "COLLECTIONS.md")
        block = re.search(r"^```python\n(labeller = cip.*?)^```", page, re.MULTILINE | re.DOTALL)
        names = {"cip": cip, "database": sqlite3.connect(":memory:")}
        exec(block[1], names)
        for record in self.records:
            told = names["database"].execute("SELECT cip_labels(?)", (record.decode(),)).fetchone()[0]
            self.assertEqual(told.encode() + b"\n", values_of(record))
