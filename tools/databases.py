"""Tables of labels in a database of SQLite: `records` and `labels`, whose columns are those of the table."""
import contextlib
import os
import sqlite3

import sdf
import tables


def quoted(name):
    """A name of SQL."""
    return '"' + name.replace('"', '""') + '"'


def made(name, columns):
    """The statement that makes a table."""
    typed = (f"{quoted(column)} {'INTEGER' if column in tables.NUMBERS else 'TEXT'}" for column in columns)
    return f"CREATE TABLE {name}({', '.join(typed)})"


class Database:
    """Both tables, which are made anew in one transaction: a reader sees those of before, or all of the new ones."""

    def __init__(self, path, wanted):
        self.connection = sqlite3.connect(path, isolation_level=None)
        self.columns = {"records": ("record", "name", *wanted.fields), "labels": wanted.columns()}
        self.connection.execute("BEGIN IMMEDIATE")
        for name, columns in self.columns.items():
            self.connection.execute(f"DROP TABLE IF EXISTS {name}")
            self.connection.execute(made(name, columns))

    def write(self, part):
        """Writes what was made of a part."""
        for name, rows in (("records", part.records), ("labels", part.lines)):
            places = ", ".join("?" * len(self.columns[name]))
            self.connection.executemany(f"INSERT INTO {name} VALUES ({places})", rows)

    def end(self):
        """Indexes the tables by number and name, and makes them what readers see."""
        for name in self.columns:
            self.connection.execute(f"CREATE INDEX {name}_by_record ON {name}(record)")
            self.connection.execute(f"CREATE INDEX {name}_by_name ON {name}(name)")
        self.connection.execute("COMMIT")


@contextlib.contextmanager
def opened(path, wanted):
    """A database that is written to; if anything fails it is as it was."""
    was_there = os.path.exists(path)
    try:
        database = Database(path, wanted)
        with contextlib.closing(database.connection):
            yield database
            was_there = True
    except sqlite3.Error as fault:
        raise sdf.Fault(f"{path}: {fault}") from None
    finally:
        if not was_there and os.path.exists(path):
            os.remove(path)
