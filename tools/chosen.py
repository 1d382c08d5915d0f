"""Which records a page shows, and what a comparison of `cip-table --compare` found of them."""
import csv
import json

import rows
import sdf

COLUMNS = ("record", "unit", *rows.COMPARED)
DIFFERENT = rows.FOUND[1:]
KINDS = ("refused", "undefined", "different")
STATES = ("open", "dependent")


def differences_in(path):
    """What isn't the same in a table of tabs, CSV or JSON: by record, units with the other letter and what was found."""
    found = {}
    with open(path, encoding="utf-8", errors="replace", newline="") as file:
        try:
            for row in rows_in(file):
                if row["compared"] in DIFFERENT:
                    found.setdefault(number_of(row["record"]), []).append(difference_of(row))
        except (KeyError, TypeError, ValueError, RecursionError, csv.Error):
            raise sdf.Fault(f"{path}: not a table that cip-table --compare wrote") from None
    return found


def rows_in(file):
    """The rows of a table with the columns of a comparison."""
    head = file.readline()
    file.seek(0)
    if head.startswith("{"):
        for line in file:
            yield {column: json.loads(line)[column] for column in COLUMNS}
    else:
        how = {"dialect": csv.excel_tab, "quoting": csv.QUOTE_NONE} if "\t" in head else {}
        table = csv.DictReader(file, **how)
        if head and not set(COLUMNS) <= set(table.fieldnames or ()):
            raise ValueError("no columns of a comparison")
        yield from table


def number_of(cell):
    if not sdf.is_number(str(cell)):
        raise ValueError("no number of a record")
    return int(cell)


def difference_of(row):
    """A unit, or nothing if the item isn't read; the other program's letter or item; what was found."""
    unit, other = row["unit"] or "", row["other"] or ""
    if unit and not sdf.is_unit(unit) or not isinstance(other, str):
        raise ValueError("no unit with a letter")
    return unit, other[:sdf.LONGEST], row["compared"]


def is_chosen(told, kinds):
    """Whether a record, as a page is told of it, is of one of these kinds; of none all are."""
    are = {"refused": "f" in told or "o" in told, "different": "c" in told,
           "undefined": any(unit[1] in STATES for unit in told.get("u", []))}
    return not kinds or any(are[kind] for kind in kinds)
