"""Rows of records that `cip annotate` wrote, with another program's letters beside them if they are asked for."""
from collections import Counter
from typing import NamedTuple, Optional

import letters
import sdf
import tables

COMPARED = ("other", "compared")
FOUND = ("same", "different", "cip alone", "item alone", "unread")
# the records that a comparison counts
WITHOUT, WITH = "records without the item", "records with the item"


class Wanted(NamedTuple):
    """What rows are made of: the form, the items that are columns, and the item that is compared, or none."""

    form: str
    fields: tuple
    compare: Optional[str]

    def columns(self):
        return (*tables.COLUMNS, *self.fields, *(COMPARED if self.compare else ()))


class Made(NamedTuple):
    """What was made of a part: a text or rows of values, a row for each record, counts, and a fault that ended it."""

    lines: list
    records: list
    counts: Counter
    fault: Optional[str]


def made_of(part, wanted):
    """The rows of a part in the form that is wanted; if a record has a fault, those of the records before it."""
    made, columns, (first, records) = Made([], [], Counter(), None), wanted.columns(), part
    as_written = tables.LINES.get(wanted.form, cells)
    for number, record in enumerate(records, first):
        try:
            rows, head = rows_of(record, number, wanted, made.counts)
        except sdf.Fault as fault:
            return made._replace(fault=str(fault))
        made.records.append(tuple(head.values()))
        made.lines.extend(as_written({column: {**head, **row}.get(column) for column in columns}) for row in rows)
    return made


def cells(row):
    """A row as a database takes it."""
    return tuple(tables.plain(value) if isinstance(value, list) else value for value in row.values())


def rows_of(record, number, wanted, counts):
    """The rows of a record, compared if an item is named for that, and what is the same in all of them."""
    answer = sdf.answer(record, number)
    if answer is None:
        raise sdf.Fault(f"record {number} has no item CIP_LABELS: cip annotate < FILE | cip-table > labels.tsv")
    counts.update(sdf.counts_of(answer))
    head = {"record": number, "name": sdf.name(record)}
    for name in wanted.fields:
        head[name] = sdf.value(record, name)
        counts["field", name] += head[name] is not None
    rows = list(tables.label_rows(answer))
    if wanted.compare:
        rows = compared(record, answer, rows, wanted.compare, counts)
    return rows, head


def compared(record, answer, rows, name, counts):
    """The rows of a record beside the letters in an item of it; what is found is counted."""
    other = sdf.value(record, name)
    counts[WITHOUT if other is None else WITH] += 1
    if other is None or answer.refused:
        return rows
    try:
        rows = list(compared_rows(rows, letters.letters_of(name, other)))
    except letters.Unread:
        rows = [*rows, {"other": other, "compared": "unread"}]
    counts.update(row["compared"] for row in rows if "compared" in row)
    return rows


def compared_rows(rows, theirs):
    """Rows with another program's letter beside each, and a row more for each unit that it alone has."""
    left = dict(theirs)
    names_pairs = any(len(atoms) > 1 for atoms in theirs)
    for row in rows:
        atoms = tuple(sorted(sdf.atoms_of(row["unit"])))
        if len(atoms) == 1 or names_pairs:
            row.update(beside(row.get("letter", ""), left.pop(atoms, "")))
        yield row
    for atoms, letter in sorted(left.items()):
        yield {"unit": unit_of(atoms, letter), **beside("", letter)}


def beside(ours, other):
    """Both letters of a unit as the columns of a comparison."""
    if not ours and not other:
        return {}
    alone = "cip alone" if ours else "item alone"
    return {"other": other, "compared": alone if not (ours and other) else "same" if ours == other else "different"}


def unit_of(atoms, letter):
    """The name of a unit that another program labels; a letter of double bonds tells these from axes."""
    kind = "a" if len(atoms) == 1 else "b" if letter in ("Z", "E", "seqCis", "seqTrans") else "x"
    return kind + "-".join(map(str, atoms))
