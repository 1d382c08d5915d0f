"""Tables of labels: their rows, and the forms in which they are written."""
import json
import re

import sdf

COLUMNS = ("record", "name", "unit", "kind", "letter", "rule", "sphere", "ligands", "cause", "line")
NUMBERS = ("record", "sphere", "line")
# what a line of tab-separated values can't hold, and no reader takes as it is
BREAKS = re.compile(r"[\0\t\n\r\v\f\x1c-\x1e\x85\u2028\u2029]+")
# where a reader of CSV ends a cell or a row if the cell isn't quoted
ENDS = re.compile(r'[",\n\r\v\f\x1c-\x1e\x85\u2028\u2029]')


def label_rows(answer):
    """What the label item of a record tells, a row a unit."""
    if answer.refused:
        line, cause = answer.refused
        yield {"cause": cause, "line": line}
    for label in answer.labels:
        yield {"unit": label.unit, "kind": sdf.KINDS[label.unit[0]], "letter": label.letter, "rule": label.rule,
               "sphere": label.sphere, "ligands": label.order}
    for unit in answer.over:
        yield {"unit": unit, "kind": sdf.KINDS[unit[0]], "cause": "over"}


def plain(value):
    """A value as a cell of text."""
    return sdf.order_text(value) if isinstance(value, list) else "" if value is None else str(value)


def with_tabs(row):
    """A row with tabs between its cells; what would break it in a value is a space."""
    return "\t".join(BREAKS.sub(" ", plain(value)) for value in row.values()) + "\n"


def with_commas(row):
    """A row as CSV (RFC 4180), with an LF line end; a zero byte, which few readers take, is a space."""
    return ",".join(quoted(plain(value).replace("\0", " ")) for value in row.values()) + "\n"


def quoted(text):
    """A cell of CSV, in quotes if any reader would end it early."""
    return '"' + text.replace('"', '""') + '"' if ENDS.search(text) else text


def as_object(row):
    """A row as JSON; ligands are a list for each end, and what isn't there is null."""
    return json.dumps(row, ensure_ascii=False) + "\n"


LINES = {"tabs": with_tabs, "csv": with_commas, "json": as_object}


def head_of(form, columns):
    """The first line of a table."""
    return "" if form == "json" else LINES[form](dict(zip(columns, columns)))


class Table:
    """A table that is written to an open file, row by row."""

    def __init__(self, out, form, columns):
        self.out, self.line_of = out, LINES[form]
        out.write(head_of(form, columns))

    def write(self, row):
        self.out.write(self.line_of(row))


def add_forms(parser):
    """The options of a script that writes a table; the group in which one is given at most."""
    forms = parser.add_mutually_exclusive_group()
    forms.add_argument("--csv", dest="form", action="store_const", const="csv", default="tabs", help="CSV")
    forms.add_argument("--json", dest="form", action="store_const", const="json", help="JSON, an object a line")
    return forms


def written_to(descriptor):
    """An open file, for text that other programs left."""
    return open(descriptor, "w", encoding="utf-8", errors="backslashreplace", newline="", closefd=False)


def opened(descriptor, form, columns):
    """A table that is written to an open file, and that file."""
    out = written_to(descriptor)
    return Table(out, form, columns), out
