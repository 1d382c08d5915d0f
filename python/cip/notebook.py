"""The page of `cip-page` for a cell of a notebook."""
from __future__ import annotations

import html
import io
import os
import subprocess
import sys
import tempfile
from typing import Iterable, Optional, Union

import cip

_HERE = os.path.dirname(os.path.abspath(__file__))
_POINTS_HIGH = 720


class Page(str):
    """A page as text, which a notebook shows in a frame."""

    __slots__ = ()

    def __repr__(self) -> str:
        return f"<cip.Page of {len(self):,} characters>"

    def _repr_html_(self) -> str:
        return (f'<iframe srcdoc="{html.escape(self)}" sandbox="allow-scripts allow-downloads" '
                f'width="100%" height="{_POINTS_HIGH}" style="border: 0"></iframe>')


def page(records: Union[cip.Record, Iterable[cip.Record]], title: str = "Labels",
         labeller: Optional[cip.Labeller] = None) -> Page:
    """The page of records: each drawn, with its labels, and why other units have none.

    `records` is the text of some records, or records one by one, as `cip.records` gives them. The page is one of HTML
    that loads nothing. A notebook shows it; `open("page.html", "w", encoding="utf-8").write(page)` keeps it.
    """
    script = _script()
    with tempfile.TemporaryDirectory() as room:
        paths = {name: os.path.join(room, name) for name in ("labelled", "explain", "undefined")}
        _write(_each(records), labeller or cip.Labeller(), paths)
        words = [f"--title={title}", "--explain", paths["explain"], "--undefined", paths["undefined"]]
        with open(paths["labelled"], "rb") as labelled:
            done = subprocess.run([sys.executable, script, *words], stdin=labelled, stdout=subprocess.PIPE,
                                  stderr=subprocess.PIPE, check=False)
    if done.returncode:
        raise cip.Error(done.stderr.decode(errors="replace").strip())
    return Page(done.stdout.decode())


# The script that makes pages: beside this file in a wheel, else that of the repository or of an installed program.
def _script() -> str:
    places = [os.path.join(_HERE, "tools"), os.path.join(_HERE, os.pardir, os.pardir, "tools")]
    folder = _HERE
    while folder != os.path.dirname(folder):
        folder = os.path.dirname(folder)
        places.append(os.path.join(folder, "share", "cip", "tools"))
    for place in places:
        if os.path.isfile(os.path.join(place, "page")):
            return os.path.join(place, "page")
    raise cip.Error("cip-page isn't beside this module: `tools/package --wheel` of cip's repository packs both")


# The records that a caller gives. What is none of them, as the name of a file, gets its fault from the labeller.
def _each(records: Union[cip.Record, Iterable[cip.Record]]) -> Iterable[cip.Record]:
    if isinstance(records, str) and "\n" in records:
        records = records.encode()
    if isinstance(records, (bytes, bytearray, memoryview)):
        return cip.records(io.BytesIO(records))
    return [records] if isinstance(records, str) else records


# Writes what the page is made of: the labelled records, why units have no label, and those that are undefined.
def _write(records: Iterable[cip.Record], labeller: cip.Labeller, paths: dict[str, str]) -> None:
    with open(paths["labelled"], "wb") as labelled, open(paths["explain"], "w", encoding="utf-8") as explained, \
            open(paths["undefined"], "w", encoding="utf-8") as undefined:
        for number, record in enumerate(records, 1):
            text = labeller.annotate(record)
            labelled.write(_closed(text.encode() if isinstance(text, str) else text))
            explained.write(labeller.explain(record, number))
            undefined.write(f"record {number}\n{labeller._undefined_text(record)}")


# A record with its terminator line.
def _closed(record: bytes) -> bytes:
    ended = record if record.endswith(b"\n") else record + b"\n"
    last_line = ended[ended.rfind(b"\n", 0, -1) + 1:]
    return ended if last_line.rstrip(b" \r\n") == b"$$$$" else ended + b"$$$$\n"
