"""Cahn-Ingold-Prelog labels of molecules, by the proved library `libcip`.

    import cip

    labeller = cip.Labeller()
    for label in labeller.labels(record):
        print(label.unit, label.letter, label.rule, label.sphere, label.order)

A record is the text of one molfile (V2000 or V3000), or one record of an SDfile, as str or bytes; atoms count from 1
in its order. `records` gives the records of a file one by one. The labels are those of the program `cip`, byte for
byte. `page` makes a page that a notebook shows, and `cip.rdkit.assign` labels a molecule of RDKit.

The library is the file that the environment's CIP_LIBRARY names, or else `libcip.so.1` beside this file, in a `lib`
above it, or where the system looks for libraries. Nothing else is needed but Python 3.8 or later, and RDKit for
`cip.rdkit`. A labeller may be used from any thread, by one at a time; threads that are to label at once have a labeller
each.
"""
import ctypes
import html
import operator
import os
import re
import threading
import weakref
from dataclasses import dataclass
from typing import Any, BinaryIO, Callable, Iterable, Iterator, List, Optional, SupportsIndex, Tuple, Union, overload

from cip.notebook import Page, page

__all__ = ["NODES", "RULE_1B", "Error", "Label", "Labeller", "Labels", "NoMemory", "Page", "Refused", "Undefined",
           "library_version", "page", "records"]
__version__ = "15"

Record = Union[str, bytes, bytearray, memoryview]

NODES = 100_000
RULE_1B = 2018

_NAME = "libcip.so.1"
_NO_MEMORY, _NULL_POINTER, _NOT_MADE, _BOUND_OUTSIDE, _WORDING_UNKNOWN, _RECORD_TOO_LONG = range(-1, -7, -1)
_ROOM = 1 << 16
_KINDS = {"a": "centre", "b": "bond", "x": "allene"}
_MOST_NODES = 1_000_000
_LONGEST = 16 << 20
_PIECE = 1 << 20
_TERMINATOR = re.compile(rb"^\$\$\$\$ *\r?\n", re.MULTILINE)
_SETTINGS = re.compile(r"cip 2 rule1b (2013|2018) nodes \d+")


class Error(Exception):
    """Why a record has no labels, or a labeller can't be made or used."""


class NoMemory(Error, MemoryError):
    """Memory was refused; a later call may succeed."""


class Refused(Error):
    """A record that isn't a molfile that is read: at its line `line`, counted from 1, for `cause`, as `Short`."""

    def __init__(self, line: int, cause: str):
        super().__init__(line, cause)
        self.line, self.cause = line, cause

    def __str__(self) -> str:
        return f"line {self.line}: {self.cause}"


@dataclass(frozen=True)
class Label:
    """The label of a stereogenic unit, and what it rests on."""

    unit: str
    """`a1` for the centre at atom 1, `b2-3` for the double bond of atoms 2 and 3, `x1-3` for the axis of 1 and 3."""
    letter: str
    """R, S, Z, E, M, P; r, s, m, p, seqCis, seqTrans where Rule 5 turned round would give the opposite."""
    rule: str
    """The sequence rule that was needed last: 1a, 1b, 2, 3, 4a, 4b, 4c or 5."""
    sphere: int
    """The sphere in which that rule decided."""
    order: Tuple[Tuple[str, ...], ...]
    """The ligands of each end, highest first: atoms by number, `H` for a hydrogen not drawn, `:` for a lone pair."""

    @property
    def atoms(self) -> Tuple[int, ...]:
        """The atoms of the unit, from 1: one of a centre, two of a double bond or an axis."""
        return _atoms(self.unit)


@dataclass(frozen=True)
class Undefined:
    """A stereogenic unit of which the drawing shows no sense, for want of a mark or by one that says either."""

    unit: str
    """Its name, as that of a label."""
    state: str
    """`open`: its ligands all differ, so that it has a label once its sense is drawn; `dependent`: two of them tie, and
    other undefined units might tell them apart; `tie`: two of them tie; `over`: a digraph is larger than the bound."""
    rule: Optional[str] = None
    """The sequence rule that was needed last, of an open unit."""
    sphere: Optional[int] = None
    """The sphere in which that rule decided, of an open unit."""
    order: Tuple[Tuple[str, ...], ...] = ()
    """The ligands of each end of an open unit, highest first, as those of a label."""

    @property
    def kind(self) -> str:
        """`centre`, `bond` (a double bond) or `allene`."""
        return _KINDS[self.unit[0]]

    @property
    def atoms(self) -> Tuple[int, ...]:
        """The atoms of the unit, from 1: one of a centre, two of a double bond or an allene."""
        return _atoms(self.unit)


class Labels(List[Label]):
    """The labels of a record, in the order of its item."""

    settings: str = ""
    """The first line of the item: what the labels rest on."""
    over: Tuple[str, ...] = ()
    """Units without a label, since a digraph of theirs is larger than the bound on nodes."""

    @overload
    def __getitem__(self, place: SupportsIndex) -> Label: ...

    @overload
    def __getitem__(self, place: slice) -> "Labels": ...

    def __getitem__(self, place: Union[SupportsIndex, slice]) -> Union[Label, "Labels"]:
        """A label, or some of them with what is told of the record."""
        if not isinstance(place, slice):
            return super().__getitem__(place)
        part = Labels(super().__getitem__(place))
        part.settings, part.over = self.settings, self.over
        return part

    def _repr_html_(self) -> str:
        """A table, as notebooks show it."""
        rows = [(label.unit, label.letter, label.rule, str(label.sphere), " | ".join(map(" ".join, label.order)))
                for label in self]
        rows += [(unit, "over", "", "", "") for unit in self.over]
        lines = [_row("th", ("unit", "letter", "rule", "sphere", "ligands")), *(_row("td", row) for row in rows)]
        return f"<table><caption>{html.escape(self.settings)}</caption>{''.join(lines)}</table>"


class Labeller:
    """Memory in which records are labelled, one after the other.

    `nodes` bounds each digraph (1 to 1,000,000), and `rule_1b` is the year of the wording of Rule 1b: 2013 as printed,
    2018 as corrected. `close` gives the memory back; so do `with`, and the end of the labeller.
    """

    def __init__(self, nodes: int = NODES, rule_1b: int = RULE_1B):
        bound, year = _whole("nodes", nodes), _whole("rule_1b", rule_1b)
        if not 1 <= bound <= _MOST_NODES:
            raise ValueError("nodes: 1 to 1,000,000")
        if year not in (2013, 2018):
            raise ValueError("rule_1b: 2013 or 2018")
        self._lock = threading.Lock()
        self._library = _loaded()
        self._held = (ctypes.c_uint64 * 2)()
        self._text = ctypes.create_string_buffer(_ROOM)
        _checked(self._library.cip_make(self._held, bound, year))
        self._end = weakref.finalize(self, self._library.cip_release, self._held)
        # at the end of the process a thread may still be in a call, and the memory goes anyway
        self._end.atexit = False

    @overload
    def annotate(self, record: str) -> str: ...

    @overload
    def annotate(self, record: Union[bytes, bytearray, memoryview]) -> bytes: ...

    def annotate(self, record: Record) -> Union[str, bytes]:
        """The record with its data item CIP_LABELS, which takes the place of items of that name; str for str."""
        text = self._written(self._library.cip_annotate, record)
        return text.decode() if isinstance(record, str) else text

    def labels(self, record: Record) -> Labels:
        """The labels of a record; `Refused` where it isn't one that is read."""
        return _labels(self._written(self._library.cip_values, record).decode())

    def values(self, record: Record) -> List[str]:
        """The value lines of the record's item, as they stand in it."""
        return self._written(self._library.cip_values, record).decode().splitlines()

    def explain(self, record: Record, number: int = 1) -> str:
        """A line `record NUMBER`, and a line for every unit: its label, or why it has none."""
        counted = _whole("number", number)
        if not 0 <= counted < 1 << 64:
            raise ValueError("number: 0 to 2^64 - 1")
        return self._written(self._library.cip_explain, record, counted).decode()

    def undefined(self, record: Record) -> List[Undefined]:
        """The units of which a record's drawing shows no sense; `Refused` where it isn't one that is read."""
        return _undefined(self._undefined_text(record))

    # The lines of undefined units as the library writes them.
    def _undefined_text(self, record: Record) -> str:
        return self._written(self._library.cip_undefined, record).decode()

    def close(self) -> None:
        """Gives the memory back; a later call raises `Error`."""
        with self._lock:
            self._end()

    def __enter__(self) -> "Labeller":
        return self

    def __exit__(self, *_: object) -> None:
        self.close()

    # A call's text, with more room where it doesn't fit.
    def _written(self, call: Callable[..., int], record: Record, *number: int) -> bytes:
        given = _one_record(record)
        with self._lock:
            length = _checked(call(self._held, *number, given, len(given), self._text, len(self._text)))
            while length > len(self._text):
                self._text = ctypes.create_string_buffer(length)
                length = _checked(call(self._held, *number, given, len(given), self._text, len(self._text)))
            return ctypes.string_at(self._text, length)


def records(file: Union[BinaryIO, str, "os.PathLike[str]"]) -> Iterator[bytes]:
    """The records of an SDfile, by its path or open for bytes, one by one, each with its line `$$$$` where it has one.

    Blank lines behind the last one are no record. `Error` where a record is longer than 16 MiB.
    """
    if not isinstance(file, (str, os.PathLike)):
        yield from _records(file)
        return
    with open(file, "rb") as opened:
        yield from _records(opened)


def _records(file: BinaryIO) -> Iterator[bytes]:
    rest, searched = b"", 0
    while True:
        piece = file.read(_PIECE)
        if isinstance(piece, str):
            raise TypeError('the file is open for text: open(path, "rb")')
        if not piece:
            break
        rest += piece
        done = 0
        for found in _TERMINATOR.finditer(rest, searched):
            yield rest[done:found.end()]
            done = found.end()
        rest = rest[done:]
        if len(rest) > _LONGEST:
            raise Error("a record is longer than 16 MiB")
        # a terminator line may begin with the open line
        searched = rest.rfind(b"\n") + 1
    if rest.strip(b" \t\r\n"):
        yield rest


def library_version() -> str:
    """The version of the library; that of this module is `__version__`."""
    return str(_loaded().cip_version())


# A record as bytes, of which there is one.
def _one_record(record: Record) -> bytes:
    if isinstance(record, str):
        if "\n" not in record and os.path.exists(record):
            raise Error("the record is the name of a file: cip.records(path) gives its records one by one")
        given = record.encode()
    elif isinstance(record, (bytes, bytearray, memoryview)):
        given = bytes(record)
    else:
        raise TypeError(f"a record is str or bytes, not {type(record).__name__}; of an RDKit molecule it is "
                        "Chem.MolToMolBlock(molecule)")
    first = given.find(b"$$$$")
    if first >= 0 and given[first + 4:].strip(b" \r\n"):
        found = _TERMINATOR.search(given)
        if found and given[found.end():].strip(b" \t\r\n"):
            raise Error("the text has several records: cip.records(path) gives those of a file one by one")
    return given


# A whole number that a setting is given.
def _whole(name: str, value: object) -> int:
    try:
        return operator.index(value)  # type: ignore[arg-type]
    except TypeError:
        raise TypeError(f"{name}: an int, not {type(value).__name__}") from None


# A row of a table for a browser.
def _row(kind: str, texts: Iterable[str]) -> str:
    return "<tr>" + "".join(f"<{kind}>{html.escape(text)}</{kind}>" for text in texts) + "</tr>"


# The labels that value lines tell.
def _labels(text: str) -> Labels:
    found, over = Labels(), []
    found.settings, *lines = text.splitlines()
    if not _SETTINGS.fullmatch(found.settings):
        raise Error(f"libcip writes items of another version than this module reads: {found.settings!r}")
    for words in _words(lines):
        if words[1:] == ["over"]:
            over.append(words[0])
        elif words != ["none"]:
            unit, letter, rule, sphere, _, *order = words
            found.append(Label(unit, letter, rule, int(sphere), _ends(order)))
    found.over = tuple(over)
    return found


# The undefined units that lines tell.
def _undefined(text: str) -> List[Undefined]:
    found = []
    for unit, state, *words in _words(text.splitlines()):
        if state == "open":
            rule, sphere, _, *order = words
            found.append(Undefined(unit, state, rule, int(sphere), _ends(order)))
        else:
            found.append(Undefined(unit, state))
    return found


# The words of lines, none of which refuses the record.
def _words(lines: List[str]) -> Iterator[List[str]]:
    for line in lines:
        words = line.split(" ")
        if words[0] == "refused":
            raise Refused(int(words[1]), words[2])
        yield words


# The ligands of each end.
def _ends(order: List[str]) -> Tuple[Tuple[str, ...], ...]:
    return tuple(tuple(end.split(" ")) for end in " ".join(order).split(" | "))


def _atoms(unit: str) -> Tuple[int, ...]:
    return tuple(int(number) for number in unit[1:].split("-"))


def _checked(answer: int) -> int:
    if answer >= 0:
        return answer
    if answer == _NO_MEMORY:
        raise NoMemory("memory was refused")
    if answer == _BOUND_OUTSIDE:
        raise ValueError("nodes: 1 to 1,000,000")
    if answer == _WORDING_UNKNOWN:
        raise ValueError("rule_1b: 2013 or 2018")
    if answer == _RECORD_TOO_LONG:
        raise Error("the record has 2^31 bytes or more")
    raise Error("the labeller was closed" if answer == _NOT_MADE else f"libcip answered {answer}")


_library: Optional[ctypes.CDLL] = None
_loading = threading.Lock()


def _loaded() -> ctypes.CDLL:
    global _library
    with _loading:
        if _library is None:
            _library = _with_types(_opened(_path()))
        return _library


def _opened(path: str) -> ctypes.CDLL:
    try:
        return ctypes.CDLL(path)
    except OSError as fault:
        raise Error(f"{_NAME} can't be loaded ({fault}): `tools/build library` and `tools/install` of cip's "
                    "repository make and put it; where it stands elsewhere, CIP_LIBRARY names the file") from None


# Where the library is.
def _path() -> str:
    named = os.environ.get("CIP_LIBRARY")
    if named:
        return named
    folder = os.path.dirname(os.path.abspath(__file__))
    while True:
        for path in (os.path.join(folder, _NAME), os.path.join(folder, "lib", _NAME)):
            if os.path.exists(path):
                return path
        if folder == os.path.dirname(folder):
            return _NAME
        folder = os.path.dirname(folder)


def _with_types(library: ctypes.CDLL) -> ctypes.CDLL:
    texts: List[Any] = [ctypes.c_char_p, ctypes.c_size_t, ctypes.c_char_p, ctypes.c_size_t]
    if not hasattr(library, "cip_version"):
        raise Error(f"the library isn't libcip of this module's version, {__version__}")
    library.cip_version.argtypes, library.cip_version.restype = [], ctypes.c_uint32
    library.cip_labeller_size.argtypes, library.cip_labeller_size.restype = [], ctypes.c_size_t
    if library.cip_labeller_size() != ctypes.sizeof(ctypes.c_uint64 * 2):
        raise Error("the library has labellers of another size than this module")
    calls: List[Tuple[Any, List[Any]]] = [
        (library.cip_make, [ctypes.c_uint32, ctypes.c_uint32]),
        (library.cip_release, []),
        (library.cip_annotate, texts),
        (library.cip_values, texts),
        (library.cip_undefined, texts),
        (library.cip_explain, [ctypes.c_uint64, *texts]),
    ]
    for call, words in calls:
        call.argtypes, call.restype = [ctypes.c_void_p, *words], ctypes.c_int64
    return library
