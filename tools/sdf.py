"""SDfiles as the bytes that they are: records, items, labels and drawings.

Source: CTfile Formats, SDfile and molfiles; the form of a label item is README's. A line ends in LF or CRLF, and a CR
that stands alone is content. A record ends behind its terminator line, `$$$$` with spaces at most behind it, or with
the input. Nothing here keeps more than a record and a piece of the input."""
import re
from typing import NamedTuple, Optional

LIMIT = 16 << 20
PIECE = 1 << 20
FARTHEST = 50_000
# how much of a strange line is shown
LONGEST = 200
LABEL_ITEM = b"CIP_LABELS"
LETTERS = ("R", "S", "r", "s", "Z", "E", "seqCis", "seqTrans", "M", "P", "m", "p")
# the sequence rules in their order, with what each prefers
RULES = {
    "1a": "higher atomic number",
    "1b": "duplicate nearer the root",
    "2": "higher mass number",
    "3": "Z before E",
    "4a": "R, S, M, P before r, s, m, p before none",
    "4b": "like before unlike",
    "4c": "r before s",
    "5": "R before S",
}
COUNTED = ("records", "labels", "refused", "over")
KINDS = {"a": "centre", "b": "double bond", "x": "allene", "c": "cumulene", "t": "biaryl axis"}
REFERENCE_MASSES = {"H": 1, "Li": 7, "B": 11, "C": 12, "N": 14, "O": 16, "F": 19, "Si": 28, "P": 31, "S": 32, "Cl": 35,
                    "Se": 79, "Br": 80, "I": 127}
V2000_CHARGES = (0, 3, 2, 1, 0, -1, -2, -3)
V2000_MARKS = {(1, 1): "up", (1, 4): "either", (1, 6): "down", (2, 3): "either"}
V3000_MARKS = {(1, 1): "up", (1, 2): "either", (1, 3): "down", (2, 2): "either"}

TERMINATOR = re.compile(rb"\$\$\$\$ *\r?\n")
MOLECULE_END = re.compile(rb"M  END *(?:\r?\n|\Z)")
ITEM_HEAD = re.compile(rb">[^<]*<([^>]*)>")
# how a packed file begins, and what unpacks it
PACKED = {b"\x1f\x8b": ("gzip", "zcat"), b"\xfd7zXZ": ("xz", "xzcat")}
# nothing counts more than the bytes of a record, and other digits than those of ASCII are none
NUMBER = r"(?:0|[1-9][0-9]{0,8})"
SETTING = re.compile(r"cip 2 rule1b (2013|2018) nodes [1-9][0-9]{0,8}")
UNIT = re.compile(rf"a({NUMBER})|[bxct]({NUMBER})-({NUMBER})")
LIGAND = re.compile(rf"{NUMBER}|[H:|]")
WORD = re.compile(r'(?:\([^)]*\)?|"[^"]*"?|[^ ])+')


class Fault(Exception):
    """In one line, why an input can't be used."""


class Item(NamedTuple):
    """A data item: its name, and the contents of its value lines."""

    name: bytes
    values: list


class Label(NamedTuple):
    """A label of a unit: letter, rule, sphere, and for each end the names of its ligands, highest first."""

    unit: str
    letter: str
    rule: str
    sphere: int
    order: list


class Answer(NamedTuple):
    """A label item: its line of settings, its labels, the units over the bound, and a refusal as line and cause."""

    setting: str
    labels: list
    over: list
    refused: Optional[tuple]


class Atom(NamedTuple):
    """An atom as it is drawn. Its valence mark is 0 where there is none, and 15 where it states the valence 0."""

    symbol: str
    place: tuple
    charge: int
    isotope: int
    radical: int
    valence: int


class Bond(NamedTuple):
    """A bond of two atoms, which count from 0: type, and mark (up, down, either or nothing) at the first of them."""

    first: int
    second: int
    order: int
    mark: str


class Drawing(NamedTuple):
    atoms: list
    bonds: list


def records(file):
    """The records of a stream, one after the other; blank lines behind the last one are none."""
    rest, searched, count = bytearray(), 0, 0
    while piece := file.read(PIECE):
        if not rest and not count and (packer := packed_by(piece)):
            raise Fault("packed by {}: {} FILE | cip annotate".format(*packer))
        rest += piece
        done = 0
        for end in record_ends(rest, searched):
            yield bytes(rest[done:end])
            done, count = end, count + 1
        del rest[:done]
        if len(rest) > LIMIT:
            raise Fault(f"not an SDfile: record {count + 1} is longer than 16 MiB")
        # a terminator line may begin with the open line
        searched = rest.rfind(b"\n") + 1
    if rest.strip(b" \t\r\n"):
        if not (count or is_closed(rest) or molecule_end(rest) or LABEL_ITEM in rest):
            raise Fault("not an SDfile: it has neither a line `$$$$` nor a line `M  END`")
        yield bytes(rest)


def packed_by(text):
    """What packed a file that begins so, and what unpacks it; nothing if it isn't packed."""
    return next((packer for begin, packer in PACKED.items() if text.startswith(begin)), None)


def record_ends(text, start=0):
    """The places behind terminator lines that begin at a place or behind it."""
    for found in TERMINATOR.finditer(text, start):
        if found.start() == 0 or text[found.start() - 1] == 10:
            yield found.end()


def molecule_end(record):
    """The place after the first line `M  END`, or 0 if there is none."""
    for found in MOLECULE_END.finditer(record):
        if found.start() == 0 or record[found.start() - 1] == 10:
            return found.end()
    return 0


def is_word(content, word):
    return content.rstrip(b" ") == word


def is_closed(record):
    """Whether the last line of a record is a terminator line."""
    return bool(record) and is_word(contents(record)[-1], b"$$$$")


def contents(record):
    """The contents of the lines of a record, without their line ends."""
    *ended, last = record.split(b"\n")
    lines = [line[:-1] if line.endswith(b"\r") else line for line in ended]
    return lines + [last] if last else lines


def text(content):
    """Bytes to show: UTF-8 where they are that, and else a character a byte."""
    try:
        return content.decode()
    except UnicodeDecodeError:
        return content.decode("latin-1")


def name(record):
    """The name line of a record, which a record without a line of its own hasn't."""
    end = record.find(b"\n")
    line = record if end < 0 else record[:end - 1 if record[end - 1:end] == b"\r" else end]
    if line[:1] not in (b"$", b">") or molecule_end(record):
        return text(line)
    return text(next(iter(own_lines(record)), b""))


def own_lines(record):
    """The lines of a record without `M  END`, but for its label items and its terminator."""
    found, is_label = [], False
    for line in data_lines(record):
        is_head = is_label_head(line)
        if not (is_head or is_label):
            found.append(line)
        # a blank line ends an item, and belongs to it
        is_label = is_head or is_label and bool(line.strip(b" \t"))
    return found


def body(record):
    """What `cip annotate` keeps at the head of a record: its bytes through the line `M  END`, or if it has none the
    lines of its own that aren't blank."""
    end = molecule_end(record)
    return record[:end] if end else [line for line in own_lines(record) if line.strip(b" \t")]


def data_lines(record):
    """The lines after the first line `M  END`, or all if there is none, without the terminator."""
    lines = contents(record[molecule_end(record):])
    return lines[:-1] if lines and is_word(lines[-1], b"$$$$") else lines


def is_label_head(line):
    return line.startswith(b">") and b"<" + LABEL_ITEM + b">" in line


def items(record):
    """The data items after the first line `M  END`, or of the whole record if it has none."""
    found, is_open = [], False
    for line in data_lines(record):
        head = ITEM_HEAD.match(line)
        if is_label_head(line) or head and not is_open:
            found.append(Item(LABEL_ITEM if is_label_head(line) else head[1], []))
            is_open = True
        elif is_open and line.strip(b" \t"):
            found[-1].values.append(line)
        else:
            is_open = False
    return found


def value(record, item_name):
    """The text of the first data item of a name, or None."""
    for item in items(record):
        if text(item.name) == item_name:
            return "\n".join(map(text, item.values))
    return None


def answer(record, number=None):
    """What the label item of a record says, or None where it has no such item.

    A fault, which names the record where its number is given, where `cip annotate` of this version didn't write it.
    """
    values = label_values(record) if LABEL_ITEM in record else None
    if values is None:
        return None
    try:
        return answer_of(list(map(text, values)))
    except Fault as fault:
        raise Fault(f"record {number}: {fault}") if number else fault


def label_values(record):
    """The value lines of the first label item, or None; the same as `items` finds, without a look at the others."""
    first = molecule_end(record)
    place = record.find(LABEL_ITEM, first)
    while place >= 0:
        begin, end = record.rfind(b"\n", 0, place) + 1, record.find(b"\n", place)
        end = len(record) if end < 0 else end
        if begin >= first and is_label_head(record[begin:end]):
            return list(values_from(record, end + 1))
        place = record.find(LABEL_ITEM, end)
    return None


def values_from(record, place):
    """The contents of the lines from a place on, up to a blank line, a label item or the terminator."""
    while place < len(record):
        end = record.find(b"\n", place)
        is_ended, end = end >= 0, len(record) if end < 0 else end
        line = record[place:end - 1 if is_ended and record[place:end].endswith(b"\r") else end]
        place = end + 1
        if not line.strip(b" \t") or is_label_head(line) or place >= len(record) and is_word(line, b"$$$$"):
            return
        yield line


def answer_of(lines):
    """What the value lines of a label item say."""
    if not lines or not SETTING.fullmatch(lines[0]):
        raise foreign(lines[0] if lines else "")
    found = Answer(lines[0], [], [], None)
    for line in lines[1:]:
        words = line.split(" ")
        if words[0] == "refused" and len(words) == 3 and is_number(words[1]):
            found = found._replace(refused=(int(words[1]), words[2]))
        elif is_unit(words[0]) and words[1:] == ["over"]:
            found.over.append(words[0])
        elif is_label(words):
            found.labels.append(label_of(words))
        elif words != ["none"]:
            raise foreign(line)
    return found


def counts_of(answer):
    """What a log counts of a record."""
    return {"records": 1, "labels": len(answer.labels), "refused": int(bool(answer.refused)), "over": len(answer.over)}


def is_label(words):
    """Whether the words of a value line are those of a label."""
    return (len(words) > 5 and is_unit(words[0]) and words[1] in LETTERS and words[2] in RULES
            and is_number(words[3]) and is_order(words[4:]))


def is_order(words):
    """Whether words are `order` and ligands."""
    return words[:1] == ["order"] and all(map(LIGAND.fullmatch, words[1:]))


def is_number(word):
    return bool(re.fullmatch(NUMBER, word))


def is_unit(word):
    return bool(UNIT.fullmatch(word))


def label_of(words):
    """The label that the words of a value line tell."""
    return Label(words[0], words[1], words[2], int(words[3]), order_of(words[5:]))


def order_of(words):
    """The ligands of each end of a unit, highest first."""
    return [end.split() for end in " ".join(words).split("|")]


def foreign(line):
    shown = line if len(line) <= LONGEST else line[:LONGEST] + ".."
    return Fault(f"an item CIP_LABELS that `cip annotate` of this version didn't write: {shown!r}; "
                 "annotate the file again")


def atoms_of(unit):
    """The atoms that a unit's name has, from 1."""
    return [int(number) for number in UNIT.fullmatch(unit).groups() if number]


def order_text(order):
    """The ligands of each end as a label item has them."""
    return " | ".join(" ".join(ligands) for ligands in order)


def drawing(record):
    """The molecule of a record as it is drawn, of either version, or None where it can't be."""
    try:
        lines = [line.decode("latin-1") for line in contents(record)]
        return drawing_v3000(lines) if is_v3000(record) else drawing_v2000(lines)
    except (ValueError, IndexError, KeyError):
        return None


def is_v3000(record):
    """Whether the counts line of a record says so."""
    lines = contents(record)
    return len(lines) > 3 and lines[3][33:39].strip() == b"V3000"


def drawing_v2000(lines):
    count, bond_count = int(lines[3][0:3] or 0), int(lines[3][3:6] or 0)
    atoms, bonds = [], []
    for line in lines[4:4 + count]:
        place = tuple(coordinate(line[begin:begin + 10]) for begin in (0, 10, 20))
        code = int(line[36:39].strip() or 0)
        charge = V2000_CHARGES[code] if 0 <= code < 8 else 0
        symbol, valence = line[31:34].strip(), int(line[48:51].strip() or 0)
        isotope = isotope_of(symbol, int(line[34:36].strip() or 0))
        atoms.append(Atom(symbol, place, charge, isotope, 2 if code == 4 else 0, valence))
    if len(atoms) < count:
        raise ValueError("an atom line is missing")
    for line in lines[4 + count:4 + count + bond_count]:
        first, second, order = (int(line[begin:begin + 3]) for begin in (0, 3, 6))
        mark = V2000_MARKS.get((order, int(line[9:12].strip() or 0)), "")
        bonds.append(bond_within(count, first - 1, second - 1, order, mark))
    stated = {"M  CHG": "charge", "M  RAD": "radical", "M  ISO": "isotope"}
    properties = [line for line in lines[4 + count + bond_count:] if line[:6] in stated]
    if any(line[:6] != "M  ISO" for line in properties):
        atoms = [atom._replace(charge=0, radical=0) for atom in atoms]
    if any(line[:6] == "M  ISO" for line in properties):
        atoms = [atom._replace(isotope=0) for atom in atoms]
    for line in properties:
        words = line[6:].split()
        for number, value in zip(words[1::2], words[2::2]):
            at = int(number) - 1
            atoms[at] = atoms[at]._replace(**{stated[line[:6]]: whole(value)})
    return Drawing(atoms, bonds)


def isotope_of(symbol, difference):
    """The mass number that a mass difference states, 0 where it states none."""
    return max(0, REFERENCE_MASSES[symbol] + difference) if difference and symbol in REFERENCE_MASSES else 0


def drawing_v3000(lines):
    atoms, bonds, places, block = [], [], {}, ""
    for line in joined_lines(lines):
        words = WORD.findall(line)
        if words[:1] == ["BEGIN"] or words[:1] == ["END"]:
            block = words[1] if words[0] == "BEGIN" else ""
        elif block == "ATOM":
            keys = dict(word.split("=", 1) for word in words[6:] if "=" in word)
            places[words[0]] = len(atoms)
            place = tuple(coordinate(word) for word in words[2:5])
            if len(place) < 3:
                raise ValueError("a coordinate is missing")
            values = [whole(keys.get(key, "0")) for key in ("CHG", "MASS", "RAD", "VAL")]
            atoms.append(Atom(words[1], place, *values[:3], 15 if values[3] == -1 else values[3]))
        elif block == "BOND":
            keys = dict(word.split("=", 1) for word in words[4:] if "=" in word)
            order, mark = whole(words[1]), whole(keys.get("CFG", "0"))
            ends = places[words[2]], places[words[3]]
            bonds.append(bond_within(len(atoms), *ends, order, V3000_MARKS.get((order, mark), "")))
    return Drawing(atoms, bonds)


def coordinate(text):
    value = float(text)
    if not abs(value) <= FARTHEST:
        raise ValueError("no coordinate of a drawing")
    return value


def whole(text):
    """A number of a few digits."""
    if len(text) > 10:
        raise ValueError("no number of a drawing")
    return int(text)


def joined_lines(lines):
    """The contents of V3000 lines behind their first seven bytes, with those that are continued."""
    begun = []
    for line in lines[4:]:
        if not line.startswith("M  V30 "):
            return
        part = line[7:].rstrip(" ")
        if part.endswith("-"):
            begun.append(part[:-1])
        else:
            yield "".join([*begun, part])
            begun = []


def bond_within(count, first, second, order, mark):
    if not (0 <= first < count and 0 <= second < count and first != second):
        raise IndexError("a bond's end")
    return Bond(first, second, order, mark)
