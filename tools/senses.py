"""The senses of units whose ligands tie, as a program sees them.

A unit that ties has no label, although its sense is drawn; in the digraph of another unit its ligands may differ. So a
program labels the record anew with another isotope at each atom: there no two ligands tie, and the letter with the
order of the ligands is the sense. Nothing here looks at a place or a wedge.
"""
import sdf

ISOTOPES = 400
ON_A_LINE = 8


def with_isotopes(record):
    """The molfile of a record as one of its own, with another isotope at each atom."""
    lines = sdf.contents(record)
    end = next((place for place, line in enumerate(lines) if sdf.is_word(line, b"M  END")), len(lines))
    is_v3000 = lines[3][33:39].strip() == b"V3000"
    kept = v3000_lines(lines[:end]) if is_v3000 else [*lines[:end], *isotope_lines(int(lines[3][:3]))]
    return b"\n".join([*kept, b"M  END", b"$$$$", b""])


def isotope_lines(count):
    """Property lines with the isotopes of so many atoms; what is stated last of an atom holds."""
    pairs = [f" {number:3d} {1 + number % ISOTOPES:3d}" for number in range(1, count + 1)]
    for begin in range(0, count, ON_A_LINE):
        some = pairs[begin:begin + ON_A_LINE]
        yield f"M  ISO{len(some):3d}{''.join(some)}".encode()


def v3000_lines(lines):
    """The lines of a table with an isotope behind each atom; of a key that is repeated the last value holds."""
    number, is_atom = 0, False
    for line in lines:
        words = line.split()
        if words[2:4] in ([b"BEGIN", b"ATOM"], [b"END", b"ATOM"]):
            is_atom = words[2] == b"BEGIN"
        elif is_atom and not line.rstrip(b" ").endswith(b"-"):
            number += 1
            line = line.rstrip(b" ") + b" MASS=%d" % (1 + number % ISOTOPES)
        yield line


def which_may_differ(drawing, units):
    """The units whose ligands differ in some digraph: two end atoms at one end that are alike never do."""
    near = [[] for _ in drawing.atoms]
    for bond in drawing.bonds:
        near[bond.first].append(bond.second)
        near[bond.second].append(bond.first)
    return [unit for unit in units if not any(has_twins(drawing, near, end - 1) for end in sdf.atoms_of(unit))]


def has_twins(drawing, near, place):
    ends = [drawing.atoms[other]._replace(place=None) for other in near[place] if len(near[other]) == 1]
    return len(set(ends)) < len(ends)
