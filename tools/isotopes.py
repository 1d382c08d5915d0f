"""Records without their isotopes, as bytes: a name that states none is that of such a record."""
import re

import sdf

MASS_COLUMNS, SYMBOL_COLUMNS = slice(34, 36), slice(31, 34)
V3000_MASS = re.compile(rb" MASS=[0-9]+(?= |$)")
V3000_ATOM = re.compile(rb"M  V30 +[0-9]+ +([DT]) ")
# deuterium and tritium by symbols of their own
HYDROGENS = (b"D", b"T")


def without_isotopes(record):
    """The molfile of a record without isotopes, as a record of its own; None if it has none, or can't be read."""
    lines = sdf.contents(record[:sdf.molecule_end(record)])
    try:
        changed = v3000_without(lines) if sdf.is_v3000(record) else v2000_without(lines)
    except (ValueError, IndexError):
        return None
    return None if changed == lines else b"\n".join([*changed, b"$$$$", b""])


def v2000_without(lines):
    """The lines of a V2000 molfile: mass differences are 0, and there is no line `M  ISO`."""
    count = int(lines[3][:3])
    if count < 0:
        raise ValueError("no count of atoms")
    atoms = [atom_without(line) for line in lines[4:4 + count]]
    return [*lines[:4], *atoms, *(line for line in lines[4 + count:] if not line.startswith(b"M  ISO"))]


def atom_without(line):
    changed = line
    if line[MASS_COLUMNS].strip() not in (b"", b"0"):
        changed = changed[:34] + b" 0" + changed[36:]
    if line[SYMBOL_COLUMNS].strip() in HYDROGENS:
        changed = changed[:31] + b"H  " + changed[34:]
    return changed


def v3000_without(lines):
    """The lines of a V3000 molfile without the key MASS; only lines of atoms have it."""
    return [*lines[:4], *(v3000_line_without(line) for line in lines[4:])]


def v3000_line_without(line):
    changed = V3000_MASS.sub(b"", line) if line.startswith(b"M  V30 ") else line
    found = V3000_ATOM.match(changed)
    return changed[:found.start(1)] + b"H" + changed[found.end(1):] if found else changed
