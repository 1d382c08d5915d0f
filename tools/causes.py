"""Why a record is refused, in words; docs/USE.md has what to do about each."""

CAUSES = {
    "Short": "the record is cut, or has no line `M  END`",
    "Version": "the counts line names another version than V2000 or V3000",
    "Counts": "the numbers of atoms and bonds can't be read, or are too large",
    "Coordinate": "a coordinate isn't a number, or lies beyond 50,000",
    "Symbol": "the atom is no element, but a query atom, a list or an R group",
    "AtomField": "a mass difference, charge or valence is out of its range",
    "BondEnd": "a bond ends at an atom that isn't there",
    "BondLoop": "a bond joins an atom with itself",
    "BondDoubled": "two bonds join the same atoms",
    "BondType": "the bond is neither single, double nor triple, but aromatic, dative or a query",
    "BondMark": "the bond has a mark that bonds of its type don't have",
    "Degree": "an atom has more than eight bonds",
    "Property": "charges, radicals or isotopes can't be read",
    "Frame": "the line isn't the V3000 line that belongs there",
    "Index": "an index isn't a number, or stood there before",
    "KeyValue": "a word isn't KEY=value, or its value is out of range",
}


def in_words(cause):
    """A cause in words, with the name that an item has for it."""
    return f"{CAUSES.get(cause, 'for a cause that this version has not')} ({cause})"


def named(number, name):
    """A record as it is told of: its number, and its name where it has one."""
    return f"record {number}, {name}" if name.strip() else f"record {number}"
