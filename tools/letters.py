"""Letters that other programs left in a data item, in the forms that are met.

A pair is an atom or two and a letter, in either order: `2:R`, `2R,5S`, `(2R,5S)`, `R2 S5`, `2-3:E`; a word in brackets
behind it, as `(ChemDraw)`, is passed over. RDKit's list of pairs, `[(1, 'S')]`, counts atoms from 0, and its item
`atom.prop._CIPCode` has a word for each atom, `n/a` where it has no letter. RDKit's z and e are seqCis and seqTrans.
"""
import re

OTHER_NAMES = {"z": "seqCis", "e": "seqTrans"}
ATOM_LIST = "atom.prop."
NO_LETTER = ("n/a", "?", "")
PAIR_OF_RDKIT = re.compile(r"\(([0-9]{1,9}), '([^']*)'\)")
LIST_OF_RDKIT = re.compile(r"\[(?:\([0-9]{1,9}, '[^']*'\)(?:, )?)*\]")
REMARK = re.compile(r"\([A-Za-z][A-Za-z ]{2,}\)")
# the letter of a kind of unit, or the symbol of an element, may stand before a number
ATOMS = r"(?:[abx]|C|N|B|Si|Ge|As|Se)?([0-9]{1,9}(?:[-=][0-9]{1,9})?)(?![0-9])"
LETTER = r"(seqCis|seqTrans|[RSrsZEzeMPmp])(?![A-Za-z])"
TOKEN = re.compile(rf"[\s,;:()\[\]=/_-]*(?:{ATOMS}|{LETTER})[\s,;:()\[\]=/_-]*")


class Unread(Exception):
    """Why a value isn't one of these forms."""


def letters_of(name, value):
    """The letters that the value of an item of a name tells: {atoms from 1: letter}."""
    value = value.strip()
    if name.startswith(ATOM_LIST):
        return of_list(value)
    if LIST_OF_RDKIT.fullmatch(value):
        pairs = [((int(number) + 1,), letter) for number, letter in PAIR_OF_RDKIT.findall(value)]
    else:
        pairs = pairs_of(tokens_of(REMARK.sub(" ", value)))
    return told_once(pairs)


def of_list(value):
    """The letters of a list with a word for each atom; its first word may name what stands for none, as `[-]`."""
    words, none = value.split(), NO_LETTER
    if words and re.fullmatch(r"\[[^]]*\]", words[0]):
        none = (*NO_LETTER, words.pop(0)[1:-1])
    return {(place,): OTHER_NAMES.get(word, word) for place, word in enumerate(words, 1) if word not in none}


def tokens_of(value):
    """The atoms and letters of a value, one after the other."""
    place, tokens = 0, []
    while place < len(value):
        found = TOKEN.match(value, place)
        if not found:
            raise Unread(f"{value[place:place + 20]!r} is neither an atom nor a letter")
        atoms, letter = found.groups()
        tokens.append(letter or tuple(sorted(int(number) for number in re.split("[-=]", atoms))))
        place = found.end()
    return tokens


def pairs_of(tokens):
    """Atoms with their letters, whichever of both stands first."""
    firsts, seconds = tokens[::2], tokens[1::2]
    if firsts and isinstance(firsts[0], str):
        firsts, seconds = seconds, firsts
    pairs = list(zip(firsts, seconds))
    are_pairs = all(isinstance(atoms, tuple) and isinstance(letter, str) for atoms, letter in pairs)
    if len(tokens) % 2 or not are_pairs:
        raise Unread("atoms and letters don't take turns")
    return pairs


def told_once(pairs):
    found = {}
    for atoms, letter in pairs:
        if atoms in found:
            raise Unread(f"atom {'-'.join(map(str, atoms))} has two letters")
        if letter not in NO_LETTER:
            found[atoms] = OTHER_NAMES.get(letter, letter)
    return found
