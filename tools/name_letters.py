"""The letters in systematic names, as counts: `(1R,2S,5R)-..` has two R and one S.

Groups of letters stand in brackets, each letter after its locant or alone: `(2R)`, `[(4aS,7'R)-..]`, `(E)`, `(3seqCis)`.
Locants aren't numbers of atoms in a record, so letters are compared as counts. Ra and aR are M, Sa and aS are P. With
R*, RS or rac-, rel- a name states letters beside one another, so that those of the mirror image are the same.
"""
import re
from collections import Counter
from typing import NamedTuple

GROUP = re.compile(r"[(\[]([^()\[\]]*)[)\]]")
WORD = re.compile(r"(?:[0-9]{1,4}[a-z]{0,2}['′″\"]*)?(seqcis|seqtrans|R\*|S\*|RS|SR|Ra|Sa|aR|aS|[RSrsZEMPmp])")
RELATIVE_PREFIX = re.compile(r"(?:^|[^A-Za-z])(?:rac|rel)-", re.IGNORECASE)
RELATIVE = {"R*": "R", "S*": "S", "RS": "R", "SR": "S"}
OTHER_NAMES = {**RELATIVE, "seqcis": "Z", "seqtrans": "E", "Ra": "M", "aR": "M", "Sa": "P", "aS": "P"}
OPPOSITE = {"R": "S", "S": "R", "M": "P", "P": "M"}
OF_DRAWINGS = {"seqCis": "Z", "seqTrans": "E"}


class Named(NamedTuple):
    """The letters of a name, and whether it states them beside one another alone."""

    letters: Counter
    is_relative: bool

    def are(self, drawn):
        """Whether the letters of a drawing are those of the name."""
        return drawn == self.letters or self.is_relative and drawn == mirrored(self.letters)


def named(name):
    """What a name says."""
    words = [word for group in GROUP.findall(name) for word in words_of(group)]
    is_relative = bool(RELATIVE_PREFIX.search(name)) or any(word in RELATIVE for word in words)
    return Named(Counter(OTHER_NAMES.get(word, word) for word in words), is_relative)


def words_of(group):
    """The letters of a group; none if it has anything else."""
    found = [WORD.fullmatch(word.strip().replace("seqC", "seqc").replace("seqT", "seqt")) for word in group.split(",")]
    return [word[1] for word in found] if all(found) else []


def drawn(answer):
    """The letters of a drawing as names have them."""
    return Counter(OF_DRAWINGS.get(label.letter, label.letter) for label in answer.labels)


def mirrored(letters):
    return Counter({OPPOSITE.get(letter, letter): count for letter, count in letters.items()})


def listed(letters):
    """Letters in the order of the alphabet."""
    return " ".join(sorted(letters.elements()))
