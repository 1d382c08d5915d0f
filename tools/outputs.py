"""What `cip explain`, `axes` and `groups` and cip-undefined write of records, one record after the other.

Each record has a line `record NUMBER`, and lines for its units, each as words here.
"""
import sdf

GROUPS = ("abs", "rac", "rel")


def tellings(file, path):
    """The lines of each record as lists of words; a fault where a file isn't such an output."""
    number, lines = 0, None
    for content in file:
        words = sdf.text(content).split()
        if words == ["record", str(number + 1)]:
            if lines is not None:
                yield lines
            number, lines = number + 1, []
        elif lines is None or not words or words[0] == "record":
            raise sdf.Fault(f"{path}: no line `record {number + 1}` where it is due")
        elif len(words) < 2:
            raise sdf.Fault(f"{path}: record {number}: a line of one word: {words[0][:sdf.LONGEST]!r}")
        else:
            lines.append(words)
    if lines is not None:
        yield lines


def labels_in(lines):
    """The labels of a record."""
    return [sdf.label_of(words) for words in lines if sdf.is_label(words)]


def without_in(lines):
    """The units of a record without a label, each with the reason: tie, over, or why the drawing shows no sense."""
    return [(words[0], words[-1]) for words in lines
            if sdf.is_unit(words[0]) and (words[1:] in (["tie"], ["over"]) or words[1] == "none")]


def groups_in(lines):
    """The atoms of stereo groups: group, unit, the letter as drawn, and that in the group's other form."""
    return [tuple(words) for words in lines if words[0][:3] in GROUPS and len(words) == 4 and sdf.is_unit(words[1])]


def undefined_in(lines):
    """The undefined units of a record: unit and state, and of an open one rule, sphere and order."""
    found = []
    for words in lines:
        if is_open(words):
            found.append((words[0], "open", words[2], int(words[3]), sdf.order_of(words[5:])))
        elif sdf.is_unit(words[0]) and words[1:] in (["dependent"], ["tie"], ["over"]):
            found.append((words[0], words[1]))
        elif words[0] != "refused":
            raise sdf.Fault(f"a line that cip-undefined doesn't write: {' '.join(words)[:sdf.LONGEST]!r}")
    return found


def is_open(words):
    """Whether words are those of an undefined unit whose ligands all differ."""
    return (len(words) > 5 and sdf.is_unit(words[0]) and words[1] == "open" and words[2] in sdf.RULES
            and sdf.is_number(words[3]) and sdf.is_order(words[4:]))
