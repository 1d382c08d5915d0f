"""Broken SDfiles, made from a seed: annotated records that are cut, changed and joined, with strange words in them."""
import random
import re

import trying

SETTINGS = b"cip 2 rule1b 2018 nodes 100000"
VALUES = (
    b"a4 S 1a 2 order 10 2 5 H\na7 R 1a 3 order 9 6 8 H", b"b2-3 E 1a 1 order 1 H | 6 H\na1 over", b"none",
    b"refused 10 Short", b"x1-3 seqCis 5 3 order 1 : | H 5\nb1-2 over",
)
OTHER_ITEMS = (
    b"> <old>\n4:S, 7R\n\n", b"> <old>\n[(3, 'S'), (6, '?')]\n\n", b">  25 <old>  (7)\n2R,5S (ChemDraw)\n\n",
    b"> <TITLE>\n(1R,2S,5R)-5-methyl-2-(propan-2-yl)cyclohexan-1-ol\n\n", b"> <TITLE>\nrac-(2R*,3S*)-[(4aS,7'R)-x]\n\n",
)
# spaces and digits of other scripts, numbers of thousands of digits, units that aren't there, ends and beginnings
STRANGE = (
    b"\x0c", b"\x1f", b"\xa0", b"\x85", b"\xc2\xa0", b"\xe2\x80\xa8", b"\xc2\xb2", b"\xd9\xa2", b"9" * 5000, b"-1", b"1e999",
    b"nan", b"inf", b"\0", b"\r", b"\t", b"\n", b"\r\n", b" ", b"\xff\xfe", b"\xef\xbb\xbf", b"q2", b"a", b"a0", b"b2", b"x1-",
    b"|", b":", b"=1+1", b"@", b'"', b"'", b"(" * 50, b"[" * 50, b"<" * 50, b">", b"<", b"over", b"order", b"refused",
    b"refused \xc2\xb2 Short", b"$$$$", b"$$$$\n", b"\n$$$$ \r\n", b"M  END", b"\nM  END\n", b"M  V30 ", b"M  CHG  9",
    b"M  ISO", b"V3000", b"> <CIP_LABELS>\n", b"> <old>\n", b"> <TITLE>\n", b"\x1f\x8b\x08", b"\xfd7zXZ\0",
)
LINE = re.compile(rb"[^\n]*\n?")
WORD = re.compile(rb"[^ \n]+")


def records():
    """Annotated records of all kinds, without their terminators."""
    texts = (trying.bytes_of("examples", name) for name in ("menthol.sdf", "axes.sdf", "groups.sdf", "alanine.sdf"))
    return [record for text in texts for record in text.split(b"$$$$\n") if record]


def annotated(record, chance):
    """A record with a label item, and now and then another one."""
    item = b"> <CIP_LABELS>\n" + SETTINGS + b"\n" + chance.choice(VALUES) + b"\n\n"
    return record + item + chance.choice(OTHER_ITEMS) * chance.randrange(3) + b"$$$$\n"


def put(text, place, word, length=0):
    return text[:place] + word + text[place + length:]


def with_strange(text, chance):
    return put(text, chance.randrange(len(text) + 1), chance.choice(STRANGE))


def with_strange_word(text, chance):
    found = WORD.search(text, chance.randrange(len(text) + 1))
    return put(text, found.start(), chance.choice(STRANGE), len(found[0])) if found else text


def with_strange_line(text, chance):
    lines = LINE.findall(text)
    place = chance.randrange(len(lines))
    return b"".join([*lines[:place], chance.choice(STRANGE) + b"\n", *lines[place:]])


def with_strange_value(text, chance):
    """A text with a strange line or word in a label item, if it has one."""
    begin = text.find(SETTINGS)
    end = text.find(b"\n\n", begin) + 1
    if begin < 0 or not end:
        return text
    change = chance.choice((with_strange_line, with_strange_word))
    return text[:begin] + change(text[begin:end], chance) + text[end:]


def with_other_byte(text, chance):
    return put(text, chance.randrange(len(text) + 1), bytes([chance.randrange(256)]), 1)


def cut(text, chance):
    return text[:chance.randrange(len(text) + 1)]


def with_lines(text, chance):
    """A text whose one line is left out, or is there twice, or is in another place."""
    lines = LINE.findall(text)
    place = chance.randrange(len(lines))
    line = lines.pop(place)
    return b"".join([*lines[:place], *[line] * chance.randrange(3), *lines[place:]])


def without_ends(text, chance):
    return text.replace(b"\n", chance.choice((b"\r\n", b"\r", b"\n\n", b" \n")), chance.randrange(40))


CHANGES = (with_strange, with_strange_word, with_strange_word, with_strange_line, with_strange_value, with_strange_value,
           with_other_byte, cut, with_lines, without_ends)


def changed(text, chance):
    """A text with one to four changes."""
    for _ in range(chance.randrange(1, 5)):
        text = chance.choice(CHANGES)(text, chance)
    return text


def made(count, seed):
    """Broken files of one or two records."""
    kinds, chance = records(), random.Random(seed)
    for _ in range(count):
        text = b"".join(annotated(chance.choice(kinds), chance) for _ in range(chance.randrange(1, 3)))
        yield changed(text, chance)
