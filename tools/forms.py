"""The commands and their options with their texts, as the table of the code has them
(crates/cip_words/src/command_table.rt)."""
import os
import re
from typing import NamedTuple

import script
import sdf

TABLE = os.path.join(script.TOP, "crates", "cip_words", "src", "command_table.rt")
OPTION = re.compile(r'((?:/// [^\n]*\n)+)pub const (\w+): NamedOption = \(\s*b"(--\w+)",\s*OptionSpec \{(.*?)\n    \},\n\);',
                    re.DOTALL)
COMMAND = re.compile(r'\(\s*b"(\w+)",\s*Command::\w+,\s*&\[([^\]]*)\],?\s*\)')
VARIANT = re.compile(r"((?:    /// .*\n)+)    (\w+),\n")
# neither a sign nor leading zeros
PLAIN = re.compile(r"0|[1-9][0-9]{0,18}")
NUMBER = re.compile(r"(least|most|one|other): ([\d_]+)")


class Option(NamedTuple):
    """An option: its name, the letter of its value, what it takes (numbers of a range, or one of some words), its
    default, and what it is for, in sentences."""

    name: str
    letter: str
    least: int
    most: int
    words: tuple
    default: int
    text: str


def number(text):
    return int(text.replace("_", ""))


def sentences(comment):
    """The text of a doc comment."""
    return " ".join(line.strip().removeprefix("///").strip() for line in comment.splitlines())


def option_of(name, body, comment):
    numbers = {key: number(value) for key, value in NUMBER.findall(body)}
    letter = re.search(r"letter: b'(\w)'", body)[1]
    default = re.search(r"default: Some\(([\d_]+)\)", body)
    words = tuple(str(numbers[key]) for key in ("one", "other") if key in numbers)
    if "CentreLetter" in body:
        words = ("R", "S", "r", "s")
    least, most = numbers.get("least"), numbers.get("most")
    return Option(name, letter, least, most, words, number(default[1]) if default else None, sentences(comment))


def table_text():
    with open(TABLE, encoding="utf-8") as file:
        return file.read()


def texts():
    """By command, what it does, in a sentence."""
    text = table_text()
    variants = text[text.index("pub enum Command {"):].split("\n}\n", 1)[0] + "\n"
    return {name.lower(): sentences(comment) for comment, name in VARIANT.findall(variants)}


def forms():
    """By command, its options, in the order of the table."""
    text = table_text()
    options = {name: option_of(written, body, comment) for comment, name, written, body in OPTION.findall(text)}
    table = text[text.index("pub const FORMS"):]
    rows = COMMAND.findall(table)
    found = {command: [options[name] for name in re.findall(r"\w+", names)] for command, names in rows}
    if len(found) != int(re.search(r"FORMS: \[CommandSpec; (\d+)\]", table)[1]):
        raise sdf.Fault(f"{TABLE}: not all commands are read")
    return found


def fit(words):
    """Whether words are those of a command: its name, and options in any order, each at most once, as name and value."""
    if not words or words[0] not in forms():
        return False
    options = forms()[words[0]]
    names, values = words[1::2], words[2::2]
    if len(names) != len(values) or len(set(names)) < len(names) or set(names) - {option.name for option in options}:
        return False
    given = dict(zip(names, values))
    return all(takes(option, given.get(option.name)) for option in options)


def takes(option, value):
    """Whether a value is one of an option's, or may be left out where there is none."""
    if value is None:
        return option.default is not None
    if option.words:
        return value in option.words
    return bool(PLAIN.fullmatch(value)) and option.least <= int(value) <= option.most
