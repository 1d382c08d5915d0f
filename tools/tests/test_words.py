"""The words of the gate's rows, as another reader of command lines takes them."""
import argparse
import unittest

import trying

# each option with its least and most number and the one that it has where it isn't given, if it may be left out
START, RECORDS = ("start", 0, 4_294_967_295, None), ("records", 1, 100_000, None)
RECORD, ATOM = ("record", 1, 1_000_000_000, None), ("atom", 1, 1_000_000_000, None)
LABELLING = ("nodes", 1, 1_000_000, 100_000), ("workers", 1, 16, 1), ("rule1b", 2013, 2018, 2018)
LETTER = ("letter", 0, 0, None)
COMMANDS = {**dict.fromkeys(("annotate", "explain", "mirror", "groups", "axes"), LABELLING),
            "make": (START, RECORDS), "trial": (START, RECORDS, *LABELLING),
            "set": (RECORD, ATOM, LETTER, *LABELLING), "help": ()}


def number_within(least, most):
    def number(word):
        if not least <= int(word) <= most:
            raise ValueError(word)
        return int(word)
    return number


def reader():
    parser = argparse.ArgumentParser(allow_abbrev=False, add_help=False)
    commands = parser.add_subparsers(dest="command", required=True)
    for name, options in COMMANDS.items():
        command = commands.add_parser(name, allow_abbrev=False, add_help=False)
        for option, least, most, left_out in options:
            how = {"type": number_within(least, most)} if most else {"choices": "RSrs"}
            command.add_argument(f"--{option}", required=left_out is None, default=left_out, **how)
    return parser


def told(words):
    """The command and the values of its options, in the order of the help text."""
    found = reader().parse_args(words.split(" "))
    return " ".join([found.command, *(str(getattr(found, name)) for name, *_ in COMMANDS[found.command])])


class Words(unittest.TestCase):
    def test_another_reader_takes_them_as_the_program_does(self):
        rows = [line.split("\t") for line in trying.text_of("crates", "gate_cases", "data", "calls.txt").splitlines()]
        taken = [(answer, words) for call, answer, words, *_ in (row for row in rows if len(row) > 2)
                 if call == "words" and answer != "refused"]
        self.assertEqual({words.split(" ")[0] for _, words in taken}, set(COMMANDS))
        for answer, words in taken:
            with self.subTest(words):
                self.assertEqual(told(words), answer)
