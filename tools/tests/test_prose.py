"""Words that comments and pages use too often, beside their use in the toolchain's libraries; and the calls that
docs/TRUST.md names."""
import os
import re
import unittest

import crate_table
import trying

# How often each comes in 1,000 words of the comments of the kit's libraries, its .rt and .antt files, counted as below.
KIT = {
    r"\b(?:stand|stands|stood|standing)\b": 1.8,
    r"\b(?:tell|tells|told|telling)\b": 0.46,
    r"\bbehind\b": 0.43,
    r"\bso\s+many\b": 0.07,
}
TIMES_AS_OFTEN = 2
COMMENT = {".rt": re.compile(r"(?:^|\s)//[/!]?(.*)$", re.MULTILINE),
           ".antt": re.compile(r"(?:^|\s)--(?=\s|$)(.*)$", re.MULTILINE)}
PAGES = ("README.md", "CONTRIBUTING.md", "bench/README.md", "tools/README.md", *trying.in_folder("docs", ".md"))
GATE = "the gate alone"


def sources(crate, *folders):
    """The files of code and definitions of a crate."""
    for at, inner, names in os.walk(trying.path("crates", crate, *folders)):
        inner[:] = [name for name in inner if name != "out"]
        yield from (os.path.join(at, name) for name in names if os.path.splitext(name)[1] in COMMENT)


def comments():
    """The text of all comments of the crates."""
    for crate in crate_table.named():
        for path in sources(crate):
            yield from COMMENT[os.path.splitext(path)[1]].findall(trying.text_of(path))


def crates_of_the_gate():
    """The crates that no program for users needs."""
    text = trying.text_of("crates.txt")
    return set(re.findall(r"^(\w+)", text[text.index(f"# {GATE}"):], re.MULTILINE))


def code_of_the_program():
    """The code that users run, without comments."""
    gate = crates_of_the_gate()
    for crate in crate_table.named():
        if crate not in gate:
            yield from (re.sub("//.*", "", trying.text_of(path)) for path in sources(crate, "src"))


class Prose(unittest.TestCase):
    def is_plain(self, text):
        words = len(text.split())
        for pattern, usual in KIT.items():
            with self.subTest(pattern):
                most = TIMES_AS_OFTEN * usual * words / 1000
                self.assertLessEqual(len(re.findall(pattern, text, re.IGNORECASE)), most)

    def test_the_comments_of_the_crates(self):
        self.is_plain("\n".join(comments()))

    def test_the_pages(self):
        self.is_plain("\n".join(trying.text_of(page) for page in PAGES))


class Calls(unittest.TestCase):
    def test_the_calls_that_are_trusted_are_called(self):
        page, code = trying.text_of("docs", "TRUST.md"), "\n".join(code_of_the_program())
        rows = re.findall(r"^\| [^|]+ \| (.*) \|$", page[page.index("| Of | Calls |"):], re.MULTILINE)
        for call in re.findall(r"`([\w:]+!?)`", " ".join(rows)):
            name = call.split("::")[-1].rstrip("!")
            with self.subTest(call):
                self.assertRegex(code, rf"\b{name}\b")
