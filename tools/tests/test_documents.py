"""The documents beside what they tell of: the table of commands and options, the stored texts, the files."""
import os
import re
import unittest

import causes
import crate_table
import forms
import sdf
import trying

SECTION = re.compile(r"^\.Nm cip\n((?:\.(?:Cm|Fl|Op) .*\n)+)", re.MULTILINE)
CODE = re.compile(r"^```.*?^```", re.MULTILINE | re.DOTALL)
LINK = re.compile(r"\]\(([^)#]+)\)|`((?:docs|tools|bench|examples|include|python|crates)/[\w./-]+)`")
# the changes tell of what was there too
PAGES = ("README.md", "CONTRIBUTING.md", "bench/README.md", "tools/README.md", *(
    f"docs/{name}" for name in sorted(os.listdir(trying.path("docs"))) if name.endswith(".md")))
MOST_WORDS, MOST_WORDS_OF_THE_MAP, MOST_WORDS_OF_THE_HANDBOOK = 2000, 1500, 4500
# what docs/CONTRACTS.md names in place of tests
ROWS = {"runs.txt": ("flow\t", "meet\t", "jobs meet\t", "stream\t"), "digraphs.txt": ("settled\t",),
        "cases.txt": (r"\w+_in_pieces_of_\d+ ", r"many_labelled_by_\w+ ")}
FORMS = forms.forms()
OPTIONS = {option.name: option for options in FORMS.values() for option in options}


def sources():
    """The files of the crates, by their paths below crates/."""
    crates = trying.path("crates")
    return [os.path.relpath(os.path.join(at, name), crates) for at, _, names in os.walk(crates) for name in names]


def named_files(text):
    """The files of crates that a page names, each of those in braces by itself."""
    for path in re.findall(r"[\w/{},-]+\.(?:rt|antt)\b", " ".join(re.findall(r"`([^`\n]+)`", text))):
        before, braces, after = re.fullmatch(r"([^{]*)(?:\{([^}]*)\})?(.*)", path).groups()
        yield from (before + name + after for name in (braces or "").split(","))


def longest_chain(crate):
    """How many crates, from one that uses none up to this one, have to be proved one after the other."""
    return 1 + max(map(longest_chain, crate_table.stands_on()[crate]), default=0)


def with_commas(number):
    return f"{number:,}"


def values_of(option):
    """The values of an option in words, as the handbook writes them."""
    return ", ".join(option.words) if option.words else f"{with_commas(option.least)} to {with_commas(option.most)}"


def form_of(command):
    """A command's form, as `cip help` writes it."""
    words = (f"{option.name} {option.letter}" for option in FORMS[command])
    wrapped = (f"[{word}]" if option.default is not None else word for word, option in zip(words, FORMS[command]))
    return " ".join(["cip", command, *wrapped])


def form_in_page(lines):
    """A form of the man page, as `cip help` writes it."""
    words = ["cip"]
    for macro, rest in (line[1:].split(" ", 1) for line in lines.splitlines()):
        text = rest.replace("Fl ", "").replace("Ar ", "")
        words.append(text if macro == "Cm" else f"-{text}" if macro == "Fl" else f"[-{text}]")
    return " ".join(words)


def completed(*words):
    """What bash proposes for the last of some words."""
    line = 'source "$0"; COMP_WORDS=("$@"); COMP_CWORD=$(($# - 1)); _cip; printf "%s\\n" "${COMPREPLY[@]}"'
    done = trying.ran("bash", "-c", line, trying.path("installed", "completion.bash"), *words)
    return done.stdout.decode().split()


class Forms(unittest.TestCase):
    def test_the_stored_help_text_has_the_table_of_the_code(self):
        stored = trying.bytes_of("crates", "gate_cases", "stdout").split(b"\n=== help: status 0\n")[1]
        text = stored.split(b"\n\n")[0].decode()
        self.assertEqual(text.splitlines(), [form_of(command) for command in FORMS])

    def test_the_man_page_has_each_form(self):
        page = trying.text_of("docs", "cip.1")
        self.assertEqual([form_in_page(lines) for lines in SECTION.findall(page)],
                         [form_of(command) for command in FORMS])

    def test_the_man_page_tells_of_each_command_and_option(self):
        page = trying.text_of("docs", "cip.1")
        told = re.findall(r"^\.It Cm (\w+)$", page, re.MULTILINE)
        self.assertEqual(told, list(FORMS))
        told = re.findall(r"^\.It Fl (-\w+) Ar (\w)$", page, re.MULTILINE)
        self.assertEqual(sorted(told), sorted((option.name[1:], option.letter) for option in OPTIONS.values()))

    def test_the_handbook_has_the_values_of_each_option(self):
        rows = re.findall(r"^\| (`--.*?) \| (.*?) \| (.*?) \|", trying.text_of("docs", "USE.md"), re.MULTILINE)
        told = {name: (letter, values, default) for names, values, default in rows
                for name, letter in re.findall(r"`(--\w+) (\w)`", names)}
        wanted = {option.name: (option.letter, values_of(option), "–" if option.default is None else
                                str(option.default) if option.words else with_commas(option.default))
                  for option in OPTIONS.values()}
        self.assertEqual(told, wanted)

    def test_the_help_of_what_is_installed_tells_of_each(self):
        text = trying.text_of("installed", "help.txt")
        self.assertEqual(sorted(re.findall(r"^([a-z]+)   ", text, re.MULTILINE)), sorted(FORMS))
        for option in OPTIONS.values():
            with self.subTest(option.name):
                self.assertRegex(text, rf"{option.name} {option.letter}\b")

    def test_completions_for_bash_are_those_of_the_table(self):
        for command, options in FORMS.items():
            with self.subTest(command):
                self.assertEqual(completed("cip", command, ""), [option.name for option in options])
        self.assertEqual(completed("cip", ""), [*FORMS, "--help", "--version"])
        for option in OPTIONS.values():
            command = next(name for name in FORMS if option in FORMS[name])
            with self.subTest(option.name):
                self.assertEqual(completed("cip", command, option.name, ""), list(option.words))
        self.assertNotIn("--nodes", completed("cip", "annotate", "--nodes", "5", ""))

    def test_completions_for_zsh_are_those_of_the_table(self):
        text = trying.text_of("installed", "completion.zsh")
        self.assertEqual(re.findall(r"^    '(\w+):", text, re.MULTILINE), list(FORMS))
        shared = re.findall(r"^    '(--\w+)\[", text, re.MULTILINE)
        for command in [name for name in FORMS if FORMS[name]]:
            row = re.search(rf"^    (?:\w+\|)*{command}(?:\|\w+)*\) _arguments ((?:.|\\\n)*?) ;;", text, re.MULTILINE)[1]
            told = re.findall(r"'(--\w+)\[", row) + (shared if "$labelling" in row else [])
            with self.subTest(command):
                self.assertEqual(told, [option.name for option in FORMS[command]])

    def test_what_is_written_from_the_table_is_as_the_table_is(self):
        done = trying.script_ran("tools/options", "--check")
        self.assertEqual((done.returncode, done.stdout), (0, b""))

    def test_the_rules_have_the_names_of_the_code(self):
        text = trying.text_of("crates", "cip_mol", "specs", "Letters.antt")
        self.assertEqual(re.findall(r'^rule_text \w+ = codes "(\w+)"', text, re.MULTILINE), list(sdf.RULES))

    def test_the_causes_have_the_names_of_the_code(self):
        text = trying.text_of("crates", "cip_mol", "specs", "Causes.antt")
        self.assertEqual(sorted(re.findall(r'^cause_text \w+ = codes "(\w+)"', text, re.MULTILINE)), sorted(causes.CAUSES))

    def test_the_readme_names_each_command(self):
        text = trying.text_of("README.md")
        for command in FORMS:
            with self.subTest(command):
                self.assertRegex(text, rf"`[^`]*\b{command}\b[^`]*`")


class Pages(unittest.TestCase):
    @trying.needs("mandoc")
    def test_the_man_page_is_well_formed(self):
        done = trying.ran("mandoc", "-T", "lint", "-W", "warning", trying.path("docs", "cip.1"))
        self.assertEqual((done.returncode, done.stdout), (0, b""))

    def test_the_statement_is_as_the_definitions_are(self):
        done = trying.script_ran("tools/statement", "--check")
        self.assertEqual((done.returncode, done.stdout), (0, b""))

    def test_what_the_pages_name_is_there(self):
        for page in PAGES:
            for link, name in LINK.findall(CODE.sub("", trying.text_of(page))):
                there = os.path.join(os.path.dirname(page), link) if link else name
                if not re.search(r"NAME|CRATE|/out/|^http", there):
                    with self.subTest(page=page, name=there):
                        self.assertTrue(os.path.exists(trying.path(there)))

    def test_the_map_names_each_crate_and_is_read_in_ten_minutes(self):
        text = trying.text_of("docs", "ARCHITECTURE.md")
        self.assertEqual([name for name in crate_table.named() if f"`{name}`" not in text], [])
        self.assertLessEqual(len(text.split()), MOST_WORDS_OF_THE_MAP)

    def test_tests_that_are_named_as_rows_are_there(self):
        for file, rows in ROWS.items():
            text = trying.text_of("crates", "gate_cases", "data", file)
            for row in rows:
                with self.subTest(row):
                    self.assertRegex(text, rf"(?m)^{row}")

    def test_the_longest_chain_of_crates_is_the_one_that_is_named(self):
        bullet = re.search(r"The longest chain of crates that the program needs has (\w+)\*\*(.*?)\. A build",
                           trying.text_of("docs", "DECISIONS.md"), re.DOTALL)
        chain, lower = re.findall(r"`(\w+)`", bullet[2]), crate_table.stands_on()
        self.assertTrue(all(low in lower[high] for low, high in zip(chain, chain[1:])))
        self.assertEqual((len(chain), chain[-1], bullet[1]), (longest_chain("cip"), "cip", "ten"))

    def test_the_files_of_crates_that_pages_name_are_there(self):
        there = [f"/{path}" for path in sources()]
        for page in ("CONTRIBUTING.md", "docs/ARCHITECTURE.md", "docs/CONTRACTS.md", "docs/TRUST.md"):
            text = CODE.sub("", trying.text_of(page))
            for name in {name for name in named_files(text) if not re.search(r"FILE|FUNCTION|NAME", name)}:
                with self.subTest(page=page, name=name):
                    self.assertTrue(any(path.endswith(f"/{name}") for path in there))

    def test_the_list_of_scripts_has_each(self):
        text = trying.text_of("tools", "README.md")
        names = [name for name in sorted(os.listdir(trying.path("tools"))) if os.path.isfile(trying.path("tools", name))]
        self.assertEqual([name for name in names if name != "README.md" and f"`{name}`" not in text], [])

    def test_the_readme_can_be_read_in_a_sitting(self):
        self.assertLessEqual(len(trying.text_of("README.md").split()), MOST_WORDS)

    def test_the_handbook_stays_short(self):
        self.assertLessEqual(len(trying.text_of("docs", "USE.md").split()), MOST_WORDS_OF_THE_HANDBOOK)


class Versions(unittest.TestCase):
    """One version, in the file VERSION."""

    def agrees(self, pattern, *parts):
        found = re.search(pattern, trying.text_of(*parts), re.MULTILINE)
        self.assertEqual(found and found[1], trying.text_of("VERSION").rstrip("\n"))

    def test_of_the_header(self):
        self.agrees(r"^#define CIP_VERSION (\d+)$", "include", "cip.h")

    def test_of_the_module_for_python(self):
        self.agrees(r'^__version__ = "(\d+)"$', "python", "cip", "__init__.py")

    def test_of_the_man_page(self):
        self.agrees(r'^\.Os "cip (\d+)"$', "docs", "cip.1")

    def test_of_the_head_of_changes(self):
        self.agrees(r"^\*\*(\d+)\*\* \(", "CHANGELOG.md")

    def test_of_the_module_for_javascript(self):
        self.agrees(r'^  "version": "(\d+)\.0\.0",$', "javascript", "package.json")

    def test_of_the_library(self):
        self.agrees(r"fn cip_version\(\) -> u32\n    ensures .*\n\{\n    (\d+)\n\}", "crates", "cip_c", "src", "exports.rt")
