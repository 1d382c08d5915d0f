"""The six crates of the kit that were asked for by name, each where it was asked for (docs/DECISIONS.md)."""
import re
import unittest

import trying

# each with the crates that have to use it, and the words by which their code does
ASKED_FOR = {
    "indexmap": {"cip_v3000": "IndexSet<u32>", "cip_stereogroups": "IndexSet<GroupKind>"},
    "smallvec": {"cip_mol": "SmallVec<Ligand, MOST>"},
    "bstr": {"cip_text": "use bstr::"},
    "rand_pcg": {"cip_make": "use rand_pcg::"},
    "thiserror": {"cip_mol": "use thiserror::Error;"},
    "clap": {"gate_words": "use clap::"},
}
LINE = re.compile(r"(\w+)(?: staticlib)?:((?: \w+)*)")


def table():
    """The crates of crates.txt, each with those that it stands on."""
    lines = trying.text_of("crates.txt").splitlines()
    return {found[1]: found[2].split() for found in map(LINE.fullmatch, lines) if found}


def code_of(crate):
    sources = trying.below(f"crates/{crate}/src", ".rt")
    lines = "".join(trying.text_of(name) for name in sources).splitlines()
    return "\n".join(line for line in lines if not line.lstrip().startswith("//"))


class AskedFor(unittest.TestCase):
    def test_each_is_in_its_place(self):
        crates = table()
        for name, places in ASKED_FOR.items():
            for crate, words in places.items():
                with self.subTest(name, crate=crate):
                    self.assertIn(name, crates[crate])
                    self.assertIn(words, code_of(crate))

    def test_only_the_gate_reads_words_by_clap(self):
        self.assertEqual([crate for crate, below in table().items() if "clap" in below], ["gate_words"])

    def test_decisions_name_each_with_its_crates(self):
        decisions = trying.text_of("docs", "DECISIONS.md")
        for name, places in ASKED_FOR.items():
            for word in (name, *places):
                with self.subTest(name, word=word):
                    self.assertIn(f"`{word}`", decisions)
