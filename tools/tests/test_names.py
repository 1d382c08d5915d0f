"""Words that aren't used as names any more in the code and the definitions of the crates, with the term that is."""
import os
import re
import unittest

import crate_table
import trying

RETIRED = {
    "desk": "ranker or state", "look": "query", "told": "data or output", "asked": "pair or requested",
    "sights": "aux_ranker", "near": "branches or nearer", "kin": "children", "stirred": "dirty",
    "wanted": "unresolved or requested", "let_go": "drop_distinct", "turns": "parity", "obey": "run_command",
    "errand": "task", "crew": "pool", "teller": "processor", "bench": "workspace", "memo": "cache",
}
# a mark is a wedge: crates that see no drawing have none
WITHOUT_WEDGES = ("cip_rank", "cip_partition", "cip_branches", "cip_arena", "cip_ring", "cip_rules", "cip_constitution",
                  "cip_aux", "cip_aux_rank", "cip_ranker", "cip_label", "cip_symmetry", "cip_tree", "gate_branches")
MARKS = {"mark": "descriptor or flag", "marks": "descriptors or flags", "marked": "described or flagged"}
NAME = re.compile(r"[A-Za-z_]\w*")
TEXT = re.compile(r'b?"(?:\\.|[^"\\])*"')
COMMENT = {".rt": re.compile(r"//.*"), ".antt": re.compile(r"(?:^|(?<=\s))--(?:\s.*|$)", re.MULTILINE)}


def code(crate):
    """The code and the definitions of a crate without comments and texts, by the paths of their files."""
    for at, inner, names in os.walk(trying.path("crates", crate)):
        inner[:] = [name for name in inner if name != "out"]
        for name in names:
            ending = os.path.splitext(name)[1]
            if ending in COMMENT:
                path = os.path.join(at, name)
                yield path, COMMENT[ending].sub("", TEXT.sub('""', trying.text_of(path)))


class Names(unittest.TestCase):
    def test_retired_words_are_no_names(self):
        for crate in crate_table.named():
            self.has_none_of(crate, RETIRED)

    def test_a_mark_is_a_wedge(self):
        for crate in WITHOUT_WEDGES:
            self.has_none_of(crate, MARKS)

    def has_none_of(self, crate, words):
        for path, text in code(crate):
            for name in sorted(set(NAME.findall(text)) & set(words)):
                with self.subTest(file=os.path.relpath(path, trying.TOP), name=name, now=words[name]):
                    self.fail(f"{name} is {words[name]} now")
