"""The first build: the order in which crates are proved, what a failure ends, and which libraries stand already."""
import io
import os
import tempfile
import unittest
from unittest import mock

import proving
import script

TABLE = "# two crates\nlow: bstr\nhigh staticlib: low\n"


class Fake:
    """A crate that notes its turn, and is proved or not."""

    def __init__(self, name, lows, count, turns, passes=True):
        self.name, self.lows, self.count, self.turns, self.passes = name, lows, count, turns, passes
        self.below = {low for near in lows for low in (near, *near.below)}

    def functions(self):
        return self.count

    def stands(self):
        return self.name == "kept"

    def prove(self, _log):
        self.turns.append(self.name)
        return self.passes


def crates(turns, failing=""):
    """A base, a short and a long chain over it, one that stands already, and a large one over that."""
    made = {}
    for name, lows, count in (("base", [], 5), ("kept", ["base"], 9), ("short", ["base"], 2), ("long", ["base"], 1),
                              ("top", ["long", "kept"], 7), ("large", ["kept"], 50)):
        made[name] = Fake(name, [made[low] for low in lows], count, turns, name != failing)
    return made


def repository(folder):
    """A repository of two crates, and a kit that has nothing but a name."""
    for name in ("low", "high"):
        os.makedirs(os.path.join(folder, "crates", name, "src"))
        with open(os.path.join(folder, "crates", name, "src", "lib.rt"), "w", encoding="utf-8") as file:
            file.write(f"// {name}\n")
    with open(os.path.join(folder, "crates.txt"), "w", encoding="utf-8") as file:
        file.write(TABLE)
    return mock.Mock(folder="/kit", path=lambda *inside: "/".join(("/kit", *inside)))


class Schedules(unittest.TestCase):
    def scheduled(self, failing=""):
        turns, told = [], []
        with mock.patch.object(proving, "processors", lambda: 1):
            failed = proving.Schedule(crates(turns, failing), io.StringIO(), told.append).run()
        return turns, told, failed

    def test_a_crate_waits_for_all_below_it(self):
        schedule = proving.Schedule(crates([]), io.StringIO(), print)
        self.assertEqual(schedule.ready(), ["base"])

    def test_the_longest_chain_goes_first(self):
        turns, told, failed = self.scheduled()
        self.assertEqual(turns, ["base", "large", "long", "top", "short"])
        self.assertEqual(told, turns)
        self.assertIsNone(failed)

    def test_a_failure_ends_it(self):
        turns, told, failed = self.scheduled("long")
        self.assertEqual((turns, told, failed.name), (["base", "large", "long"], ["base", "large"], "long"))


class Libraries(unittest.TestCase):
    def test_a_library_stands_for_its_sources_alone(self):
        with tempfile.TemporaryDirectory() as top, mock.patch.object(script, "TOP", top):
            kit = repository(top)

            def found(name="high"):
                kit.name = b"kit"
                return proving.crates_of(kit, ["high"])[name]

            low = found("low")
            self.assertFalse(low.stands())
            with mock.patch.object(proving.Crate, "passes", lambda *_: True):
                self.assertTrue(low.prove(io.StringIO()))
            self.assertTrue(found("low").stands())
            before = found().sum
            with open(os.path.join(top, "crates", "low", "src", "lib.rt"), "a", encoding="utf-8") as file:
                file.write("// more\n")
            self.assertFalse(found("low").stands())
            self.assertNotEqual(found().sum, before)

    def test_a_check_leaves_nothing(self):
        with tempfile.TemporaryDirectory() as top, tempfile.TemporaryDirectory() as memory, \
                mock.patch.object(script, "TOP", top), mock.patch.object(proving, "FOLDER_IN_MEMORY", memory):
            kit, log = repository(top), io.StringIO()
            kit.name = b"kit"
            low = proving.crates_of(kit, ["low"])["low"]
            self.assertFalse(low.passes(["sh", "-c", 'echo "$TMPDIR"; touch "$TMPDIR/left"; exit 1'], log))
            room = log.getvalue().split("\n")[1]
            self.assertEqual(os.path.dirname(room), memory)
            self.assertEqual(os.listdir(memory), [])

    def test_without_room_in_memory_the_usual_folder_serves(self):
        with mock.patch.object(proving, "FOLDER_IN_MEMORY", "/nowhere"):
            self.assertIsNone(proving.folder_of_checks())
        with mock.patch.object(proving, "MOST_WRITTEN", 1 << 60):
            self.assertIsNone(proving.folder_of_checks())

    def test_a_library_of_the_gate_is_taken_once(self):
        with tempfile.TemporaryDirectory() as top, mock.patch.object(script, "TOP", top):
            kit = repository(top)
            kit.name = b"kit"
            low = proving.crates_of(kit, ["low"])["low"]
            low.take()
            self.assertFalse(low.stands())
            left = low.at("out", "rlib", "low.rlib")
            os.makedirs(left)
            low.take()
            self.assertTrue(low.stands() and os.path.isdir(low.library))
            self.assertFalse(os.path.exists(left))

    def test_what_the_checker_said_last_is_kept_for_these_sources(self):
        said = proving.said_in("== low\nlogic=proved functions=1\nfn low: proved\nlogic=proved functions=2\n"
                               "== low: its tests\nlogic=proved tests=1\n== high\nrt: no\n")
        self.assertEqual(list(said), ["low", "high"])
        with tempfile.TemporaryDirectory() as top, mock.patch.object(script, "TOP", top):
            kit = repository(top)
            kit.name = b"kit"
            low, high = proving.crates_of(kit, ["high"]).values()
            for crate in (low, high):
                crate.take(said[crate.name])
            self.assertEqual((low.verdict(), high.verdict()), ("logic=proved functions=2", None))
            with open(os.path.join(top, "crates", "low", "src", "lib.rt"), "a", encoding="utf-8") as file:
                file.write("// more\n")
            self.assertIsNone(proving.crates_of(kit, ["low"])["low"].verdict())

    def test_words_name_the_libraries(self):
        with tempfile.TemporaryDirectory() as top, mock.patch.object(script, "TOP", top):
            kit = repository(top)
            kit.name = b"kit"
            made = proving.crates_of(kit, ["high"])
            low, high = made["low"].words(), made["high"].words()
            self.assertIn("bstr=/kit/rlibs/bstr.rlib", low)
            self.assertIn("--statements", low)
            self.assertIn(f"low={made['low'].library}", high)
            self.assertEqual(high[high.index("--crate-type") + 1], "staticlib")
