"""Crates proved and built one by one, beside the gate: by the kit's compiler, which builds nothing that isn't proved.

A crate whose library stands already, made from the same sources by the same kit, isn't proved again.
"""
import concurrent.futures
import hashlib
import os
import re
import shutil
import subprocess
import tempfile

import crate_table
import script
import sdf

MEMORY_OF_A_CHECK = 3 << 20     # in KiB, as /proc/meminfo tells
# A check writes thousands of small files and removes them again: some 200 MB, sooner in memory than on a disk.
FOLDER_IN_MEMORY = "/dev/shm"
MOST_WRITTEN = 1 << 30          # in bytes, by a check
PROVED_PARTS = ("src", "specs", "proofs")
# what the checker says last of a crate, and how what is said of a crate begins in the log of a run
VERDICT = re.compile(r"^logic=proved .*$", re.MULTILINE)
HEAD = re.compile(r"^== (\w+)(.*)$", re.MULTILINE)
# The kit hands all of a program to its clang as LLVM's code, in a file of this name: this clang keeps a copy of it.
KEEPING = """#!/bin/sh
cp module.bc '{code}' || exit 1
exec '{clang}' "$@"
"""


class Kit:
    """The toolchain, by its folder."""

    def __init__(self):
        rt = shutil.which("rt")
        if not rt:
            raise sdf.Fault("rt, the toolchain, isn't on the path")
        self.folder = os.path.dirname(os.path.dirname(os.path.realpath(rt)))
        self.name = subprocess.run([rt, "version"], stdout=subprocess.PIPE, check=True).stdout

    def path(self, *inside):
        return os.path.join(self.folder, *inside)

    def keeping_toolchain(self, room, code):
        """A folder with the kit's tools for a compiler, whose clang keeps the code that it is given."""
        folder = os.path.join(room, "toolchain")
        os.makedirs(os.path.join(folder, "bin"))
        shutil.copytree(self.path("toolchain", "lib"), os.path.join(folder, "lib"), symlinks=True)
        for name in os.listdir(self.path("toolchain", "bin")):
            os.symlink(os.path.realpath(self.path("toolchain", "bin", name)), os.path.join(folder, "bin", name))
        clang = os.path.join(folder, "bin", "clang")
        os.remove(clang)
        with open(clang, "w", encoding="utf-8") as script_of_clang:
            script_of_clang.write(KEEPING.format(code=code, clang=self.path("toolchain", "bin", "clang")))
        os.chmod(clang, 0o755)
        return folder


class Crate:
    """A crate of this repository, with those that it names and all on which it stands."""

    def __init__(self, kit, name, crates):
        self.kit, self.name = kit, name
        self.named = crate_table.named()[name]
        self.lows = [crates[low] for low in self.named if low in crates]
        self.below = {low for near in self.lows for low in (near, *near.below)}
        self.folder = os.path.join(script.TOP, "crates", name)
        self.is_program = os.path.isfile(self.at("src", "main.rt"))
        self.is_static = name in crate_table.static_libraries()
        self.library = self.at("out", "proved", name + ".rlib")
        self.note = self.at("out", "proved", "made-of")
        self.said = self.at("out", "proved", "said")
        self.code = self.at("out", name + ".bc")
        self.sum = self.sum_of()
        self.last_said = ""

    def at(self, *inside):
        return os.path.join(self.folder, *inside)

    def files(self):
        for part in PROVED_PARTS:
            for folder, inside, names in os.walk(self.at(part)):
                inside.sort()
                yield from (os.path.join(folder, name) for name in sorted(names))

    def sum_of(self):
        """The sum of all that a proof of this crate rests on."""
        found = hashlib.sha256(self.kit.name + repr([self.named, [low.sum for low in self.lows]]).encode())
        for path in self.files():
            with open(path, "rb") as file:
                text = file.read()
            found.update(f"{os.path.relpath(path, self.folder)} {len(text)}\n".encode() + text)
        return found.hexdigest()

    def functions(self):
        """How many functions it has, by which it can be told before how long their proofs take."""
        count = 0
        for path in self.files():
            if path.endswith(".rt"):
                with open(path, "rb") as file:
                    count += file.read().count(b"fn ")
        return count

    def stands(self):
        """Whether its library was proved from these sources."""
        try:
            with open(self.note, encoding="utf-8") as note:
                return note.read() == self.sum
        except FileNotFoundError:
            return False

    def take(self, said=""):
        """Takes the library that `rt ci` has just proved and left, where it did, and what it said of it."""
        left = self.at("out", "rlib", self.name + ".rlib")
        if os.path.isdir(left):
            self.clear()
            shutil.move(left, self.library)
            self.note_made()
        self.keep(said)

    def keep(self, said):
        """Keeps what the checker said last of it, if these sources still are what it proved."""
        found = VERDICT.findall(said)
        if found and self.sum == self.sum_of():
            os.makedirs(os.path.dirname(self.said), exist_ok=True)
            with open(self.said, "w", encoding="utf-8") as note:
                note.write(f"{self.sum} {found[-1]}\n")

    def verdict(self):
        """What the checker said last when it proved these sources; None if that isn't kept."""
        try:
            with open(self.said, encoding="utf-8") as note:
                made_of, _, said = note.read().partition(" ")
        except FileNotFoundError:
            return None
        return said.strip() if made_of == self.sum else None

    def clear(self):
        shutil.rmtree(os.path.dirname(self.library), ignore_errors=True)
        os.makedirs(os.path.dirname(self.library))

    def note_made(self):
        """Notes of which sources its library was made, if these still stand."""
        if self.sum == self.sum_of():
            with open(self.note, "w", encoding="utf-8") as note:
                note.write(self.sum)

    def words(self, toolchain=""):
        """What proves and builds it, by one processor: more are done sooner, and take a third more in all. The
        compiler is the kit's if no folder of another toolchain is given."""
        kit = self.kit
        words = [kit.path("bin", "rattle"), "build", "--crate-name", self.name,
                 "src/main.rt" if self.is_program else "src/lib.rt", "--links", self.name + "=", "--jobs", "1",
                 "--antt-project", kit.path("rattle", "logic", "antt-project.json"),
                 "--logic-built", kit.path("logic_built"), "-L", "dependency=" + kit.path("rlibs")]
        libraries = {low.name: low.library for low in self.lows}
        for name in ["std", *self.named]:
            words += ["--extern", f"{name}={libraries.get(name) or kit.path('rlibs', name + '.rlib')}"]
        for low in sorted(self.below, key=lambda low: low.name):
            words += ["-L", "dependency=" + os.path.dirname(low.library)]
        return words + self.what_is_made(toolchain or self.kit.path("toolchain"))

    def what_is_made(self, toolchain):
        compiled = ["--toolchain", toolchain, "--backend", "llvm"]
        if self.is_program:
            return [*compiled, "-o", os.path.join("out", self.name + ".o")]
        if self.is_static:
            return ["--crate-type", "staticlib", *compiled, "-o", os.path.join("out", f"lib{self.name}.a")]
        return ["--statements", "-o", self.library]

    def prove(self, log):
        """Whether it is proved and what is made of it stands; what was said goes behind what the log has."""
        self.clear()
        if self.is_program or self.is_static:
            return self.compile(log)
        done = self.passes(self.words(), log)
        if done:
            self.keep(self.last_said)
            self.note_made()
        return done

    def compile(self, log):
        """Whether what is compiled of it stands, with its code beside it."""
        with tempfile.TemporaryDirectory(prefix="cip-") as room:
            done = self.passes(self.words(self.kit.keeping_toolchain(room, self.code)), log)
        if done:
            self.keep(self.last_said)
        return done and (not self.is_program or self.passes(self.link_words(), log))

    def link_words(self):
        kit, made = self.kit, os.path.join("out", self.name)
        return [kit.path("bin", "rattle-link"), "--target", "x86_64-unknown-linux-gnu",
                "--toolchain", kit.path("toolchain"), "-o", made,
                made + ".o", kit.path("c", "libos_c.a"), kit.path("c", "liblibc_c.a")]

    def passes(self, words, log):
        # the folder goes also where a check was ended and left its files
        with tempfile.TemporaryDirectory(prefix="cip-", dir=folder_of_checks()) as room:
            ran = subprocess.run(words, cwd=self.folder, env={**os.environ, "TMPDIR": room}, stdin=subprocess.DEVNULL,
                                 stdout=subprocess.PIPE, stderr=subprocess.STDOUT, encoding="utf-8", errors="replace",
                                 check=False)
        # one write, since other crates' logs go into the same file
        log.write(f"== {self.name}\n{ran.stdout}")
        log.flush()
        self.last_said = ran.stdout
        return ran.returncode == 0


def crates_of(kit, names):
    """These crates by name, with all on which they stand."""
    crates = {}

    def add(name):
        if name not in crates:
            for low in crate_table.stands_on()[name]:
                add(low)
            crates[name] = Crate(kit, name, crates)

    for name in names:
        add(name)
    return crates


def said_in(log):
    """What a log of `rt ci` says of the proofs of each crate; parts about its tests and the like have a longer head."""
    heads = list(HEAD.finditer(log))
    ends = [head.start() for head in heads[1:]] + [len(log)]
    return {head[1]: log[head.end():end] for head, end in zip(heads, ends) if not head[2]}


def folder_of_checks():
    """Where checks keep what they need for themselves: in memory if there is room; None for the usual folder."""
    try:
        told = os.statvfs(FOLDER_IN_MEMORY)
    except OSError:
        return None
    has_room = told.f_bavail * told.f_frsize >= MOST_WRITTEN * processors()
    return FOLDER_IN_MEMORY if has_room and os.access(FOLDER_IN_MEMORY, os.W_OK) else None


def processors():
    """How many checks there are processors and memory for at a time."""
    with open("/proc/meminfo", encoding="utf-8") as told:
        free = next(int(line.split()[1]) for line in told if line.startswith("MemAvailable:"))
    return max(1, min(len(os.sched_getaffinity(0)), free // MEMORY_OF_A_CHECK))


def longest_behind(crates):
    """By crate, the functions of the longest chain that begins with it: each of its crates waits for the one before."""
    longest = {name: crate.functions() for name, crate in crates.items()}
    # a crate comes behind those on which it stands
    for name in reversed(crates):
        for low in crates[name].lows:
            longest[low.name] = max(longest[low.name], low.functions() + longest[name])
    return longest


class Schedule:
    """Crates that are proved, as many at a time as there is room for, those first for which the longest chain waits."""

    def __init__(self, crates, log, tell):
        self.crates, self.log, self.tell = crates, log, tell
        self.stand = {name for name, crate in crates.items() if crate.stands()}
        longest = longest_behind(crates)
        self.waiting = sorted(set(crates) - self.stand, key=lambda name: -longest[name])
        self.running = {}

    def run(self):
        """The first crate that fails; none where all are proved."""
        room = processors()
        with concurrent.futures.ThreadPoolExecutor(room) as pool:
            while self.waiting or self.running:
                for name in self.ready()[:room - len(self.running)]:
                    self.waiting.remove(name)
                    self.running[pool.submit(self.crates[name].prove, self.log)] = name
                ended, _ = concurrent.futures.wait(self.running, return_when=concurrent.futures.FIRST_COMPLETED)
                for future in ended:
                    name = self.running.pop(future)
                    if not future.result():
                        self.waiting.clear()
                        return self.crates[name]
                    self.stand.add(name)
                    self.tell(name)
        return None

    def ready(self):
        """What waits for nothing but its turn: a library names also those on which the crates that it names stand."""
        return [name for name in self.waiting if all(low.name in self.stand for low in self.crates[name].below)]
