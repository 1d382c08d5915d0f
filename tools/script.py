"""What the scripts share: their words, their statuses, faults in one line, and runs of the program.

Every script ends with 0 where all is well, 1 where it found a difference, 2 for words that aren't its own, 3 where an
input or a program can't be used, 4 where its output can't be written.
"""
import argparse
import contextlib
import glob
import gzip
import importlib.util
import lzma
import os
import shutil
import signal
import stat
import subprocess
import sys
import tempfile
import threading
import time
import zlib

import sdf

TOP = os.path.dirname(os.path.dirname(os.path.abspath(__file__)))
PROGRAM = os.path.join(TOP, "crates", "cip", "out", "cip")
DEBIAN_PYTHON = "/usr/bin/python3"
FINE, DIFFERENT, WORDS, UNUSABLE, UNWRITTEN = range(5)
UNPACKERS = {"gzip": gzip.open, "xz": lzma.open}


class Parser(argparse.ArgumentParser):
    """The words of a script; `--help` tells what it does, and words that aren't its own get one line."""

    def __init__(self, doc):
        path = os.path.relpath(os.path.abspath(sys.argv[0]), TOP)
        # an installed one is called by its name alone
        name = os.path.basename(path) if path.startswith(os.pardir) else path
        super().__init__(prog=name, description=doc, formatter_class=argparse.RawDescriptionHelpFormatter)

    def error(self, message):
        print(f"{self.prog}: {message} (see {self.prog} --help)", file=sys.stderr)
        sys.exit(WORDS)


def run(main):
    """Runs a script and ends with its status."""
    name = os.path.basename(sys.argv[0])
    sys.stdout.reconfigure(errors="backslashreplace")
    try:
        status = main()
        sys.stdout.flush()
    except sdf.Fault as fault:
        status = told(name, fault, UNUSABLE)
    except BrokenPipeError:
        # what is still kept for the closed pipe would be tried again at the end
        os.dup2(os.open(os.devnull, os.O_WRONLY), sys.stdout.fileno())
        status = told(name, "the output was closed", UNWRITTEN)
    except OSError as fault:
        status = told(name, f"{fault.filename or 'a file'}: {fault.strerror}", UNUSABLE)
    except KeyboardInterrupt:
        status = told(name, "interrupted", 128 + signal.SIGINT)
    sys.exit(status)


def told(name, why, status):
    Bar.clear()
    print(f"{name}: {why}", file=sys.stderr)
    return status


def say_counts(counts, names):
    """Prints counts on standard error, as a log has them."""
    Bar.clear()
    name = os.path.basename(sys.argv[0])
    print(f"{name}: " + ", ".join(f"{what} {counts[what]}" for what in names), file=sys.stderr)


def say(line):
    """Prints a line where a bar may stand."""
    Bar.clear()
    print(line, flush=True)


class Bar:
    """How far a reading of a file is: a line on a terminal that standard error is, and nothing where it's none."""

    WIDTH, EVERY = 30, 0.1
    is_drawn = False

    def __init__(self, file):
        status = os.fstat(file.fileno())
        self.size = status.st_size if stat.S_ISREG(status.st_mode) else 0
        self.is_wanted, self.due = sys.stderr.isatty(), 0.0

    def show(self, done):
        if self.is_wanted and time.monotonic() >= self.due:
            self.due = time.monotonic() + self.EVERY
            sys.stderr.write("\r\033[K" + self.text(done))
            sys.stderr.flush()
            Bar.is_drawn = True

    def text(self, done):
        """A bar with bytes read and all; of a stream, whose end isn't known, the bytes read."""
        if not self.size:
            return f"{done / 1e6:.1f} MB"
        part = min(1.0, done / self.size)
        filled = round(part * self.WIDTH)
        bar = "#" * filled + "." * (self.WIDTH - filled)
        return f"[{bar}] {part:4.0%} of {self.size / 1e6:.1f} MB"

    @staticmethod
    def clear():
        if Bar.is_drawn:
            sys.stderr.write("\r\033[K")
            sys.stderr.flush()
            Bar.is_drawn = False


class Watched:
    """A file that shows a bar while it's read."""

    def __init__(self, file):
        self.file, self.bar, self.done = file, Bar(file), 0

    def read(self, size):
        piece = self.file.read(size)
        self.done += len(piece)
        if piece:
            self.bar.show(self.done)
        else:
            Bar.clear()
        return piece


def waited(child, file):
    """The status of a run that reads a file of the system, with a bar while it goes on."""
    bar = Bar(file)
    while True:
        try:
            status = child.wait(Bar.EVERY if bar.is_wanted else None)
        except subprocess.TimeoutExpired:
            # the place in the file is that of the child, which has the same open file
            bar.show(os.lseek(file.fileno(), 0, os.SEEK_CUR))
        else:
            Bar.clear()
            return status


def with_rdkit():
    """Goes on with RDKit, which says nothing of what it reads."""
    with_package("rdkit", "RDKit", "python3-rdkit")
    from rdkit import RDLogger
    RDLogger.DisableLog("rdApp.*")


def with_package(module_name, name, package):
    """Goes on under Debian's Python where this one hasn't a module, which Debian packs for its own alone."""
    if importlib.util.find_spec(module_name):
        return
    if os.path.realpath(sys.executable) != os.path.realpath(DEBIAN_PYTHON) and os.path.exists(DEBIAN_PYTHON):
        os.execv(DEBIAN_PYTHON, [DEBIAN_PYTHON, *sys.argv])
    raise sdf.Fault(f"{name} isn't installed (Debian: {package})")


def module():
    """The module for Python: that of this tree, or that below the PREFIX of an installed script, or any other."""
    below = glob.glob(os.path.join(TOP, "..", "..", "lib", "python3*", "*-packages", "cip", "__init__.py"))
    sys.path[:0] = [os.path.join(TOP, "python"), *(os.path.dirname(os.path.dirname(path)) for path in sorted(below))]
    try:
        import cip
    except ImportError:
        raise sdf.Fault("the module for Python isn't installed (tools/install)") from None
    return cip


def labeller(cip, nodes, rule_1b):
    """A labeller of the module; a fault where its library isn't there."""
    try:
        return cip.Labeller(nodes=nodes, rule_1b=rule_1b)
    except cip.Error as fault:
        raise sdf.Fault(str(fault)) from None


def program(path):
    """A program's whole path; a fault where it isn't one."""
    found = shutil.which(path) or shutil.which(os.path.abspath(path))
    if not found:
        raise sdf.Fault(f"{path}: no such program")
    return os.path.abspath(found)


@contextlib.contextmanager
def plain(path):
    """An SDfile as a file of the system, which a program can be given; unpacked if it is packed by gzip or xz.

    A fault if it has no record.
    """
    with open(path, "rb") as given, contextlib.ExitStack() as held:
        file = given if given.seekable() else held.enter_context(kept(given))
        try:
            if packer := sdf.packed_by(beginning(file)):
                file = held.enter_context(unpacked(file, packer[0]))
            if next(sdf.records(file), None) is None:
                raise sdf.Fault("no record in it")
        except sdf.Fault as fault:
            raise sdf.Fault(f"{path}: {fault}") from None
        file.seek(0)
        yield file


def beginning(file):
    """The first bytes of a file, which is then at its beginning again."""
    found = file.read(max(map(len, sdf.PACKED)))
    file.seek(0)
    return found


@contextlib.contextmanager
def unpacked(file, packer):
    """A packed file as a plain one of the system."""
    with UNPACKERS[packer](file) as stream, tempfile.TemporaryFile() as copy:
        try:
            shutil.copyfileobj(stream, copy, sdf.PIECE)
        except (lzma.LZMAError, gzip.BadGzipFile, zlib.error, EOFError):
            raise sdf.Fault(f"its {packer} is broken") from None
        copy.seek(0)
        yield copy


@contextlib.contextmanager
def kept(stream):
    """A stream as a file of the system."""
    with tempfile.TemporaryFile() as copy:
        shutil.copyfileobj(stream, copy, sdf.PIECE)
        copy.seek(0)
        yield copy


def output_of(path, file, *words):
    """What a program writes of a file, as a file of the system; it goes away with the last that has it open."""
    file.seek(0)
    out = tempfile.TemporaryFile()
    child = subprocess.Popen([path, *words], stdin=file, stdout=out)
    checked(path, waited(child, file))
    out.seek(0)
    return out


def add_words(parser):
    """The words that go behind `annotate`: all that follow."""
    parser.add_argument("words", metavar="WORD", nargs=argparse.REMAINDER, default=[]).required = False


def annotated(path, file, *words):
    """The records of a file as a program annotates them, each with what its item says."""
    file.seek(0)
    child = subprocess.Popen([path, "annotate", *words], stdin=file, stdout=subprocess.PIPE)
    count, bar = 0, Bar(file)
    try:
        for count, record in enumerate(sdf.records(child.stdout), 1):
            bar.show(os.lseek(file.fileno(), 0, os.SEEK_CUR))
            answer = sdf.answer(record, count)
            if answer is None:
                raise sdf.Fault(f"{path} wrote a record {count} without an item CIP_LABELS")
            yield record, answer
    except BaseException:
        child.kill()
        raise
    finally:
        child.stdout.close()
        status = child.wait()
        Bar.clear()
    checked(path, status)
    if not count:
        raise sdf.Fault("no record came back")


def checked(path, status):
    if status not in (0, 1):
        raise sdf.Fault(f"{path} ended with status {status}")
    return status


def parallel(program, ending, jobs, block, log, words=()):
    """The command by which GNU parallel cuts its input behind terminator lines and annotates the parts.

    Written out for a shell: parallel --pipe --recend '\\n$$$$\\n' --keep-order cip annotate
    """
    path = shutil.which("parallel")
    if not path:
        raise sdf.Fault("GNU parallel isn't installed (Debian: parallel)")
    cuts = {b"\n": "\\n$$$$\\n", b"\r\n": "\\r\\n$$$$\\r\\n"}
    return [path, "--will-cite", "--quote", "--pipe", "--recend", cuts[ending], "--keep-order", "--jobs", str(jobs),
            "--block", block, "--joblog", log, program, "annotate", *words]


def greatest_status(log):
    """The greatest status of the jobs in a log of GNU parallel, and how many jobs there were."""
    with open(log, encoding="utf-8") as file:
        statuses = [int(line.split("\t")[6]) for line in list(file)[1:]]
    return max(statuses, default=0), len(statuses)


def are_same(one, other):
    """Whether two files hold the same bytes."""
    with open(one, "rb") as first, open(other, "rb") as second:
        while True:
            here, there = first.read(sdf.PIECE), second.read(sdf.PIECE)
            if here != there:
                return False
            if not here:
                return True


class Peak(threading.Thread):
    """The most memory that a running process took, in MiB, as the system tells while it runs.

    What `wait` tells of a child isn't less than what its parent took before.
    """

    EVERY = 0.002

    def __init__(self, process):
        super().__init__(daemon=True)
        self.process, self.mebibytes, self.ended = process, 0.0, False
        self.start()

    def run(self):
        while not self.ended:
            try:
                with open(f"/proc/{self.process}/status") as file:
                    found = [line.split()[1] for line in file if line.startswith("VmHWM:")]
            except OSError:
                return
            if not found:
                return
            self.mebibytes = int(found[0]) / 1024
            time.sleep(self.EVERY)

    def of_ended(self):
        """The peak, once the process has ended."""
        self.ended = True
        self.join()
        return self.mebibytes
