"""The crates of the repository, and on which others each stands."""
import os
import re

import script

CRATE = re.compile(r"(\w+)([^:#]*):([^#]*)")


def rows():
    """The parts of each line that names a crate: its name, what is said of it, and what it names."""
    with open(os.path.join(script.TOP, "crates.txt"), encoding="utf-8") as lines:
        return [parts.groups() for line in lines if (parts := CRATE.match(line))]


def named():
    """By crate, the libraries that it names, those of the toolchain too."""
    return {name: names.split() for name, _, names in rows()}


def static_libraries():
    """The crates that are libraries for C."""
    return {name for name, said, _ in rows() if "staticlib" in said.split()}


def stands_on():
    """By crate, those of this repository that it names."""
    found = named()
    return {crate: [low for low in names if low in found] for crate, names in found.items()}


def below(*names):
    """Each crate on which these stand, themselves too."""
    named_by, found, left = stands_on(), set(), list(names)
    while left:
        crate = left.pop()
        if crate not in found:
            found.add(crate)
            left += named_by[crate]
    return found
