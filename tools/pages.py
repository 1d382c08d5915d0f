"""Pages that scripts write from the sources: lines wrapped, written or compared with those that stand."""
import os

import script
import sdf

CRATES = os.path.join(script.TOP, "crates")
LONGEST = 120


def read_text(path):
    try:
        with open(path, encoding="utf-8") as file:
            return file.read()
    except OSError as fault:
        raise sdf.Fault(f"{path}: {fault.strerror}") from None


def head_of(text, sign="--"):
    """The first comment of a file, in one line."""
    lines = []
    for line in text.splitlines():
        if not line.startswith(sign):
            break
        lines.append(line[len(sign):].strip())
    return " ".join(lines)


def wrapped(line):
    """A line of a text or a list, broken at spaces."""
    if len(line) <= LONGEST or line.startswith("|"):
        return [line]
    indent = "  " if line.startswith("- ") else ""
    found, now = [], ""
    for word in line.split(" "):
        longer = f"{now} {word}" if now else word
        if len(longer) > LONGEST and now:
            found.append(now)
            now = indent + word
        else:
            now = longer
    return found + [now]


def text_of(lines):
    """A page of lines, each wrapped where it isn't code."""
    found, is_code = [], False
    for line in lines:
        is_code ^= line.startswith("```")
        found += [line] if is_code else wrapped(line)
    return "\n".join(found).rstrip("\n") + "\n"


def write(name, text):
    with open(os.path.join(script.TOP, name), "w", encoding="utf-8") as file:
        file.write(text)


def is_fresh(name, text, writer):
    """Whether a page is as it should be; where it is stale is told."""
    path = os.path.join(script.TOP, name)
    old = read_text(path) if os.path.exists(path) else ""
    if old == text:
        return True
    was, now = old.splitlines(), text.splitlines()
    shared = min(len(was), len(now))
    place = next((number for number in range(shared) if was[number] != now[number]), shared) + 1
    print(f"{name}:{place}: stale; {writer} writes it anew")
    return False


def written(pages, check, writer):
    """Writes pages, by their names, or tells which are stale; the status of a script."""
    if check:
        return script.FINE if all([is_fresh(name, text, writer) for name, text in pages.items()]) else script.DIFFERENT
    for name, text in pages.items():
        write(name, text)
    return script.FINE
