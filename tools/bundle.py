"""Modules of JavaScript as one script, and what keeps a page in one file safe."""
import base64
import collections
import hashlib
import json
import os
import re

import sdf

VIEW = os.path.join(os.path.dirname(os.path.realpath(__file__)), "view")
IMPORT = re.compile(r'^import [^;]*? from "(\.\.?/(?:[a-z]+/)?[a-z_]+\.mjs)";\n', re.MULTILINE)
EXPORT = re.compile(r"^export ", re.MULTILINE)
NAMED = re.compile(r"^(?:async )?(?:function\*? ?|class |const |let )(\w+)", re.MULTILINE)


def source(*inside):
    """A file of the folder `view`, or of one beside it."""
    with open(os.path.join(VIEW, *inside), encoding="utf-8") as file:
        return file.read()


def joined(*inside):
    """A module with those that it imports, as one script: a page that is opened as a file can import none, and its
    policy allows only the script whose hash it states."""
    texts = {}

    def visit(path):
        text = texts[path] = source(path)
        for other in IMPORT.findall(text):
            found = os.path.normpath(os.path.join(os.path.dirname(path), other))
            if found not in texts:
                visit(found)
        # a module comes after those that it imports
        texts[path] = texts.pop(path)

    visit(os.path.join(*inside))
    parts = [EXPORT.sub("", IMPORT.sub("", text)) for text in texts.values()]
    counts = collections.Counter(name for part in parts for name in NAMED.findall(part))
    twice = [name for name, count in counts.items() if count > 1]
    if twice:
        raise sdf.Fault(f"two modules of a page have one name: {' '.join(twice)}")
    return '"use strict";\n' + "\n".join(parts)


def hash_of(text):
    """A script or a style sheet as the policy of a page names it."""
    return "sha256-" + base64.b64encode(hashlib.sha256(text.encode()).digest()).decode()


def as_json(value):
    """JSON in which nothing can end the element that holds it."""
    text = json.dumps(value, separators=(",", ":"))
    return text.replace("&", "\\u0026").replace("<", "\\u003c").replace(">", "\\u003e")
