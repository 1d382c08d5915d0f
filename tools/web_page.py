"""The page that labels in a browser: one file with the program's module, the modules of tools/view and its own.

What comes with a record is put in as text, never as markup; the policy of the page allows the script and the style
sheet whose hashes it states, workers that it makes itself, and no connection.
"""
import base64
import gzip
import os
import re

import bundle
import causes
import script
import sdf
import tables

PLACE = re.compile(r"\{([a-z_]+)\}")
PROGRAM = re.compile(r'(<script type="application/octet-stream" id="program">)([^<]*)(</script>)')
# what tools/page says is given beside the items
GIVEN = ("explain", "axes", "groups", "senses")


def web(name):
    return bundle.source(os.pardir, "web", name)


def packed(module):
    """A module as text; the same bytes give the same text where zlib is the same."""
    return base64.b64encode(gzip.compress(module, 9, mtime=0)).decode()


def page(module):
    """The page, with the program's module."""
    settings = {"letters": sdf.LETTERS, "kinds": sdf.KINDS, "causes": causes.CAUSES, "given": dict.fromkeys(GIVEN, 1),
                "head": tables.head_of("tabs", tables.COLUMNS)}
    style = bundle.source("page.css") + web("web.css")
    code, worker = (bundle.joined(os.pardir, "web", name) for name in ("app.mjs", "worker.mjs"))
    if any("</script" in text or "<!--" in text for text in (code, worker)):
        raise sdf.Fault("a script of the page would end too soon")
    with open(os.path.join(script.TOP, "VERSION"), encoding="utf-8") as file:
        version = file.read().strip()
    parts = {"style": style, "style_hash": bundle.hash_of(style), "code": code, "code_hash": bundle.hash_of(code),
             "worker": worker, "program": packed(module), "settings": bundle.as_json(settings), "version": version,
             "filters": bundle.source("filters.html")}
    return PLACE.sub(lambda found: parts[found[1]], web("page.html"))


def module_of(text):
    """The module in a page."""
    return gzip.decompress(base64.b64decode(PROGRAM.search(text)[2]))


def without_module(text):
    """A page without its module, which another zlib packs into other bytes."""
    return PROGRAM.sub(r"\1\3", text)
