"""Makes the wheel of the module for pip, without any package that pip would have to fetch first.

The wheel has the scripts that make a page, if it's made in the repository. With the setting `library` it also has the
library, and with `proof` the page that says what was proved: `pip wheel ./python --config-settings library=FILE`, or
`tools/package --wheel`.

Source: PEP 517 (the call `build_wheel`), PEP 660 (`build_editable`), the wheel's form, PEP 427, and the names of
systems, PEP 600.
"""
import base64
import hashlib
import os
import re
import zipfile

HERE = os.path.dirname(os.path.abspath(__file__))
TOOLS = os.path.join(HERE, os.pardir, "tools")
WHEEL = "Wheel-Version: 1.0\nGenerator: cip\nRoot-Is-Purelib: {pure}\nTag: {tag}\n"
# the library is of the one system for which the toolchain compiles
TAG, TAG_WITH_LIBRARY = "py3-none-any", "py3-none-manylinux_2_{}_x86_64"
GLIBC = re.compile(rb"GLIBC_2\.(\d+)")
IMPORT = re.compile(rb"^import (\w+)$", re.MULTILINE)
# the earliest that a zip file can hold, so that the same files make the same wheel
TIME = (1980, 1, 1, 0, 0, 0)
MODE = 0o100644


def read(*path):
    with open(os.path.join(HERE, *path), "rb") as file:
        return file.read()


def version():
    return re.search(rb'^__version__ = "(.*)"$', read("cip", "__init__.py"), re.MULTILINE)[1].decode()


def field(name):
    """A field of pyproject.toml, which no module of the older Pythons reads."""
    return re.search(rf'^{name} = "(.*)"$', read("pyproject.toml").decode(), re.MULTILINE)[1]


def metadata():
    return (f"Metadata-Version: 2.1\nName: cip\nVersion: {version()}\nSummary: {field('description')}\n"
            f"Requires-Python: {field('requires-python')}\n")


def row(name, content):
    """A row of RECORD: a file, the sum of what it holds, and its length."""
    digest = base64.urlsafe_b64encode(hashlib.sha256(content).digest()).rstrip(b"=").decode()
    return f"{name},sha256={digest},{len(content)}\n"


def files_in(folder):
    """The names of the files of a folder."""
    return [name for name in sorted(os.listdir(folder)) if os.path.isfile(os.path.join(folder, name))]


def with_imports(name):
    """A script with the modules beside it that it needs, by their names."""
    found = [name]
    for one in found:
        imported = [f"{module.decode()}.py" for module in IMPORT.findall(read(TOOLS, one))]
        found += [other for other in imported if other not in found and os.path.exists(os.path.join(TOOLS, other))]
    return sorted(found)


def contents_of_page():
    """What makes a page, by the places of the files in the wheel."""
    if not os.path.exists(os.path.join(TOOLS, "page")):
        return {}
    view = [f"view/{name}" for name in files_in(os.path.join(TOOLS, "view"))]
    return {f"cip/tools/{name}": read(TOOLS, name) for name in [*with_imports("page"), *view]}


def tag_of(library):
    """The systems on which a library can be loaded: those with the C library whose functions it asks for."""
    return TAG_WITH_LIBRARY.format(max(map(int, GLIBC.findall(library))))


def build_wheel(wheel_directory, config_settings=None, metadata_directory=None):
    settings, tag = config_settings or {}, TAG
    contents = {f"cip/{name}": read("cip", name) for name in files_in(os.path.join(HERE, "cip"))}
    contents.update(contents_of_page())
    if settings.get("library"):
        contents["cip/libcip.so.1"] = read(os.path.abspath(settings["library"]))
        tag = tag_of(contents["cip/libcip.so.1"])
    if settings.get("proof"):
        contents[f"{information()}/PROOF.md"] = read(os.path.abspath(settings["proof"]))
    return written(wheel_directory, contents, tag)


def build_editable(wheel_directory, config_settings=None, metadata_directory=None):
    """A wheel by which Python reads the module in this folder, so that a change of it counts at once. PEP 660."""
    return written(wheel_directory, {"cip.pth": f"{HERE}\n".encode()}, TAG)


def information():
    return f"cip-{version()}.dist-info"


def written(wheel_directory, contents, tag):
    """The name of a wheel with these contents and what a wheel says of itself, which is written into a folder."""
    contents[f"{information()}/METADATA"] = metadata().encode()
    contents[f"{information()}/WHEEL"] = WHEEL.format(pure=str(tag == TAG).lower(), tag=tag).encode()
    record = f"{information()}/RECORD"
    contents[record] = ("".join(row(*item) for item in contents.items()) + f"{record},,\n").encode()
    name = f"cip-{version()}-{tag}.whl"
    with zipfile.ZipFile(os.path.join(wheel_directory, name), "w") as wheel:
        for inner, content in contents.items():
            entry = zipfile.ZipInfo(inner, TIME)
            entry.external_attr = MODE << 16
            wheel.writestr(entry, content, zipfile.ZIP_DEFLATED)
    return name
