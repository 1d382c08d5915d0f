"""What checkers of Python find in the scripts and the module."""
import trying

CACHE = trying.path("tools", "out", "mypy")


def python_files():
    return [*trying.modules(*trying.FOLDERS),
            *(name for name in trying.scripts() if trying.is_of(name, b"python"))]


class Types(trying.Checked):
    @trying.needs("pyflakes3")
    def test_pyflakes(self):
        self.finds_nothing("pyflakes3", *python_files())

    @trying.needs("mypy")
    def test_strict_types_of_the_module_for_python(self):
        self.finds_nothing("mypy", "--strict", "--cache-dir", CACHE + "-strict", "python/cip")

    @trying.needs("mypy")
    def test_types_of_the_modules_of_scripts(self):
        words = ("mypy", "--ignore-missing-imports", "--cache-dir", CACHE)
        self.finds_nothing(*words, *trying.modules("tools", "tools/tests"), MYPYPATH=trying.path("tools"))
