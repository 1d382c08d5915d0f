"""What checkers of the shell, of JavaScript and of C find in the sources that aren't proved."""
import trying

HEADER = trying.path("include", "cip.h")
WARNINGS = ("-Wall", "-Wextra", "-Werror", "-pedantic", "-fsyntax-only")
# as `node --check` does, which takes one file
READ_MODULES = """
const vm = require("vm"), fs = require("fs");
for (const name of process.argv.slice(1)) new vm.SourceTextModule(fs.readFileSync(name, "utf8"), { identifier: name });
"""


def shell_files():
    return ["cip", ".ci/run", *(name for name in trying.scripts() if trying.is_of(name, b"/sh"))]


class Sources(trying.Checked):
    @trying.needs("shellcheck")
    def test_shellcheck(self):
        self.finds_nothing("shellcheck", "--external-sources", *shell_files())

    @trying.needs("node", "nodejs")
    def test_the_modules_of_the_page(self):
        modules = [trying.path(name) for folder in ("tools/view", "tools/web", "javascript")
                   for name in trying.in_folder(folder, ".mjs")]
        self.finds_nothing("node", "--no-warnings", "--experimental-vm-modules", "--eval", READ_MODULES, *modules)

    @trying.needs("gcc")
    def test_the_header_by_gcc(self):
        self.finds_nothing("gcc", "-std=c99", *WARNINGS, HEADER)

    @trying.needs("clang")
    def test_the_header_by_clang(self):
        self.finds_nothing("clang", "-std=c99", *WARNINGS, HEADER)

    @trying.needs("g++")
    def test_the_header_by_a_compiler_of_cpp(self):
        self.finds_nothing("g++", "-std=c++11", *WARNINGS, "-x", "c++", HEADER)

    @trying.needs("clang++", "clang")
    def test_the_header_by_another_compiler_of_cpp(self):
        self.finds_nothing("clang++", "-std=c++11", *WARNINGS, "-x", "c++", HEADER)

    @trying.needs("gcc")
    def test_the_example_in_c(self):
        self.finds_nothing("gcc", "-std=c99", *WARNINGS, "-I", "include", "examples/label.c")
