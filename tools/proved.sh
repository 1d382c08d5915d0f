# Sourced with `top` set: where the proved program and library stand, and whether they were made from these sources.
program=$top/crates/cip/out/cip
library=$top/crates/cip_c/out/libcip_c.a
# the same as code of LLVM, of which modules for browsers are made
# shellcheck disable=SC2034
program_code=$top/crates/cip/out/cip.bc library_code=$top/crates/cip_c/out/cip_c.bc
# the page that labels, and the module of the library
# shellcheck disable=SC2034
web=$top/crates/cip/out/cip.html module=$top/crates/cip_c/out/libcip.wasm

# What was made is noted beside it: the sum of all that is proved (src, specs and proofs of the crates, and their table),
# and that of the file itself. Times of files don't count, so a build may be copied.
is_old() {
    [ ! -r "$1" ] || [ "$(cat "$1.made-of" 2> /dev/null)" != "$(made_of "$1")" ]
}

# Notes of a file that it was made from sources of this sum.
note_made() {
    if [ "$2" = "$(sources)" ]; then
        made_of "$1" > "$1.made-of"
    fi
}

# Notes of a file how it was proved: the kit, and what its checker said last of each crate. The first line says of which
# file and sources, so that a note of other ones doesn't count.
note_proof() {
    if ! is_old "$1"; then
        printf '%s\n' "$(made_of "$1")" "$2" > "$1.proof"
    fi
}

made_of() {
    case $1 in
        *.html | *.wasm) echo "$(sources) $(web_sources) $(sum_of "$1")" ;;
        *) echo "$(sources) $(sum_of "$1")" ;;
    esac
}

sources() {
    (cd "$top" && find crates/*/src crates/*/specs crates/*/proofs crates.txt -type f -print0 | sum_of_named)
}

# The sum of what a page or a module for browsers is made of besides.
web_sources() {
    (cd "$top" && find VERSION tools/web tools/view tools/bundle.py tools/causes.py tools/narrowing.py tools/sdf.py \
        tools/tables.py tools/wasm.py tools/web_page.py -type f -print0 | sum_of_named)
}

# Copies the page to where the repository keeps it, with a note of its version and of what it was made of.
keep_page() {
    mkdir -p "$top/page" && cp "$web" "$top/page/cip.html" &&
        echo "$(cat "$top/VERSION") $(made_of "$web")" > "$top/page/made-of"
}

# The sum of the files that are named.
sum_of_named() {
    LC_ALL=C sort -z | xargs -0 sha256sum | sum_of -
}

sum_of() {
    sha256sum "$1" | cut -c 1-64
}
