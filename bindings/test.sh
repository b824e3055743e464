#!/bin/bash
# Builds, installs and tries what hosts use, over the static library: bindings/test.sh PROGRAM
#
# Tries C and the system; a wheel in a fresh virtual environment; the packed crate with a fresh
# CARGO_HOME, over the static library and over what is installed under a fresh prefix; examples/;
# the examples of the documents over the installed program and package; the language server in the
# editors and the playground in the browser that are installed; and what indexes and distributions
# check of the packages (packages.sh). All is built in a temporary folder, offline,
# with neither a network nor a package of Python but pip.
#
# The library is that of the tree in which PROGRAM was built, or that of this tree, or the one that
# JT_STATIC_LIBRARY names. If a tree has none, rt builds it. The last line is 'N passed, M failed'.
set -u
program=$(realpath "${1:?usage: bindings/test.sh PROGRAM}") || exit 2
here=$(realpath "$(dirname "$0")")
# shellcheck source=bindings/trials.sh
. "$here/trials.sh"

# Checks that a command writes the text of a file.
writes() { "${@:2}" | diff "$1" -; }

# Finds the static library, or has it built.
find_library() {
    local crate
    for crate in "${program%/*}/../../jt_ffi" "$here/../crates/jt_ffi"; do
        if [ -d "$crate/src" ] && [ ! -f "$crate/out/libjt_ffi.a" ]; then
            (cd "$crate/../.." && tools/static_library.py jt_ffi) > "$room/built" 2>&1
            # (2: no library below it is built yet)
            if [ $? -eq 2 ]; then (cd "$crate" && rt lib --jobs 1) > "$room/built" 2>&1; fi
            if [ ! -f "$crate/out/libjt_ffi.a" ]; then tail -n 5 "$room/built"; fi
        fi
        if [ -f "$crate/out/libjt_ffi.a" ]; then
            realpath "$crate/out/libjt_ffi.a"
            return
        fi
    done
    echo "$room/libjt_ffi.a"
}

# Makes a virtual environment with the wheel of the package.
environment() {
    python3 -m pip wheel --quiet --no-index --no-deps --disable-pip-version-check \
        --wheel-dir "$room" "$here/python" &&
        python3 -m venv "$room/venv" &&
        "$room/venv/bin/python" -m pip install --quiet --no-index --disable-pip-version-check \
            "$room"/jt-*.whl
}

# Runs the installed Python, which finds the installed package and nothing else.
installed_python() { env -u JT_LIBRARY -u PYTHONPATH "$room/venv/bin/python" -I "$@"; }

# Runs the example as a user does, beside the folder of the package.
runs_the_example() {
    (cd "$here/.." && env -u JT_LIBRARY -u PYTHONPATH PYTHONWARNINGS=ignore \
        "$room/venv/bin/python" bindings/python/example.py) | diff "$here/python/expected" -
}

# Runs the examples of the documents over the installed program and package. (A library without a
# proof warns.)
documents() {
    env JT_LIBRARY= PYTHONPATH= PYTHONWARNINGS=ignore PATH="$room/venv/bin:$PATH" \
        "$room/venv/bin/python" "$here/../docs/run_examples.py" "$room/prefix/bin/jt"
}

# Packs the crate and unpacks it in a folder of its own. (A copy is packed, since cargo writes
# Cargo.lock beside it.)
pack() {
    "$here/rust/copy.sh" "$room/rust" &&
        (cd "$room/rust" && cargo package --quiet --allow-dirty --no-verify) &&
        mkdir "$room/crate" &&
        tar -xf "$CARGO_TARGET_DIR"/package/jt-*.crate -C "$room/crate" --strip-components=1
}

# Runs cargo in the unpacked crate.
packed() { (cd "$room/crate" && cargo "$@"); }

# Tests the unpacked crate over the installed library alone.
over_the_prefix() {
    env -u JT_LIBRARY_DIR CARGO_TARGET_DIR="$room/target-installed" \
        PKG_CONFIG_PATH="$room/prefix/lib/pkgconfig" LD_LIBRARY_PATH="$room/prefix/lib" \
        cargo test --quiet --lib --test calls --manifest-path "$room/crate/Cargo.toml"
}

# Builds the crate with a folder that has no library: the message has the command that makes one.
without_library() {
    ! JT_LIBRARY_DIR=$room packed build --quiet > "$room/message" 2>&1 &&
        grep 'cd crates/jt_ffi && rt lib' "$room/message" && ! grep 'panicked' "$room/message"
}

library=${JT_STATIC_LIBRARY:-$(find_library)}
mkdir "$room/home"
export JT_STATIC_LIBRARY=$library JT_LIBRARY=$room/libjt.so PYTHONPATH=$here/python/src
export PYTHONDONTWRITEBYTECODE=1 JT_LIBRARY_DIR=${library%/*} CARGO_NET_OFFLINE=true
export CARGO_TARGET_DIR=$room/target CARGO_HOME=$room/home
"$here/rust/offline.sh" "$room/home"
features=()
if ls -d /usr/share/cargo/registry/serde-1* > "$room/said" 2>&1; then
    features=(--features serde)
fi

try 'the library' test -f "$library"
try_script 'C and the system' "$here/c/test.sh" "$library" "$program"
try 'a fresh prefix' make -s -C "$here" install LIBRARY="$library" PROGRAM="$program" \
    OUT="$room/out" PREFIX="$room/prefix"

try 'the shared library' "$here/build.sh" "$library" "$room"
try 'the tests in Python from the tree' python3 "$here/python/test_jt.py"
for name in runs each forks; do
    try "$name in Python" python3 "$here/python/test_$name.py"
done
try 'messages of the build in Python' python3 "$here/python/test_install.py"
try 'the wheel in a fresh environment' environment
try 'the tests in Python' installed_python "$here/python/test_jt.py"
for name in runs each forks site; do
    try "$name of the installed package" installed_python "$here/python/test_$name.py"
done
try_script 'the words of the language server' installed_python "$here/python/words.py"
try_script 'the language server' installed_python "$here/python/test_lsp.py"
try_script 'the editors' installed_python "$here/python/test_editor.py"
try_script 'the playground' installed_python "$here/python/test_playground.py"
try_script 'the playground in a browser' installed_python "$here/python/test_browser.py"
try 'the example in Python' runs_the_example
try 'examples/ in Python' installed_python "$here/python/examples.py" "$here/../examples"
try_script 'the documents' documents

try 'the packed crate' pack
try 'the tests in Rust' packed test --quiet "${features[@]}"
try 'the example in Rust' writes "$here/rust/expected" packed run --quiet --example hello
try 'the crate over the prefix' over_the_prefix
try 'the crate without a library' without_library

try_script 'the packages' env -u CARGO_TARGET_DIR "$here/packages.sh" "$program"

tally
