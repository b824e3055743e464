#!/bin/bash
# Checks the packages as their indexes and distributions do: bindings/packages.sh PROGRAM
#
# Python: the source distribution, the wheel of it, its tag, the types. Rust: cargo package with its
# verification, the documentation without a library, clippy of each toolchain at hand, the messages
# of the build script. C: mandoc, and lintian over a package of what is installed.
#
# It needs no network. It names what it leaves out because a tool is not installed. The library is
# that of JT_STATIC_LIBRARY, or else of this tree. The last line is 'N passed, M failed'.
set -u
program=$(realpath "${1:?usage: bindings/packages.sh PROGRAM}") || exit 2
here=$(realpath "$(dirname "$0")")
library=$(realpath "${JT_STATIC_LIBRARY:-$here/../crates/jt_ffi/out/libjt_ffi.a}") || exit 2
# shellcheck source=bindings/trials.sh
. "$here/trials.sh"

# Checks that a command prints nothing.
is_silent() {
    "$@" > "$room/printed" 2>&1
    cat "$room/printed"
    [ ! -s "$room/printed" ]
}

# Makes the source distribution, and of it the wheel, with the library that it holds.
builds_the_wheel() {
    local make='import build_jt, sys; build_jt.build_sdist(sys.argv[1])'
    (cd "$here/python" && python3 -B -c "$make" "$room") || return
    env -u JT_STATIC_LIBRARY python3 -m pip wheel --quiet --no-index --no-deps \
        --disable-pip-version-check --wheel-dir "$room" "$room"/jt-*.tar.gz
}

# Checks by objdump that the library of the wheel needs no later glibc than its tag states.
has_its_tag() {
    local wheel least
    wheel=$(echo "$room"/jt-*-manylinux_2_*_x86_64.whl)
    least=${wheel#*manylinux_2_}
    python3 -m zipfile -e "$wheel" "$room/wheel" &&
        objdump -T "$room/wheel/jt/libjt.so" | grep -o 'GLIBC_2\.[0-9]*' > "$room/symbols" &&
        awk -F. -v least="${least%%_*}" '$2 > least { print; late = 1 } END { exit late }' \
            "$room/symbols"
}

# Takes the files of the crate out of the tree, where a toolchain may write its own Cargo.lock.
copy_the_crate() { "$here/rust/copy.sh" "$room/$1"; }

# Runs cargo in a copy.
in_copy() { (cd "$room/$1" && CARGO_TARGET_DIR=$room/target-$1 cargo "${@:2}"); }

# Makes the documentation as an index does it: without the library, and no warning is let pass.
documents_the_crate() {
    env -u JT_LIBRARY_DIR DOCS_RS=1 RUSTDOCFLAGS='-D warnings' JT_LIBRARY_DIR="$room/none" \
        CARGO_TARGET_DIR="$room/target-docs" cargo doc --quiet --no-deps "${features[@]}" \
        --manifest-path "$room/newest/Cargo.toml"
}

# Checks that the build script names what is missing, on a target and with a folder, with no panic.
names_what_is_missing() {
    local script=$room/build-script
    rustc --edition 2021 -o "$script" "$here/rust/build.rs" || return
    local -x CARGO_MANIFEST_DIR=$room/none OUT_DIR=$room TARGET=$1-unknown-$2-$3
    local -x CARGO_CFG_TARGET_ARCH=$1 CARGO_CFG_TARGET_OS=$2 CARGO_CFG_TARGET_ENV=$3
    ! JT_LIBRARY_DIR=$room/none "$script" 2> "$room/message" > "$room/printed" &&
        ! grep -q panicked "$room/message" && grep -q -e "$4" "$room/message"
}

# Makes a package of what is installed, as a packager does: stripped, with a copyright and a log.
package_for_debian() {
    local root=$room/debian doc=$room/debian/usr/share/doc/libjt0.1
    make -s -C "$here" install LIBRARY="$library" PROGRAM="$program" OUT="$room/out" \
        DESTDIR="$root" PREFIX=/usr LIBDIR=/usr/lib/x86_64-linux-gnu || return
    mkdir -p "$root/DEBIAN" "$doc" && mv "$root"/usr/share/doc/jt/* "$doc" || return
    rmdir "$root/usr/share/doc/jt"
    strip --strip-unneeded --remove-section=.comment --remove-section=.note \
        "$root/usr/bin/jt" "$root"/usr/lib/x86_64-linux-gnu/libjt.so.*.*.* || return
    strip --strip-debug --enable-deterministic-archives "$root"/usr/lib/x86_64-linux-gnu/libjt.a
    { echo 'Format: https://www.debian.org/doc/packaging-manuals/copyright-format/1.0/' &&
        printf '\nFiles: *\nCopyright: 2026 the authors of jt\nLicense: MIT or Apache-2.0\n' &&
        sed 's/^$/./; s/^/ /' "$here/../LICENSE-MIT"; } > "$doc/copyright"
    printf 'libjt0.1 (%s-1) unstable; urgency=low\n\n  * A trial.\n\n -- %s  %s\n' "$version" \
        'The authors <authors@example.org>' 'Sun, 29 Nov 2026 00:00:00 +0000' |
        gzip -9n > "$doc/changelog.Debian.gz"
    gzip -9n "$root/usr/share/man/man1/jt.1"
    printf '%s\n' 'Package: libjt0.1' "Version: $version-1" 'Architecture: amd64' \
        'Maintainer: The authors <authors@example.org>' 'Section: libs' 'Priority: optional' \
        'Depends: libc6 (>= 2.34)' 'Description: Jinja templates in a sandbox' \
        ' Compiles Jinja templates to images and runs them in a sandbox that is proved.' \
        > "$root/DEBIAN/control"
    printf 'libjt 0.1 libjt0.1\n' > "$root/DEBIAN/shlibs"
    printf 'activate-noawait ldconfig\n' > "$root/DEBIAN/triggers"
    (cd "$root" && find usr -type f -exec md5sum {} + > DEBIAN/md5sums)
    find "$root" -type d -exec chmod 755 {} +
    dpkg-deb --root-owner-group --build "$root" "$room/libjt0.1_$version-1_amd64.deb"
}

# Checks that lintian has no error. (A package of one's own has no bug number and no signature.)
lintian_is_content() {
    lintian --allow-root --no-tag-display-limit --fail-on error \
        "$room/libjt0.1_$version-1_amd64.deb"
}

version=$(awk '$2 == "JT_VERSION" { gsub(/"/, "", $3); print $3 }' "$here/c/jt.h")
export JT_STATIC_LIBRARY=$library JT_LIBRARY_DIR=${library%/*} PYTHONDONTWRITEBYTECODE=1
export CARGO_NET_OFFLINE=true CARGO_HOME=$room/home
mkdir "$room/home"

# Python.
try 'the source distribution and its wheel' builds_the_wheel
try 'the tag of the wheel' has_its_tag
if have mypy; then
    try 'the types in Python' env MYPYPATH="$here/python/src" \
        mypy --strict --cache-dir="$room/mypy" -p jt
fi

# Rust. (The feature serde needs the crate serde, which is Debian's, or else a crate without code.)
"$here/rust/offline.sh" "$room/home"
features=()
if [ -d /usr/share/cargo/registry/ ] && ls /usr/share/cargo/registry/serde-1* > "$room/said"; then
    features=(--features serde)
else
    echo 'left out: the feature serde, as librust-serde-dev is not installed'
fi
if have cargo; then
    copy_the_crate newest
    try 'cargo package' in_copy newest package --quiet --allow-dirty "${features[@]}"
    try 'the documentation without a library' documents_the_crate
    try 'the message without a library' names_what_is_missing x86_64 linux gnu unproved.py
    try 'the message for another target' names_what_is_missing aarch64 linux gnu 'not for aarch64'
    try 'the message for musl' names_what_is_missing x86_64 linux musl 'not for x86_64.*musl'
    if cargo fmt --version > "$room/said" 2>&1; then
        try 'the style in Rust' in_copy newest fmt --check
    else
        echo 'left out: cargo fmt is not installed'
    fi
    at=0
    for folder in $(type -ap cargo | xargs -n 1 dirname | xargs realpath | awk '!seen[$0]++'); do
        at=$((at + 1))
        if PATH=$folder:$PATH cargo clippy --version > "$room/said" 2>&1; then
            copy_the_crate "clippy-$at"
            PATH=$folder:$PATH try "$(cat "$room/said")" in_copy "clippy-$at" clippy --quiet \
                --all-targets "${features[@]}" -- -D warnings
        else
            echo "left out: clippy of $folder/cargo is not installed"
        fi
    done
fi

# C.
if have mandoc; then try 'jt.1 by mandoc' is_silent mandoc -T lint "$here/c/jt.1"; fi
if have dpkg-deb && have lintian; then
    try 'a package for Debian' package_for_debian
    try 'lintian' lintian_is_content
fi

tally
