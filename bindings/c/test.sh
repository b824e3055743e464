#!/bin/bash
# Tests jt for C and for the system: c/test.sh LIBRARY PROGRAM, which are libjt_ffi.a and jt_cli.
# Installs into a temporary folder from the tree and from the archive, and runs hosts in C over
# both. Prints what fails; the last line is 'N passed, M failed'.
set -u
library=$(realpath "${1:?usage: c/test.sh LIBRARY PROGRAM}") || exit 2
program=$(realpath "${2:?usage: c/test.sh LIBRARY PROGRAM}") || exit 2
here=$(realpath "$(dirname "$0")")
cc=${CC:-cc}
# shellcheck source=bindings/trials.sh
. "$here/../trials.sh"
unset MAKEFLAGS MFLAGS LD_LIBRARY_PATH

# Runs make over the tree, with all that it builds in the temporary folder.
tree() {
    make -s -C "$here/.." LIBRARY="$library" PROGRAM="$program" OUT="$room/out" "$@"
}

# Prints what `jt` and `jt COMMAND` take, one word a line.
commands() { "$program" --help 2>&1 | sed -n '/^Commands:/,/^$/s/^  \([a-z]*\) .*/\1/p'; }
options() { "$program" "$1" --help 2>&1 | grep -o -- '--[a-z-]*' | sort -u; }

# Checks that two texts are equal, and prints how they differ.
is_equal() { diff <(echo "$1") <(echo "$2"); }

# Compiles example.c by pkg-config alone, shared and static, and runs it.
hosts() {
    local root=$1 prefix=$2
    local -x PKG_CONFIG_SYSROOT_DIR=$root PKG_CONFIG_LIBDIR=$root$prefix/lib/pkgconfig
    local flags static
    flags=$(pkg-config --cflags --libs jt) || return
    static=$(pkg-config --static --cflags --libs jt) || return
    is_equal "$(pkg-config --modversion jt)" "$version" || return
    # shellcheck disable=SC2086
    "$cc" "${strict[@]}" -o "$room/shared" "$here/example.c" $flags || return
    # shellcheck disable=SC2086
    "$cc" "${strict[@]}" -static -o "$room/static" "$here/example.c" $static || return
    readelf -d "$room/shared" | grep -q "NEEDED.*\[$soname\]" || return
    LD_LIBRARY_PATH=$root$prefix/lib "$room/shared" | diff "$here/expected" - || return
    "$room/static" | diff "$here/expected" -
}

# Checks that a program renders the mail of examples/.
renders() {
    "$1" render "$mail/templates" order.txt "$mail/context.json" --no-autoescape |
        diff "$mail/expected" -
}

# Prints the calls that a file exports with their versions, and those that the header declares with
# the version of the soname.
exported() {
    nm -D --defined-only --with-symbol-versions "$1" | awk '$2 != "A" { print $3 }' | sort
}
declared() {
    "$cc" -E "$here/jt.h" | grep -o '\bjt_[a-z_]*(' | sort -u | sed "s/($/@@JT_${soname#*.so.}/"
}

# Checks that a shared library has this soname, and needs the C library of 2.34 or an earlier one.
is_compatible() {
    readelf -d "$1" | grep -q "SONAME.*\[$soname\]" || return
    is_equal "$(readelf -d "$1" | sed -n 's/.*NEEDED.*\[\(.*\)\]/\1/p')" libc.so.6 || return
    objdump -T "$1" | grep -o 'GLIBC_2\.[0-9]*' | sort -u | awk -F. '$2 > 34 { print; late = 1 }
        END { exit late }'
}

# Installs the library alone, from a tree that has no program, and looks for its files.
installs_the_library() {
    local root=$room/library
    make -s -C "$here/.." LIBRARY="$library" PROGRAM="$room/none" OUT="$room/out-library" \
        install-lib DESTDIR="$root" PREFIX=/usr || return
    hosts "$root" /usr || return
    is_equal "$(cd "$root/usr" && find . ! -type d -printf '%P\n' | sort)" "$(sort << END
include/jt.h
lib/libjt.a
lib/libjt.so
lib/$soname
lib/libjt.so.$version
lib/pkgconfig/jt.pc
share/doc/jt/CHANGELOG.md
share/doc/jt/LICENSE-APACHE
share/doc/jt/LICENSE-MIT
share/doc/jt/README.md
share/doc/jt/errors.md
share/doc/jt/examples/CMakeLists.txt
share/doc/jt/examples/example.c
share/doc/jt/examples/meson.build
END
)"
}

# Checks that make says first what is missing, and builds nothing.
names_what_is_missing() {
    ! make -s -C "$here/.." LIBRARY="$library" PROGRAM="$room/none" OUT="$room/nothing" \
        > "$room/message" 2>&1 && grep -q 'none is missing: run tools/install.sh' "$room/message" &&
        ! make -s -C "$here/.." LIBRARY="$room/none.a" OUT="$room/nothing" lib \
            > "$room/message" 2>&1 && grep -q 'run bindings/unproved.py FOLDER' "$room/message" &&
        is_equal "$(ls "$room/nothing" 2> /dev/null)" ''
}

# Builds the example by a tool and the files that are installed beside it, and runs it.
built_by() {
    local folder=$room/by-$1 program=$room/by-$1/build/example
    local -x PKG_CONFIG_PATH=$room/packed/usr/local/lib/pkgconfig
    local -x PKG_CONFIG_SYSROOT_DIR=$room/packed
    cp -r "$room/packed/usr/local/share/doc/jt/examples" "$folder" && cd "$folder" || return
    case $1 in
        cmake) cmake -S . -B build && cmake --build build ;;
        meson) meson setup build && meson compile -C build ;;
    esac || return
    cd / && LD_LIBRARY_PATH=$room/packed/usr/local/lib "$program" | diff "$here/expected" -
}

# Checks that a file has a line with this pattern.
has() { grep -q -e "$2" "$here/$1" || { echo "$1 lacks $2"; return 1; }; }

# Checks that the program reports the version of the header, as it reports its usage.
has_version() {
    local status=0
    is_equal "$("$program" --version 2>&1 > "$room/out-of-version" | sed s/-unproved//)" \
        "jt $version" || return
    "$program" --version 2> "$room/said-of-version" || status=$?
    is_equal "$status $(cat "$room/out-of-version")" '2 '
}

# Checks that the manual page and the completions have each command and each option.
covers() {
    local command option missing=0
    for command in $(commands); do
        has jt.1 "^\\.It Cm $command\\b" && has completions/_jt "'$command:" &&
            has completions/jt.fish "-a $command " &&
            has completions/jt.bash "\\b$command\\b" || missing=1
        for option in $(options "$command"); do
            option=${option#--}
            has jt.1 "^\\.It .*Fl Fl $option\\b" && has completions/_jt "--${option}[['}]" &&
                has completions/jt.fish "-l $option " &&
                has completions/jt.bash "--$option\\b" || missing=1
        done
    done
    return $missing
}

# Prints what bash completes for the words of a line.
bash_completes() {
    bash -c '. "$1"; shift; COMP_WORDS=("$@"); COMP_CWORD=$(($# - 1)); _jt
        printf "%s\n" "${COMPREPLY[@]}"' bash "$here/completions/jt.bash" "$@" | sort
}

bash_is_right() {
    local command
    is_equal "$(bash_completes jt '')" "$({ commands; echo --help; echo --version; } | sort)" ||
        return
    for command in $(commands); do
        is_equal "$(bash_completes jt "$command" --)" "$(options "$command")" || return
    done
    is_equal "$(bash_completes jt render --fuel 1 "$mail/templates" ord)" order.txt || return
    is_equal "$(bash_completes jt render --fuel '')" ''
}

# Prints what fish completes for a line.
fish_completes() {
    fish -N -c "source '$here/completions/jt.fish'; complete -C \"$1\"" | cut -f1 | sort -u
}

fish_is_right() {
    local command
    is_equal "$(fish_completes 'jt ')" "$(commands | sort)" || return
    for command in $(commands); do
        is_equal "$(fish_completes "jt $command --")" "$(options "$command")" || return
    done
    is_equal "$(fish_completes "jt render --fuel 1 $mail/templates ord")" order.txt
}

# Checks that no file is left.
uninstalls() {
    tree uninstall DESTDIR="$room/root" PREFIX=/usr || return
    is_equal "$(find "$room/root" ! -type d)" ''
}

strict=(-std=c11 -O2 -Wall -Wextra -Werror -pedantic)
mail=$here/../../examples/mail
version=$(awk '$2 == "JT_VERSION" { gsub(/"/, "", $3); print $3 }' "$here/jt.h")
# (docs/versions.md has the rule.)
soname=libjt.so.$(sed -E 's/^(0\.[0-9]+|[0-9]+)\..*/\1/' <<< "$version")
archive=$room/out/jt-$version-x86_64-linux.tar.gz

# The calls.
try 'the header in C++' c++ -x c++ -Wall -Wextra -Werror -fsyntax-only "$here/jt.h"
for name in test handles_test slices_test limit stack; do
    sources=("$here/$name.c" "$here/heap.c")
    try "$name.c" "$cc" "${strict[@]}" -pthread -o "$room/$name" "${sources[@]}" "$library"
done
try 'memory.c' "$cc" "${strict[@]}" -o "$room/memory" "$here/memory.c" "$library"
try 'the calls that keep nothing' "$room/test"
try 'the calls over handles' "$room/handles_test"
try 'runs in slices' "$room/slices_test"
try 'a limit of memory' "$room/limit"
try 'a refused growth' "$room/memory"
try 'a stack of 256 KiB' "$room/stack" 256

# What is installed.
try 'make' tree
try 'what is missing' names_what_is_missing
try 'what is exported' is_equal "$(exported "$room/out/jt-$version/libjt.so.$version")" \
    "$(declared)"
try 'the soname' is_compatible "$room/out/jt-$version/libjt.so.$version"
try 'make install' tree install DESTDIR="$room/root" PREFIX=/usr
try 'hosts over what is installed' hosts "$room/root" /usr
try 'the installed program' renders "$room/root/usr/bin/jt"
try 'make uninstall' uninstalls
try 'make with LIBDIR' tree install DESTDIR="$room/other" PREFIX=/opt/jt LIBDIR=/opt/jt/lib64
try 'a file of LIBDIR' test -f "$room/other/opt/jt/lib64/$soname"
try 'the library without the program' installs_the_library

# The archive, with no tree beside it.
try 'make dist' tree dist KIT='a toolchain'
try 'the archive' tar -xzf "$archive" -C "$room"
try 'its sums' make -s -C "$room/jt-$version" check
try 'its files' is_equal "$(cut -c67- "$room/jt-$version/SHA256SUMS" | sort)" \
    "$(cd "$room/jt-$version" && find . -type f ! -name SHA256SUMS -printf '%P\n' | sort)"
try 'its toolchain' grep -q -x -e 'a toolchain\(, not proved\)\?' "$room/jt-$version/KIT"
try 'its installation' make -s -C "$room/jt-$version" install DESTDIR="$room/packed"
try 'hosts over the archive' hosts "$room/packed" /usr/local
try 'the program of the archive' renders "$room/packed/usr/local/bin/jt"
for tool in cmake meson; do
    if have "$tool"; then try "a host by $tool" built_by "$tool"; fi
done

# The manual page and the completions.
try 'the version of the program' has_version
try 'the options of the program' covers
try 'completions of bash' bash_is_right
if have mandoc; then
    try 'jt.1 by mandoc' is_equal "$(mandoc -Tlint "$here/jt.1" 2>&1)" ''
fi
if have man; then
    try 'jt.1 by man' is_equal "$(man --warnings -l "$here/jt.1" 2>&1 > "$room/said")" ''
fi
if have fish; then
    try 'completions of fish' fish_is_right
fi
if have zsh; then
    try 'completions of zsh' zsh -n "$here/completions/_jt"
fi

# Memory and threads.
if have valgrind; then
    export LD_LIBRARY_PATH=$room/packed/usr/local/lib
    for name in handles_test slices_test memory shared; do
        try "$name under valgrind" valgrind -q --error-exitcode=9 --leak-check=full "$room/$name"
    done
    try 'threads under helgrind' valgrind -q --tool=helgrind --error-exitcode=9 "$room/handles_test"
fi

tally
