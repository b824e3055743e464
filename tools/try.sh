#!/bin/bash
# Builds the program without proofs, to keep it or to run it once. Nothing is proved.
#
#     tools/try.sh --keep FOLDER        leaves FOLDER/jt, FOLDER/libjt_ffi.a and FOLDER/libjt.so: some three minutes on an idle machine
#     tools/try.sh COMMAND WORD ..      runs `jt COMMAND WORD ..` once and keeps nothing: two or three minutes for each run
#
# With --keep, standard error shows the share of the work that is done, and all processors work. The three files serve the tutorial
# and hosts in C, Rust and Python. Without it the program runs in a folder of its own, so names of existing files and folders are made
# absolute; OUT must be an absolute path to be kept. `rt` adds two lines to standard error then.
set -euo pipefail
tools=$(cd "$(dirname "$0")" && pwd)
usage='usage: tools/try.sh --keep FOLDER, or tools/try.sh COMMAND WORD ..'

# Builds program and library, tries the program on examples/mail, and prints how to use them.
keep() {
    local folder mail=$tools/../examples/mail
    folder=$(realpath -m "$1")
    echo 'This proves nothing. tools/install.sh FOLDER proves the program, in some 40 minutes.' >&2
    "$tools/unproved.py" "$folder"
    if ! "$folder/jt" render "$mail/templates" order.txt "$mail/context.json" --no-autoescape | cmp - "$mail/expected"; then
        echo 'the program does not render examples/mail' >&2
        exit 1
    fi
    printf '%s\n' "Built in $((SECONDS / 60)):$(printf %02d $((SECONDS % 60))), without a proof. To use it, also from C, Rust and Python:" \
        "    export PATH=$folder:\$PATH JT_STATIC_LIBRARY=$folder/libjt_ffi.a" \
        "    export JT_LIBRARY_DIR=$folder JT_LIBRARY=$folder/libjt.so" >&2
}

if [ $# -eq 2 ] && [ "$1" = --keep ]; then
    keep "$2"
    exit
elif [ "${1:---keep}" = --keep ]; then
    echo "$usage" >&2
    exit 2
fi
words=()
for word in "$@"; do
    case $word in
        -*) words+=("$word") ;;
        *) if [ ${#words[@]} -gt 0 ] && [ -e "$word" ]; then words+=("$(realpath "$word")"); else words+=("$word"); fi ;;
    esac
done
cd "$tools/../crates/jt_cli"
exec rt try -- "${words[@]}"
