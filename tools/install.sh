#!/bin/bash
# Proves and builds the program, and copies it to FOLDER/jt: tools/install.sh FOLDER
# The first run proves all crates below it, which takes some 40 minutes; a later run without changes takes seconds. Each proved crate is
# printed on standard error, with the count and the minutes that are left. The built program must render examples/mail, or nothing is
# copied.
set -euo pipefail
folder=$(realpath -m "${1:?usage: tools/install.sh FOLDER}")
root=$(cd "$(dirname "$0")/.." && pwd)
mail=$root/examples/mail
cd "$root"
. .ci/left.sh
room=$(mktemp -d)
# (rt proves one crate after another, and each on all processors)
lanes=$(nproc)
mapfile -t crates < <(names jt_cli)
read_figures "${crates[@]}"

# Prints each crate whose library appears from now on, until it is stopped. Libraries of earlier runs are counted at first; rt removes
# those that have changed.
watch() {
    local crate earlier=0
    for crate in "${crates[@]}"; do
        if [ -e "crates/$crate/out/rlib/stamp" ]; then
            count_crate "$crate" kept >"$room/said"
            earlier=$((earlier + 1))
        fi
    done
    if ((earlier > 0)); then echo "$earlier libraries are there from earlier runs: $(cat "$room/said")"; fi
    while sleep 5; do
        for crate in "${crates[@]}"; do
            if [ "crates/$crate/out/rlib/stamp" -nt "$room/began" ] && [ ! -e "$room/$crate" ]; then
                touch "$room/$crate"
                count_crate "$crate" >"$room/said"
                echo "$crate proved $(cat "$room/said")"
            fi
        done
    done
}

touch "$room/began"
watch >&2 &
watcher=$!
trap 'kill "$watcher" 2>/dev/null || true; rm -rf "$room"' EXIT
cd crates/jt_cli
if ! rt run -- render "$mail/templates" order.txt "$mail/context.json" --no-autoescape | cmp - "$mail/expected"; then
    echo 'the program is not built, or does not render examples/mail' >&2
    exit 1
fi
mkdir -p "$folder"
cp out/jt_cli "$folder/jt.new"
mv "$folder/jt.new" "$folder/jt"
echo "$folder/jt"
