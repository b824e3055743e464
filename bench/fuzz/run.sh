#!/bin/bash
# Fuzzes the static library by libFuzzer, with coverage:
#
#     bench/fuzz/run.sh TARGET SECONDS FOLDER    one target of fuzz.c: image, source, context, compare or handles
#     bench/fuzz/run.sh all HOURS FOLDER         each target for an equal part of the time, and then keeps the corpus
#
# FOLDER keeps, between runs, the library compiled with counters of the branches that it takes, the inputs, and each input that did
# what none may do, as TARGET-crash-.. and the like; one such ends the target, and the status is not 0. The inputs begin with those of
# tests/rows/ and with bench/fuzz/corpus, which `all` writes anew: the smallest inputs that together reach all that was reached, at most
# 400 KB a target.
#
# A target has STACK KiB of stack (1024, or 2048 over a library without a proof) and MEMORY MiB of memory (512), and ends if one input
# takes TIMEOUT seconds by the clock (10): give more where other work has the processors. The library is made by
# tools/static_library.py over what `rt ci` has proved; where nothing is proved, by bindings/unproved.py, which checks each operation
# while it runs. LIBRARY names one that was compiled with these counters. It needs clang with its libFuzzer; CLANG names it.
set -euo pipefail
usage='usage: bench/fuzz/run.sh image|source|context|compare|handles SECONDS FOLDER, or all HOURS FOLDER'
target=${1:?$usage} time=${2:?$usage}
mkdir -p "${3:?$usage}"
folder=$(realpath "$3")
cd "$(dirname "$0")/../.."
corpus=$PWD/bench/fuzz/corpus
targets=(image source context compare handles)
most=400000
counters=-fsanitize-coverage=inline-8bit-counters,pc-table,trace-cmp
library=${LIBRARY:-$folder/libjt_ffi.a}

if [ ! -f "$library" ]; then
    tools/static_library.py jt_ffi "$library" "$counters" || bindings/unproved.py "$folder" "$counters"
fi

stack=1024
if grep -qa -e -unproved "$library"; then stack=2048; fi

# Builds a target.
built() {
    "${CLANG:-clang}" -O1 -g -Wall -Wextra -fsanitize=fuzzer -DTARGET="$1" -o "$folder/fuzz-$1" \
        bench/fuzz/fuzz.c bindings/c/heap.c "$library"
}

# Runs a target, with words for libFuzzer, within its stack and its memory.
limited() {
    (ulimit -s "${STACK:-$stack}" && ulimit -c 0 && exec "$folder/fuzz-$1" -max_len=4096 -timeout="${TIMEOUT:-10}" \
        -rss_limit_mb="${MEMORY:-512}" -dict="$folder/seeds/words" -artifact_prefix="$folder/$1-" "${@:2}")
}

# Fuzzes a target for a number of seconds.
fuzzed() {
    built "$1"
    mkdir -p "$folder/$1"
    if [ -f "$corpus/$1.tar.gz" ]; then tar -xzf "$corpus/$1.tar.gz" -C "$folder/$1"; fi
    limited "$1" -max_total_time="$2" -print_final_stats=1 "$folder/$1" "$folder/seeds/$1"
}

# Keeps the smallest inputs of a target that reach all that was reached.
kept() {
    rm -rf "$folder/least"
    mkdir -p "$folder/least" "$corpus"
    limited "$1" -merge=1 "$folder/least" "$folder/$1" "$folder/seeds/$1"
    (cd "$folder/least" && find . -type f -printf '%s %f\n' | sort -n | awk -v most="$most" '
        (sum += $1) <= most { print $2 }' | LC_ALL=C sort |
        tar --owner=0 --group=0 --numeric-owner --mode=644 --mtime=@0 -cf - -T - | gzip -n) > "$corpus/$1.tar.gz"
    echo "$1: $(tar -tzf "$corpus/$1.tar.gz" | wc -l) inputs are kept, $(stat -c %s "$corpus/$1.tar.gz") bytes"
}

if [ ! -d "$folder/seeds" ]; then
    python3 bench/fuzz/seeds.py "$folder/seeds"
    built seed
    IMAGES=$folder/seeds/image "$folder/fuzz-seed" "$folder"/seeds/source/* 2> /dev/null
fi
if [ "$target" != all ]; then
    fuzzed "$target" "$time"
    exit
fi
status=0
seconds=$(awk -v hours="$time" -v targets="${#targets[@]}" 'BEGIN { printf "%d", hours * 3600 / targets }')
for it in "${targets[@]}"; do
    fuzzed "$it" "$seconds" 2> "$folder/$it.log" || { status=1 && echo "$it: found something, see $folder/$it.log"; }
    grep -E '^stat::(number_of_executed_units|peak_rss_mb)' "$folder/$it.log" || true
    kept "$it" 2> "$folder/$it-merge.log" || status=1
done
exit $status
