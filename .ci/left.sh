# Functions that report how much of the proving is left, for .ci/run and tools/install.sh.
# Sourced by bash in the top folder of the tree.
# shellcheck shell=bash

# The seconds of each crate's proof that is still to be made, the numbers of crates and seconds, and how many processors prove.
declare -A seconds=()
all=0 done=0 to_prove=0 proved_seconds=0 lanes=1

# Prints the names of all crates, or of a crate and those below it.
names() {
    awk -v top="${1:-}" '
        /^[a-z]/ { line = $0; sub(/:.*/, "", line); split(line, head, " "); name = head[1]; order[++count] = name
                   sub(/^[^:]*:?/, ""); below[name] = $0; if (top == "" || name == top) wanted[name] = 1 }
        END { for (at = count; at > 0; at--) if (wanted[order[at]]) {
                  size = split(below[order[at]], named, " "); for (it = 1; it <= size; it++) wanted[named[it]] = 1 }
              for (at = 1; at <= count; at++) if (wanted[order[at]]) print order[at] }' crates.txt
}

# Reads how long each of the named crates takes, by docs/work/gate.md. One that is not listed there takes 40 seconds.
read_figures() {
    local name figure
    for name; do seconds[$name]=40; done
    while read -r name figure; do
        if [ -n "${seconds[$name]:-}" ]; then seconds[$name]=$figure; fi
    done < <(awk -F ' *[|] *' '{ for (at = 2; at < NF; at++) if ($at ~ /^jt_[a-z_]+$/ && $(at + 1) ~ /^[0-9]+$/) print $at, $(at + 1) }' \
        docs/work/gate.md 2>/dev/null || true)
    all=$#
    for name; do to_prove=$((to_prove + seconds[$name])); done
}

# Counts a crate as proved, or with a second word as kept by an earlier run. Prints the minute, the count and the minutes that are
# left on $lanes processors: by the figures at first, and by the pace of this run once a tenth is proved.
count_crate() {
    local left figure=${seconds[$1]:-}
    local minute=$((SECONDS / 60))
    if [ -z "$figure" ]; then
        echo "(minute $minute)"
        return
    fi
    unset "seconds[$1]"
    done=$((done + 1))
    if [ $# -gt 1 ]; then to_prove=$((to_prove - figure)); else proved_seconds=$((proved_seconds + figure)); fi
    left=$((to_prove - proved_seconds))
    if ((10 * proved_seconds > to_prove)); then
        left=$((left * SECONDS / proved_seconds))
    else
        left=$((left / lanes))
    fi
    echo "(minute $minute: $done of $all crates, some $(((left + 59) / 60)) minutes left)"
}
