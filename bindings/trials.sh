# shellcheck shell=bash
# Counts trials, for the scripts that source this file. It sets `passed`, `failed`, and `room`, a
# temporary folder that is removed at the end.
passed=0
failed=0
room=$(mktemp -d)
trap 'rm -rf "$room"' EXIT

# Runs a command, with a name, in a process of its own in the folder `/`. Shows what it printed if it
# fails, and always its lines `left out: ..` and `skipped: ..`.
is_run() {
    local name=$1 status=0
    shift
    (cd / && "$@") > "$room/said" 2>&1 || status=1
    grep -E '^(left out|skipped): ' "$room/said"
    if [ "$status" -ne 0 ]; then
        echo "$name: failed"
        tail -n 30 "$room/said"
    fi
    return "$status"
}

# Counts a trial: its name, and a command.
try() {
    local status=0
    is_run "$@" || status=1
    passed=$((passed + 1 - status))
    failed=$((failed + status))
}

# Counts the trials of a script, whose last line is 'N passed, M failed': its name, and a command.
try_script() {
    local status=0
    is_run "$@" || status=1
    if [[ $(tail -n 1 "$room/said") =~ ^([0-9]+)\ passed,\ ([0-9]+)\ failed$ ]]; then
        passed=$((passed + BASH_REMATCH[1]))
        failed=$((failed + (BASH_REMATCH[2] > 0 ? BASH_REMATCH[2] : status)))
    else
        failed=$((failed + 1))
    fi
}

# Checks that a tool is there, and prints what is left out if it is not.
have() { command -v "$1" > "$room/said" || { echo "left out: $1 is not installed" && false; }; }

# Prints the last line of a script, 'N passed, M failed'. The status is 0 if nothing failed.
tally() {
    echo "$passed passed, $failed failed"
    [ "$failed" -eq 0 ]
}
