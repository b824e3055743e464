#!/bin/bash
# Renders each folder of examples/ with PROGRAM and compares the text with the expected one: tests/examples.sh PROGRAM
# The last line is 'N passed, M failed', and the status is 0 if none failed.
# A folder has templates/, context.json, expected, and command: the template's name and the options, separated by spaces.
set -u
program=$(realpath "${1:?usage: tests/examples.sh PROGRAM}") || exit 2
cd "$(dirname "$0")/../examples" || exit 2
passed=0
failed=0
room=$(mktemp -d)
trap 'rm -rf "$room"' EXIT
for folder in */; do
    folder=${folder%/}
    read -r -a words < "$folder/command"
    "$program" render "$folder/templates" "${words[0]}" "$folder/context.json" "${words[@]:1}" > "$room/found"
    status=$?
    if [ "$status" -eq 0 ] && cmp -s "$room/found" "$folder/expected"; then
        passed=$((passed + 1))
    else
        failed=$((failed + 1))
        echo "$folder: status $status"
        diff "$folder/expected" "$room/found" | head -10
    fi
done

echo "$passed passed, $failed failed"
[ "$failed" -eq 0 ] && [ "$passed" -gt 0 ]
