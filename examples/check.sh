#!/usr/bin/env bash
# Runs each example and compares what the program writes with the text beside it: profiles are
# issued (NAME.toml, NAME.txt), certificates in hex are shown (NAME.hex, NAME.txt), and a folder that
# has the name of a word has inputs of that word (WORD/NAME.toml, WORD/NAME.txt).
# It says nothing where all are as written.
# Usage: check.sh [PROGRAM]
set -u
here=$(dirname "$0")
program=${1:-$here/../crates/certify/out/certify}
if [ ! -f "$program" ]; then
    echo "examples: there is no program at $program; 'rt run' in crates/certify builds it" >&2
    exit 1
fi
room=$(mktemp -d) || exit 1
trap 'rm -rf "$room"' EXIT
# What rt leaves need not be executable.
cp "$program" "$room/certify" && chmod +x "$room/certify" || exit 1

failed=0
check() {
    local word=$1 input=$2 wanted=${2%.*}.txt status
    timeout 60 "$room/certify" "$word" < "$input" > "$room/written"
    status=$?
    if [ $status -ne 0 ]; then
        echo "examples: $input: '$word' ended with status $status"
        failed=1
    elif ! cmp "$wanted" "$room/written"; then
        echo "examples: $input: '$word' wrote something else than $wanted"
        failed=1
    fi
}

for input in "$here"/*.toml; do
    check issue "$input"
done
for input in "$here"/*.hex; do
    check show "$input"
done
for word in request accept list restore attribute authority revoked check; do
    for input in "$here/$word"/*.toml; do
        check "$word" "$input"
    done
done
exit $failed
