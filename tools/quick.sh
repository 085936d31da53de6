#!/usr/bin/env bash
# Tries a change before it is proved: builds `shelf`, `certify` and the programs of cases without proofs, by `rt try`, and runs all
# rows, the examples and a session with OpenSSL. It proves nothing: `rt ci` does. What it builds checks each index and sum while it
# runs, and takes some ten times as long as what is proved, or more: the rows of signature_cases take over ten minutes.
# Usage: quick.sh [CRATE..]: these programs alone. JOBS=4 builds so many at a time (as many as there are processors), and
# KINDS="ed25519 rsa" are the keys of the session (ed25519). It prints a line for each program, and ends with 1 where something differs.
set -u -o pipefail
top=$(cd "$(dirname "$0")/.." && pwd)
room=$(mktemp -d) || exit 1
trap 'rm -rf "$room"' EXIT
failed=0

# `rt try` keeps no program: the largest executable among its files is linked to $room/CRATE while it runs.
build() {
    local crate=$1 running number file
    mkdir "$room/$crate.files" "$room/$crate.seen"
    (cd "$top/crates/$crate" && TMPDIR=$room/$crate.files exec rt try -- --version < /dev/null > "$room/$crate.log" 2>&1) &
    running=$!
    while kill -0 "$running" 2> /dev/null; do
        while read -r number file; do
            ln "$file" "$room/$crate.seen/$number" 2> /dev/null
        done < <(find "$room/$crate.files" -type f -perm -100 -size +300k -printf '%i %p\n' 2> /dev/null)
        sleep 0.05
    done
    file=$(ls -S "$room/$crate.seen" | head -n 1)
    if [ -n "$file" ]; then mv "$room/$crate.seen/$file" "$room/$crate"; fi
    rm -rf "$room/$crate.files" "$room/$crate.seen"
}

# tells STATUS WHAT [FILE]: a line, and of a failure what was said.
tells() {
    if [ "$1" = 0 ]; then
        echo "ok    $2"
    else
        failed=1
        echo "FAILS $2"
        if [ $# = 3 ]; then head -n 20 "$3"; fi
    fi
}

# Runs the program's rows, and compares.
rows() {
    local crate=$1 place=$top/crates/$1 words=() status=0
    if [ ! -f "$room/$crate" ]; then
        tells 1 "$crate: rt try makes no program" "$room/$crate.log"
        return
    fi
    if [ -f "$place/args" ]; then mapfile -t words < "$place/args"; fi
    cat "$place/stdin" 2> /dev/null | "$room/$crate" "${words[@]}" > "$room/printed" 2> /dev/null || status=$?
    if [ -f "$place/status" ] && [ "$status" = "$(tr -d '[:space:]' < "$place/status")" ]; then status=0; fi
    cat "$place/stdout" 2> /dev/null | diff - "$room/printed" > "$room/differences" || status=1
    tells $status "$crate: $(wc -l < "$room/printed") lines" "$room/differences"
}

cd "$top/crates" || exit 1
programs=${*:-$(for at in */src/main.rt; do echo "${at%%/*}"; done)}
for crate in $programs; do
    while [ "$(jobs -rp | wc -l)" -ge "${JOBS:-$(nproc)}" ]; do sleep 0.2; done
    build "$crate" &
done
wait
for crate in $programs; do rows "$crate"; done
if [ -f "$room/certify" ]; then
    "$top/examples/check.sh" "$room/certify" > "$room/said" 2>&1
    tells $? 'examples of certify' "$room/said"
fi
if [ -f "$room/shelf" ]; then
    KINDS=${KINDS:-ed25519} "$top/tools/with_openssl.sh" "$room/shelf" "$room/session" > "$room/said" 2>&1
    status=$?
    grep FAILS "$room/said"
    tells $status "shelf with OpenSSL: $(tail -n 1 "$room/said")"
fi
echo "Nothing is proved by this: rt ci does that."
exit $failed
