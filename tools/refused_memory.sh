#!/usr/bin/env bash
# Refuses memory once, at one growth after the other, and reports the result: of `certify` on these examples, and of what grows
# in the libraries, which has to keep what it held. `rt ci` doesn't run this. It needs a C compiler, and the programs that `rt run`
# leaves in crates/certify and `rt test` in issue_vectors; it takes a minute or two.
# Usage: refused_memory.sh
set -u
here=$(cd "$(dirname "$0")/.." && pwd)
examples=$here/examples
room=$(mktemp -d) || exit 1
trap 'rm -rf "$room"' EXIT
failed=0
"${CC:-cc}" -O1 -shared -fPIC -o "$room/refused_growth.so" "$here/tools/refused_growth.c" || exit 1

# A copy of crates/FILE, which need not be executable there.
copy() {
    local copied=$room/${1##*/}
    if ! cp "$here/crates/$1" "$copied" || ! chmod +x "$copied"; then
        echo "there is no program at crates/$1: 'rt run' builds certify, and 'rt test' the tests" >&2
        exit 1
    fi
}

# A program, to which the growth of that number is refused; 0 refuses none. Their number is then in growths.
refusing() {
    local growth=$1
    shift
    timeout 60 env LD_PRELOAD="$room/refused_growth.so" REFUSED_GROWTH="$growth" GROWTHS="$room/growths" "$@"
}

failure() {
    echo "$*"
    failed=1
}

# Words on an input. A growth that is refused has to end the run with status 7 and nothing written, or to be done without.
program() {
    local input=$1 wanted=$2 growth growths ended=0 spared='' status run
    shift 2
    run="$* ${input##*/}"
    refusing 0 "$room/certify" "$@" < "$input" > "$room/written"
    status=$?
    growths=$(cat "$room/growths")
    if [ $status -ne 0 ] || ! cmp -s "$wanted" "$room/written"; then
        failure "$run: status $status, and something else than in ${wanted##*/}"
        return
    fi
    for growth in $(seq 1 "$growths"); do
        refusing "$growth" "$room/certify" "$@" < "$input" > "$room/written" 2> "$room/said"
        status=$?
        if [ $status -eq 7 ] && [ ! -s "$room/written" ]; then
            ended=$((ended + 1))
        elif [ $status -eq 0 ] && cmp -s "$wanted" "$room/written"; then
            spared="$spared $growth"
        else
            failure "$run, growth $growth: status $status, $(wc -c < "$room/written") bytes written"
        fi
    done
    echo "${run% null}: $growths growths, $ended ended the run with nothing written; done without:${spared:- none}"
}

# A test of what grows. A growth that is refused has to end it; where it is that of the tested call, the test says what is held then.
test_of() {
    local crate=$1 name=$2 growth growths kept=0 others=0 status
    refusing 0 "$room/${crate}_tests" "$name" > "$room/said" 2>&1
    status=$?
    growths=$(cat "$room/growths")
    [ $status -eq 0 ] || failure "$name: status $status"
    for growth in $(seq 1 "$growths"); do
        refusing "$growth" "$room/${crate}_tests" "$name" > "$room/said" 2>&1
        status=$?
        if [ $status -ne 0 ] && grep -qw AllIsAsItWas "$room/said"; then
            kept=$((kept + 1))
        elif [ $status -ne 0 ] && grep -q 'OutOfMemory\|AllocError\|AllocFailed' "$room/said"; then
            others=$((others + 1))
        else
            failure "$name, growth $growth: status $status, $(head -1 "$room/said")"
        fi
    done
    [ $kept -gt 0 ] || failure "$name: no growth of the tested call was refused"
    echo "$name: $growths growths, $kept of the tested call, after which all was as before, and $others others"
}

copy certify/out/certify
copy issue_vectors/out/issue_vectors_tests
for name in server localhost; do
    program "$examples/$name.toml" "$examples/$name.txt" issue
done
program "$examples/show.hex" "$examples/show.txt" show
for word in request accept list restore attribute authority revoked check; do
    for input in "$examples/$word"/*.toml; do
        program "$input" "${input%.toml}.txt" "$word"
    done
done
"$room/certify" bulk 20 > "$room/bulk.txt"
program /dev/null "$room/bulk.txt" bulk 20
for name in pushes_of_a_list inserts_of_a_set pushes_of_trees pushes_of_a_name inserts_of_purposes; do
    test_of issue_vectors "refused_memory::$name"
done
exit $failed
