#!/usr/bin/env bash
# Runs what README.md and docs/ show, and compares: each `$` line of a block `console` is run, and has to print the lines below it;
# a block `toml` has to be in a file of examples/, and a block `rust`, in parts that a line `// ..` divides, in one of crates/*/src/.
# Blocks `sh` are not run: they need the toolchain. It writes a line for each block, and ends at the first difference.
# Then the orders of examples/shelf are sealed. Then each name within backquotes, of a call, type, clause or crate, has to be in the code,
# each file that a document names has to exist, no line outside of tables has more than 400 characters, and man/ and completions/ have to
# be what the help texts give.
# It works in a temporary folder, and needs openssl, xxd and python3. CERTIFY and SHELF are the built programs.
# Usage: check_documents.sh [CERTIFY [SHELF]]
set -u
export LC_ALL=C.UTF-8
top=$(cd "$(dirname "$0")/.." && pwd)
certify=${1:-$top/crates/certify/out/certify}
shelf=${2:-$top/crates/shelf/out/shelf}
room=$(mktemp -d) || exit 1
trap 'rm -rf "$room"' EXIT
mkdir -p "$room/top" "$room/bin" && cp -r "$top/examples" "$room/top" || exit 1
for program in "$certify" "$shelf"; do
    if [ ! -f "$program" ]; then
        echo "documents: there is no program at $program; 'rt run' builds it in its crate" >&2
        exit 1
    fi
done
# What rt leaves need not be executable.
cp "$certify" "$room/bin/certify" && cp "$shelf" "$room/bin/shelf" && chmod +x "$room/bin"/* || exit 1

differs() {
    echo "documents: $1: $2" >&2
    exit 1
}

# Runs a command in the room, and compares what it prints with what is wanted.
run() {
    local place=$1 command=$2 wanted=$3 printed
    printed=$(cd "$room/top" && PATH=$room/bin:$PATH timeout 60 bash -c "$command" 2>&1)
    if [ "$printed" != "$wanted" ]; then
        diff <(printf '%s\n' "$wanted") <(printf '%s\n' "$printed") >&2
        differs "$place" "'$command' prints something else"
    fi
}

# The commands of a block, each with the lines below it.
run_all() {
    local place=$1 command='' wanted='' line
    while IFS= read -r line; do
        if [[ $line == '$ '* ]]; then
            [ -z "$command" ] || run "$place" "$command" "${wanted%$'\n'}"
            command=${line#'$ '} wanted=''
        elif [[ $line == '> '* && -z $wanted ]]; then
            command+=$'\n'${line#'> '}
        else
            wanted+=$line$'\n'
        fi
    done <<< "$2"
    [ -z "$command" ] || run "$place" "$command" "${wanted%$'\n'}"
}

# Whether lines are in one of these files; there a function may be `pub`.
has_lines() {
    local lines=$1 file text
    shift
    for file in "$@"; do
        text=$'\n'$(<"$file")$'\n'
        [[ $text == *$'\n'"$lines"$'\n'* || ${text//$'\n'pub fn /$'\n'fn } == *$'\n'"$lines"$'\n'* ]] && return 0
    done
    return 1
}

# Whether each part of a block is in a file of the crates.
has_all() {
    local place=$1 part='' line
    while IFS= read -r line; do
        if [[ $line == '// ..' ]]; then
            has_lines "${part%$'\n'}" "$top"/crates/*/src/*.rt || differs "$place" "no program has these lines: ${part%%$'\n'*} .."
            part=''
        else
            part+=$line$'\n'
        fi
    done <<< "$2"
    has_lines "${part%$'\n'}" "$top"/crates/*/src/*.rt || differs "$place" "no program has these lines: ${part%%$'\n'*} .."
}

check() {
    local place=$1 language=$2 block=$3
    case $language in
        console) run_all "$place" "$block" && echo "$place: printed as written" ;;
        toml)
            has_lines "$block" $(find "$top/examples" -name '*.toml') || differs "$place" "no example has these lines"
            echo "$place: an example"
            ;;
        rust) has_all "$place" "$block" && echo "$place: compiled as it is" ;;
        sh) echo "$place: not run" ;;
    esac
}

for document in README.md docs/shelf.md docs/certify.md docs/library.md docs/c-api.md; do
    language='' block='' number=0 begin=0
    while IFS= read -r line; do
        number=$((number + 1))
        if [ -z "$language" ]; then
            if [[ $line == '```'* ]]; then
                language=${line#'```'} block='' begin=$number
                language=${language:-text}
            fi
        elif [[ $line == '```' ]]; then
            check "$document:$begin" "$language" "${block%$'\n'}"
            language=''
        else
            block+=$line$'\n'
        fi
    done < "$top/$document"
done

# The other orders of examples/shelf, with the root of docs/shelf.md and the request of README.md.
run_all examples/shelf '$ for name in ia ada; do openssl genpkey -algorithm ed25519 -out $name.key; openssl pkey -in $name.key -pubout -out $name.pub; done
$ sh examples/shelf/sealed.sh ca.key ia.pem examples/shelf/authority.toml ca.pem ia.pub
$ sh examples/shelf/sealed.sh ia.key web.pem examples/shelf/server.toml ia.pem www.csr
$ sh examples/shelf/sealed.sh ia.key ada.pem examples/shelf/client.toml ia.pem ada.pub
$ sh examples/shelf/sealed.sh ia.key ia.crl examples/shelf/list.toml ia.pem
$ cat ca.crl ia.crl > lists.crl
$ openssl verify -crl_check_all -x509_strict -attime 1795000000 -CAfile ca.pem -CRLfile lists.crl -untrusted ia.pem web.pem
web.pem: OK
$ openssl verify -crl_check_all -x509_strict -attime 1795000000 -CAfile ca.pem -CRLfile lists.crl -untrusted ia.pem ada.pem 2>&1 | grep -c revoked
1
$ shelf path examples/shelf/path.toml web.pem ia.pem ca.pem
valid 2
$ sh examples/shelf/sealed.sh ada.key shop.csr examples/shelf/request.toml ada.pub
$ openssl req -in shop.csr -verify -noout -subject -nameopt RFC2253
Certificate request self-signature verify OK
subject=CN=shop.example,O=Shop
$ sh examples/shelf/sealed.sh ia.key roles.pem examples/shelf/attributes.toml ia.pem ca.pub
$ sh examples/shelf/sealed.sh ca.key role.pem examples/shelf/role.toml roles.pem
$ shelf explain role.pem | sed -n 5,6p
  serial:                         0x2a (42)
  not before:                     2026-06-01T00:00:00Z' || exit 1
echo "examples/shelf: as written"

# The names of a document that no file of the code has; those on a line about former names, and rcgen's and a placeholder, are left out.
names_of() {
    sed '/^```/,/^```/d; /former names/d' "$1" | grep -o '`[^`]*`' | grep -owE '[A-Za-z][A-Za-z0-9]*(_[A-Za-z0-9]+)+|[A-Z][a-z0-9]+([A-Z][a-z0-9]+)+' |
        grep -vxE 'KeyPair|X_fields' | sort -u
}

{
    cat "$top/crates.txt" "$top/include/shelf.h"
    find "$top/examples" "$top/tools" -type f
    grep -rh '' "$top"/crates/*/src "$top"/crates/*/specs "$top"/crates/*/proofs
} | grep -oE '[A-Za-z_][A-Za-z0-9_]*' | sort -u > "$room/words"
# conformance.md has names of other libraries, and proving.md parts of goals.
for document in README.md CONTRIBUTING.md SECURITY.md CHANGELOG.md docs/{shelf,certify,library,c-api,promises,architecture,decisions}.md; do
    lost=$(names_of "$top/$document" | comm -23 - "$room/words" | tr '\n' ' ')
    [ -z "$lost" ] || differs "$document" "the code has no $lost"
    echo "$document: each name is in the code"
done

for document in $(cd "$top" && echo ./*.md bench/README.md docs/*.md); do
    for file in $(grep -oE '(^|[^/A-Za-z0-9])(docs|tools|examples|bench|include|man|completions)/[A-Za-z0-9_./-]*[A-Za-z0-9]' "$top/$document" |
        sed 's/^[^a-z]//' | sort -u); do
        [ -e "$top/$file" ] || differs "$document" "there is no $file"
    done
    long=$(awk 'length > 400 && !/^ *\|/ { print NR; exit }' "$top/$document")
    [ -z "$long" ] || differs "$document" "line $long has more than 400 characters"
done
echo "documents: each file that they name is there"

python3 "$top/tools/manuals.py" --check || exit 1
echo "documents: man/ and completions/ are what the help texts give"
