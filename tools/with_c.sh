#!/usr/bin/env bash
# with_c.sh [FOLDER]: makes the C library crates/shelf_c, static and as FOLDER/libshelf.so, and runs its callers in examples/c, examples/python
# and examples/rust; each issues, and OpenSSL verifies. It needs rt and a C compiler; it passes over a caller whose tools are missing
# (the headers of OpenSSL, python3, cargo), and says so. Without FOLDER it keeps no libshelf.so.
set -eu -o pipefail
folder=$(realpath "${1:-.}")
cd "$(dirname "$0")/.."
KIT=$(dirname "$(rt doc | awk '{print $1; exit}')")
export KIT
(cd crates/shelf_c && rt lib)
room=$(mktemp -d)
trap 'rm -rf "$room"' EXIT
shared=$room/libshelf.so
cc -shared -Wl,--whole-archive crates/shelf_c/out/libshelf_c.a -Wl,--no-whole-archive "$KIT/c/liblibc_c.a" -o "$shared"
[ $# -eq 0 ] || cp "$shared" "$folder/libshelf.so"
if command -v python3 > /dev/null && command -v openssl > /dev/null; then
  openssl genpkey -algorithm ED25519 -out "$room/root.key"
  openssl req -new -newkey ed25519 -nodes -keyout "$room/server.key" -subj /CN=www.lab -addext subjectAltName=DNS:www.lab \
    -out "$room/server.csr" 2> "$room/said"
  python3 examples/python/issue.py "$shared" examples/shelf/root.toml "$room/root.key" > "$room/root.pem"
  python3 examples/python/issue.py "$shared" examples/shelf/server.toml "$room/root.key" "$room/root.pem" "$room/server.csr" > "$room/server.pem"
  openssl verify -no_check_time -x509_strict -check_ss_sig -CAfile "$room/root.pem" "$room/server.pem" > "$room/said"
  echo "with_c: the caller in Python issued $(cat "$room/root.pem" "$room/server.pem" | grep -c 'BEGIN CERTIFICATE') certificates"
else
  echo "with_c: no python3 or no openssl, the caller in Python wasn't run"
fi
if ! printf '#include <openssl/x509v3.h>\n' | cc -E -x c - > /dev/null 2>&1; then
  echo "with_c: no C compiler with the headers of OpenSSL, no caller was built"
  exit 0
fi
cc -Wall -Wextra -O2 -I include examples/c/issue.c crates/shelf_c/out/libshelf_c.a "$KIT/c/liblibc_c.a" -lcrypto -o "$room/issue"
"$room/issue" > "$room/c.pem"
echo "with_c: the caller in C issued $(grep -c 'BEGIN CERTIFICATE' "$room/c.pem") certificates"
if ! command -v cargo > /dev/null || ! (cd examples/rust && CARGO_TARGET_DIR="$room/target" cargo build -q 2> "$room/said"); then
  echo "with_c: the caller in Rust wasn't built: $(head -n 1 "$room/said" 2> /dev/null || echo 'no cargo')"
  exit 0
fi
"$room/target/debug/issue" > "$room/rust.pem"
echo "with_c: the caller in Rust issued $(grep -c 'BEGIN CERTIFICATE' "$room/rust.pem") certificates"
