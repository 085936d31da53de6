#!/usr/bin/env bash
# with_openssl.sh SHELF FOLDER: an authority whose keys OpenSSL holds, made with the program SHELF in FOLDER, which may not be there yet.
# For each kind of key: root, authority, server from a request, client, revocation lists, request, and an attribute certificate of an issuer
# that is no authority. OpenSSL verifies each, and so do certtool, python3-cryptography and Bouncy Castle where they are there; server and
# client talk over TLS. Then damaged and hostile input: each is refused by
# the key or the block that it is about, and nothing is written.
# A line a check, and a last line that counts. The status is 0 where all hold, and where there is no openssl.
# KINDS="ed25519 p256" limits the kinds; YEAR=2026 says from when what is issued is valid, by default this year.
set -eu -o pipefail
export LC_ALL=C
if [ $# != 2 ] || [ -e "$2" ]; then
  echo "with_openssl.sh SHELF FOLDER, where FOLDER isn't there yet" >&2
  exit 2
fi
if ! command -v openssl > /dev/null; then
  echo "with_openssl: there is no openssl, nothing was checked"
  exit 0
fi
umask 077
here=$(cd "$(dirname "$0")" && pwd)
shelf=$(realpath "$1")
mkdir -p "$2"
top=$(cd "$2" && pwd)
year=${YEAR:-$(date -u +%Y)}
last=$((year + 1))
count=0 failed=0

# Tells of a check that held, or not: told STATUS NAME [FILE of what was said]
told() {
  count=$((count + 1))
  if [ "$1" = 0 ]; then
    echo "ok    $2"
  else
    failed=$((failed + 1))
    echo "FAILS $2"
    if [ $# = 3 ]; then head -n 5 "$3" | cut -c1-200 | cat -v | sed 's/^/      /'; fi
  fi
}

# holds NAME COMMAND..: the command ends with 0.
holds() {
  local name=$1 status=0
  shift
  timeout 120 "$@" > "$top/said" 2>&1 < /dev/null || status=$?
  told "$status" "$name" "$top/said"
}

# says NAME TEXT COMMAND..: the command ends with 0, and prints a line with the text.
says() {
  local name=$1 text=$2 status=0
  shift 2
  timeout 120 "$@" > "$top/said" 2>&1 < /dev/null || status=$?
  grep -q -- "$text" "$top/said" || status=1
  told "$status" "$name" "$top/said"
}

# fails NAME TEXT COMMAND..: the command doesn't end with 0, and prints a line with the text.
fails() {
  local name=$1 text=$2 status=0
  shift 2
  timeout 120 "$@" > "$top/said" 2>&1 < /dev/null && status=1
  grep -q -- "$text" "$top/said" || status=1
  told "$status" "$name" "$top/said"
}

make_key() {
  case $1 in
  ed25519) openssl genpkey -algorithm ed25519 ;;
  p256) openssl genpkey -algorithm EC -pkeyopt ec_paramgen_curve:P-256 ;;
  p384) openssl genpkey -algorithm EC -pkeyopt ec_paramgen_curve:P-384 ;;
  p521*) openssl genpkey -algorithm EC -pkeyopt ec_paramgen_curve:P-521 ;;
  rsa*) openssl genpkey -algorithm RSA -pkeyopt rsa_keygen_bits:2048 2> /dev/null ;;
  pss) openssl genpkey -algorithm RSA-PSS -pkeyopt rsa_keygen_bits:2048 2> /dev/null ;;
  # Its parameters are those of its signatures.
  pss384) openssl genpkey -algorithm RSA-PSS -pkeyopt rsa_keygen_bits:2048 -pkeyopt rsa_pss_keygen_md:sha384 -pkeyopt rsa_pss_keygen_mgf1_md:sha384 -pkeyopt rsa_pss_keygen_saltlen:48 2> /dev/null ;;
  *)
    echo "with_openssl: no kind of key $1" >&2
    exit 2
    ;;
  esac
}
hash_of() { case $1 in p384 | rsa384 | p521_384 | pss384) echo sha384 ;; p521 | rsa512 | rsapss512) echo sha512 ;; *) echo sha256 ;; esac; }
digest_key() {
  case $1 in rsa | rsapss | p521) ;; rsa* | p521*) echo "digest = \"$(hash_of "$1")\"" ;; esac
  case $1 in rsapss*) echo 'padding = "pss"' ;; esac
}
# How the key of this kind signs by RSASSA-PSS.
salt_options() { case $1 in rsapss* | pss*) echo '-sigopt rsa_padding_mode:pss -sigopt rsa_pss_saltlen:digest' ;; esac; }

# judged NAME STATUS LINE FILE..: what `shelf path` says now of the path and the lists in the files, and how it ends.
judged() {
  local name=$1 wanted=$2 line=$3 status=0 right=0
  shift 3
  { echo "at = \"$(date -u +%Y-%m-%dT%H:%M:%SZ)\"" && echo 'revocation = true'; } > path.toml
  timeout 120 "$shelf" path path.toml "$@" > "$top/said" 2>&1 || status=$?
  [ "$status" = "$wanted" ] && grep -q -- "^$line" "$top/said" || right=1
  told $right "$name" "$top/said"
}

# The octets of a block, and a block of octets.
octets() { sed -n "/^-----BEGIN $1-----/,/^-----END $1-----/p" "$2" | sed '1d;$d' | openssl base64 -d; }
block() {
  echo "-----BEGIN $1-----"
  openssl base64
  echo "-----END $1-----"
}
without() { sed "/^-----BEGIN $1-----/,/^-----END $1-----/d" "$2"; }

# parts INPUT: an order, the blocks after it and a block SIGNATURE, which the checks keep in one text, as the files parts.toml, parts.pem and parts.sig.
parts() {
  sed '/^-----BEGIN/,$d' "$1" > parts.toml
  # The hold space has the last line that begins a block.
  sed -n '/^-----BEGIN/h; x; /^-----BEGIN SIGNATURE/!{ /./{ x; p; x; }; }; x' "$1" > parts.pem
  sed -n '/^-----BEGIN/h; x; /^-----BEGIN SIGNATURE/{ x; p; x; }; x' "$1" > parts.sig
}

# run WORD INPUT [OPTION..]: a run of shelf on the files of an input.
run() {
  local word=$1
  parts "$2"
  shift 2
  if [ "$word" = seal ]; then set -- --signature parts.sig "$@"; fi
  if [ "$word" = lint ]; then
    timeout 120 "$shelf" lint --order parts.toml parts.pem "$@"
  else
    timeout 120 "$shelf" "$word" parts.toml parts.pem "$@"
  fi
}

# sign KIND KEY FILE OUT: the key's signature of the file's octets.
sign() {
  if [ "$1" = ed25519 ]; then
    openssl pkeyutl -sign -rawin -inkey "$2" -in "$3" -out "$4"
  else
    # shellcheck disable=SC2046
    openssl dgst "-$(hash_of "$1")" -sign "$2" $(salt_options "$1") -out "$4" "$3"
  fi
}

# issue KIND KEY INPUT OUT [OPTION..]: what the input orders, signed by the key.
issue() {
  local kind=$1 key=$2 input=$3 out=$4
  shift 4
  parts "$input"
  "$shelf" tbs parts.toml parts.pem "$@" --out "$input.tbs"
  sign "$kind" "$key" "$input.tbs" "$input.sig"
  { cat "$input" && block SIGNATURE < "$input.sig"; } > "$input.seal"
  "$shelf" seal parts.toml parts.pem --signature "$input.sig" "$@" --out "$out"
}

# An authority's session: chain KIND OF THE ROOT, OF THE AUTHORITY, OF THE OTHERS, in the current folder.
issue_all() {
  local root=$1 sub=$2 leaf=$3 name
  make_key "$root" > root.key
  make_key "$sub" > sub.key
  for name in www client; do make_key "$leaf" > $name.key; done
  for name in root sub www client; do openssl pkey -in $name.key -pubout -out $name.pub; done
  { cat - root.pub; } > root.in << X
kind = "certificate"
profile = "root"
$(digest_key "$root")
subject = ["O=Example", "CN=Example Root"]
start = "$year-01-01T00:00:00Z"
days = 3650
serial = "01"
X
  issue "$root" root.key root.in root.pem
  { cat - root.pem sub.pub; } > sub.in << X
kind = "certificate"
profile = "authority"
$(digest_key "$root")
subject = ["O=Example", "CN=Example Authority"]
start = "$year-01-01T00:00:00Z"
days = 1825
serial = "02"
X
  issue "$root" root.key sub.in sub.pem
  # shellcheck disable=SC2046
  openssl req -new "-$(hash_of "$leaf")" -key www.key $(salt_options "$leaf") -subj "/O=Shop/CN=www.lab" -addext "subjectAltName=DNS:www.lab,DNS:lab,IP:127.0.0.1" -out www.csr 2> /dev/null
  { cat - sub.pem www.csr; } > www.in << X
kind = "certificate"
profile = "server"
$(digest_key "$sub")
take = ["subject", "alt_names"]
start = "$year-01-01T00:00:00Z"
not_after = "$last-12-31T23:59:59Z"
serial = "03e9"
ocsp = ["http://ocsp.lab/"]
ca_issuers = ["http://ca.lab/sub.cer"]
crl_points = [["http://ca.lab/sub.crl"]]
policies = ["2.23.140.1.2.1"]
X
  issue "$sub" sub.key www.in www.pem
  { cat - sub.pem client.pub; } > client.in << X
kind = "certificate"
profile = "client"
$(digest_key "$sub")
common_name = "somebody"
alt_names = ["email:somebody@example.org"]
start = "$year-01-01T00:00:00Z"
not_after = "$last-12-31T23:59:59Z"
serial = "03ea"
X
  issue "$sub" sub.key client.in client.pem
  list_of "$root" root 1002
  list_of "$sub" sub 1002
  { cat - www.pub; } > req.in << X
kind = "request"
profile = "server"
$(digest_key "$leaf")
subject = ["O=Shop", "CN=www.lab"]
alt_names = ["dns:www.lab"]
X
  issue "$leaf" www.key req.in req.pem
  make_key "$leaf" > attr.key
  openssl pkey -in attr.key -pubout -out attr.pub
  { cat - sub.pem attr.pub; } > attr.in << X
kind = "certificate"
$(digest_key "$sub")
subject = ["O=Example", "CN=Example Attributes"]
ca = "false"
key_usages = ["digitalSignature"]
authority_key_id = true
start = "$year-01-01T00:00:00Z"
not_after = "$last-12-31T23:59:59Z"
serial = "03ec"
X
  issue "$sub" sub.key attr.in attr.pem
  { cat - attr.pem; } > role.in << X
kind = "attribute"
$(digest_key "$leaf")
holder = { subject = ["O=Example", "CN=Example Authority"], serial = "03ea" }
start = "$year-01-01T00:00:00Z"
days = 365
serial = "2a"
# id-at-role (RFC 5755, 4.4.5): urn:admin
attributes = [{ oid = "2.5.4.72", values = "310f300da10b860975726e3a61646d696e" }]
X
  issue "$leaf" attr.key role.in role.pem
}

# list_of KIND ISSUER SERIAL [NAME]: the issuer's list with this entry.
list_of() {
  { cat - "$2.pem"; } > "${4:-$2}.crl.in" << X
kind = "list"
$(digest_key "$1")
this_update = "$year-01-01T00:00:00Z"
next_update = "$last-12-31T00:00:00Z"
number = "01"
revoked = [{ serial = "$3", time = "$year-01-01T00:00:00Z", reason = "keyCompromise" }]
X
  issue "$1" "$2.key" "${4:-$2}.crl.in" "${4:-$2}.crl"
}

# lined_list KIND ISSUER: the issuer's list with entries of lines, and what is to be signed for the same in an order.
lined_list() {
  printf '# serial time reason invalid\r\n1002 %s-01-01T00:00:00Z keyCompromise\r\n03e9 %s-01-01T00:00:00Z - %s-12-31T00:00:00Z\r\n03f0 %s-01-02T00:00:00Z' \
    "$year" "$year" "$((year - 1))" "$year" > lined.txt
  sed '/^revoked/d' "$2.crl.in" > lined.crl.in
  issue "$1" "$2.key" lined.crl.in lined.crl --revoked lined.txt
  {
    sed '/^revoked/,$d' "$2.crl.in"
    echo "revoked = [{ serial = \"1002\", time = \"$year-01-01T00:00:00Z\", reason = \"keyCompromise\" },"
    echo "  { serial = \"03e9\", time = \"$year-01-01T00:00:00Z\", invalid = \"$((year - 1))-12-31T00:00:00Z\" },"
    echo "  { serial = \"03f0\", time = \"$year-01-02T00:00:00Z\" }]"
    cat "$2.pem"
  } > tabled.crl.in
  run tbs tabled.crl.in > tabled.tbs
}

# delta_lists KIND ISSUER KIND OF A KEY: two certificates that point to a delta list, the issuer's complete list with the first of them on hold,
# and a delta list based on it that releases the first and revokes the second.
delta_lists() {
  local name serial
  for name in held later; do
    serial=$([ $name = held ] && echo 03f1 || echo 03f2)
    make_key "$3" > $name.key
    openssl pkey -in $name.key -pubout -out $name.pub
    # The freshest CRL (RFC 5280, 4.2.1.15): http://ca.lab/d.crl
    { cat - "$2.pem" $name.pub; } > $name.in << X
kind = "certificate"
profile = "client"
$(digest_key "$1")
common_name = "$name"
start = "$year-01-01T00:00:00Z"
not_after = "$last-12-31T23:59:59Z"
serial = "$serial"
extensions = [{ oid = "2.5.29.46", content = "301b3019a017a0158613687474703a2f2f63612e6c61622f642e63726c" }]
X
    issue "$1" "$2.key" $name.in $name.pem
  done
  { sed '/^number/,$d' "$2.crl.in" && cat - "$2.pem"; } > complete.crl.in << X
number = "0a"
revoked = [{ serial = "03f1", time = "$year-01-01T00:00:00Z", reason = "certificateHold" }]
X
  issue "$1" "$2.key" complete.crl.in complete.crl
  { sed '/^number/,$d' "$2.crl.in" && cat - "$2.pem"; } > delta.crl.in << X
number = "0b"
base = "0a"
revoked = [{ serial = "03f1", time = "$year-01-01T00:00:00Z", reason = "removeFromCRL" },
  { serial = "03f2", time = "$year-01-01T00:00:00Z", reason = "keyCompromise" }]
X
  issue "$1" "$2.key" delta.crl.in delta.crl
}

# What OpenSSL says of delta lists; each time shelf says the same.
deltas_taken() {
  local chain=$1 verify=(openssl verify -partial_chain -CAfile sub.pem -crl_check)
  local complete=(-CRLfile complete.crl) both=(-extended_crl -use_deltas -CRLfile complete.crl -CRLfile delta.crl)
  says "$chain: openssl crl, a delta list" "verify OK" openssl crl -in delta.crl -CAfile sub.pem -noout
  says "$chain: openssl crl, its indicator" "X509v3 Delta CRL Indicator: critical" openssl crl -in delta.crl -noout -text
  says "$chain: openssl crl, its reason" "Remove From CRL" openssl crl -in delta.crl -noout -text
  fails "$chain: openssl verify, a hold" "certificate revoked" "${verify[@]}" "${complete[@]}" held.pem
  judged "$chain: shelf path, the same" 5 'invalid 1 Revoked ' held.pem sub.pem complete.crl
  holds "$chain: openssl verify, released by the delta list" "${verify[@]}" "${both[@]}" held.pem
  judged "$chain: shelf path, the same" 0 'valid 1$' held.pem sub.pem complete.crl delta.crl
  holds "$chain: openssl verify, not revoked yet" "${verify[@]}" "${complete[@]}" later.pem
  judged "$chain: shelf path, the same" 0 'valid 1$' later.pem sub.pem complete.crl
  fails "$chain: openssl verify, revoked by the delta list" "certificate revoked" "${verify[@]}" "${both[@]}" later.pem
  judged "$chain: shelf path, the same" 5 'invalid 1 Revoked ' later.pem sub.pem complete.crl delta.crl
}

# What OpenSSL says of a session.
openssl_takes() {
  local chain=$1 verify=(openssl verify -x509_strict -check_ss_sig -CAfile root.pem)
  holds "$chain: openssl verify, root" "${verify[@]}" root.pem
  holds "$chain: openssl verify, authority" "${verify[@]}" sub.pem
  holds "$chain: openssl verify, server's purpose and name" "${verify[@]}" -untrusted sub.pem -purpose sslserver -verify_hostname www.lab www.pem
  holds "$chain: openssl verify, server's address" "${verify[@]}" -untrusted sub.pem -purpose sslserver -verify_ip 127.0.0.1 www.pem
  holds "$chain: openssl verify, client's purpose" "${verify[@]}" -untrusted sub.pem -purpose sslclient client.pem
  holds "$chain: openssl verify, all of the chain by its lists" "${verify[@]}" -crl_check_all -untrusted sub.pem -CRLfile root.crl -CRLfile sub.crl www.pem
  judged "$chain: shelf path, the same" 0 'valid 2$' www.pem sub.pem root.pem root.crl sub.crl
  fails "$chain: openssl verify, not the name of another" "hostname mismatch" "${verify[@]}" -untrusted sub.pem -verify_hostname www.example.org www.pem
  fails "$chain: openssl verify, not a client as a server" "purpose" "${verify[@]}" -untrusted sub.pem -purpose sslserver client.pem
  fails "$chain: openssl verify, no longer once it is on the list" "certificate revoked" "${verify[@]}" -crl_check_all -untrusted sub.pem -CRLfile root.crl -CRLfile revoked.crl www.pem
  judged "$chain: shelf path, the same" 5 'invalid 1 Revoked ' www.pem sub.pem root.pem root.crl revoked.crl
  fails "$chain: openssl verify, not without a list of its issuer" "unable to get certificate CRL" "${verify[@]}" -crl_check_all -untrusted sub.pem -CRLfile root.crl www.pem
  judged "$chain: shelf path, the same" 5 'invalid 1 Undetermined ' www.pem sub.pem root.pem root.crl
  fails "$chain: openssl verify, nor once a line of --revoked says so" "certificate revoked" "${verify[@]}" -crl_check_all -untrusted sub.pem -CRLfile root.crl -CRLfile lined.crl www.pem
  judged "$chain: shelf path, the same" 5 'invalid 1 Revoked ' www.pem sub.pem root.pem root.crl lined.crl
  holds "$chain: one message, by lines and by the order" cmp lined.crl.in.tbs tabled.tbs
  says "$chain: openssl crl, a list by lines" "verify OK" openssl crl -in lined.crl -CAfile sub.pem -noout
  says "$chain: openssl crl, its reason" "Key Compromise" openssl crl -in lined.crl -noout -text
  says "$chain: openssl crl, its time of invalidity" "Dec 31 00:00:00 $((year - 1)) GMT" openssl crl -in lined.crl -noout -text
  says "$chain: openssl crl, its last entry" "Serial Number: 03F0" openssl crl -in lined.crl -noout -text
  says "$chain: openssl crl, root's list" "verify OK" openssl crl -in root.crl -CAfile root.pem -noout
  says "$chain: openssl crl, authority's list" "verify OK" openssl crl -in sub.crl -CAfile sub.pem -noout
  says "$chain: openssl req" "verify OK" openssl req -in req.pem -verify -noout
}

# An attribute certificate is what tbs wrote, and the issuer's signature over that.
attribute_taken() {
  local chain=$1 kind=$2 at
  octets 'ATTRIBUTE CERTIFICATE' role.pem > role.der
  openssl asn1parse -inform DER -in role.der -strparse 4 -noout -out role.info
  at=$(openssl asn1parse -inform DER -in role.der | sed -n 's/^ *\([0-9]*\):d=1 .*BIT STRING.*/\1/p')
  openssl asn1parse -inform DER -in role.der -strparse "$at" -noout -out role.signature
  holds "$chain: attribute certificate, what tbs wrote is what is signed" cmp role.info role.in.tbs
  if [ "$kind" = ed25519 ]; then
    holds "$chain: attribute certificate, signed by its issuer" openssl pkeyutl -verify -rawin -pubin -inkey attr.pub -in role.info -sigfile role.signature
  else
    # shellcheck disable=SC2046
    says "$chain: attribute certificate, signed by its issuer" 'Verified OK' openssl dgst "-$(hash_of "$kind")" $(salt_options "$kind") -verify attr.pub -signature role.signature role.info
  fi
  if command -v java > /dev/null && [ -e /usr/share/java/bcpkix.jar ]; then
    says "$chain: attribute certificate, as Bouncy Castle reads it" '^role 2.5.4.72 of 1002 by O=Example,CN=Example Attributes: valid' java -cp '/usr/share/java/*' "$here/AttributeCertificate.java" role.der attr.pem
  fi
}

certtool_takes() {
  local chain=$1
  cat www.pem sub.pem > served.pem
  says "$chain: certtool, server's purpose and name" "Chain verification output: Verified" certtool --verify --load-ca-certificate root.pem --verify-hostname www.lab --verify-purpose 1.3.6.1.5.5.7.3.1 --infile served.pem
  says "$chain: certtool, authority's list" "Verification output: Verified" certtool --verify-crl --load-ca-certificate sub.pem --infile sub.crl
  says "$chain: certtool, request" "Self signature: verified" certtool --crq-info --infile req.pem
}

# A handshake over loopback, in which both show what was issued: handshake CHAIN PROTOCOL
handshake() {
  local chain=$1 protocol=$2 port='' status=0 server
  : > server.said
  openssl s_server "-$protocol" -www -naccept 1 -accept 127.0.0.1:0 -cert www.pem -key www.key -cert_chain sub.pem -Verify 2 -verify_return_error -x509_strict -CAfile root.pem > server.said 2>&1 < /dev/null &
  server=$!
  for _ in $(seq 100); do
    port=$(sed -n 's/^ACCEPT .*:\([0-9]*\)$/\1/p' server.said)
    [ -z "$port" ] || break
    sleep 0.1
  done
  printf 'GET / HTTP/1.0\r\n\r\n' | timeout 20 openssl s_client "-$protocol" -ign_eof -connect "127.0.0.1:$port" -servername www.lab -verify_hostname www.lab -verify_return_error -x509_strict -purpose sslserver -CAfile root.pem -cert client.pem -key client.key -cert_chain sub.pem > client.said 2>&1 || status=$?
  kill "$server" 2> /dev/null || true
  wait "$server" 2> /dev/null || true
  grep -q '^ *Verify return code: 0 (ok)' client.said || status=1
  told "$status" "$chain: TLS by openssl s_client, $protocol: verify return code 0" client.said
  status=0
  # The page tells whom the server saw.
  grep -q 'HTTP/1.0 200' client.said && grep -Eq 'Subject: *CN ?= ?somebody' client.said || status=1
  told "$status" "$chain: TLS by openssl s_server, $protocol: the client is known" server.said
}

session() {
  local chain=$1
  mkdir -p "$top/$chain"
  cd "$top/$chain"
  issue_all "$2" "$3" "$4"
  list_of "$3" sub 03e9 revoked
  lined_list "$3" sub
  delta_lists "$3" sub "$4"
  told 0 "$chain: root, authority, server, client, lists, request and attribute certificate issued"
  openssl_takes "$chain"
  deltas_taken "$chain"
  attribute_taken "$chain" "$4"
  handshake "$chain" tls1_3
  handshake "$chain" tls1_2
  if command -v certtool > /dev/null; then certtool_takes "$chain"; fi
  if python3 -c 'import cryptography' 2> /dev/null; then holds "$chain: python3-cryptography, what was signed, by whom, and the path" python3 "$here/with_cryptography.py" .; fi
}

# refused NAME WORD STATUS PLACE INPUT: with this status, a line that names this key or block, nothing written, no control character shown.
refused() {
  local name=$1 status=0 right=0
  run "$2" "$5" > "$top/out" 2> "$top/err" || status=$?
  [ "$status" = "$3" ] && [ ! -s "$top/out" ] && grep -q -- "$4" "$top/err" || right=1
  if grep -q '[[:cntrl:]]' "$top/err"; then right=1; fi
  { echo "status $status, $(wc -c < "$top/out") octets written" && cat "$top/err"; } > "$top/said"
  told $right "$name" "$top/said"
}

# order NAME STATUS FAULT SED: the server's order, changed so.
order() {
  { sed "$4" www.toml && cat sub.pem www.csr; } > bad.in
  refused "order: $1" tbs "$2" "$3" bad.in
}

# more NAME STATUS FAULT LINE: the server's order with one more line.
more() { order "$1" "$2" "$3" "\$ a $4"; }

wrong_orders() {
  sed '/^-----BEGIN/,$d' www.in > www.toml
  order 'no kind' 4 'kind:' '/^kind/d'
  order 'an unknown kind' 4 'kind:' '/^kind/s/certificate/certificat/'
  order 'an unknown profile' 4 'profile:' '/^profile/s/server/sever/'
  order 'no start' 4 'start:' '/^start/d'
  order 'a date alone' 4 'start:' '/^start/s/T.*/"/'
  order 'a date without quotation marks' 4 'start:' '/^start/s/"//g'
  order 'the 30th of February' 4 'start:' '/^start/s/-01-01/-02-30/'
  order 'no end' 4 'not_after:' '/^not_after/d'
  more 'two ends' 4 'not_after:' 'days = 365'
  order 'no days' 4 'days:' '/^not_after/s/.*/days = 0/'
  order 'days as a text' 4 'days:' '/^not_after/s/.*/days = "365"/'
  order 'an end before the start' 5 'not_after:' '/^not_after/s/".*"/"2001-01-01T00:00:00Z"/'
  order 'no serial number' 4 'serial:' '/^serial/d'
  order 'a serial number of zero' 4 'serial:' '/^serial/s/03e9/00/'
  order 'a serial number without octets' 4 'serial:' '/^serial/s/03e9//'
  order 'a serial number of 0x' 4 'serial:' '/^serial/s/03e9/0x03/'
  order 'a serial number of half an octet' 4 'serial:' '/^serial/s/03e9/3e9/'
  order 'a serial number of 21 octets' 4 'serial:' '/^serial/s/03e9/000000000000000000000000000000000000000001/'
  order 'a negative serial number of 20 octets' 4 'serial:' '/^serial/s/03e9/ffffffffffffffffffffffffffffffffffffffff/'
  order 'nobody' 4 'subject:' '/^take/d'
  more 'a name beside that of the request' 4 'subject:' 'subject = ["CN=other"]'
  order 'two names' 4 'subject:' '/^take/s/.*/common_name = "a"\nsubject = ["CN=a"]/'
  order 'an attribute DC' 4 'subject\[1\]:' '/^take/s/.*/subject = ["DC=example", "CN=a"]/'
  order 'an attribute emailAddress' 4 'subject\[2\]:' '/^take/s/.*/subject = ["CN=a", "emailAddress=a@b"]/'
  order 'something to take that a request has not' 4 'take\[2\]:' '/^take/s/alt_names/key_usages/'
  order 'a bare name' 4 'alt_names\[1\]:' '/^take/s/.*/common_name = "a"\nalt_names = ["www.lab"]/'
  order 'a name beyond ASCII' 4 'alt_names\[1\]:' '/^take/s/.*/common_name = "a"\nalt_names = ["dns:b\xc3\xbccher.example"]/'
  order 'an address past its end' 4 'alt_names\[2\]:' '/^take/s/.*/common_name = "a"\nalt_names = ["ip:192.0.2.1", "ip:192.0.2.300"]/'
  order 'one name where an array is' 4 'alt_names:' '/^take/s/.*/common_name = "a"\nalt_names = "dns:www.lab"/'
  more 'a usage misspelt' 4 'key_usages\[2\]:' 'key_usages = ["digitalSignature", "keyEncypherment"]'
  more 'a purpose misspelt' 4 'extended_key_usages\[1\]:' 'extended_key_usages = ["serverAuthentication"]'
  more 'an authority in words' 4 'ca:' 'ca = "true"'
  more 'a path length past its end' 4 'ca:' 'ca = 256'
  more 'an unknown hash function' 4 'digest:' 'digest = "sha1"'
  more 'a hash function that the key does not take' 5 'block 1 (CERTIFICATE):' 'digest = "sha512"'
  more 'a key identifier of nothing' 4 'key_id:' 'key_id = "sha1"'
  order 'points that are no lists' 4 'crl_points\[1\]:' '/^crl_points/s/.*/crl_points = ["http:\/\/ca.lab\/"]/'
  order 'a point without an address' 5 '.*crl_points.*:' '/^crl_points/s/.*/crl_points = [[]]/'
  order 'an address beyond ASCII' 5 '.*ocsp.*:' '/^ocsp/s/ocsp.lab/\xc3\xbc.lab/'
  order 'a policy without arcs' 4 'policies\[1\]:' '/^policies/s/2.23.140.1.2.1/anything/'
  order 'a policy whose arcs are no identifier' 5 '.*policies.*:' '/^policies/s/2.23.140.1.2.1/9.9/'
  more 'a net without its bits' 4 'permitted\[1\]:' 'permitted = ["net:192.0.2.0"]'
  more 'an extension without its content' 4 'extensions\[1\].content:' 'extensions = [{ oid = "1.2.3" }]'
  more 'an extension whose content is no hex' 4 'extensions\[1\].content:' 'extensions = [{ oid = "1.2.3", content = "abc" }]'
  more 'an unknown key' 4 'colour:' 'colour = "red"'
  more 'a key of lists' 4 'number:' 'number = "01"'
  more 'a key twice' 4 'line [0-9]*:' 'serial = "03e9"'
  order 'a quotation mark left out' 4 'line [0-9]*:' '/^serial/s/.$//'
  order 'octets that are no UTF-8' 4 'not UTF-8' '/^policies/s/2.23.140.1.2.1/\xff\xfe/'
  order 'control characters in a value' 4 'profile:' '/^profile/s/.*/profile = "\\u001b[2J\\u0007"/'
  more 'control characters in a key' 4 '?\[2J?serial: fine: unknown key' '"\\u001b[2J\\nserial: fine" = 1'
}

# place_of LABEL: what a fault of the block names.
place_of() { if [ "$1" = SIGNATURE ]; then echo 'signature'; else echo "$1"; fi; }

# everywhere NAME LABEL INPUT HOW FAULT: the block changed at each 16th octet, cut or flipped there.
everywhere() {
  local name=$1 label=$2 input=$3 at=0 right=0 status size
  octets "$label" "$input" > whole
  size=$(wc -c < whole)
  while [ "$at" -lt "$size" ] && [ $right = 0 ]; do
    head -c "$at" whole > changed
    if [ "$4" = flipped ]; then
      tail -c "+$((at + 1))" whole | head -c 1 | tr '\000-\377' '\001-\377\000' >> changed
      tail -c "+$((at + 2))" whole >> changed
    fi
    { without "$label" "$input" && block "$label" < changed; } > bad.in
    status=0
    run seal bad.in > out 2> err || status=$?
    if [ $status != 5 ] || [ -s out ] || ! grep -q "$5" err; then right=1; fi
    at=$((at + 16))
  done
  { echo "octet $at, status $status" && cat err; } > "$top/said"
  told $right "$name, $4 at each 16th of its $size octets" "$top/said"
}

damaged_blocks() {
  local label damage at
  everywhere 'PUBLIC KEY' 'PUBLIC KEY' client.in.seal cut 'PUBLIC KEY'
  everywhere 'CERTIFICATE REQUEST' 'CERTIFICATE REQUEST' www.in.seal cut 'CERTIFICATE REQUEST'
  everywhere 'CERTIFICATE' 'CERTIFICATE' www.in.seal cut 'CERTIFICATE'
  everywhere 'SIGNATURE' 'SIGNATURE' www.in.seal cut 'signature: '
  everywhere 'PUBLIC KEY' 'PUBLIC KEY' client.in.seal flipped 'PUBLIC KEY\|signature: '
  everywhere 'CERTIFICATE REQUEST' 'CERTIFICATE REQUEST' www.in.seal flipped 'CERTIFICATE REQUEST'
  everywhere 'SIGNATURE' 'SIGNATURE' www.in.seal flipped 'signature: '
  for label in 'PUBLIC KEY' 'CERTIFICATE REQUEST' 'CERTIFICATE' 'SIGNATURE'; do
    local input=www.in.seal word=seal
    [ "$label" != 'PUBLIC KEY' ] || input=client.in.seal
    { cat $input && octets "$label" $input | block "$label"; } > bad.in
    refused "$label: twice" $word "$(if [ "$label" = SIGNATURE ]; then echo 5; else echo 4; fi)" "$(place_of "$label")" bad.in
    { without "$label" $input && { octets "$label" $input && printf '\0'; } | block "$label"; } > bad.in
    refused "$label: an octet after its DER" $word 5 "$(place_of "$label")" bad.in
    { without "$label" $input && block "$label" < /dev/null; } > bad.in
    refused "$label: without octets" $word 5 "$(place_of "$label")" bad.in
    sed "/^-----END $label-----/d" $input > bad.in
    refused "$label: without its end" $word 4 "block [0-9] ($label)" bad.in
    sed "s/^-----END $label-----/-----END OTHER-----/" $input > bad.in
    refused "$label: with the end of another" $word 4 "block [0-9] ($label)" bad.in
    at=$(($(grep -n "^-----BEGIN $label-----" $input | head -1 | cut -d: -f1) + 1))
    for damage in '!' '-' '_' '.' '\x00' '\xc3\xa9' '\x1b'; do
      sed "/^-----BEGIN $label-----/{n;s/^..../&$damage/}" $input > bad.in
      refused "$label: $damage in its base64" $word 4 "block [0-9] ($label)" bad.in
    done
    sed "/^-----BEGIN $label-----/{n;s/^....//;s/^/=AA=/}" $input > bad.in
    refused "$label: padding in front of its base64" $word 4 "block [0-9] ($label)" bad.in
    sed "/^-----BEGIN $label-----/{n;s/^.//}" $input > bad.in
    refused "$label: a character of its base64 is missing" $word 4 "block [0-9] ($label)" bad.in
  done
}

# Where files differ in form: labels, texts between blocks, ends of lines, sizes.
odd_inputs() {
  local name
  for name in 'X509 CRL' 'PRIVATE KEY' 'ENCRYPTED PRIVATE KEY' 'TRUSTED CERTIFICATE' 'RSA PUBLIC KEY' 'certificate'; do
    { cat www.in && echo x | block "$name"; } > bad.in
    refused "a block $name" tbs 4 "block 3" bad.in
  done
  { cat client.in && cat client.key; } > bad.in
  refused "the private key after its order" tbs 4 'block 3' bad.in
  without 'CERTIFICATE' www.in > bad.in
  refused 'a server without an issuer' tbs 4 'CERTIFICATE' bad.in
  without 'CERTIFICATE REQUEST' www.in > bad.in
  refused 'a server without a key or a request' tbs 4 'PUBLIC KEY' bad.in
  cat www.in www.pub > bad.in
  refused 'a server with a key and a request' tbs 4 'PUBLIC KEY' bad.in
  { cat www.toml sub.pem www.pub; } > bad.in
  refused 'a server that takes of a request, of which there is none' tbs 4 'CERTIFICATE REQUEST' bad.in
  cat root.in sub.pem > bad.in
  refused 'a root with an issuer' tbs 4 'CERTIFICATE' bad.in
  without 'PUBLIC KEY' req.in > bad.in
  refused 'a request without its key' tbs 4 'neither PEM nor DER' bad.in
  cat req.in www.csr > bad.in
  refused 'a request with a request' tbs 4 'CERTIFICATE REQUEST' bad.in
  without 'CERTIFICATE' sub.crl.in > bad.in
  refused 'a list without its issuer' tbs 4 'neither PEM nor DER' bad.in
  cat sub.crl.in www.pub > bad.in
  refused 'a list with a key' tbs 4 'PUBLIC KEY' bad.in
  cat www.toml www.in > bad.in
  refused 'two orders in one text' tbs 4 'line [0-9]*:' bad.in
  cat www.in client.in > bad.in
  refused 'two orders, each with its blocks' tbs 4 'CERTIFICATE\|PUBLIC KEY' bad.in
  : > bad.in
  refused 'nothing' tbs 4 'the order is empty' bad.in
  cat www.csr sub.pem > bad.in
  refused 'blocks without an order' tbs 4 'the order is empty' bad.in
  { printf 'x = "a\0b"\n' && cat www.in; } > bad.in
  refused 'a NUL octet in the order' tbs 4 'line 1:' bad.in
  head -c 3000 "$shelf" > bad.in
  refused 'a program in place of an order' tbs 4 'not UTF-8' bad.in
  # Sizes: the limit, and one octet beyond.
  # shellcheck disable=SC2046
  { cat www.in && printf -- '-----BEGIN X-----\n-----END X-----\n%.0s' $(seq 31000); } > long.in
  head -c 1048576 long.in > bad.in
  refused '1 MiB of blocks' tbs 4 'block' bad.in
  head -c 16777217 /dev/zero | tr '\0' ' ' > bad.in
  refused 'an order of 16 MiB and an octet' tbs 3 'parts.toml: longer than 16 MiB' bad.in
  { cat www.toml && echo '-----BEGIN X-----' && head -c 67108864 /dev/zero | tr '\0' '\n'; } > bad.in
  refused 'a file of more than 64 MiB' tbs 3 'parts.pem: longer than 64 MiB' bad.in
  { cat www.toml www.csr && head -c 730000 /dev/zero | block CERTIFICATE; } > bad.in
  refused 'a block of 730,000 octets' tbs 5 'CERTIFICATE' bad.in
  { printf 'x = ' && head -c 500000 /dev/zero | tr '\0' '['; } > bad.in
  refused 'an order of 500,000 arrays in one another' tbs 4 'line 1:' bad.in
  # shellcheck disable=SC2046
  { printf 'x = ' && printf '{x=%.0s' $(seq 300000); } > bad.in
  refused 'an order of 300,000 tables in one another' tbs 4 'line 1:' bad.in
}

# same NAME INPUT: what is to be signed is that of the server's order.
same() {
  local status=0
  run tbs "$2" > out 2> err || status=$?
  cmp -s out www.in.tbs || status=1
  told $status "$1" err
}

# What a stranger may write into a request's file, in front of its block.
hostile_text() { printf 'ca = "unconstrained"\nkey_usages = ["keyCertSign", "cRLSign"]\nextended_key_usages = []\nalt_names = ["dns:bank.example"]\n'; }

harmless_inputs() {
  sed 's/$/\r/' www.in > good.in
  same 'ends of lines as Windows has them' good.in
  { cat www.toml sub.pem && openssl req -in www.csr -text; } > good.in
  same 'a text between blocks, as openssl req -text writes it' good.in
  { cat www.toml sub.pem && hostile_text && cat www.csr; } > good.in
  same 'keys of an order in the file of a request' good.in
  { cat www.toml && echo && echo '# the blocks' && cat www.csr sub.pem; } > good.in
  same 'the blocks in the other order' good.in
  { cat www.toml sub.pem && sed '1d;$d' www.csr | tr -d '\n' | { echo '-----BEGIN CERTIFICATE REQUEST-----' && cat && printf '\n%s\n' '-----END CERTIFICATE REQUEST-----'; }; } > good.in
  same 'base64 in one line' good.in
  sed 's/ CERTIFICATE REQUEST-----$/ NEW CERTIFICATE REQUEST-----/' www.in > good.in
  same 'the label that openssl req -newhdr writes' good.in
  same 'a signature, which isn.t looked at' www.in.seal
  local status=0
  run lint www.in > out 2>&1 || status=$?
  if [ -s out ]; then status=1; fi
  told $status 'lint of what is right writes nothing' out
  parts www.in.seal
  mv parts.sig block.sig
  same_seal 'a block SIGNATURE gives the same certificate' block.sig www.pem
  openssl base64 -in www.in.sig > base64.sig
  same_seal 'base64 of the signature gives the same certificate' base64.sig www.pem
  openssl x509 -in www.pem -outform DER -out www.der
  same_seal 'DER is what the PEM holds' www.in.sig www.der --der
  # Files in DER, the order of files, text around blocks, standard input.
  openssl x509 -in sub.pem -outform DER -out sub.der
  openssl req -in www.csr -outform DER -out www.csr.der
  same_files 'files in DER' sub.der www.csr.der
  same_files 'the files in the other order' www.csr sub.pem
  openssl req -in www.csr -text > text.csr
  same_files 'a text around the block, as openssl req -text writes it' sub.pem text.csr
  { hostile_text && cat www.csr; } > hostile.csr
  same_files 'keys of an order in the file of a request, which comes first' hostile.csr sub.pem
  same_files 'keys of an order in the file of a request, which comes last' sub.pem hostile.csr
  { hostile_text && cat sub.pem && hostile_text && cat www.csr && hostile_text; } > hostile.pem
  same_files 'keys of an order around all blocks' hostile.pem
  status=0
  cat sub.pem www.csr | "$shelf" tbs parts.toml > out 2> err || status=$?
  cmp -s out www.in.tbs || status=1
  told $status 'standard input, where no file is named' err
  status=0
  "$shelf" tbs - sub.pem www.csr < parts.toml > out 2> err || status=$?
  cmp -s out www.in.tbs || status=1
  told $status 'the order from standard input' err
  "$shelf" explain www.in.tbs > out 2> err && grep -q 'CN=www.lab' out || status=1
  told $status 'explain shows what tbs wrote' err
}

# same_seal NAME SIGNATURE WANTED [OPTION..]: the server sealed with this file of its signature.
same_seal() {
  local name=$1 signature=$2 wanted=$3 status=0
  shift 3
  parts www.in
  "$shelf" seal parts.toml parts.pem --signature "$signature" "$@" > out 2> err || status=$?
  cmp -s out "$wanted" || status=1
  parts www.in.seal
  told $status "$name" err
}

# same_files NAME FILE..: what is to be signed is that of the server's order, with these files.
same_files() {
  local name=$1 status=0
  shift
  "$shelf" tbs parts.toml "$@" > out 2> err || status=$?
  cmp -s out www.in.tbs || status=1
  told $status "$name" err
}

# What was signed by whom: signatures, issuers, requests, keys.
wrong_keys() {
  local form
  refused 'no signature' seal 5 'signature:' www.in
  { cat www.in && block SIGNATURE < client.in.sig; } > bad.in
  refused 'the signature of something else' seal 5 'signature:' bad.in
  sign p256 root.key www.in.tbs other.sig
  { cat www.in && block SIGNATURE < other.sig; } > bad.in
  refused 'the signature of another key' seal 5 'signature:' bad.in
  { printf 'signature = "00"\n' && cat www.in.seal; } > bad.in
  refused 'a signature in the order' seal 4 'signature' bad.in
  form=$(openssl asn1parse -inform DER -in www.in.sig | sed -n 's/.*INTEGER *:/0000/p' | sed 's/.*\(.\{64\}\)$/\1/' | tr -d '\n')
  { cat www.in && printf '%s' "$form" | tr 'A-F' 'a-f' | sed 's/../\\x&/g' | xargs -0 printf '%b' | block SIGNATURE; } > bad.in
  refused 'r and s side by side' seal 5 'signature:' bad.in
  sed 's/"03e9"/"03eb"/' www.in.seal > bad.in
  refused 'another serial number than was signed' seal 5 'signature:' bad.in

  cat www.toml client.pem www.csr > bad.in
  refused 'an issuer that is no authority' tbs 5 'CERTIFICATE' bad.in
  { printf 'key_usages = ["digitalSignature", "cRLSign"]\n' && cat root.in; } > list_only.in
  issue p256 root.key list_only.in list_only.pem 2> warnings
  cat www.toml list_only.pem www.csr > bad.in
  refused 'an issuer without keyCertSign' tbs 5 'CERTIFICATE' bad.in
  { printf 'key_usages = ["keyCertSign"]\n' && cat root.in; } > cert_only.in
  issue p256 root.key cert_only.in cert_only.pem 2>> warnings
  { sed '/^-----BEGIN/,$d' root.crl.in && cat cert_only.pem; } > bad.in
  refused 'a list of an issuer without cRLSign' tbs 5 'CERTIFICATE' bad.in

  openssl req -in www.csr -outform DER | sed 's/www\.lab/wwx.lab/' > changed
  { cat www.toml sub.pem && block 'CERTIFICATE REQUEST' < changed; } > bad.in
  refused 'a request for another name than it signs' tbs 5 'CERTIFICATE REQUEST' bad.in
  openssl req -new -key www.key -subj '/DC=example/DC=lab/CN=www' -out odd.csr 2> /dev/null
  sed 's/^take.*/take = ["subject"]/' www.toml > odd.toml
  holds 'a request for a name with two DC' "$shelf" tbs odd.toml sub.pem odd.csr --out odd.tbs
  says 'a name with two DC, as it was asked for' 'CN=www,DC=lab,DC=example' "$shelf" explain odd.tbs
  sed 's/^take.*/&\nallow = ["dns:shop.lab"]/' www.toml > odd.toml
  fails 'a name that is not allowed' 'allow: the request asks for' "$shelf" tbs odd.toml sub.pem www.csr
  openssl req -new -key www.key -subj '/CN=www' -addext '1.2.3.4=DER:0500' -out odd.csr 2> /dev/null
  cat www.toml sub.pem odd.csr > bad.in
  refused 'a request for an extension that nobody knows' tbs 5 'take:' bad.in
  openssl req -new -key www.key -subj '/CN=www' -addext 'subjectAltName=DNS:www.lab' -addext 'subjectKeyIdentifier=hash' -out key_id.csr 2> /dev/null
  { printf 'ignored_extensions = ["2.5.29.14", "www"]\n' && cat www.toml sub.pem key_id.csr; } > bad.in
  refused 'ignored extensions that are none' tbs 4 'ignored_extensions\[2\]: "www" is not the identifier of an extension' bad.in
  local name
  for name in 'subjectAltName=DNS:www lab' 'subjectAltName=DNS:::1' 'subjectAltName=DNS:[::1]' 'subjectAltName=DNS:127.0.0.1' 'subjectAltName=DNS:*' 'subjectAltName=DNS:a*.lab' \
    'subjectAltName=DNS:-a.lab' 'subjectAltName=DNS:a..lab' 'subjectAltName=DNS:http://a.lab' 'subjectAltName=DNS:a.lab:443' 'subjectAltName=email:a b@lab' 'subjectAltName=URI:http://a b/' '2.5.29.17=DER:30058203610062' '2.5.29.17=DER:30028200' '2.5.29.17=DER:30058203617f62'; do
    openssl req -new -key www.key -subj '/CN=www' -addext "$name" -out odd.csr 2> /dev/null
    cat www.toml sub.pem odd.csr > bad.in
    refused "a request for the name $name" tbs 5 'take:' bad.in
  done
  make_key rsa > odd.key
  openssl req -new -key odd.key -subj '/CN=www' -addext 'subjectAltName=DNS:www.lab' -sigopt rsa_padding_mode:pss -out pss.csr 2> /dev/null
  cat www.toml sub.pem pss.csr > bad.in
  refused 'a request signed by RSASSA-PSS' tbs 5 'CERTIFICATE REQUEST' bad.in
  openssl genpkey -algorithm EC -pkeyopt ec_paramgen_curve:secp256k1 -out odd.key 2> /dev/null
  openssl req -new -key odd.key -subj '/CN=www' -addext 'subjectAltName=DNS:www.lab' -out curve.csr 2> /dev/null
  cat www.toml sub.pem curve.csr > bad.in
  refused 'a request by a key on secp256k1' tbs 5 'CERTIFICATE REQUEST' bad.in
  openssl req -new -key www.key -subj "/CN=www.lab$(printf '\033[2J')" -out odd.csr 2> /dev/null
  cat www.toml sub.pem odd.csr > bad.in
  refused 'a request for a name with an escape' tbs 5 'take:' bad.in
  { sed 's/^take.*/subject = ["OU=a", "OU=b"]/' www.toml && cat sub.pem www.csr; } > bad.in
  refused 'an order with two OU' tbs 5 'subject:' bad.in

  without 'PUBLIC KEY' root.in > odd.toml
  openssl genpkey -algorithm X25519 | openssl pkey -pubout > odd.pub
  cat odd.toml odd.pub > bad.in
  refused 'a root whose key does not sign' tbs 5 'PUBLIC KEY' bad.in
}

# A subject's key need not be one that signs here: the certificate has it as it was given.
other_keys() {
  local form name status
  sed '/^-----BEGIN/,$d' client.in > client.toml
  for form in 'X25519' 'ED448' 'X448' 'EC -pkeyopt ec_paramgen_curve:secp256k1' 'EC -pkeyopt ec_paramgen_curve:P-224' 'RSA-PSS -pkeyopt rsa_keygen_bits:2048' 'DSA'; do
    # shellcheck disable=SC2086
    if [ "$form" = DSA ]; then
      openssl genpkey -genparam -algorithm DSA -pkeyopt dsa_paramgen_bits:1024 -out dsa.params 2> /dev/null && openssl genpkey -paramfile dsa.params -out odd.key 2> /dev/null || continue
    else
      openssl genpkey -algorithm $form -out odd.key 2> /dev/null || continue
    fi
    openssl pkey -in odd.key -pubout > odd.pub 2> /dev/null
    name=other.${form%% *}
    cat client.toml sub.pem odd.pub > "$name.in"
    status=0
    { issue p256 sub.key "$name.in" "$name.pem" && openssl x509 -in "$name.pem" -noout -pubkey > odd.same && cmp odd.pub odd.same && openssl verify -check_ss_sig -CAfile root.pem -untrusted sub.pem "$name.pem"; } > "$top/said" 2>&1 || status=1
    told $status "a key of $form is in its certificate" "$top/said"
  done
  { printf 'unchecked_request = true\n' && cat www.toml sub.pem pss.csr; } > odd.in
  status=0
  { issue p256 sub.key odd.in odd.pem && openssl verify -x509_strict -CAfile root.pem -untrusted sub.pem -verify_hostname www.lab odd.pem; } > "$top/said" 2>&1 || status=1
  told $status 'a request signed by RSASSA-PSS that somebody looked at' "$top/said"
  { printf 'unchecked_request = true\n' && cat www.toml sub.pem curve.csr; } > odd.in
  status=0
  { issue p256 sub.key odd.in odd.pem && openssl verify -CAfile root.pem -untrusted sub.pem -verify_hostname www.lab odd.pem; } > "$top/said" 2>&1 || status=1
  told $status 'a request by a key on secp256k1 that somebody looked at' "$top/said"
  cat www.toml sub.pem key_id.csr > odd.in
  status=0
  { issue p256 sub.key odd.in odd.pem && openssl verify -x509_strict -CAfile root.pem -untrusted sub.pem -verify_hostname www.lab odd.pem && openssl x509 -in odd.pem -noout -ext subjectAltName | grep -q 'DNS:www.lab$'; } > "$top/said" 2>&1 || status=1
  told $status 'a request for the identifier of its key, which is ignored' "$top/said"
}

# Weak keys are refused unless the order accepts them; a common name becomes a DNS name where the order says so.
weak_keys_and_common_names() {
  local form status
  for form in 'RSA -pkeyopt rsa_keygen_bits:1024' 'RSA -pkeyopt rsa_keygen_bits:2048 -pkeyopt rsa_keygen_pubexp:3'; do
    # shellcheck disable=SC2086
    openssl genpkey -algorithm $form -out weak.key 2> /dev/null && openssl pkey -in weak.key -pubout -out weak.pub 2> /dev/null || continue
    cat client.toml sub.pem weak.pub > bad.in
    refused "a weak key ($form)" tbs 5 'error: key: weak' bad.in
    { echo 'weak_key = true' && cat client.toml sub.pem weak.pub; } > odd.in
    status=0
    { issue p256 sub.key odd.in odd.pem && openssl verify -auth_level 0 -CAfile root.pem -untrusted sub.pem odd.pem; } > "$top/said" 2>&1 || status=1
    told $status "the same with weak_key ($form)" "$top/said"
  done
  openssl req -new -key www.key -subj /O=Lab/CN=cn.www.lab -out cn.csr
  { echo 'copy_cn = true' && cat www.toml sub.pem cn.csr; } > odd.in
  status=0
  { issue p256 sub.key odd.in odd.pem && openssl verify -x509_strict -CAfile root.pem -untrusted sub.pem odd.pem && openssl x509 -in odd.pem -noout -ext subjectAltName | grep -q 'DNS:cn.www.lab$'; } > "$top/said" 2>&1 || status=1
  told $status 'a common name that is copied' "$top/said"
  { echo 'copy_cn = true' && echo 'allow = ["dns:other.lab"]' && cat www.toml sub.pem cn.csr; } > bad.in
  refused 'a common name that allow does not have' tbs 5 'allow:' bad.in
  openssl req -new -key www.key -subj '/CN=Ada Lovelace' -out cn.csr
  { echo 'copy_cn = true' && cat www.toml sub.pem cn.csr; } > bad.in
  refused 'a common name that is not a host' tbs 5 'copy_cn:' bad.in
}

# role NAME STATUS FAULT SED: the order of the attribute certificate, changed so, below its issuer.
role() {
  { sed "$4" role.toml && cat "${5:-attr.pem}"; } > bad.in
  refused "attribute certificate: $1" tbs "$2" "$3" bad.in
}

wrong_attributes() {
  sed '/^-----BEGIN/,$d' role.in > role.toml
  role 'no holder' 4 'holder:' '/^holder/d'
  role 'a holder without a number' 4 'holder.serial:' '/^holder/s/, serial.*/ }/'
  role 'a holder with two OU' 5 'holder.subject:' '/^holder/s/subject = \[/&"OU=a", "OU=b", /'
  role 'a serial number of zero' 4 'serial:' '/^serial/s/2a/00/'
  role 'no end' 4 'not_after:' '/^days/d'
  role 'an end before the start' 5 'not_after:' '/^days/s/.*/not_after = "2001-01-01T00:00:00Z"/'
  role 'no attributes' 4 'attributes:' '/^attributes/d'
  role 'an empty array of attributes' 5 'attributes:' '/^attributes/s/\[.*/[]/'
  role 'an attribute twice' 5 'attributes:' '/^attributes/s/\[\(.*\)\]/[\1, \1]/'
  role 'an attribute whose values are no set' 5 'attributes:' '/^attributes/s/310f30/300f30/'
  role 'an attribute without an identifier' 4 'attributes\[1\].oid:' '/^attributes/s/2.5.4.72/role/'
  role 'a profile' 4 'profile:' '$ a profile = "client"'
  role 'an issuer that is an authority' 5 '(CERTIFICATE):' '' sub.pem
  { sed '/^-----BEGIN/,$d; s/"digitalSignature"/"keyAgreement"/' attr.in && cat sub.pem attr.pub; } > agreeing.in
  issue p256 sub.key agreeing.in agreeing.pem
  role 'an issuer without digitalSignature' 5 '(CERTIFICATE):' '' agreeing.pem
  cat role.in www.pub > bad.in
  refused 'attribute certificate: with a key' tbs 4 'PUBLIC KEY' bad.in
}

# warned NAME WARNING SED: the server's order, changed so, is taken, and `tbs` and `lint` warn of it.
warned() {
  local right=0
  { sed "$3" www.toml && cat "${4:-sub.pem}" www.csr; } > odd.in
  run tbs odd.in > out 2> err && [ -s out ] || right=1
  run lint odd.in > out 2> looked && [ ! -s out ] || right=1
  if run tbs odd.in --strict > out 2> strict || [ -s out ] || ! cmp -s err strict; then right=1; fi
  grep -q -- "^warning: $2" err && cmp -s err looked || right=1
  told $right "warning: $1" err
}

# stopped NAME ERROR SED: the server's order, changed so, breaks a rule that is an error.
stopped() {
  local status=0 right=0
  { sed "$3" www.toml && cat "${4:-sub.pem}" www.csr; } > odd.in
  run tbs odd.in > out 2> err || status=$?
  [ "$status" = 5 ] && [ ! -s out ] || right=1
  grep -q -- "^error: $2" err || right=1
  told $right "error: $1" err
}

odd_orders() {
  warned 'an end past the issuer.s' 'not_after: after the end' '/^not_after/s/".*"/"2999-12-31T23:59:59Z"/'
  warned 'a start before the issuer.s' 'start: before the start' '/^start/s/".*"/"2001-01-01T00:00:00Z"/'
  warned 'no identifier of the issuer.s key' 'authority_key_id: missing' '$ a authority_key_id = false'
  warned 'nobody' 'subject: empty' '/^take/s/.*/subject = []/'
  warned 'keyCertSign of a server' 'key_usages: keyCertSign is for authorities' '$ a key_usages = ["digitalSignature", "keyCertSign"]'
  warned 'a server without alternative names' 'alt_names: missing' '/^take/s/.*/take = ["subject"]/'
  warned 'a country in UTF-8' 'subject: a country must be a PrintableString' '/^take/s/.*/subject = ["C:utf8=DE", "CN=a"]\ntake = ["alt_names"]/'
  stopped 'an authority below path length 0' 'ca: the issuer.s certificate has path length 0' '/^profile/s/server/authority/'
  stopped 'an extension twice' 'extensions: the same extension twice' '$ a extensions = [{ oid = "1.2.3", content = "0500" }, { oid = "1.2.3", content = "0500" }]'
}

# ends NAME STATUS FAULT COMMAND: the run ends so.
ends() {
  local name=$1 status=0
  bash -c "$4" "$shelf" > out 2> err || status=$?
  [ "$status" = "$2" ] && grep -q -- "^$3" err && [ ! -s out ] && status=0 || status=1
  told $status "$name" err
}

other_ends() {
  parts www.in
  ends 'no subcommand' 6 'shelf: no subcommand' '"$0"'
  ends 'an unknown subcommand' 6 'shelf: sign is an unknown subcommand' '"$0" sign parts.toml parts.pem'
  ends 'an unknown option' 6 'shelf tbs: wrong arguments' '"$0" tbs parts.toml parts.pem --sign'
  ends 'no order' 6 'shelf tbs: wrong arguments' '"$0" tbs'
  ends 'a signature that tbs has no use for' 6 'shelf tbs: wrong arguments' '"$0" tbs parts.toml --signature parts.pem'
  ends 'no signature' 6 'shelf seal: wrong arguments' '"$0" seal parts.toml parts.pem'
  ends 'standard input twice' 6 'shelf tbs: wrong arguments' '"$0" tbs - - < parts.toml'
  ends 'two words' 6 'shelf: --help is an unknown subcommand' '"$0" --help seal'
  ends 'a file that is not there' 1 'missing.pem: no such file' '"$0" tbs parts.toml missing.pem'
  ends 'an order that is not there' 1 'missing.toml: no such file' '"$0" tbs missing.toml parts.pem'
  ends 'a folder as a file' 1 '.*hostile: can.t be read' '"$0" tbs parts.toml "$PWD/../hostile"'
  ends 'no standard input' 1 'standard input: can.t be read' '"$0" tbs parts.toml <&-'
  if [ -e /dev/full ]; then ends 'a disk that is full' 2 'writing failed' '"$0" tbs parts.toml parts.pem > /dev/full'; fi
  # --out: FILE is replaced whole, or is as it was.
  local status=0
  "$shelf" tbs parts.toml parts.pem --out made 2> err || status=$?
  cmp -s made www.in.tbs && [ "$(find . -name 'made*' | wc -l)" = 1 ] || status=1
  told $status '--out: a file is made, and nothing else' err
  for name in 'a fault' 'a folder that is not there' 'a folder'; do
    echo before > kept
    case $name in
    'a fault') ! "$shelf" seal parts.toml parts.pem --signature root.pem --out kept 2> err ;;
    'a folder that is not there') ! "$shelf" tbs parts.toml parts.pem --out nowhere/kept 2> err ;;
    'a folder') ! "$shelf" tbs parts.toml parts.pem --out . 2> err ;;
    esac && [ "$(cat kept)" = before ] && [ "$(find . -name '*.new*' | wc -l)" = 0 ]
    told $? "--out: $name leaves what was there" err
  done
}

kinds=${KINDS:-ed25519 p256 p384 p521 p521_256 p521_384 rsa rsa384 rsa512 rsapss rsapss512 pss pss384}
for kind in $kinds; do session "$kind" "$kind" "$kind" "$kind"; done
if [ -z "${KINDS:-}" ]; then
  session rsa_p256_ed25519 rsa512 p256 ed25519
  session p384_rsa_p521 p384 rsa p521
  session pss384_rsapss_rsa pss384 rsapss rsa
fi

mkdir "$top/hostile"
cd "$top/hostile"
issue_all p256 p256 p256
wrong_orders
damaged_blocks
odd_inputs
harmless_inputs
wrong_keys
other_keys
weak_keys_and_common_names
wrong_attributes
odd_orders
other_ends

echo "$count checks, $failed failed"
[ "$failed" = 0 ]
