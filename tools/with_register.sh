#!/usr/bin/env bash
# with_register.sh SHELF FOLDER: authorities with registers, made with the program SHELF in FOLDER, which may not be there yet: a root and an
# issuing authority, ten servers from requests, a renewal, revocations by number and by file, a hold that is released and one that is made
# final, a list each week for a year, delta lists, import, also of an authority of openssl ca, and export. OpenSSL verifies each certificate and
# list, and sqlite (of Python) looks at the files. Then what a register has to refuse. A line a check, and a last line that counts. The status is 0 where all hold, and where there is no openssl.
# WEEKS=52 is how many lists are made, 3 or more; TYPE="ed25519" is the kind of the keys, else EC P-256.
set -eu -o pipefail
export LC_ALL=C TZ=UTC
if [ $# != 2 ] || [ -e "$2" ]; then
  echo "with_register.sh SHELF FOLDER, where FOLDER isn't there yet" >&2
  exit 2
fi
if ! command -v openssl > /dev/null; then
  echo "with_register: there is no openssl, nothing was checked"
  exit 0
fi
umask 077
shelf=$(realpath "$1")
mkdir -p "$2"
top=$(cd "$2" && pwd)
cd "$top"
weeks=${WEEKS:-52}
count=0 failed=0

# Tells of a check that held, or not: told STATUS NAME [FILE of what was said]
told() {
  count=$((count + 1))
  if [ "$1" = 0 ]; then
    echo "ok    $2"
  else
    failed=$((failed + 1))
    echo "FAILS $2"
    if [ $# = 3 ]; then head -n 5 "$3" | cut -c1-200 | cat -v | sed 's/^/      /'; fi
  fi
}

# A program gets 300 seconds; a function is called as it is.
limited() {
  if [ "$(type -t "$1")" = function ]; then "$@"; else timeout 300 "$@"; fi
}

# holds NAME COMMAND..: the command ends with 0.
holds() {
  local name=$1 status=0
  shift
  limited "$@" > "$top/said" 2>&1 < /dev/null || status=$?
  told "$status" "$name" "$top/said"
}

# says NAME TEXT COMMAND..: the command ends with 0, and prints a line with the text.
says() {
  local name=$1 text=$2 status=0
  shift 2
  limited "$@" > "$top/said" 2>&1 < /dev/null || status=$?
  grep -q -- "$text" "$top/said" || status=1
  told "$status" "$name" "$top/said"
}

# fails NAME TEXT COMMAND..: the command doesn't end with 0, and prints a line with the text.
fails() {
  local name=$1 text=$2 status=0 wrong=0
  shift 2
  limited "$@" > "$top/said" 2>&1 < /dev/null || status=$?
  if [ "$status" = 0 ] || ! grep -q -- "$text" "$top/said"; then wrong=1; fi
  told "$wrong" "$name" "$top/said"
}

key() {
  case ${TYPE:-ec} in
  ed25519) openssl genpkey -algorithm ed25519 -out "$1.key" ;;
  *) openssl genpkey -algorithm EC -pkeyopt ec_paramgen_curve:P-256 -out "$1.key" ;;
  esac
  openssl pkey -in "$1.key" -pubout -out "$1.pub"
}

sign() { openssl pkeyutl -sign -rawin -inkey "$1" -in "$2" -out "$3"; }

# issue KEY REGISTER OUT ORDER FILE..: a certificate whose serial number the register draws, in OUT; the number in OUT.serial.
issue() {
  local signer=$1 register=$2 out=$3 order=$4
  shift 4
  "$shelf" tbs "$order" "$@" --register "$register" --out "$out.tbs" 2> "$out.said" || return
  sed -n 's/^serial: //p' "$out.said" > "$out.serial"
  sign "$signer" "$out.tbs" "$out.sig" || return
  "$shelf" seal --register "$register" --serial "$(cat "$out.serial")" --signature "$out.sig" --out "$out" 2> "$out.said"
}

# list KEY REGISTER OUT WORD..: the next list.
list() {
  local signer=$1 register=$2 out=$3
  shift 3
  "$shelf" list --register "$register" --days 10 "$@" --out "$out.tbs" 2> "$out.said" || return
  sign "$signer" "$out.tbs" "$out.sig" || return
  "$shelf" seal --register "$register" --list --signature "$out.sig" --out "$out" 2> "$out.said"
}

sqlite() {
  python3 -c 'import sys, sqlite3
for row in sqlite3.connect(sys.argv[1]).execute(sys.argv[2]): print(*row)' "$@"
}

now=$(date +%s)
at() { date -u -d "@$1" +%Y-%m-%dT%H:%M:%SZ; }

# ---- a root, kept apart, and an issuing authority
key root
key ca
cat > root.toml << X
kind = "certificate"
profile = "root"
subject = ["O=Example", "CN=Example Root"]
start = "$(at $((now - 400 * 86400)))"
days = 3650
serial = "01"
X
cat > authority.toml << 'X'
kind = "certificate"
profile = "authority"
subject = ["O=Example", "CN=Example Authority"]
days = 1825
X
cat > server.toml << 'X'
kind = "certificate"
profile = "server"
take = ["subject", "alt_names"]
days = 90
X
"$shelf" tbs root.toml root.pub --out root.tbs
sign root.key root.tbs root.sig
holds "a root" "$shelf" seal root.toml root.pub --signature root.sig --out root.pem
holds "the root's register" "$shelf" register new root.db root.pem
fails "which isn't made twice" "already a register" "$shelf" register new root.db root.pem
holds "an issuing authority" issue root.key root.db ca.pem authority.toml ca.pub
holds "its register" "$shelf" register new ca.db ca.pem
says "OpenSSL takes the authority" "OK" openssl verify -x509_strict -CAfile root.pem ca.pem

# ---- ten servers
for n in 0 1 2 3 4 5 6 7 8 9; do
  key "s$n"
  openssl req -new -key "s$n.key" -subj "/O=Shop/CN=www$n.lab" -addext "subjectAltName=DNS:www$n.lab" -out "s$n.csr"
  holds "server $n" issue ca.key ca.db "s$n.pem" server.toml "s$n.csr"
  says "OpenSSL takes it" "OK" openssl verify -x509_strict -CAfile root.pem -untrusted ca.pem -purpose sslserver -verify_hostname "www$n.lab" "s$n.pem"
done
told "$([ "$(cat s?.pem.serial | sort -u | wc -l)" = 10 ] && echo 0 || echo 1)" "ten serial numbers, none twice"
cp s0.pem former.pem
holds "what is sealed is written again" "$shelf" seal --register ca.db --serial "$(cat s0.pem.serial)" --out again.pem
holds "octet for octet" cmp former.pem again.pem

# ---- a renewal
renew() {
  "$shelf" renew --register ca.db --serial "$(cat s1.pem.serial)" --days 30 --out r1.tbs 2> r1.said || return
  sed -n 's/^serial: //p' r1.said > r1.pem.serial
  sign ca.key r1.tbs r1.sig || return
  "$shelf" seal --register ca.db --serial "$(cat r1.pem.serial)" --signature r1.sig --out r1.pem
}
holds "a renewal" renew
says "OpenSSL takes it" "OK" openssl verify -x509_strict -CAfile root.pem -untrusted ca.pem -purpose sslserver -verify_hostname www1.lab r1.pem
same() { cmp <(openssl x509 -in s1.pem -noout -pubkey -subject -ext subjectAltName,keyUsage,extendedKeyUsage) <(openssl x509 -in r1.pem -noout -pubkey -subject -ext subjectAltName,keyUsage,extendedKeyUsage); }
holds "with the same subject, key and extensions" same

# ---- revocations, and a list each week
begin=$((now - weeks * 7 * 86400))
holds "the first list" list ca.key ca.db l0.pem --time "$(at $begin)"
holds "a revocation by number" "$shelf" revoke --register ca.db --serial "$(cat s2.pem.serial)" --reason keyCompromise --time "$(at $((begin + 1000)))" --invalidity-date "$(at $begin)"
holds "a revocation by file" "$shelf" revoke s3.pem --register ca.db --reason superseded --time "$(at $((begin + 2000)))"
holds "a hold" "$shelf" revoke s4.pem --register ca.db --reason certificateHold --time "$(at $((begin + 3000)))"
holds "another hold" "$shelf" revoke s5.pem --register ca.db --reason certificateHold --time "$(at $((begin + 4000)))"
lists=0
for ((week = 1; week <= weeks; week++)); do
  if [ $week = 3 ]; then
    holds "a hold is released" "$shelf" revoke s4.pem --register ca.db --reason removeFromCRL --time "$(at $((begin + 3 * 7 * 86400 - 1000)))"
    holds "a hold is made final" "$shelf" revoke s5.pem --register ca.db --reason cessationOfOperation --time "$(at $((begin + 3 * 7 * 86400 - 1000)))"
  fi
  if list ca.key ca.db "l$week.pem" --time "$(at $((begin + week * 7 * 86400 - 1)))" && openssl crl -in "l$week.pem" -noout -CAfile ca.pem > said 2>&1 && grep -q OK said; then
    lists=$((lists + 1))
  fi
done
told "$([ $lists = "$weeks" ] && echo 0 || echo 1)" "OpenSSL verifies $lists of $weeks lists" said
number() { [ $((16#$(openssl crl -in "$1" -noout -crlnumber | sed 's/.*=0x//'))) = "$2" ]; }
holds "the last list's number" number "l$weeks.pem" $((weeks + 1))
entries() { openssl crl -in "$1" -noout -text | sed -n 's/^ *Serial Number: //p' | sort | tr -d '\n'; }
wanted() { for n in "$@"; do openssl x509 -in "s$n.pem" -noout -serial | sed 's/serial=//'; done | sort | tr -d '\n'; }
told "$([ "$(entries l2.pem)" = "$(wanted 2 3 4 5)" ] && echo 0 || echo 1)" "the second list has what is revoked, and what is on hold"
told "$([ "$(entries "l$weeks.pem")" = "$(wanted 2 3 5)" ] && echo 0 || echo 1)" "the last list has what is revoked, and not what was released"
"$shelf" list --register root.db --days 30 --out rootlist.tbs 2> /dev/null
sign ca.key rootlist.tbs rootlist.sig
fails "another key's signature of a list" "sign the message of the last CRL, by .* and the key of CN=Example Root,O=Example$" "$shelf" seal --register root.db --list --signature rootlist.sig
sign root.key rootlist.tbs rootlist.sig
holds "the root's list" "$shelf" seal --register root.db --list --signature rootlist.sig --out rootlist.pem
holds "the authority's last list" list ca.key ca.db last.pem
cat rootlist.pem last.pem > all.crl
for n in 0 4 9; do
  says "OpenSSL takes server $n with the lists" "OK" openssl verify -crl_check_all -x509_strict -CAfile root.pem -CRLfile all.crl -untrusted ca.pem "s$n.pem"
done
for n in 2 3 5; do
  fails "OpenSSL refuses server $n" "certificate revoked" openssl verify -crl_check_all -x509_strict -CAfile root.pem -CRLfile all.crl -untrusted ca.pem "s$n.pem"
done

# ---- what is there
lines() { [ "$("$shelf" find --register ca.db "${@:2}" | wc -l)" = "$1" ]; }
holds "find: eleven certificates" lines 11
holds "find: three are revoked" lines 3 --revoked
holds "find: none is pending" lines 0 --pending
holds "find: one ends within 40 days" lines 1 --expires-within 40
holds "find: by name" lines 1 --name www7.lab
says "find: whom it is for" $'\tissued\tCN=www7.lab,O=Shop$' "$shelf" find --register ca.db --name www7.lab
found_pem() { "$shelf" find --register ca.db --serial "$(cat s7.pem.serial)" --pem | cmp - s7.pem; }
holds "find: its PEM" found_pem
json() { "$shelf" find --register ca.db --json | python3 -c 'import sys, json
found = [json.loads(line) for line in sys.stdin]
assert sum(one["status"] == "revoked" for one in found) == 3
assert sum(one["subject"] == "CN=www7.lab,O=Shop" for one in found) == 1'; }
holds "find: JSON" json
says "register check" "^ok$" "$shelf" register check ca.db
says "sqlite: integrity" "^ok$" sqlite ca.db "pragma integrity_check"
says "sqlite: no serial number twice" "^11 11$" sqlite ca.db "select count(*), count(distinct serial) from event where kind = 2"
exported() { "$shelf" register export ca.db | python3 -c 'import sys, json
events = [json.loads(line) for line in sys.stdin]
assert events[0]["event"] == "issuer" and sum(e["event"] == "sealed" for e in events) == 11'; }
holds "register export" exported
told "$([ ! -e ca.db-wal ] && echo 0 || echo 1)" "no log is left beside the file"

# ---- what is refused
revokes() { "$shelf" revoke "$@" --register ca.db; }
fails "a certificate by its number and by its file" "give either --serial or the certificate's FILE, not both" revokes s6.pem --serial 77 --reason superseded
fails "no certificate" "give the certificate, by --serial SERIAL or by its FILE" revokes --reason superseded
fails "no reason" "give --reason: unspecified, keyCompromise, " revokes s6.pem
fails "an unknown reason" "--reason: stolen is not a reason: give one of unspecified, keyCompromise, " revokes s6.pem --reason stolen
fails "what isn't a time" "--time: yesterday is not a time such as " revokes s6.pem --reason superseded --time yesterday
fails "an unknown option" "shelf revoke: --raeson: unknown option" revokes s6.pem --raeson superseded
fails "an option that is given twice" "shelf revoke: --reason: given twice" revokes s6.pem --reason superseded --reason superseded
fails "a file without a certificate" "^server.toml: it isn't one certificate$" revokes server.toml --reason superseded
fails "a certificate that isn't in the register" "^root.pem: the register doesn't have this certificate$" revokes root.pem --reason superseded
fails "two files to renew" "shelf renew: give one FILE" "$shelf" renew s1.pem s6.pem --register ca.db
says "the help of tbs tells of registers" "^shelf tbs ORDER .*--register REGISTER" "$shelf" tbs --help
says "and so does that of seal" "^shelf seal --register REGISTER" "$shelf" seal --help
fails "a revocation twice" "revoked already" "$shelf" revoke s2.pem --register ca.db --reason superseded
fails "a revocation of what isn't there" "no certificate with this serial number" "$shelf" revoke --register ca.db --serial 7777 --reason superseded
fails "a revocation ahead" "after the clock's" "$shelf" revoke s6.pem --register ca.db --reason superseded --time "$(at $((now + 86400)))"
fails "a list of an earlier time" "has this time or a later one" "$shelf" list --register ca.db --days 7 --time "$(at $begin)"
{ echo "serial = \"$(cat s6.pem.serial)\""; cat server.toml; } > twice.toml
fails "a serial number twice" "reserved already" "$shelf" tbs twice.toml s6.csr --register ca.db
"$shelf" tbs server.toml s6.csr --register ca.db --out p.tbs 2> p.said
sign root.key p.tbs p.sig
fails "another key's signature" "^signature: doesn't verify: sign the message with serial number $(sed -n 's/^serial: //p' p.said), by .* and the key of CN=Example Authority,O=Example$" "$shelf" seal --register ca.db --signature p.sig
fails "a certificate before it is sealed" "seal it first" "$shelf" revoke --register ca.db --serial "$(sed -n 's/^serial: //p' p.said)" --reason superseded
sign ca.key p.tbs p.sig
holds "the only one that is pending" "$shelf" seal --register ca.db --signature p.sig --out p.pem
fails "an order of a list" "shelf list makes CRLs" "$shelf" tbs <(echo 'kind = "list"') --register ca.db
says "register check" "^ok$" "$shelf" register check ca.db

# ---- moving here: the certificates and the index of openssl ca
cat s0.pem s2.pem s3.pem > moved.pem
{
  for n in 2 3; do
    printf 'R\t%s\t%s\t%s\tunknown\t/CN=a\n' "$(date -u -d '+90 days' +%y%m%d%H%M%SZ)" "$(date -u -d '-1 day' +%y%m%d%H%M%SZ),keyCompromise" "$(openssl x509 -in "s$n.pem" -noout -serial | sed 's/serial=//')"
  done
  printf 'V\t%s\t\t%s\tunknown\t/CN=b\n' "$(date -u -d '+90 days' +%y%m%d%H%M%SZ)" "$(openssl x509 -in s0.pem -noout -serial | sed 's/serial=//')"
} > index.txt
holds "another register of the authority" "$shelf" register new moved.db ca.pem
says "takes certificates and an index" "2 revocations" "$shelf" register import moved.db moved.pem index.txt
holds "its list" list ca.key moved.db moved.crl
cat rootlist.pem moved.crl > all.crl
fails "by which OpenSSL refuses server 2" "certificate revoked" openssl verify -crl_check_all -CAfile root.pem -CRLfile all.crl -untrusted ca.pem s2.pem
says "and takes server 0" "OK" openssl verify -crl_check_all -CAfile root.pem -CRLfile all.crl -untrusted ca.pem s0.pem
renewal() {
  "$shelf" renew s0.pem --register moved.db --days 30 --out n0.tbs || return
  sign ca.key n0.tbs n0.sig || return
  "$shelf" seal --register moved.db --signature n0.sig --out n0.pem
}
holds "a renewal by file" renewal
says "OpenSSL takes it" "OK" openssl verify -x509_strict -CAfile root.pem -untrusted ca.pem -purpose sslserver -verify_hostname www0.lab n0.pem
fails "of what isn't in the register" "^s1.pem: the register doesn't have this certificate$" "$shelf" renew s1.pem --register moved.db
openssl req -new -key s9.key -subj / -addext "subjectAltName=DNS:only.lab,DNS:b.lab" -out only.csr
holds "a certificate without a subject" "$shelf" tbs server.toml only.csr --register moved.db --out only.tbs
says "find: its alternative names" $'\tpending\tDNS:only.lab, DNS:b.lab$' "$shelf" find --register moved.db --pending
openssl req -new -key s8.key -subj $'/CN=a\tb' -out tab.csr
openssl x509 -req -in tab.csr -CA ca.pem -CAkey ca.key -set_serial 0x77 -days 10 -out tab.pem 2> said
holds "a certificate with a tab in its subject" "$shelf" register import moved.db tab.pem
says "find: which is shown" $'\tissued\tCN=a\\\\09b$' "$shelf" find --register moved.db --serial 77
says "register check" "^ok$" "$shelf" register check moved.db

# ---- delta lists over four weeks
month=$((now - 28 * 86400))
day_at() { at $((month + $1 * 86400)); }
holds "a register for delta lists" "$shelf" register new delta.db ca.pem
cat s6.pem s7.pem s8.pem > three.pem
says "takes three certificates" "3 certificates" "$shelf" register import delta.db three.pem
fails "a delta list before a complete one" "needs a complete CRL" "$shelf" list --register delta.db --days 7 --delta
holds "a complete list" list ca.key delta.db d1.pem --time "$(day_at 0)"
revoke() { "$shelf" revoke "$1" --register delta.db --reason "$2" --time "$(day_at "$3")"; }
holds "a revocation" revoke s6.pem keyCompromise 1
holds "a hold" revoke s7.pem certificateHold 2
holds "a delta list" list ca.key delta.db d2.pem --delta --time "$(day_at 7)"
says "OpenSSL verifies it" "OK" openssl crl -in d2.pem -noout -CAfile ca.pem
# base FILE: the number in the indicator, which has to be critical.
base() { openssl crl -in "$1" -noout -text | sed -n '/Delta CRL Indicator: critical/{n;s/^ *//;p}'; }
# entry FILE NUMBER: the reason of the entry of a server.
entry() {
  openssl crl -in "$1" -noout -text | awk -v n="$(openssl x509 -in "s$2.pem" -noout -serial | sed 's/serial=//')" '
    $1 == "Serial" { here = ($3 == n) }
    here && found { sub(/^ */, ""); print; exit }
    here && /CRL Reason Code/ { found = 1 }'
}
# is WANTED COMMAND..: what the command prints.
is() { [ "$("${@:2}")" = "$1" ]; }
holds "its indicator is critical, and says the complete list's number" is 1 base d2.pem
holds "its number goes on" number d2.pem 2
told "$([ "$(entries d2.pem)" = "$(wanted 6 7)" ] && echo 0 || echo 1)" "it has what was revoked since"
holds "the one on hold" is "Certificate Hold" entry d2.pem 7
holds "the hold is released" revoke s7.pem removeFromCRL 8
holds "the next delta list" list ca.key delta.db d3.pem --delta --time "$(day_at 14)"
holds "has the same base" is 1 base d3.pem
holds "what was released is there to be removed" is "Remove From CRL" entry d3.pem 7
holds "what was revoked is there still" is "Key Compromise" entry d3.pem 6
holds "the next complete list" list ca.key delta.db d4.pem --time "$(day_at 21)"
told "$([ "$(entries d4.pem)" = "$(wanted 6)" ] && echo 0 || echo 1)" "it has what is revoked, and not what was released"
holds "it has no indicator" is "" base d4.pem
holds "a delta list after it" list ca.key delta.db d5.pem --delta --time "$(day_at 22)"
holds "has it as its base" is 4 base d5.pem
told "$([ "$(entries d5.pem)" = "" ] && echo 0 || echo 1)" "and no entries"
holds "another revocation" revoke s8.pem superseded 23
holds "the last delta list" list ca.key delta.db d6.pem --delta --time "$(day_at 25)"
told "$([ "$(entries d6.pem)" = "$(wanted 8)" ] && echo 0 || echo 1)" "it has that alone"
says "register check" "^ok$" "$shelf" register check delta.db

# ---- moving here: an authority of openssl ca with its list
mkdir -p oca/new
key oca/ca
cat > oca/ca.cnf << X
[ca]
default_ca = it
[it]
database = $top/oca/index.txt
new_certs_dir = $top/oca/new
serial = $top/oca/serial
crlnumber = $top/oca/crlnumber
certificate = $top/oca/ca.pem
private_key = $top/oca/ca.key
default_md = default
default_days = 30
default_crl_days = 7
policy = any
x509_extensions = leaf
crl_extensions = list
[any]
commonName = supplied
[leaf]
basicConstraints = CA:FALSE
keyUsage = critical,digitalSignature
subjectKeyIdentifier = hash
authorityKeyIdentifier = keyid
[list]
authorityKeyIdentifier = keyid
[self]
basicConstraints = critical,CA:TRUE
keyUsage = critical,keyCertSign,cRLSign
subjectKeyIdentifier = hash
[req]
distinguished_name = dn
[dn]
X
: > oca/index.txt
echo 1000 > oca/serial
echo 1000 > oca/crlnumber
openssl req -x509 -new -key oca/ca.key -subj "/O=Example/CN=Former Authority" -days 365 -config oca/ca.cnf -extensions self -out oca/ca.pem
oca() { openssl ca -config oca/ca.cnf -batch -notext "$@"; }
for n in 0 1 2 3; do
  openssl req -new -key "s$n.key" -subj "/CN=former$n.lab" -out "oca/$n.csr"
  holds "openssl ca: certificate $n" oca -in "oca/$n.csr" -out "oca/$n.pem"
done
holds "openssl ca: a first list" oca -gencrl -out oca/old.crl
holds "openssl ca: a key that is compromised" oca -revoke oca/1.pem -crl_compromise "$(date -u -d '-2 days' +%Y%m%d%H%M%SZ)"
holds "openssl ca: a certificate on hold" oca -revoke oca/2.pem -crl_reason certificateHold
sleep 1
holds "openssl ca: its last list" oca -gencrl -out oca/last.crl
cat oca/0.pem oca/1.pem oca/2.pem oca/3.pem > oca/all.pem
holds "a register of this authority" "$shelf" register new oca.db oca/ca.pem
says "takes certificates, an index and a list" "1 CRLs, 2 revocations" "$shelf" register import oca.db oca/index.txt oca/all.pem oca/last.crl
says "find: one is revoked" "revoked" "$shelf" find --register oca.db --serial 1001
says "and one on hold" "on hold" "$shelf" find --register oca.db --serial 1002
says "import again: nothing is new" "0 CRLs, 0 revocations" "$shelf" register import oca.db oca/all.pem oca/last.crl oca/index.txt
fails "an older list" "has this number or a higher one" "$shelf" register import oca.db oca/old.crl
says "nothing was released" "on hold" "$shelf" find --register oca.db --serial 1002
sleep 1
holds "the next list" list oca/ca.key oca.db oca/next.crl
says "OpenSSL verifies it" "OK" openssl crl -in oca/next.crl -noout -CAfile oca/ca.pem
holds "its number is the next one" number oca/next.crl $((16#1002))
body() { openssl crl -in "$1" -noout -text | sed -n '/^Revoked Certificates/,/Signature Algorithm/p' | sort; }
same_entries() { cmp <(body oca/last.crl) <(body oca/next.crl); }
holds "its entries are those of the last one, with times, reasons and invalidity dates" same_entries
openssl crl -in oca/last.crl -outform DER -out oca/last.der
holds "another register of it" "$shelf" register new oder.db oca/ca.pem
says "takes a list as DER" "1 CRLs, 2 revocations" "$shelf" register import oder.db oca/all.pem oca/last.der
says "register check" "^ok$" "$shelf" register check oder.db
"$shelf" register new part.db oca/ca.pem
fails "a list with a certificate that isn't there" "serial 1002: it is on the list" "$shelf" register import part.db oca/0.pem oca/1.pem oca/last.crl
says "of which nothing is recorded" "^CRLs: 0$" "$shelf" register check part.db
fails "a list of another authority" "isn't signed by the register's issuer" "$shelf" register import part.db last.pem
fails "a delta list" "it is a delta list" "$shelf" register import delta.db d6.pem
sed 's/certificateHold/superseded/' oca/index.txt > oca/other.txt
fails "an index that says otherwise" "serial 1002: the register has another revocation" "$shelf" register import oca.db oca/other.txt
openssl req -x509 -new -key oca/ca.key -subj "/O=Example/CN=Other Name" -days 365 -config oca/ca.cnf -extensions self -out oca/name.pem
"$shelf" register new name.db oca/name.pem
fails "a list of the same key under another name" "list's issuer is not the register's issuer" "$shelf" register import name.db oca/last.crl

echo "$count checks, $failed failed"
[ $failed = 0 ]
