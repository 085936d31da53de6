# sealed.sh KEY OUT ORDER [FILE..]: what the order makes, signed by the key, in OUT. A key on P-384 needs DIGEST=sha384, one on P-521 DIGEST=sha512.
key=$1 out=$2; shift 2
shelf tbs "$@" --out "$out.tbs" || exit
openssl pkeyutl -sign -rawin ${DIGEST:+-digest $DIGEST} -inkey "$key" -in "$out.tbs" -out "$out.sig" || exit
shelf seal "$@" --signature "$out.sig" --out "$out"
