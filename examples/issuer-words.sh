#!/bin/sh
# Prints the options --name HEX --key HEX of `desk init` for a CA certificate (PEM or DER): the DER of its subject Name
# (RFC 5280 4.1.2.6) and the bits of its public key (RFC 5280 4.1.2.7). If its key identifier is not the SHA-1 of the key,
# also --key-id HEX (RFC 5280 4.2.1.2), because CRLs need the certificate's own. Needs openssl, awk and od.
set -eu
[ $# -eq 1 ] || { echo "usage: $0 CERTIFICATE" >&2; exit 2; }

der=$(mktemp)
trap 'rm -f "$der"' EXIT
openssl x509 -in "$1" -outform DER -out "$der"

# The values of tbsCertificate are at depth 2; the fourth SEQUENCE of them is the subject, the fifth the public key,
# whose BIT STRING is at depth 3. For each: where its contents begin, the octets before them, and its length.
places=$(openssl asn1parse -inform DER -in "$der" | awk '
    { at = $1; sub(/:.*/, "", at); line = $0; sub(/^ *[0-9]*:/, "", line)
      match(line, /d=[0-9]+/); depth = substr(line, RSTART + 2, RLENGTH - 2) + 0
      match(line, /hl= *[0-9]+/); head = substr(line, RSTART + 3, RLENGTH - 3) + 0
      match(line, /[^h]l= *[0-9]+/); len = substr(line, RSTART + 3, RLENGTH - 3) + 0 }
    depth == 2 && /SEQUENCE/ { seen++; if (seen == 4) print at, head + len }
    depth == 3 && seen == 5 && /BIT STRING/ { print at + head + 1, len - 1; exit }')

bytes() { tail -c "+$(($1 + 1))" "$der" | head -c "$2" | od -An -v -tx1 | tr -d ' \n'; }

# The subjectKeyIdentifier; nothing if the certificate has none.
own=$(openssl x509 -inform DER -in "$der" -noout -ext subjectKeyIdentifier 2>/dev/null | awk 'NR == 2 { gsub(/[: ]/, ""); print tolower($0) }')

set -- $places
digest=$(tail -c "+$(($3 + 1))" "$der" | head -c "$4" | openssl dgst -sha1 -binary | od -An -v -tx1 | tr -d ' \n')
printf -- '--name %s --key %s' "$(bytes "$1" "$2")" "$(bytes "$3" "$4")"
if [ -n "$own" ] && [ "$own" != "$digest" ]; then printf -- ' --key-id %s' "$own"; fi
echo
