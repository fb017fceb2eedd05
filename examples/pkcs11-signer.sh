#!/bin/sh
# Signs standard input with a key in a PKCS #11 token, and prints the signature in the form that `desk` accepts. socat runs it for each
# connection from the desk:
#
#     socat -t 10 UNIX-LISTEN:ca.sign,fork,mode=600 EXEC:'examples/pkcs11-signer.sh ecdsa-sha256 MODULE.so TOKEN ID PIN-FILE'
#
# TOKEN is the token's label, and ID the key's id in hexadecimal (`pkcs11-tool --list-objects`): pkcs11-tool ignores a key's label when it signs,
# and uses the first key. PIN-FILE has the PIN; only its user should be able to read it. The PIN is in no command line.
# If the token gives no signature, nothing is printed, and the exit status is not 0.
#
# Usage: pkcs11-signer.sh ecdsa-sha256|ecdsa-sha384|rsa-sha256 MODULE TOKEN ID PIN-FILE (needs openssl and pkcs11-tool: Debian's opensc)
set -eu
[ $# -eq 5 ] || { echo "usage: $0 ecdsa-sha256|ecdsa-sha384|rsa-sha256 MODULE TOKEN ID PIN-FILE" >&2; exit 2; }

# The token signs a digest: pkcs11-tool itself digests only a message that comes in one piece, and not every token digests for ECDSA. RSA signs
# the digest after the prefix that names the hash (DigestInfo, RFC 8017 9.2).
kind=
case $1 in
ecdsa-sha256) hash=-sha256 mechanism=ECDSA ;;
ecdsa-sha384) hash=-sha384 mechanism=ECDSA ;;
rsa-sha256) hash=-sha256 mechanism=RSA-PKCS kind='\060\061\060\015\006\011\140\206\110\001\145\003\004\002\001\005\000\004\040' ;;
*) echo "$0: no algorithm $1" >&2; exit 2 ;;
esac
PIN=$(cat "$5")
export PIN

digest=$(mktemp)
trap 'rm -f "$digest"' EXIT
# shellcheck disable=SC2059 # the format has the octets
printf "$kind" >"$digest"
openssl dgst "$hash" -binary >>"$digest"

# Without this option pkcs11-tool prints an ECDSA signature as two numbers of a fixed length, and not as a SEQUENCE (RFC 3279 2.2.3).
pkcs11-tool --module "$2" --token-label "$3" --login --pin env:PIN --sign --mechanism "$mechanism" --signature-format sequence \
    --id "$4" --input-file "$digest"
