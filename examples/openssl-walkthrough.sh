#!/bin/sh
# Makes a small CA with openssl, and its register with the desk: registers and revokes a certificate, issues a CRL that
# openssl verifies, serves OCSP, and sends requests with openssl, which verifies the answer, and with curl. A signer behind
# a socket has the CA's key. Run it from the repository's root; it works in a new folder under /tmp and prints each step.
# The exit status is 1 if openssl does not verify a signature.
set -eu
desk="$(pwd)/desk"
tool="$(pwd)/examples/issuer-words.sh"
signer="$(pwd)/examples/signer.py"
only_ours="$(pwd)/examples/only_ours.py"
work=$(mktemp -d /tmp/desk-walkthrough.XXXXXX)
cd "$work"
port=${1:-8085}

step() { printf '\n== %s\n' "$1"; }
now() { date -u +%Y-%m-%dT%H:%M:%SZ; }
signing="--signer ca.sign --algorithm ecdsa-sha256"
# shellcheck disable=SC2086 # the words are meant to be split
say() { echo "> $1"; echo "$1" | "$desk" script ca.db $signing; }
signer_process=
server=
stop() {
    for process in $signer_process $server; do kill "$process" 2>/dev/null || true; done
}
trap stop EXIT
moment() { date -u -d "$1" +%Y-%m-%dT%H:%M:%SZ; }

step "A CA, and a certificate of serial number 05 for acme"
openssl req -x509 -newkey ec -pkeyopt ec_paramgen_curve:P-256 -nodes -keyout ca.key -out ca.pem -subj /CN=T -days 3650 2>/dev/null
openssl req -newkey ec -pkeyopt ec_paramgen_curve:P-256 -nodes -keyout acme.key -out acme.csr -subj /CN=acme 2>/dev/null
openssl x509 -req -in acme.csr -CA ca.pem -CAkey ca.key -set_serial 5 -days 90 -out acme.pem 2>/dev/null
openssl x509 -in acme.pem -noout -serial -dates

step "A signer has its key, behind a socket: any tool that signs standard input, after a check that the message is a CRL or an OCSP answer of this CA"
if command -v socat >/dev/null; then
    socat -t 10 UNIX-LISTEN:ca.sign,fork,mode=600 EXEC:"$only_ours ca.pem openssl dgst -sha256 -sign ca.key" &
else
    "$signer" --only-ours ca.pem ca.key ca.sign &
fi
signer_process=$!
for _ in 1 2 3 4 5 6 7 8 9 10; do [ -S ca.sign ] || sleep 0.3; done

step "The register of that CA"
# shellcheck disable=SC2046 # the words are meant to be split
"$desk" init ca.db $("$tool" ca.pem)

step "The certificate is registered"
from=$(moment "$(openssl x509 -in acme.pem -noout -startdate | cut -d= -f2)")
until=$(moment "$(openssl x509 -in acme.pem -noout -enddate | cut -d= -f2)")
say "$(now) subscriber acme"
say "$(now) order 1 398"
say "$(now) register 1 05 $from $until"
say "$(now) status 05"

step "Its key is reported lost; it is revoked"
say "$(now) request 05 key-compromise"
say "$(now) revoke 1"
say "$(now) next-crl"

step "A CRL lists it"
say "$(now) crl"
"$desk" crl ca.db >latest.crl
openssl crl -inform DER -in latest.crl -noout -text | sed -n '1,22p'
openssl crl -inform DER -in latest.crl -noout -verify -CAfile ca.pem 2>&1 | tee verified
grep -q 'verify OK' verified

step "OCSP and status over HTTP"
# shellcheck disable=SC2086 # the words are meant to be split
"$desk" serve ca.db --port "$port" --requests 3 $signing &
server=$!
sleep 1
openssl ocsp -issuer ca.pem -cert acme.pem -url "http://127.0.0.1:$port/ocsp" -CAfile ca.pem 2>&1 | tee verified
grep -q 'Response verify OK' verified
curl -s "http://127.0.0.1:$port/status/05"; echo
curl -s "http://127.0.0.1:$port/counts"; echo
wait "$server"
server=

step "Done; everything is in $work"
