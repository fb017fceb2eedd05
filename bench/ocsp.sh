#!/bin/sh
# Measures OCSP answers a second over a register of 100,000 certificates, with one connection for each request. `desk open` and `openssl ocsp -port`
# with a P-256 issuer get the same requests from the same client, in turns: from one client and from 32 at once, for eight certificates and for
# 4,096, and `desk open` also beside 200 idle connections. Prints the median latency, and that which one in a hundred exceeds. Then wrk, if it is
# installed, requests the eight certificates from `desk open` (it counts no answer of openssl, which gives no length), with the desk and the signer on
# one, two and four processors, and prints their processor time for each answer. Then commands a second at the control socket, and with `desk script`.
# The desk uses a placeholder digest, which costs next to nothing. With --signed it uses the same P-256 key as openssl. The program SIGNER
# (signer/desk-signer, with persistent connections, or examples/signer.py if that is not built) holds the key, in SIGNERS processes (1, as in the
# package: with more of them, on four cores, an idle process that polls takes time from the client). --signed also measures a signer that takes 5 ms,
# one answer after the other and 32 at once, and how long other requests wait while a signer hangs.
#
# Usage, from the repository's root: bench/ocsp.sh [--signed] [NUMBER OF CERTIFICATES [NUMBER OF REQUESTS A ROUND]]     (100000 10000)
# It needs openssl and python3; with --signed and examples/signer.py also python3's package cryptography.
set -eu
signed=
[ "${1:-}" != --signed ] || { signed=1; shift; }
certificates=${1:-100000}
requests=${2:-10000}
commands=20000
desk="$(pwd)/desk"
words="$(pwd)/examples/issuer-words.sh"
bench="$(pwd)/bench"
client="$bench/ocsp_client.py"
default=signer/desk-signer
[ -x "$default" ] || default=examples/signer.py
signer=$(realpath "${SIGNER:-$default}")
work=$(mktemp -d /tmp/desk-ocsp.XXXXXX)
# shellcheck disable=SC2086 # an empty one adds no word
trap 'kill $theirs $ours $holder 2>/dev/null || true; rm -rf "$work"' EXIT
theirs='' ours='' holder=''
cd "$work"

openssl req -x509 -newkey ec -pkeyopt ec_paramgen_curve:P-256 -nodes -keyout ca.key -out ca.pem -subj /CN=T -days 3650 2>/dev/null
start=$(date -u +%Y-%m-%dT00:00:00Z)
end=$(date -u -d '+300 days' +%Y-%m-%dT00:00:00Z)

echo "registering $certificates certificates" >&2
# shellcheck disable=SC2046 # the words are meant to be split
"$desk" init ca.db $("$words" ca.pem)
python3 "$client" orders "$certificates" "$start" | "$desk" script ca.db >/dev/null
python3 "$client" rows "$certificates" "$start" "$end" | "$desk" import ca.db --now "$start" >/dev/null
python3 "$client" index "$certificates" "$(date -u -d '+300 days' +%y%m%d000000Z)" >index.txt
for serial in 1000 1001 1002 1003 1004 1005 1006 1007; do
    openssl ocsp -issuer ca.pem -serial "0x$serial" -no_nonce -reqout "$serial.der" >/dev/null 2>&1
done

openssl ocsp -index index.txt -port 8091 -rsigner ca.pem -rkey ca.key -CA ca.pem -ignore_err >/dev/null 2>&1 &
theirs=$!
set -- open ca.db --port 8092 --control ca.control
if [ -n "$signed" ]; then
    persistent=
    [ "$(basename "$signer")" != desk-signer ] || persistent=--persistent
    # shellcheck disable=SC2086 # an empty one adds no word
    "$signer" $persistent --processes "${SIGNERS:-1}" ca.key ca.sign >/dev/null &
    holder=$!
    sleep 2
    set -- "$@" --signer ca.sign --algorithm ecdsa-sha256
    echo "P-256 signatures on both sides:"
else
    set -- "$@" --unsigned
    echo "the desk uses a placeholder digest, which is no signature; openssl signs with P-256:"
fi
"$desk" "$@" >/dev/null &
ours=$!
sleep 3
python3 "$client" ask "$requests" 8091 8092 ./*.der
# ticks "PID ..": the processor time of these processes, in hundredths of a second.
ticks() {
    # shellcheck disable=SC2046,SC2086 # the words are meant to be split
    awk '{ sum += $14 + $15 } END { print sum }' $(printf '/proc/%s/stat ' $1)
}
if command -v wrk >/dev/null; then
    for processors in 0 0,1 0-3; do
        servers="$ours $holder $(pgrep -P "${holder:-$$}" -f sign || true)"
        for process in $servers; do
            taskset -acp "$processors" "$process" >/dev/null
        done
        for clients in 1 32; do
            before=$(ticks "$servers")
            line=$(OCSP_REQUESTS=$(echo ./*.der) wrk -t 1 -c "$clients" -d 3s -s "$bench/ocsp.lua" http://127.0.0.1:8092/ocsp | tail -n 1)
            each=$(((($(ticks "$servers") - before) * 10000) / (${line%% *} * 3)))
            echo "wrk, $clients clients, desk on processors $processors: $line; processor time each: $each us"
        done
    done
else
    echo "no wrk: its part is left out" >&2
fi
python3 "$client" commands "$commands" control "$desk" at ca.control
kill "$ours"
wait "$ours" 2>/dev/null || true
ours=''

# open_with NAME MILLISECONDS: runs `desk open` with a signer that takes so long, or that hangs if the number is negative.
open_with() {
    kill "$holder" 2>/dev/null || true
    python3 "$client" sign "$1.sign" "$2" &
    holder=$!
    until [ -S "$1.sign" ]; do sleep 0.1; done
    "$desk" open ca.db --port 8092 --control ca.control --signer "$1.sign" --algorithm ecdsa-sha256 >/dev/null &
    ours=$!
    sleep 3
}
if [ -n "$signed" ]; then
    open_with slow 5
    python3 "$client" slow 2000 8092 ./*.der
    kill "$ours"
    wait "$ours" 2>/dev/null || true
    open_with hangs -1
    python3 "$client" hung 8092 ca.control ./*.der
    kill "$ours"
    wait "$ours" 2>/dev/null || true
    ours=''
fi
python3 "$client" commands "$commands" script "$desk" script ca.db
