#!/usr/bin/env bash
# Issues a CRL of an open register at its control socket if one is due. Run it by cron or a timer. The script prints the desk's reply if it issues a CRL, and
# nothing if none is due. If the desk refuses or fails (as with `F3 signer`), standard error has its reply, and the exit status is that of `desk at`: 3 then,
# and 1 if no desk answers at the control socket.
#
# A CRL is also due at once if the latest one has a placeholder digest and a signer was added since: the desk's reply to `why` after `next-crl` says so.
#
# With --at-once a CRL is due at once if a certificate was revoked on one of these grounds (docs/RULES.md) and no CRL lists it yet. Without it such a CRL
# may wait for a day. The script reads the list of revocations at the desk's port (8080 without --port) of 127.0.0.1 (or of --address, such as [::1]),
# and only if a revocation may wait for its CRL.
# It needs curl. If the desk does not answer at the port, the exit status is 1.
#
# Usage: issue-due-crl.sh [--at-once GROUND,..] [--address ADDRESS] [--port PORT] SOCKET
# DESK names the program, if it is not the `desk` of PATH.
set -euo pipefail
export LC_ALL=C
desk=${DESK:-desk}
address=127.0.0.1 port=8080 grounds=

usage() { echo "usage: $0 [--at-once GROUND,..] [--address ADDRESS] [--port PORT] SOCKET" >&2; exit 2; }

add_ground() {
    case $1 in
    asked | key-compromise | control-lost | superseded | nonconforming | affiliation | cessation | name-not-permitted | unauthorized | misuse | inaccurate) ;;
    *) echo "$0: --at-once: there is no ground $1" >&2; exit 2 ;;
    esac
    grounds=${grounds:+$grounds|}$1
}

while [ $# -gt 1 ]; do
    case $1 in
    --at-once)
        for ground in ${2//,/ }; do
            add_ground "$ground"
        done
        [ -n "$grounds" ] || usage
        ;;
    --address) address=$2 ;;
    --port) port=$2 ;;
    *) usage ;;
    esac
    shift 2
done
[ $# -eq 1 ] || usage
socket=$1

fail() { echo "$socket: $1" >&2; exit "${2:-1}"; }

# Sends lines on one connection to the control socket, and prints the desk's replies. Fails if the desk refuses a line.
reply_to() {
    local reply status=0
    reply=$(printf '%s\n' "$@" | "$desk" at "$socket") || status=$?
    [ "$status" = 0 ] || fail "$1: ${reply:-no reply}" "$status"
    echo "$reply"
}

get() { curl -sSf --noproxy '*' --max-time 60 "http://$address:$port$1" || fail "the desk does not answer $1 at port $port"; }

# Whether a revocation on one of the grounds is on no CRL yet: its first CRL is not issued. Pages are in the order of serial numbers.
waits_for_a_crl() {
    local metrics page after='' first
    # `set -e` does not hold here, since the function is a condition.
    metrics=$(get /metrics) || exit 1
    latest=$(sed -n 's/^desk_crl_number //p' <<<"$metrics")
    [ -n "$latest" ] || fail "the register can't be read"
    # If no revocation waits, the next CRL is due a week after the latest one, or at its nextUpdate. A revocation that waits makes it due earlier, except in
    # the last day before that.
    awk '{ value[$1] = $2 } END {
        due = value["desk_crl_due_timestamp_seconds"]; regular = value["desk_crl_this_update_timestamp_seconds"] + 604800
        if (value["desk_crl_next_update_timestamp_seconds"] < regular) regular = value["desk_crl_next_update_timestamp_seconds"]
        exit !(due < regular || value["desk_clock_timestamp_seconds"] >= due - 86400) }' <<<"$metrics" || return 1
    while :; do
        page=$(get "/list/revoked?limit=250$after") || exit 1
        for first in $(sed -nE 's/.*"firstCrl":([0-9]+),"lastCrl":[^,]*,"request":[0-9]+,"ground":"('"$grounds"')".*/\1/p' <<<"${page//\}/$'\n'}"); do
            [ "$first" -le "$latest" ] || return 0
        done
        after=$(sed -n 's/.*"next":"\([0-9a-f]*\)".*/\&after=\1/p' <<<"$page")
        [ -n "$after" ] || return 1
    done
}

replies=$(reply_to next-crl why)
due=${replies%%$'\n'*} why=${replies#*$'\n'}
case $due in
"next-crl at-once") ;;
"next-crl "[0-9]*Z)
    # Moments in this form compare as texts.
    if [[ $why != *" has a placeholder digest: "* && ${due#next-crl } > $(date -u +%Y-%m-%dT%H:%M:%SZ) ]]; then
        [ -n "$grounds" ] && waits_for_a_crl || exit 0
    fi
    ;;
*) fail "next-crl: ${due:-no reply}" ;;
esac
reply_to crl
