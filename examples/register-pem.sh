#!/bin/sh
# Registers issued certificates, as openssl reads them (of a file with several, the first): enters an order of as many days as the certificate is valid,
# and registers the certificate under it. With -c it does so at the control socket of an open desk, and prints a line for each. With -o it prints lines for
# `desk script FILE --clock --strict`, which stops at a refused line. A certificate that has expired gets no order. With -c,
# one whose serial number is registered gets none either.
#
# Usage: register-pem.sh -c SOCKET [-s NAME] [-a CA.pem] CERTIFICATE ..
#        register-pem.sh -o ORDER -n SUBSCRIBER [-a CA.pem] CERTIFICATE .. | desk script ca.db --clock --strict --signer SOCKET --algorithm NAME
#   -s  the subscriber's name, which is entered if no subscriber has it. Without -s it comes from the first common name of each certificate: a common name
#       of 1 to 64 letters, digits, `.`, `-` and `_` is the subscriber's name. Any other one, in UTF-8, keeps at most 47 of these bytes, with `-` in place
#       of others, and gets `.` and the first 16 hexadecimal digits of the common name's SHA-256. The same is done to a common name that ends like that.
#       So two common names never get one subscriber.
#   -o  the number that the register's next order gets;  -n  the subscriber's id
#   -a  certificates that this CA did not sign are refused here (a serial number that was registered can't be taken back)
# DESK names the program, if it is not the `desk` of PATH. Exit status: 0 if all were registered, or all lines were printed; 3 if one was refused: standard
# error has its reply, and the others were tried; 1 if no desk answers at the control socket; 2 if the command line is wrong.
set -eu
export LC_ALL=C
desk=${DESK:-desk}
control='' name='' order='' subscriber='' authority='' worst=0
usage() { [ $# -eq 0 ] || echo "$0: $1" >&2; sed -n 's/^# \(Usage: \| \{7\}\)register-pem/\1register-pem/p' "$0" >&2; exit 2; }
while getopts c:s:o:n:a: option; do
    case $option in
    c) control=$OPTARG ;; s) name=$OPTARG ;; o) order=$OPTARG ;; n) subscriber=$OPTARG ;; a) authority=$OPTARG ;; *) usage ;;
    esac
done
shift $((OPTIND - 1))
[ $# -gt 0 ] || usage "no CERTIFICATE is given"
case ${control:+c}${name:+s}${order:+o}${subscriber:+n} in c | cs | on) ;; *) usage "give -c, or -o and -n" ;; esac
case $order$subscriber in *[!0-9]*) usage "-o $order -n $subscriber: not numbers" ;; esac
# The shell would read a number with leading zeros as octal.
while case $order in 0?*) true ;; *) false ;; esac; do order=${order#0}; done

refuse() { echo "$certificate: $1" >&2; worst=3; }

# Sends a line to the control socket, and puts the reply into `reply`.
say() {
    status=0
    reply=$(printf '%s\n' "$1" | "$desk" at "$control" 2>/dev/null) || status=$?
    case $status in 0 | 3) ;; *) echo "$certificate: $1: ${reply:-no reply at $control}" >&2; exit 1 ;; esac
}

field() { echo "$text" | sed -n "s/^$1=//p"; }
moment() { date -u -d "$1" +%Y-%m-%dT%H:%M:%SZ; }

is_signed() { openssl verify -CAfile "$authority" -no-CApath -no-CAstore -partial_chain -no_check_time "$certificate" >/dev/null 2>&1; }

# The subscriber's name that comes from the common name; nothing if the certificate has none.
subscriber_name() {
    common=$(openssl x509 -in "$certificate" -noout -subject -nameopt multiline,utf8,-esc_msb | sed -n 's/^ *commonName *= //p' | head -n 1)
    if [ -z "$common" ]; then return; fi
    if printf '%s\n' "$common" | grep -qxE '[A-Za-z0-9._-]{1,64}' && ! printf '%s\n' "$common" | grep -qE '\.[0-9a-f]{16}$'; then
        echo "$common"
    else
        letters=$(printf '%s' "$common" | tr -cs 'A-Za-z0-9._-' '-' | sed 's/^-*//; s/-*$//' | cut -c 1-47)
        echo "$letters.$(printf '%s' "$common" | openssl dgst -sha256 -r | cut -c 1-16)"
    fi
}

# The id of the subscriber of that name, who is entered if there is none.
find_subscriber() {
    [ -n "$1" ] || { refuse "it has no common name: give -s NAME"; return 1; }
    say "subscriber $1"
    case $reply in
    "subscriber "* | "E05 name-taken "*) subscriber=${reply##* } ;;
    *) refuse "subscriber $1: $reply"; return 1 ;;
    esac
}

at_control() {
    say "status $serial"
    [ "$reply" = unknown ] || { refuse "serial number $serial is not registered anew, status: $reply"; return 0; }
    find_subscriber "${name:-$(subscriber_name)}" || return 0
    say "order $subscriber $days"
    case $reply in "order "*) order=${reply#order } ;; *) refuse "order of $days days: $reply"; return 0 ;; esac
    say "register $order $serial $from $until"
    [ "$reply" = registered ] || { refuse "register $order $serial $from $until: $reply (order $order stays without a certificate)"; return 0; }
    echo "$certificate: serial number $serial registered, order $order of subscriber $subscriber"
}

for certificate in "$@"; do
    text=$(openssl x509 -in "$certificate" -noout -serial -startdate -enddate 2>/dev/null) || { refuse "openssl can't read it"; continue; }
    [ -z "$authority" ] || is_signed || { refuse "not signed by $authority"; continue; }
    serial=$(field serial) from=$(moment "$(field notBefore)") until=$(moment "$(field notAfter)")
    openssl x509 -in "$certificate" -noout -checkend 0 >/dev/null || { refuse "it ended, $until"; continue; }
    # Both ends counted (docs/RULES.md).
    days=$((($(date -d "$until" +%s) - $(date -d "$from" +%s)) / 86400 + 1))
    if [ -n "$control" ]; then
        at_control
    else
        printf 'order %s %s\nregister %s %s %s %s\n' "$subscriber" "$days" "$order" "$serial" "$from" "$until"
        order=$((order + 1))
    fi
done
exit "$worst"
