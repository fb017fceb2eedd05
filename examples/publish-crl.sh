#!/bin/sh
# Publishes the latest CRL of an open desk in a folder of a web server: ca.crl in DER, and ca.crl.pem. Run it by cron or a timer. It replaces each old file
# by a rename, so a reader gets the whole old one or the whole new one. The script replaces them only if openssl verifies the CRL with the CA's
# certificate, the CRL has not expired, and it is the old one or has a higher number. It prints a line if it replaced a file, and nothing if both files
# have the CRL already. If a check fails, the old files stay; one line on standard error has the reason of any failure, and the exit status is 1.
# Needs curl and openssl (3.0 or newer).
#
# Usage: publish-crl.sh URL FOLDER CA.pem      as: publish-crl.sh http://127.0.0.1:8080/crl /var/www/crl ca.pem
set -eu
[ $# -eq 3 ] || { echo "usage: $0 URL FOLDER CA.pem" >&2; exit 2; }
url=$1
folder=$2
authority=$3

fail() {
    echo "publish-crl: $1" >&2
    exit 1
}

# Whether a CRL is signed by the authority's key; openssl's output is in `told`. The machine's other certificates don't count. openssl exits with 0
# even if nothing verifies, so the output decides.
is_verified() {
    told=$(openssl crl -in "$1" -noout -verify -CAfile "$authority" -no-CApath -no-CAstore 2>&1) || :
    case $told in *"verify OK"*) return 0 ;; *) return 1 ;; esac
}

field() { openssl crl -in "$1" -noout "-$2" 2>/dev/null | sed -n 's/^[a-zA-Z]*=//p'; }
number() { printf '%d' "0x$(field "$1" crlnumber | sed 's/^0x//')" 2>/dev/null || :; }
is_same() { cmp -s "$new/$1" "$folder/$1" 2>/dev/null; }
holds_it() { openssl crl -in "$1" -outform DER 2>/dev/null | cmp -s - "$new/ca.crl"; }

fetch() {
    status=$(curl -sS --noproxy '*' --max-time 60 -o "$new/ca.crl" -w '%{http_code}' "$url" 2>"$new/why") ||
        fail "$url: $(tail -n 1 "$new/why")"
    [ "$status" = 200 ] || fail "$url: $status $(head -c 200 "$new/ca.crl" | tr -cd '[:print:]')"
    openssl crl -in "$new/ca.crl" -out "$new/ca.crl.pem" 2>/dev/null || fail "$url: openssl reads no CRL there, or can't write it as PEM"
}

check() {
    for name in ca.crl ca.crl.pem; do
        is_verified "$new/$name" || fail "the CRL of $url is not verified by $authority: $(echo "$told" | tail -n 1)"
    done
    ends=$(field "$new/ca.crl" nextupdate)
    [ "$(date -d "$ends" +%s 2>/dev/null || echo 0)" -gt "$(date +%s)" ] || fail "CRL $(number "$new/ca.crl") of $url has expired, $ends: issue one"
}

# A number never goes back, and belongs to one CRL (RFC 5280 5.2.3). Both old files count, if the authority signed them.
check_number() {
    for name in ca.crl ca.crl.pem; do
        if holds_it "$folder/$name" || ! is_verified "$folder/$name"; then continue; fi
        [ "$(number "$new/ca.crl")" -gt "$(number "$folder/$name")" ] ||
            fail "CRL $(number "$new/ca.crl") of $url is no newer than number $(number "$folder/$name") in $folder: was the register set back?"
    done
}

if [ ! -d "$folder" ] || [ ! -r "$folder" ]; then fail "$folder is no folder that can be read"; fi
[ -r "$authority" ] || fail "$authority can't be read"
# Only one run at a time, so that no slow run replaces a newer CRL. Deletes what a killed run left.
exec 9<"$folder"
flock -w 120 9 || fail "another run holds $folder"
rm -rf "$folder"/.publish-crl.* 2>/dev/null || :
new=$(mktemp -d "$folder/.publish-crl.XXXXXX" 2>/dev/null) || fail "nothing can be written in $folder"
trap 'rm -rf "$new"' EXIT
trap 'exit 1' HUP INT TERM

fetch
check
check_number
is_same ca.crl && is_same ca.crl.pem && exit 0
chmod 0644 "$new/ca.crl" "$new/ca.crl.pem"
# The files are on the disk before they are renamed.
sync "$new/ca.crl" "$new/ca.crl.pem"
for name in ca.crl ca.crl.pem; do
    mv -fT "$new/$name" "$folder/$name" 2>/dev/null || fail "$folder/$name can't be replaced"
done
echo "crl $(number "$folder/ca.crl") published in $folder"
