#!/usr/bin/env bash
# Copies a register into a folder of copies, and keeps the newest seven. Run it by cron. Each copy is a folder REGISTER-MOMENT with the register in one file.
# `desk copy` copies a closed register, or one in a snapshot of the file system. An open desk copies its register itself, by a line at the given control
# socket: it writes the copy beside the register, and this script moves it from there (docs/OPERATIONS.md, "Backups"). The script audits each copy, prints
# the result, and keeps the copy only if it is `sound`. Only then it deletes the copies that are older than the newest seven. If anything fails before, the
# script deletes none of them. At a failure it prints one line with the reason on standard error, and exits with status 1.
#
# Usage: backup.sh REGISTER FOLDER [CONTROL]
#     as: backup.sh /var/lib/durshavon/ca.db /var/backups/ca /run/durshavon/ca/control
# DESK names the program, if it is not the `desk` of PATH. Run it as root or as the register's owner.
set -euo pipefail
if [ $# -lt 2 ] || [ $# -gt 3 ]; then
    echo "usage: $0 REGISTER FOLDER [CONTROL]" >&2
    exit 2
fi
export LC_ALL=C
register=$1
folder=$2
control=${3:-}
desk=${DESK:-desk}
name=$(basename "$register")
beside=$(realpath -m "$register").copy

fail() {
    echo "backup: $1" >&2
    exit 1
}

# Joins lines to one.
joined() { sed -n 's/^ *//; H; $ { x; s/^\n//; s/\n/, /g; p }' <<<"$1"; }

# The desk can write only beside its register, so this script moves the copy.
copy_at_control() {
    [ -n "$control" ] || fail "$register is open: name its control socket, or close it"
    rm -f "$beside" "$beside.part" 2>/dev/null || fail "$beside can't be removed"
    told=$(printf 'copy %s\nwhy\n' "$beside" | "$desk" at "$control" 2>&1) || fail "$register is not copied at $control: $(joined "$told")"
    mv "$beside" "$new/$name" 2>/dev/null || { rm -f "$beside"; fail "$beside can't be moved into $folder"; }
}

copy() {
    if told=$("$desk" copy --why "$register" "$new/$name" 2>&1); then
        # root makes the copy, and the register's owner has to restore it.
        chown --reference="$register" "$new/$name" 2>/dev/null || :
        return
    fi
    case $told in
    *"in use by another program") copy_at_control ;;
    *) fail "$register can't be copied into $folder: $(joined "$told")" ;;
    esac
}

# Keeps the new copy, whatever the clock says, and the six newest of the others.
drop_old() {
    set --
    for old in "$folder/$name"-????????T??????Z; do
        [ "$old" = "$kept" ] || set -- "$@" "$old"
    done
    while [ $# -gt 6 ]; do
        rm -r "$1" 2>/dev/null || fail "$1 can't be removed"
        shift
    done
}

[ -f "$register" ] || fail "$register is no file"
if [ ! -d "$folder" ] || [ ! -r "$folder" ]; then fail "$folder is no folder that can be read"; fi
exec 9<"$folder"
flock -n 9 || fail "another run holds $folder"
# Deletes what a killed run left.
rm -rf "$folder"/.backup.* 2>/dev/null || :
new=$(mktemp -d "$folder/.backup.XXXXXX" 2>/dev/null) || fail "nothing can be written in $folder"
trap 'rm -rf "$new"' EXIT
trap 'exit 1' HUP INT TERM

copy
told=$("$desk" audit "$new/$name" 2>&1) || fail "the copy of $register is not kept: desk audit: $(head -n 1 <<<"$told")"
sync "$new"/*
kept=$folder/$name-$(date -u +%Y%m%dT%H%M%SZ)
mv -T "$new" "$kept" 2>/dev/null || fail "$kept can't be made"
drop_old
echo "$kept: $told"
