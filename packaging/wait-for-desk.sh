#!/bin/sh
# Waits until the desk of a process answers at its control socket. Exit status: 0 once it does, 1 if the process ends before.
#
# Usage: wait-for-desk.sh SOCKET PROCESS (DESK names the program, if it is not the `desk` of PATH)
set -eu
[ $# -eq 2 ] || { echo "usage: $0 SOCKET PROCESS" >&2; exit 2; }
while kill -0 "$2" 2>/dev/null; do
    status=0
    echo counts | "${DESK:-desk}" at "$1" >/dev/null 2>&1 || status=$?
    # A refusal is an answer too, such as after the clock was set back.
    case $status in 0 | 3) exit 0 ;; esac
    sleep 0.1
done
echo "the desk ended before it answered at $1" >&2
exit 1
