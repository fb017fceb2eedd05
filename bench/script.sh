#!/usr/bin/env bash
# Times `desk script` in a register in memory, over scripts with so many `order` lines and then as many `register` lines. Prints seconds, lines a second,
# and the peak memory of all runs so far.
#
# Usage: bench/script.sh [spread] [rising] [NUMBER OF REGISTERS ..]     (if left out: both, 1000 10000 100000; at most 499999, since a script
# has at most 1,000,000 lines)
set -euo pipefail
top=$(cd "$(dirname "$0")/.." && pwd)
(cd "$top/crates/reg_desk" && rt run -- script < /dev/null)
# shellcheck source=tools/large-pages.sh
. "$top/tools/large-pages.sh"
exec python3 "$top/bench/script.py" "$@"
