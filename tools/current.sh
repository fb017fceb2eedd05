# Other scripts source this. `is_current ROOT` succeeds if the program of the repository ROOT is built, and is not older than crates.txt or a source.
# shellcheck shell=sh
is_current() {
    built="$1/crates/reg_desk/out/reg_desk"
    [ -x "$built" ] || return 1
    newer=$(find "$1/crates" \( -name out -o -name must-fail -o -name edits \) -prune -o -type f ! -name '*.md' -newer "$built" -print | head -n 1)
    # shellcheck disable=SC3013 # -nt is in dash, bash and busybox
    [ -z "$newer" ] && [ ! "$1/crates.txt" -nt "$built" ]
}
