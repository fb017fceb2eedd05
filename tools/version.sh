#!/bin/sh
# Prints the output of `desk --version`: the version and the commit of the sources, whether they are proved and built here, and by which
# toolchain. Run it from the repository's root; tools/package.sh packs the output beside the program.
set -eu
# shellcheck source=tools/current.sh
. tools/current.sh
version=$(sed -n 's/^.*const VERSION: &str = "\(.*\)";$/\1/p' crates/reg_desk_cli/src/desk.rt)
commit=$(git rev-parse --short=7 HEAD 2>/dev/null || echo unknown)
[ -z "$(git status --porcelain 2>/dev/null)" ] || commit="$commit, changed since"
rt=$(command -v rt || echo /opt/rattle/bin/rt)
toolchain=$("$rt" --version 2>/dev/null || echo unknown)
echo "desk $version (commit $commit)"
if is_current .; then
    echo "each function proved and built by Rattle: $toolchain"
elif [ -x crates/reg_desk/out/reg_desk ]; then
    echo "not built: the program that is there is older than its sources; ./desk build proves each function and builds it, by Rattle: $toolchain"
else
    echo "not built; ./desk build proves each function and builds it, by Rattle: $toolchain"
fi
