# shellcheck shell=sh
# ./desk, the package's `desk` and bench/script.sh source this. It asks the C library (glibc 2.35 or later) for a heap in large pages, which makes
# look-ups in a large register faster (docs/PERFORMANCE.md). If the system has none, nothing changes. A GLIBC_TUNABLES that is set already comes
# after this, and so wins.
export GLIBC_TUNABLES="glibc.malloc.hugetlb=1${GLIBC_TUNABLES:+:$GLIBC_TUNABLES}"
