#!/usr/bin/env python3
"""Shows which functions of a crate took long to prove: the seconds between the files that its last check wrote, by function. Remove the
crate's folder `out` and run `rt check --jobs 1` there first; with more jobs functions are mixed.

Usage: tools/proof-times.py CRATE [HOW MANY]
"""
import os
import re
import sys
from collections import Counter

TOP = os.path.dirname(os.path.dirname(os.path.abspath(__file__)))


def written(folder):
    """Returns when each file was written, and its name, in order."""
    files = [os.path.join(at, name) for at, _, names in os.walk(folder) for name in names]
    return sorted((os.stat(it).st_mtime, os.path.basename(it)) for it in files)


def function(name):
    """Returns the function, or the file of proofs, that a checked module belongs to."""
    module = re.sub(r"^Rattle-\w+?-(proofs|specs)\.|(\.decls)?\.oantt$", "", name)
    return module.rpartition(".")[0] or module


def main():
    if len(sys.argv) < 2:
        raise SystemExit(__doc__)
    files = written(f"{TOP}/crates/{sys.argv[1]}/out/incremental")
    if not files:
        raise SystemExit(f"{sys.argv[1]} has not been checked here")
    took = Counter()
    for (before, _), (at, name) in zip(files, files[1:]):
        took[function(name)] += at - before
    for name, seconds in took.most_common(int(sys.argv[2]) if len(sys.argv) > 2 else 20):
        print(f"{seconds:8.1f} {name}")


main()
