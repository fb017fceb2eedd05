#!/usr/bin/env python3
"""Removes the files of builds in crates/*/out, except the program and as many of its libraries as fit into 2 GB. `./desk build` runs it, unless --keep is given.

    What is in out/                  What needs it
    reg_desk, reg_desk.stamp         ./desk WORD, tests/run --proved, tools/package.sh: only the program
    rlib/, a proved library          a later build: it takes the library as it is if its sources, and those of all crates below it, have not changed
    incremental/, proofs             a later build, rt check and tools/edits.py of a crate that changed: they prove only the functions that changed
    all else, such as object files   nothing, once the program is linked

It keeps the lowest libraries, in the order in which a build makes them, because a library is of no use without those below it. A later build proves from nothing
each crate whose library was removed, that changed, or that uses a changed one. It does not build the program again if nothing has changed.

Usage: tools/trim.py [BYTES]        (2,000,000,000 if left out; prints on standard error how much it removed and kept)
"""
import fcntl
import glob
import os
import shutil
import sys

sys.dont_write_bytecode = True
import build  # noqa: E402

MOST_BYTES = 2_000_000_000


def size(path):
    """Returns the bytes that a file or a folder takes on the disk."""
    return sum(os.lstat(it).st_blocks * 512 for it in [path, *(os.path.join(at, name) for at, folders, names in os.walk(path) for name in [*folders, *names])])


def remove(path):
    if os.path.isdir(path) and not os.path.islink(path):
        shutil.rmtree(path, ignore_errors=True)
    elif os.path.lexists(path):
        os.unlink(path)


def kept(crates, most):
    """Returns the paths that stay: the programs, and the libraries that fit beside them."""
    order = list(dict.fromkeys(it for name in crates for it in [*build.below(crates, name), name]))
    program = lambda name: [it for it in (f"{crates[name].folder}/out/{name}", f"{crates[name].folder}/out/{name}.stamp") if os.path.isfile(it)]
    found = [it for name in order if crates[name].is_program() for it in program(name)]
    left, libraries = most - sum(map(size, found)), set()
    for name in order:
        path = f"{crates[name].folder}/out/rlib"
        if os.path.isdir(path) and libraries.issuperset(crates[name].uses) and (much := size(path)) <= left:
            left -= much
            libraries.add(name)
            found.append(path)
    return found


def trim(crates, most):
    """Removes all other paths, and returns how many bytes that freed and how many are left."""
    # This includes crates of an older checkout.
    outs = [it for it in glob.glob(f"{glob.escape(build.TOP)}/crates/*/out") if os.path.isdir(it)]
    before, stay = sum(map(size, outs)), {*kept(crates, most)}
    for out in outs:
        for it in os.listdir(out):
            if f"{out}/{it}" not in stay:
                remove(f"{out}/{it}")
    after = sum(map(size, outs))
    return before - after, after


def main():
    if len(sys.argv) > 2 or not all(it.isdigit() for it in sys.argv[1:]):
        raise SystemExit(__doc__)
    # The lock keeps builds out.
    with open(f"{build.TOP}/crates.txt", encoding="utf-8") as held:
        fcntl.flock(held, fcntl.LOCK_EX)
        freed, left = trim(build.read_crates(), int((sys.argv[1:] or [MOST_BYTES])[0]))
    build.tell(f"{freed / 1e9:.1f} GB that the build left removed, {left / 1e9:.1f} GB kept")


if __name__ == "__main__":
    main()
