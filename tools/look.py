#!/usr/bin/env python3
"""Prints the path of an unproved program for first looks. Builds it if none is kept in out/, or if its sources or the toolchain have changed.

`rt try` compiles the program to LLVM bitcode and then runs it with checks, a hundred times slower. This tool takes the bitcode, compiles it without
the checks and links it. Nothing is proved. So ./desk runs this program only for command lines that open no file and no port, and
tests/run tests it if no proved program is built.

The exit status is 0, or 126 if the program does not compile, or 127 if there is no toolchain. It is 3 if no program can be kept here, as with a
toolchain that lacks what this tool needs; one line on standard error has the reason. You can still use `rt try`.

Usage: tools/look.py
"""
import contextlib
import fcntl
import hashlib
import os
import shutil
import signal
import subprocess
import sys
import tempfile
import time
from pathlib import Path

TOP = Path(__file__).resolve().parent.parent
OUT = TOP / "out"
KEPT, STAMP = OUT / "desk-unproved", OUT / "desk-unproved.stamp"
RT = shutil.which("rt") or "/opt/rattle/bin/rt"
KIT = Path(RT).resolve().parent.parent
LIBRARIES = (KIT / "c/libos_c.a", KIT / "c/liblibc_c.a")
TARGET = ("--target", "x86_64-unknown-linux-gnu")
# As rt itself compiles a program, without the checks of `rt try` and with few optimizations.
COMPILE = """
    --target=x86_64-unknown-linux-gnu -march=x86-64 -O1 -fPIE -ffunction-sections -fdata-sections -mllvm -trap-unreachable
    -mllvm -no-trap-after-noreturn --no-default-config -no-canonical-prefixes -fintegrated-cc1 -c -x ir
""".split()


class Lacks(Exception):
    """The toolchain lacks something, which the text names."""


class Refused(Exception):
    """The program does not compile; the text is the output of `rt try`."""


def tell(text):
    print(f"desk: {text}", file=sys.stderr, flush=True)


def stamp():
    """Identifies the inputs of an unproved program: the toolchain, this tool and the sources, but no definitions or proofs."""
    digest = hashlib.sha256()
    for path in [TOP / "tools/look.py", TOP / "crates.txt", *sorted(TOP.glob("crates/*/src/**/*.rt"))]:
        digest.update(f"{path.relative_to(TOP)} {hashlib.sha256(path.read_bytes()).hexdigest()}\n".encode())
    toolchain = subprocess.run([RT, "version"], stdout=subprocess.PIPE, text=True, check=False).stdout.strip()
    return f"{toolchain}\n{digest.hexdigest()}\n"


def is_kept(made_of):
    return KEPT.exists() and STAMP.exists() and STAMP.read_text(encoding="utf-8") == made_of


def lower(folder):
    """Returns the bitcode that `rt try` makes of the program. A hard link keeps it, because `rt try` removes its folder at its end."""
    bitcode, said = folder / "whole.bc", folder / "said"
    with open(said, "wb") as out:
        how = {"cwd": TOP / "crates/reg_desk", "env": {**os.environ, "TMPDIR": str(folder)}}
        trying = subprocess.Popen([RT, "try", "--", "--version"], stdin=subprocess.DEVNULL, stdout=out, stderr=out, **how)
    try:
        while trying.poll() is None:
            for module in folder.glob("*/**/module.bc"):
                with contextlib.suppress(FileNotFoundError):
                    if not bitcode.exists():
                        os.link(module, bitcode)
                    # The bitcode is complete once the compiler has created a file beside it.
                    if len(os.listdir(module.parent)) > 1:
                        return bitcode
            time.sleep(0.2)
    finally:
        trying.terminate()
        trying.wait()
    if bitcode.exists():
        return bitcode
    if trying.returncode:
        raise Refused(said.read_text(encoding="utf-8", errors="replace"))
    raise Lacks("rt try leaves no bitcode")


def run(*words):
    """Runs a tool of the toolchain."""
    words = [str(it) for it in words]
    try:
        ran = subprocess.run(words, stdin=subprocess.DEVNULL, stdout=subprocess.PIPE, stderr=subprocess.STDOUT, errors="replace", check=False)
    except OSError as error:
        raise Lacks(f"{words[0]} does not start: {error.strerror}") from error
    if ran.returncode:
        raise Lacks(f"{os.path.basename(words[0])} ends with status {ran.returncode}: {' '.join(ran.stdout.split())[:300]}")
    return ran.stdout


def build(made_of):
    """Builds the program, checks that it starts, and keeps it."""
    with tempfile.TemporaryDirectory(prefix="look-", dir=OUT) as room:
        folder = Path(room)
        bitcode, code, program = lower(folder), folder / "whole.o", folder / "desk"
        run(KIT / "toolchain/bin/clang", f"--sysroot={KIT}/toolchain", *COMPILE, bitcode, "-o", code)
        run(KIT / "bin/rattle-link", *TARGET, "--toolchain", KIT / "toolchain", "-o", program, code, *LIBRARIES)
        if not run(program, "--version").startswith("desk "):
            raise Lacks("the program that it makes does not print its version")
        STAMP.unlink(missing_ok=True)
        os.replace(program, KEPT)
        (folder / "stamp").write_text(made_of, encoding="utf-8")
        os.replace(folder / "stamp", STAMP)


def keep():
    """Builds the program unless the kept one is up to date. Of two runs at once the second waits for the program of the first."""
    OUT.mkdir(exist_ok=True)
    held, began = os.open(OUT, os.O_RDONLY), time.monotonic()
    fcntl.flock(held, fcntl.LOCK_EX)
    made_of = stamp()
    if is_kept(made_of):
        return
    tell("building an unproved program for looks, which takes some minutes and is done once")
    build(made_of)
    tell(f"unproved program built in {time.monotonic() - began:.0f} s and kept as {KEPT.relative_to(TOP)}")


def main():
    if len(sys.argv) > 1:
        raise SystemExit(__doc__)
    if not os.path.exists(RT):
        tell("the command rt of the Rattle toolchain is not found, and nothing was built")
        raise SystemExit(127)
    # On SIGTERM `rt try` is stopped and the temporary folder removed.
    signal.signal(signal.SIGTERM, lambda number, _: sys.exit(128 + number))
    try:
        keep()
    except Refused as refused:
        tell(f"the program does not compile:\n{refused}")
        raise SystemExit(126) from None
    except (Lacks, OSError) as lacks:
        tell(f"no unproved program can be kept here: {lacks}")
        raise SystemExit(3) from None
    print(KEPT)


if __name__ == "__main__":
    main()
