#!/usr/bin/env python3
"""Finds the retired words of tools/words.txt: in names of files and identifiers of the crates, of the tests, tools, examples and benches, in comments
and texts of the crates (only the words of the part "everywhere"), and in pages. Prints FILE:LINE: WORD -> REPLACEMENT for each, and exits with 1 if
there is one."""
import re
import sys
import tokenize
from pathlib import Path

TOP = Path(__file__).resolve().parent.parent
PAGES = [*TOP.glob("*.md"), *TOP.glob("docs/*.md"), *TOP.glob("crates/*/README.md"), TOP / "tests/README.md"]
CODE = [path for folder in ("src", "specs") for end in ("rt", "antt") for path in TOP.glob(f"crates/*/{folder}/**/*.{end}")]
PROOFS = [path for folder in ("proofs", "edits", "must-fail") for path in TOP.glob(f"crates/*/{folder}/**/*") if path.is_file()]
PYTHON = [*TOP.glob("tests/run"), *(path for folder in ("tests", "tools", "examples", "bench") for path in TOP.glob(f"{folder}/**/*.py"))]
# Identifiers of Python's library, a type that the specification names, and words that are plain English in tests or that a program prints:
# examples/audit-report.py prints findings.
LIBRARY = {"Counter", "perf_counter"}
FIXED = {"DigestSeal"}
PLAIN = {"either", "findings", "seal", "tells", "told"}
# A comment or a text within code.
PROSE = re.compile(r'(?://|--).*|b?"(?:[^"\\]|\\.)*"')
found = []


def retired():
    """The words of each part of words.txt, with what to write instead."""
    parts, part = {}, {}
    for line in (TOP / "tools/words.txt").read_text(encoding="utf-8").splitlines():
        if heading := re.match(r"# (\w+):", line):
            part = parts.setdefault(heading[1], {})
        elif line and not line.startswith("#"):
            word, replacement = line.split(" = ")
            part[word] = replacement
    return parts


def words_of(name):
    """A name and the words that it is made of, in lower case."""
    return {name.lower(), *re.sub(r"(?<=[a-z0-9])(?=[A-Z])", "_", name).lower().split("_")}


def look_at(path, number, words, banned):
    found.extend(f"{path.relative_to(TOP)}:{number}: {it} -> {banned[it]}" for it in sorted(words & banned.keys()))


parts = retired()
names = parts["everywhere"] | parts["names"]
for path in sorted([*CODE, *PROOFS, *PYTHON]):
    look_at(path, 1, words_of(path.stem), names)
for path in sorted(CODE):
    for number, line in enumerate(path.read_text(encoding="utf-8").splitlines(), 1):
        identifiers = {part for it in re.findall(r"\w+", PROSE.sub(" ", line)) if it not in FIXED for part in words_of(it)}
        look_at(path, number, identifiers, names)
        look_at(path, number, {part for it in re.findall(r"\w+", line) for part in words_of(it)} - identifiers, parts["everywhere"])
for path in sorted(PYTHON):
    with tokenize.open(path) as file:
        tokens = [it for it in tokenize.generate_tokens(file.readline) if it.type == tokenize.NAME and it.string not in LIBRARY]
    for it in tokens:
        look_at(path, it.start[0], words_of(it.string) - PLAIN, names)
pages = parts["everywhere"] | parts["pages"]
for path in sorted(PAGES):
    for number, line in enumerate(path.read_text(encoding="utf-8").splitlines(), 1):
        look_at(path, number, {it for it in pages if re.search(rf"\b{it}\b", line, re.IGNORECASE)}, pages)
print(*found, sep="\n", end="\n" if found else "")
sys.exit(1 if found else 0)
