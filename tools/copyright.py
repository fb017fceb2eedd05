#!/usr/bin/env python3
"""Prints the package's file `copyright`: this repository's licence, what docs/LICENCES.md says of the crates that are linked into the program, and the text of
each licence in the kit's folder, each text once with the crates that have it (for the Apache License its path on Debian). Ends with an error if
docs/LICENCES.md does not name a crate that is linked in.

Usage, from the repository's root: tools/copyright.py KIT
"""
import glob
import os
import re
import sys


def text_of(path):
    with open(path, encoding="utf-8") as file:
        return file.read()


def linked(kit):
    """The kit's crates that the program uses, from crates.txt and the kit's own descriptions."""
    ours = dict(line.split(":", 1) for line in text_of("crates.txt").splitlines() if re.match(r"\w+:", line))
    found, left = [], ["reg_desk", "std"]
    while left:
        name = left.pop()
        if name in found:
            continue
        found.append(name)
        left += ours[name].split() if name in ours else re.findall(r"^dep (\w+)$", text_of(f"{kit}/rlibs/{name}.rlib/format"), re.M)
    return sorted(name for name in found if name not in ours)


def main():
    if len(sys.argv) != 2:
        sys.exit(__doc__)
    kit, page = sys.argv[1], text_of("docs/LICENCES.md")
    names = linked(kit)
    unnamed = [name for name in names if f"`{name}`" not in page and not name.startswith("sqlite_")]
    if unnamed:
        sys.exit(f"docs/LICENCES.md does not name {', '.join(unnamed)}, which the program is linked with")
    texts = {}
    for name in names:
        for path in sorted(glob.glob(f"{kit}/rattle/{name}/LICENSE*")):
            text = text_of(path).strip()
            # Copies that differ only in white space are one text.
            texts.setdefault(" ".join(text.split()), (text, []))[1].append(f"{name}/{os.path.basename(path)}")
    print("Durshavon, a certificate register, is under the Apache License 2.0: on Debian /usr/share/common-licenses/Apache-2.0.\n")
    print(page.strip())
    for text, places in texts.values():
        # Each Debian machine has the text of this one, and Debian wants no copies.
        if text.startswith("Apache License"):
            text = "Apache License 2.0: /usr/share/common-licenses/Apache-2.0"
        print(f"\n{'=' * 100}\n{', '.join(places)}\n{'=' * 100}\n\n{text}")


main()
