"""Reads the code blocks of docs/OPERATIONS.md and other pages. Tests run these blocks unchanged."""

import re

from .program import TOP
from .trial import Failed


def document(name="OPERATIONS"):
    """The text of a page of docs/, or of a page that is named with its folder."""
    return (TOP / (f"{name}.md" if "/" in name else f"docs/{name}.md")).read_text(encoding="utf-8")


def version():
    """The newest version of CHANGELOG.md."""
    return re.search(r"^## (\d\S*)$", (TOP / "CHANGELOG.md").read_text(encoding="utf-8"), re.MULTILINE)[1]


def section(heading, name="OPERATIONS"):
    """The text of a section."""
    found = re.search(rf"^##+ {re.escape(heading)}\n(.*?)(?=^##+ |\Z)", document(name), re.MULTILINE | re.DOTALL)
    if not found:
        raise Failed(f"{name}.md has no section {heading!r}")
    return found[1]


def blocks(heading, name="OPERATIONS"):
    """The blocks of lines of a section."""
    return [[line[4:] for line in it.splitlines()] for it in re.findall(r"(?:^    [^\n]*\n)+", section(heading, name), re.MULTILINE)]


def block(heading, beginning, name="OPERATIONS"):
    """The block of a section whose first line begins with this text."""
    for lines in blocks(heading, name):
        if lines[0].startswith(beginning):
            return lines
    raise Failed(f"{heading!r} has no lines that begin with {beginning!r}")
