#!/usr/bin/env python3
"""Writes the manual pages of the program: desk(1) from what `desk --help` and `desk COMMAND --help` print and from docs/OPERATIONS.md's part on exit
statuses, desk-script(5) from docs/RULES.md. Its own text is only headings, NAME and SEE ALSO.

Usage, from the repository's root: tools/man.py DESK FOLDER
"""
import os
import re
import subprocess
import sys
import time

DATE = time.strftime("%Y-%m-%d", time.gmtime(int(os.environ.get("SOURCE_DATE_EPOCH", time.time()))))


# roff

def escaped(text):
    return text.replace("\\", "\\e").replace("-", "\\-").replace("'", "\\(aq").replace("`", "\\(ga").replace("^", "\\(ha").replace("~", "\\(ti")


def guarded(line):
    """The line; roff would take a dot at its beginning for that of a macro."""
    return "\\&" + line if line.startswith(".") else line


def inline(text):
    """Markdown text with `code`, **bold** and *emphasis*. Long code may be broken after a comma and before a slash."""
    out = []
    for part in re.split(r"(`[^`]+`|\*\*[^*]+\*\*|\*[^*]+\*)", text):
        if part.startswith("`") and len(part) > 1:
            out.append("\\fB" + re.sub(r"(?<=,)(?=\S)|(?<=\w)(?=/)", r"\\:", escaped(part[1:-1])) + "\\fR")
        elif part.startswith("**"):
            out.append("\\fB" + escaped(part[2:-2]) + "\\fR")
        elif part.startswith("*") and len(part) > 2:
            out.append("\\fI" + escaped(part[1:-1]) + "\\fR")
        else:
            out.append(escaped(re.sub(r"docs/\w+\.md", r"/usr/share/doc/durshavon/\g<0>", part)))
    return guarded("".join(out))


def head(name, section, title):
    # On a terminal there is one long page, so that no page break splits a table's row.
    return [f'.TH {name} {section} {DATE} durshavon "{title}"', ".if n .pl 20000v", ".nh", ".ad l"]


# Markdown

def cells(row):
    return [cell.strip() for cell in re.split(r"(?<!\\)\|", row.strip().strip("|"))]


def plain(cell):
    return re.sub(r"[`*]", "", cell)


def table(rows):
    """A table: columns of short cells are as wide as these, and the widest column takes the rest."""
    rows = [cells(row) for row in rows]
    header, body = rows[0], rows[2:]
    widest = [max(len(plain(row[at])) for row in [header, *body]) for at in range(len(header))]
    last = max(range(len(header)), key=lambda at: widest[at])
    most = 66 // len(header)
    form = " ".join("lx" if at == last else f"lw({min(widest[at], most)}n)" for at in range(len(header)))
    out = [".PP", ".TS", "tab(\t);", " ".join(["lB"] * len(header)), form + "."]
    out.append("\t".join(inline(cell) for cell in header))
    for row in body:
        out.append("\t".join("T{\n" + inline(cell) + "\nT}" for cell in row))
    return [*out, ".TE"]


def markdown(lines):
    """The lines of a document, whose headings of level 2 are sections."""
    out, at = [], 0
    while at < len(lines):
        line = lines[at]
        if line.startswith("## "):
            out.append(f'.SH "{escaped(line[3:].upper())}"')
        elif line.startswith("|"):
            end = at
            while end < len(lines) and lines[end].startswith("|"):
                end += 1
            out += table(lines[at:end])
            at = end - 1
        elif line.startswith("    "):
            out += [".PP", ".nf"]
            while at < len(lines) and lines[at].startswith("    "):
                out.append(guarded(escaped(lines[at][4:])))
                at += 1
            out.append(".fi")
            at -= 1
        elif re.match(r"(- |\d+\. )", line):
            text, at = paragraph(lines, at, re.sub(r"^(- |\d+\. )", "", line))
            out += [".IP \\(bu 2", inline(text)]
        elif line.strip():
            text, at = paragraph(lines, at, line)
            out += [".PP", inline(text)]
        at += 1
    return out


def paragraph(lines, at, text):
    """The paragraph that begins with a text at a line, and its last line."""
    while at + 1 < len(lines) and lines[at + 1].strip() and not re.match(r"(- |\d+\. |\||## |    )", lines[at + 1]):
        at += 1
        text += " " + lines[at].strip()
    return text, at


def section(path, title):
    """The lines of one section of a document, without its heading."""
    with open(path, encoding="utf-8") as file:
        text = file.read()
    found = re.search(rf"^(##+) {re.escape(title)}\n", text, re.M)
    if not found:
        sys.exit(f"{path} has no section '{title}'")
    # A section ends at the next heading of its own level or of one above.
    return re.split(rf"^#{{2,{len(found[1])}}} ", text[found.end() :], maxsplit=1, flags=re.M)[0].splitlines()


# The program's help

def told(desk, *words):
    got = subprocess.run([desk, *words, "--help"], capture_output=True, text=True, check=True)
    return got.stdout.splitlines()


def parts(lines):
    """The parts of a help text: the first paragraph, and the lines under each heading; the part after the options is called `after`."""
    said, name = {"about": []}, "about"
    for line in lines:
        if line.startswith("Usage: "):
            said["usage"], name = [line[7:]], "after"
            said.setdefault("after", [])
        elif line in ("Commands:", "Arguments:", "Options:"):
            name = line[:-1].lower()
            said[name] = []
        elif not line.strip() and name in ("commands", "arguments", "options"):
            name = "after"
        elif not line.strip() and name == "about":
            continue
        else:
            said[name].append(line)
    return said


def listed(lines):
    """Words with their meaning, from lines of two columns; a line that is indented further continues the one before."""
    found = []
    for line in lines:
        row = re.match(r"\s{1,8}(\S.*?)(?:\s{2,}(.*))?$", line)
        if row and not re.match(r"\s{9,}", line):
            found.append([row.group(1), row.group(2) or ""])
        elif found:
            found[-1][1] = (found[-1][1] + " " + line.strip()).strip()
    return found


def words(lines):
    out = []
    for word, meaning in listed(lines):
        out += [".TP", f"\\fB{escaped(word)}\\fR", inline(meaning) or "\\&"]
    return out


def after(lines):
    """The part after the options: text, and indented lines of shell."""
    out = []
    for line in lines:
        if not line.strip():
            continue
        if line.startswith("  "):
            out += [".PP", ".nf", ".RS 2", escaped(line.strip()), ".RE", ".fi"]
        else:
            out += [".PP", inline(line)]
    return out


def desk_page(desk):
    top = parts(told(desk))
    commands = [word for word, _ in listed(top["commands"])]
    each = {name: parts(told(desk, name)) for name in commands}
    out = ["'\\\" t", *head("DESK", 1, "Certificate register"), ".SH NAME", "desk \\- " + inline(" ".join(top["about"]).rstrip("."))]
    out += [".SH SYNOPSIS", ".nf", *[escaped(each[name]["usage"][0]) for name in commands], ".fi", ".SH DESCRIPTION", inline(" ".join(top["about"]))]
    out += after(top["after"]) + [".SH OPTIONS", *words(top.get("options", [])), ".SH COMMANDS"]
    for name in commands:
        said = each[name]
        out += [f'.SS "{escaped(said["usage"][0])}"', inline(" ".join(said["about"]))]
        out += words(said.get("arguments", [])) + words(said.get("options", [])) + after(said["after"])
    out += ['.SH "EXIT STATUS"', *markdown(section("docs/OPERATIONS.md", "What an exit status means"))]
    out += ['.SH "SEE ALSO"', "\\fBdesk\\-script\\fR(5), \\fI/usr/share/doc/durshavon\\fR"]
    return out


def script_page():
    with open("docs/RULES.md", encoding="utf-8") as file:
        lines = file.read().splitlines()
    if not lines[0].startswith("# "):
        sys.exit("docs/RULES.md begins with no title")
    out = ["'\\\" t", *head("DESK-SCRIPT", 5, "Certificate register"), ".SH NAME"]
    out += ["desk\\-script \\- lines of a script, and the rules of a certificate register", ".SH DESCRIPTION"]
    return [*out, *markdown(lines[1:]), '.SH "SEE ALSO"', "\\fBdesk\\fR(1)"]


def main():
    if len(sys.argv) != 3:
        sys.exit(__doc__)
    for name, lines in (("desk.1", desk_page(sys.argv[1])), ("desk-script.5", script_page())):
        with open(os.path.join(sys.argv[2], name), "w", encoding="utf-8") as file:
            file.write("\n".join(lines) + "\n")


main()
