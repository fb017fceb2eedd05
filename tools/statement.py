#!/usr/bin/env python3
"""Prints the statement: the definitions that docs/statement.txt names, in its order, as their files have them. NAME:A|B has two cases of a
definition. A Rust type has its fields on one line, a function its contract. A line with `----` has the crate and FILE of what is below it, and the
meaning of each name that FILE spells in another way.

With --check, prints only what is wrong, and exits with 1 then: more than 900 lines of definitions; a definition that is used neither by another one
nor in the last column of a table of names in docs/MODEL.md; a name in a definition that is neither printed nor in the first column of such a table."""
import re
import sys
import textwrap
from pathlib import Path

TOP = Path(__file__).resolve().parent.parent
MOST_LINES, WIDTH = 900, 150
IMPORT = re.compile(r"^ *(?:pub |ghost )?use Rattle\.([\w.]+?)(?:\.\{(.*)\}| as (\w+));?$", re.MULTILINE)
DEFINITION = re.compile(r"^ *(?:(?:abbrev|unfoldable) pub|pub record|pub data) ([^\s:({]+)", re.MULTILINE)


def in_specs(lines):
    """For each definition of a file in specs/ its lines, and the headers of the modules around it."""
    found, modules, block = {}, [], []
    for line in [*lines, ""]:
        block += [line] if line else []
        indent = len(block[0]) - len(block[0].lstrip()) if block else 0
        if line.endswith(" where") and any(it.lstrip().startswith("module _") for it in block):
            modules, block = [*(it for it in modules if it[0] < indent), (indent, block)], []
        elif not line and block:
            modules = [it for it in modules if it[0] < indent]
            if named := DEFINITION.search("\n".join(block)):
                found[named[1]] = block, [it[1] for it in modules]
            block = []
    return found


def in_source(lines):
    """For each type of a file in src/ its lines, and for each function its head and its contract; without the comments in them."""
    found = {}
    for at, named in ((at, it) for at, it in enumerate(re.match(r"pub (struct|enum|fn) (\w+)", line) for line in lines) if it):
        top = next(it for it in range(at, -1, -1) if not it or not lines[it - 1].startswith(("///", "#[")))
        comment = [it for it in lines[top:at] if it.startswith("///")]
        contract = next(it for it in range(at, len(lines)) if lines[it].startswith(("    ensures", "    requires", "{", "}")))
        end = next(it for it in range(contract, len(lines)) if lines[it].startswith(("{", "}")))
        head = " ".join(it.strip() for it in lines[at : contract + (named[1] != "fn")] if not it.lstrip().startswith("//"))
        head = re.sub(r"(?<=[:{]) |,? (?=[{}])", "\u00a0", re.sub(r"(?<=\() |, (?=\))", "", head))
        head = [it.replace("\u00a0", " ") for it in textwrap.wrap(head, WIDTH, subsequent_indent="    ")]
        found[named[2]] = [*comment, *head, *lines[contract:end]], []
    return found


class File:
    """The definitions of a file, and where the names in it are from: crate, file, and the name there, after its type if it is a variant."""

    def __init__(self, crate, file):
        self.crate, self.file = crate, file
        path = TOP / "crates" / crate / (f"src/{file}" if file.endswith(".rt") else f"specs/{file}.antt")
        text = path.read_text(encoding="utf-8") if path.is_file() else ""
        self.definitions = (in_source if file.endswith(".rt") else in_specs)(text.splitlines())
        text = re.sub(r"^use crate::(\w+)::(\w+);", rf"use Rattle.{crate}.declared.\1.\2.{{\2}}", text, flags=re.MULTILINE)
        self.origins = {name: (crate, file, name) for name in self.definitions}
        for path, names, alias in IMPORT.findall(text):
            crate, *parts = re.sub(r"\.(specs|TheVariants)\b", "", path).split(".")
            source = f"{parts[1]}.rt" if parts[0] == "declared" else parts[-1]
            whole = {"Ghosts": parts[-1], parts[-1]: parts[-1]} if parts[0] == "declared" else {}
            for name, _, other in (it.partition(" as ") for it in (names or f"{parts[-1]} as {alias}").split(", ")):
                self.origins[other or name] = crate, source, whole.get(name, f"{parts[-1]}.{name}" if whole else name)


page = (TOP / "docs/MODEL.md").read_text(encoding="utf-8").replace("\\|", "|")
rows = [row.split(" | ") for table in re.findall(r"^\| (?:Written|Name) \|(?:.*\n\|)*.*", page, re.MULTILINE) for row in table.split("\n")]
words, bridges = ({it for row in rows for code in re.findall("`([^`]*)`", row[at]) for it in re.findall(r"[\w']+|[^\w\s]+", code)} for at in (0, -1))
parts, wrong, printed, used, out = [], [], {}, set(), []
for line in filter(None, (TOP / "docs/statement.txt").read_text(encoding="utf-8").splitlines()):
    crate, file, *choices = line.split()
    part = File(crate, file) if crate != "#" else None
    parts.append((line, part, []))
    for name, _, cases in (it.partition(":") for it in choices if part):
        if name not in part.definitions:
            sys.exit(f"no {name} in {crate} {file}")
        first, *clauses = re.split(rf"\n(?= *{name} )", "\n".join(part.definitions[name][0]))
        kept = [it for it in clauses if re.search(rf"\b(?:{cases})\b", it.split("=")[0])]
        text = "\n".join([first, *kept, *([f"  -- and {len(clauses) - len(kept)} other cases"] if cases else [])])
        part.definitions[name][0][:] = text.split("\n")
        variants = re.findall(r"[{,]\s+([A-Z]\w*)", text) if "pub enum" in text else []
        constructors = re.findall(r"(?m)^ +(\w+) :", text) if "pub data" in text else []
        for it in [name, *constructors, *(f"{name}.{it}" for it in variants)]:
            printed.setdefault(it.split(".")[-1], set()).add((crate, file, it))
        parts[-1][2].append(name)
for line, file, names in parts:
    shown, body, notes = [], [], [f"---- {file.crate} {file.file}" if file else line.strip("# ").upper()]
    for name in names:
        lines, modules = file.definitions[name]
        body += ["", *(line for it in modules if it not in shown for line in it), *lines]
        shown += modules
        code = " ".join(re.sub(r'"[^"]*"|(--|//).*', " ", line) for line in [*sum(modules, []), *lines])
        spelling = {it: re.escape(it.strip("◌").split("◌")[0]) if "◌" in it else rf"(?<![\w.]){re.escape(it)}(?![\w'])" for it in file.origins}
        for it in (it for it in file.origins if it != name and re.search(spelling[it], code)):
            crate, source, origin = file.origins[it]
            used.add((crate, source, origin.split(".")[0]))
            homes = printed.get(origin.split(".")[-1], set())
            if (crate, source, origin) not in homes and not set(filter(None, it.split("◌"))) <= words:
                wrong.append(f"{file.crate} {file.file}.{name}: {it} of {crate} {source} is neither printed nor in docs/MODEL.md")
            if crate.startswith("reg_") and (it != origin.split(".")[-1] or len(homes) > 1 and "." in origin):
                notes.append(f"{it} is {'' if crate == file.crate else crate + ' '}{origin if source.endswith('.rt') else f'{source}.{origin}'}")
    out += ["", *textwrap.wrap("; ".join(dict.fromkeys(notes)), WIDTH, subsequent_indent="---- "), *body]
unused = [(file, name) for _, file, names in parts for name in names if not {(file.crate, file.file, name), name} & (used | bridges)]
unused = [(file, it) for file, it in unused if not any(line.startswith("pub fn") for line in file.definitions[it][0])]
wrong += [f"{file.crate} {file.file}.{it}: no other definition uses it" for file, it in unused]
if (count := len([line for line in out if not re.match(r" *(--(?!--)|//|\d+\. |$)", line)])) > MOST_LINES:
    wrong.append(f"the statement has {count} lines of definitions, and {MOST_LINES} are allowed")
if sys.argv[1:] != ["--check"]:
    print(*out, f"\n{count} lines of definitions", sep="\n")
sys.exit("\n".join(wrong) or 0)
