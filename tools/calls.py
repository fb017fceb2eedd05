#!/usr/bin/env python3
"""Reads the calls in the source of this repository, by name: no type is resolved, so a method call reaches every method of its name.

Usage: tools/calls.py --unreached     public functions that no call from `main` reaches, by crate
       tools/calls.py --forwarders    functions whose whole body is one call that passes their own parameters on
       tools/calls.py --path NAME ..  a shortest path of calls from `main` through functions of these names, in this order
"""
import re
import sys
from collections import deque
from functools import cache
from pathlib import Path

TOP = Path(__file__).resolve().parent.parent
START = re.compile(r"^(\s*)(?:pub(?:\([a-z]+\))? )?(?:const )?(?:unsafe )?(?:final )?fn (\w+)")
IMPL = re.compile(r"^(?:unsafe )?(?:impl\b|(?:pub(?:\([a-z]+\))? )?trait\b)(.*)")
USE = re.compile(r"^\s*(?:pub(?:\([a-z]+\))? )?use ((?:\w+::)+)(?:\{([^}]*)\}|(\w+)(?: as (\w+))?);", re.MULTILINE)
CALL = re.compile(r"(?<![\w.])((?:\w+(?:::<[^>()]*>)?::)*)(\w+)(?:::<[^()]*?>)?(\()?|\.(\w+)(?:::<[^()]*?>)?\(")


class Function:
    """A function of a source file: its file and line, its impl's head if it is a method, its body, and whether it is public."""

    def __init__(self, path, line, name, owner, head, body):
        self.path, self.line, self.name, self.owner, self.head, self.body = path, line, name, owner, head, body
        self.crate, self.module = path.parts[path.parts.index("crates") + 1], path.stem
        self.is_public = bool(re.search(r"\bpub fn\b", head.split("(")[0])) or " for " in f"{owner} " or "trait " in owner

    def __str__(self):
        return f"{self.crate} {self.path.name}:{self.line} {self.name}"


def functions_of(path):
    """Finds the functions of a file in rt's layout: with a contract the body begins at a line that is `{` alone."""
    lines, owner, at = path.read_text(encoding="utf-8").split("\n"), "", 0
    while at < len(lines):
        if found := IMPL.match(lines[at]):
            owner = lines[at].strip()
        elif lines[at] == "}":
            owner = ""
        if not (found := START.match(lines[at])):
            at += 1
            continue
        indent, first = found[1], at
        while not (lines[at].rstrip().endswith(";") or lines[at] == f"{indent}{{" or re.search(r"\{ .* \}$|\{$|\{\}$", lines[at]) and not re.match(r"\s*(ensures|requires|ghost|×|→|⊎|\()", lines[at])):
            at += 1
        if lines[at].rstrip().endswith(";"):
            at += 1
            continue
        start = at
        if lines[at].rstrip().endswith("}"):
            body = lines[at][lines[at].index("{") :]
        else:
            while lines[at] != f"{indent}}}":
                at += 1
            body = "\n".join(lines[start : at + 1])[lines[start].rindex("{") :]
        yield Function(path, first + 1, found[2], owner, " ".join(it.strip() for it in lines[first:start]), re.sub(r"//.*", "", body))
        at += 1


@cache
def functions():
    return [it for path in sorted((TOP / "crates").glob("*/src/**/*.rt")) for it in functions_of(path)]


@cache
def by_name():
    found = {}
    for it in functions():
        found.setdefault(it.name, []).append(it)
    return found


@cache
def imports(path):
    """Returns for each name that a file imports the crate and the module, or None, that it comes from."""
    own, found = path.parts[path.parts.index("crates") + 1], {}
    for it in USE.finditer(path.read_text(encoding="utf-8")):
        parts = [own if part == "crate" else part for part in it[1].split("::") if part]
        for item in [part.strip() for part in it[2].split(",")] if it[2] else [f"{it[3]} as {it[4]}" if it[4] else it[3]]:
            name, _, other = item.partition(" as ")
            found[other or name] = (parts[0], parts[1] if len(parts) > 1 else None, name)
    return found


def called_by(caller):
    """Returns the functions that a body may call: a free function by its import, anything else by its name."""
    found, known = {}, imports(caller.path)
    for qualifier, name, _, method in CALL.findall(caller.body):
        others = by_name().get(method or name, [])
        if not method and not qualifier:
            crate, module, real = known.get(name, (caller.crate, None, name))
            others = [it for it in by_name().get(real, []) if it.crate == crate and not it.owner]
            others = [it for it in others if it.path == caller.path] or [it for it in others if module in (None, it.module)] or others
        elif not method and re.fullmatch(r"(?:\w+::)*[a-z_]\w*::", qualifier):
            module = qualifier.split("::")[-2]
            others = [it for it in others if module in (it.module, it.crate)]
        elif not method:
            owner = re.sub(r"::<.*?>", "", qualifier).split("::")[-2]
            others = [it for it in others if owner in ("Self", it.owner) or re.search(rf"\b{owner}\b", it.owner)] or others
        found.update(dict.fromkeys(others))
    return found


@cache
def reached():
    """Returns the functions that calls from `main` reach, each with the one that calls it on a shortest path."""
    mains = [it for it in by_name()["main"] if it.crate == "reg_desk"]
    # Operators, `?`, loops and drops call functions that a body doesn't name.
    hidden = [it for name in ("from", "next", "eq", "partial_cmp", "drop", "fmt", "into_iter", "clone") for it in by_name().get(name, [])]
    callers, waiting = dict.fromkeys([*mains, *hidden]), deque([*mains, *hidden])
    while waiting:
        caller = waiting.popleft()
        for it in called_by(caller):
            if it not in callers:
                callers[it] = caller
                waiting.append(it)
    return callers


def is_forwarder(it):
    """Whether the body is one call, perhaps with `?` and Ok around it, whose arguments are parameters, their fields or references to these."""
    body = re.sub(r"\s+", " ", it.body.strip()[1:-1]).strip()
    body = re.sub(r"^Ok\((.*)\?\)$", r"\1", body).removesuffix(";").removesuffix(".map_err(|_| Memory)")
    call = re.fullmatch(r"[\w.:<>, '&()*]*?\b\w+(?:::<[^()]*>)?\(([^()]*)\)", body)
    if not call or body[0].isupper() or "&&" in body:
        return False
    argument = r"(&mut |&|\*)?(self(\.\w+)*|\w+(\.\w+)*(\.as_(str|slice|bytes)\(\))?)?"
    return all(re.fullmatch(argument, part.strip()) for part in call[1].split(","))


def main(words):
    if words == ["--unreached"]:
        found = reached()
        for it in functions():
            if it.is_public and it not in found and it.body.strip() != "{}":
                print(it)
    elif words == ["--forwarders"]:
        found = [it for it in functions() if is_forwarder(it)]
        print(*found, f"{len(found)} forwarders", sep="\n")
    elif words[:1] == ["--path"] and len(words) > 1:
        # A function, and how many of the names the path to it has.
        first = next(it for it in by_name()["main"] if it.crate == "reg_desk"), 0
        callers, waiting = {first: None}, deque([first])
        while waiting and waiting[0][1] < len(words) - 1:
            caller, count = waiting.popleft()
            for it in called_by(caller):
                place = it, count + (it.name == words[count + 1])
                if place not in callers:
                    callers[place] = caller, count
                    waiting.append(place)
        place, path = waiting[0] if waiting else sys.exit(f"no path has {' '.join(words[1:])}"), []
        while place:
            path, place = [place[0], *path], callers[place]
        print(*path, f"{len(path)} functions", sep="\n")
    else:
        sys.exit(__doc__)


if __name__ == "__main__":
    main(sys.argv[1:])
