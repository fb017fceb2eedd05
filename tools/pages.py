#!/usr/bin/env python3
"""Checks the names in the pages against the repository: functions and definitions of docs/PROOFS.md and docs/ARCHITECTURE.md; files, crates
and their uses in docs/ARCHITECTURE.md, files and definitions that docs/MODEL.md names after a crate, and links to files and headings. Also reports
two crates that give one name to definitions, because the pages refer to a definition by its name; a promise of docs/PROOFS.md whose functions no call
from `main` reaches; a proof that cites proofs of another crate outside of its PublicLaws; and a docs/architecture.svg that is out of date. Prints a
line for each error, and exits with 1 if there is one."""
import re
import sys
from pathlib import Path

import architecture
import calls

TOP = Path(__file__).resolve().parent.parent
PAGES = ["README.md", "SECURITY.md", "CHANGELOG.md", *sorted(str(it.relative_to(TOP)) for it in (TOP / "docs").glob("*.md"))]
missing = []


def text(path):
    return (TOP / path).read_text(encoding="utf-8")


def miss(page, what):
    missing.append(f"{page}: {what}")


def uses():
    """For each crate the crates of this repository that it uses, from crates.txt."""
    rows = (line.split(":") for line in text("crates.txt").splitlines() if line and not line.startswith("#"))
    return {name: {it for it in rest.split() if it.startswith("reg_")} for name, rest in rows}


def anchor(heading):
    """The anchor of a heading, as GitHub and others make it."""
    return re.sub(r"[^\w\- ]", "", heading.strip().lower()).replace(" ", "-")


def anchors(page):
    return {anchor(it) for it in re.findall(r"^#+ (.*)$", text(page), re.MULTILINE)}


def look_at_links():
    for page in PAGES:
        for path in re.findall(r"\]\((?!https?:)([^)#\s]+)", text(page)):
            if not (TOP / page).parent.joinpath(path).exists():
                miss(page, f"no {path}")
        for path, heading in re.findall(r"\]\(([^)#\s]*)#([^)]*)\)", text(page)):
            goal = str((TOP / page).parent.joinpath(path).resolve().relative_to(TOP)) if path else page
            if (TOP / goal).exists() and heading not in anchors(goal):
                miss(page, f"no heading {path}#{heading}")
        for named in re.findall(r"`?\b(docs/\w+\.md)(?!\w), \"([^\"]*)\"", text(page)):
            if (TOP / named[0]).exists() and not named[1].endswith("..") and anchor(named[1]) not in anchors(named[0]):
                miss(page, f"{named[0]} has no heading {named[1]!r}")


def has_function(path, name):
    return path.exists() and re.search(rf"\bfn {name}\b", path.read_text(encoding="utf-8"))


def look_at_ways():
    """Checks names of the form `crate `file.rt` (`function`, ..)`: a crate applies to all files up to the next crate."""
    page = "docs/ARCHITECTURE.md"
    for part in re.split(r"\n\n", text(page)):
        if part.startswith("    ") or ".rt`" not in part:
            continue
        crate = ""
        for it in re.finditer(r"\b(reg_\w+)\b(?!`? \|)|`([a-z_]+\.rt)`(?: \(((?:`[^`]*`(?:, )?)+)\))?", part):
            if it[1]:
                crate = it[1]
                continue
            path = TOP / "crates" / crate / "src" / it[2]
            if not path.exists():
                miss(page, f"no {crate}/src/{it[2]}")
            for name in re.findall(r"`([a-z_0-9]+)`", it[3] or ""):
                if path.exists() and not has_function(path, name):
                    miss(page, f"no fn {name} in {crate}/src/{it[2]}")


def look_at_laws():
    """Checks the definitions in the table "Where is it?", each after the crate that has it."""
    page = "docs/ARCHITECTURE.md"
    table = text(page).split("## Where is it?")[1].split("\n## ")[0]
    for law in re.findall(r"^\|.* \| ([^|]*) \|$", table, re.MULTILINE):
        crate = ""
        for it in re.finditer(r"(reg_\w+)|`([A-Z]\w*)(?:\.(\w+))?`", law):
            crate = it[1] or crate
            specs = TOP / "crates" / crate / "specs"
            named = rf"\b{it[3] or it[2]}\b"
            whole = (specs / f"{it[2]}.antt").exists() or not it[3]
            if it[2] and not (whole and any(re.search(named, at.read_text(encoding="utf-8")) for at in specs.glob(f"{it[2] if it[3] else '*'}.antt"))):
                miss(page, f"no {it[0]} in the specs of {crate}")


def look_at_promises():
    """Checks `| promise | crate `function` (`clause`), ..: `File.definition`, `definition` |`, without the crate if the heading names it."""
    page = "docs/PROOFS.md"
    of_heading = []
    for line in text(page).splitlines():
        if line.startswith("#"):
            of_heading = re.findall(r"\breg_\w+", line)
        cells = [it.strip() for it in line.strip().strip("|").split(" | ")]
        if not of_heading or not line.startswith("|") or len(cells) < 2 or cells[0] in ("", "Promise", "Job"):
            continue
        promise, contract = cells[-2], cells[-1]
        functions, _, definitions = re.match(r"((?:[^:]|::)*)(: )?(.*)", contract).groups() if len(cells) == 2 else ("", "", contract)
        look_at_functions(page, promise, functions, {*of_heading, *re.findall(r"\breg_\w+", functions)})
        if ".rt`" in contract:
            miss(page, f"a promise names a file, in place of a function and a definition: {promise[:60]}")
        file = ""
        for it in re.finditer(r"`(?:([A-Z]\w*)\.)?(\w+)`", definitions.split("sqlite's")[0]):
            file = it[1] or file
            specs = TOP.glob(f"crates/*/specs/{file}.antt")
            if file and not any(re.search(rf"\b{it[2]}\b", path.read_text(encoding="utf-8")) for path in specs):
                miss(page, f"no definition {file}.{it[2]}: {promise[:60]}")


def look_at_security():
    """Checks that each promise of SECURITY.md that is proved names a function, or links to PROOFS.md."""
    page = "SECURITY.md"
    for line in text(page).splitlines():
        cells = [it.strip() for it in line.strip("|").split(" | ")]
        if line.startswith("|") and len(cells) == 2 and "proved" in cells[1] and "docs/PROOFS.md#" not in cells[1]:
            names = {*re.findall(r"\breg_\w+", cells[1])}
            if not names:
                miss(page, f"a promise names no function: {cells[0][:60]}")
            look_at_functions(page, cells[0], cells[1], names)


def look_at_functions(page, promise, functions, crates):
    """Checks that a promise's functions and clauses exist. Calls from `main` must reach one of the functions, unless it is a law or an example."""
    names = [it.split("::")[-1] for it in re.findall(r"`((?:[A-Za-z_]+::)*[a-z_0-9]+)`", functions)]
    sources = [path for crate in crates for path in (TOP / "crates" / crate / "src").rglob("*.rt")]
    for name in names:
        if not any(re.search(rf"\b(?:fn|ensures|ghost|mod) {name}\b", path.read_text(encoding="utf-8")) for path in sources):
            miss(page, f"no {name} in {sorted(crates)}: {promise[:60]}")
    known = [it for name in names for it in calls.by_name().get(name, []) if it.crate in crates]
    if known and not any(it in calls.reached() or it.module in ("laws", "examples") for it in known):
        miss(page, f"no call from main reaches {' or '.join(names)}: {promise[:60]}")


def look_at_proofs():
    """Checks that proofs cite lemmas of another crate only through its PublicLaws."""
    cited = re.compile(r"^use Rattle\.(reg_\w+)\.proofs\.([\w.]+)", re.MULTILINE)
    for path in sorted((TOP / "crates").glob("*/[ps]*/**/*.antt")):
        crate = path.relative_to(TOP / "crates").parts[0]
        for other, module in cited.findall(path.read_text(encoding="utf-8")):
            if other != crate and not module.startswith("PublicLaws"):
                miss(path.relative_to(TOP), f"cites {other}'s proofs {module}, and not its PublicLaws")


def look_at_crates():
    page = "docs/ARCHITECTURE.md"
    stands = uses()
    for crate in stands:
        if f"{crate}" not in text(page):
            miss(page, f"{crate} is missing")
    for crate, on in re.findall(r"^\| `(reg_\w+)` \| ([^|]*) \|", text(page), re.MULTILINE):
        told = set(re.findall(r"reg_\w+", on))
        below = lambda it: stands[it].union(*(below(at) for at in stands[it])) if stands[it] else set()  # noqa: E731
        wanted = {it for it in stands.get(crate, set()) if not any(it in below(other) for other in stands[crate] if other != it)}
        if crate in stands and told != wanted:
            miss(page, f"{crate} uses {' '.join(sorted(wanted))}, and not {' '.join(sorted(told))}")
    if not architecture.is_drawn():
        miss(architecture.PICTURE, "is not what tools/architecture.py draws")


def look_at_model():
    """Checks names in docs/MODEL.md of these forms: crate `File`, `file.rt`, ..; crate `File.Definition`."""
    page = "docs/MODEL.md"
    for crate, names in re.findall(r"(reg_\w+)\s+((?:`[\w.]+`(?:,\s+)?)+)", text(page)):
        for name in re.findall(r"`([\w.]+)`", names):
            file, _, rest = name.partition(".")
            path = TOP / "crates" / crate / (f"src/{name}" if rest == "rt" else f"specs/{file}.antt")
            has_definition = rest in ("", "rt") or path.exists() and re.search(rf"\b{rest}\b", path.read_text(encoding="utf-8"))
            if not path.exists() or not has_definition:
                miss(page, f"no {name} in {crate}")


def look_at_names():
    """Checks that no two crates give one name to definitions."""
    definition = re.compile(r"^(?:(?:abbrev|unfoldable) pub|pub (?:record|data)) ([^\s:({]+)", re.MULTILINE)
    crates_of = {}
    for path in sorted((TOP / "crates").glob("*/specs/*.antt")):
        for name in definition.findall(path.read_text(encoding="utf-8")):
            crates_of.setdefault(name, set()).add(path.parent.parent.name)
    for name, crates in sorted(crates_of.items()):
        if len(crates) > 1:
            miss("specs", f"{name} is defined in {' and '.join(sorted(crates))}")


for look in (look_at_links, look_at_ways, look_at_laws, look_at_promises, look_at_security, look_at_crates, look_at_model, look_at_names, look_at_proofs):
    look()
print(*missing, sep="\n", end="\n" if missing else "")
sys.exit(1 if missing else 0)
