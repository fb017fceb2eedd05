"""The merge gate .ci/run, and the checks that it runs before it proves: each finds mistakes that were put into a small repository, or into a copy of
this one; and tools/calls.py. Nothing is proved, and the tested program does not run."""

import os
import re
import shutil
import subprocess
import sys

from lib import program
from lib.trial import each, need, test

TOP = program.TOP
# A command that reports its words, and fails if FAILS names it.
STUB = '#!/bin/sh\nname=$(basename "$0")\n[ "$name" != run ] || name=${DESK+DESK }run\necho "$name${*:+ $*}" >>"$CALLS"\n[ "$FAILS" != "$name${1:+ $1}" ]\n'
CALLS = ["pages.py", "statement.py --check", "words.py", "edits.py --check", "rt ci", "edits.py --some COMMIT", "run --proved"]


def put(path, text, mode=0o644):
    path.parent.mkdir(parents=True, exist_ok=True)
    path.write_text(text, encoding="utf-8")
    path.chmod(mode)


@each({"nothing": "", "the pages": "pages.py", "the statement": "statement.py --check", "retired words": "words.py",
       "an edit that does not apply": "edits.py --check", "a proof": "rt ci", "an edit that is not refused": "edits.py --some",
       "a test": "run --proved"})
def what_fails_the_gate(t, fails):
    """The gate runs each check, and ends with the first one that fails. It tests the program that it has proved, whatever DESK names, and in whatever
    folder it is started."""
    shutil.copytree(TOP / ".ci", t.room / "top/.ci")
    for path in ("top/tools/pages.py", "top/tools/statement.py", "top/tools/words.py", "top/tools/edits.py", "top/tests/run", "bin/rt"):
        put(t.room / path, STUB, 0o755)
    put(t.room / "bin/git", "#!/bin/sh\necho COMMIT\n", 0o755)
    env = {**os.environ, "PATH": f"{t.room / 'bin'}:{os.environ['PATH']}", "CALLS": str(t.room / "calls"), "FAILS": fails, "DESK": "other"}
    ran = t.tried(t.room / "top/.ci/run", env=env)
    calls = (t.room / "calls").read_text().splitlines()
    last = next((at for at, it in enumerate(CALLS, 1) if fails and it.startswith(fails)), len(CALLS))
    t.same((ran.returncode == 0, calls), (not fails, CALLS[:last]), "whether the gate passes, and what it has run")


def told(t, top, *words, **how):
    """Runs a program of a repository. Returns its status, and the lines that it printed."""
    ran = t.tried(sys.executable, *(top / it if at == 0 else it for at, it in enumerate(words)), **how)
    return ran.returncode, (ran.stdout + ran.stderr).decode().splitlines()


def change(path, *pairs):
    """Replaces texts of a file, each of which must be there."""
    text = path.read_text(encoding="utf-8")
    for was, now in pairs:
        assert was in text, f"{path} has no {was!r}"
        text = text.replace(was, now, 1)
    path.write_text(text, encoding="utf-8")


def tree(t, name, files):
    """A small repository, with one of the tools and these files."""
    top = t.room / "top"
    (top / "tools").mkdir(parents=True)
    shutil.copy(TOP / "tools" / name, top / "tools")
    for path, text in files.items():
        put(top / path, text)
    return top


@test(seconds=10)
def pages_that_name_what_is_not_there(t):
    """Each mistake in a copy of this repository has one line. Without a mistake there is none."""
    top = t.room / "top"
    kept = shutil.ignore_patterns("out", ".git", "tests", "__pycache__")
    shutil.copytree(TOP, top, ignore=kept, symlinks=True)
    architecture, proofs, model = (top / f"docs/{name}.md" for name in ("ARCHITECTURE", "PROOFS", "MODEL"))
    change(top / "README.md", ("](docs/OPERATIONS.md#signatures)", "](docs/OPERATIONS.md#signers)"),
           ("](docs/ARCHITECTURE.md#where-is-it)", "](docs/BUILDING.md)"))
    change(top / "docs/RULES.md", ("\n", "\n\n[Here](NOWHERE.md#a) and [there](#no-such-part).\n"))
    change(architecture, ("`decide.rt` (`decide_register`)", "`decide.rt` (`decide_registration`)"),
           ("`refusal.rt` (`line`)", "`refusals.rt` (`line`)"),
           ("reg_core `Status.status_by` |", "reg_core `Status.status_of_it` |"), ("| `reg_crl` | reg_der |", "| `reg_crl` | reg_der, reg_core |"))
    change(top / "docs/architecture.svg", ("</svg>", "<!-- --></svg>"))
    put(top / "crates/reg_der/specs/More.antt", "abbrev pub status_by : Nat\n")
    crate, name = re.search(r"(reg_\w+)\s+`([A-Z]\w*)`", model.read_text()).groups()
    change(model, (re.search(rf"{crate}\s+`{name}`", model.read_text())[0], f"{crate} `No{name}`"))
    change(proofs, (re.search(r"^\| [^|]* \| [^|\n]*`(\w+)`[^|\n]*: `", proofs.read_text(), re.MULTILINE)[1], "no_such_function"))
    status, lines = told(t, top, "tools/pages.py")
    wanted = (r"README.md: no heading docs/OPERATIONS.md#signers", r"README.md: no docs/BUILDING.md",
              r"docs/RULES.md: no NOWHERE.md", r"docs/RULES.md: no heading #no-such-part",
              r"docs/ARCHITECTURE.md: no fn decide_registration in reg_core/src/decide.rt", r"docs/ARCHITECTURE.md: no reg_core/src/refusals.rt",
              r"docs/ARCHITECTURE.md: no `Status.status_of_it` in the specs of reg_core",
              r"docs/ARCHITECTURE.md: reg_crl uses reg_der, and not reg_core reg_der",
              r"docs/architecture.svg: is not what tools/architecture.py draws", r"specs: status_by is defined in reg_core and reg_der",
              rf"docs/MODEL.md: no No{name} in {crate}", r"docs/PROOFS.md: no no_such_function in .*")
    t.same(sorted(it for it in wanted if not any(re.fullmatch(it, line) for line in lines)), [], "mistakes that it does not find")
    t.same((status, [it for it in lines if not any(re.fullmatch(one, it) for one in wanted)]), (1, []), "its status, and other lines")


WORDS = "# everywhere: of all\ntold = reported\n\n# names: of code\nhub = event loop\n\n# pages: of pages\nseal = placeholder digest\n"
# Files, and what is found in each. Names are split at `_` and at capitals. In comments and texts of code only the words of the first part are
# looked for.
FOUND = {
    "README.md": ("A hub.\nA Seal, as he told.\n", ["2: seal -> placeholder digest", "2: told -> reported"]),
    "docs/RULES.md": ("seals and tolds\n", []),
    "tests/README.md": ("the seal\n", ["1: seal -> placeholder digest"]),
    "crates/reg_a/README.md": ("told\n", ["1: told -> reported"]),
    "crates/reg_a/src/a.rt": (
        'fn old_hub(it: One) {\n    // a hub\n    let text = "told";\n    let hubs = sealed(seal);\n    let it: ManyHubsOfHub;\n}\n',
        ["1: hub -> event loop", "3: told -> reported", "5: hub -> event loop"]),
    "crates/reg_a/src/deep/hub.rt": ("\n", ["1: hub -> event loop"]),
    "crates/reg_a/specs/Told.antt": ("x : Nat -- a hub\n", ["1: told -> reported"]),
    "crates/reg_a/proofs/one/Hub.antt": ("told hub\n", ["1: hub -> event loop"]),
    "crates/reg_a/edits/told__twice.edit": ("told\n", ["1: told -> reported"]),
    "tests/run": ("#!/usr/bin/env python3\nhubs = 1\n", []),
    "tests/groups/talks.py": ("# told\nold_hub = perf_counter('hub')\n", ["2: hub -> event loop"]),
    "bench/hub.py": ("\n", ["1: hub -> event loop"]),
}


@test
def retired_words(t):
    top = tree(t, "words.py", {"tools/words.txt": WORDS, **{path: text for path, (text, _) in FOUND.items()}})
    wanted = sorted(f"{path}:{it}" for path, (_, found) in FOUND.items() for it in found)
    status, lines = told(t, top, "tools/words.py")
    t.same((status, sorted(lines)), (1, wanted))
    for path, (_, found) in FOUND.items():
        if path.endswith(".md"):
            (top / path).write_text("")
        elif found:
            (top / path).unlink()
    t.same(told(t, top, "tools/words.py"), (0, []), "without these files")


SOURCE = "fn a() {\n    one(two, two)\n}\n"


def edit(old, new, file="src/a.rt"):
    return f"file: {file}\nold: {old}\nnew: {new}\n"


TEXT = "its 'old:' text must be in the file exactly once, and its 'new:' text must differ: {}"
NAMED = "its name must have the form FUNCTION__MISTAKE.edit, and no other edit of the crate may have it"
# The name and the text of an edit, and what is wrong with it.
EDITS = {
    "a__one": (edit("one(", "three("), None),
    "a__two_of_them": (edit("one(", "three(") + "old: three(two,\nnew: three(one,\n", None),
    "a__nothing": (edit("one(two, two)", ""), None),
    "a__not_there": (edit("three", "two"), TEXT.format("three")),
    "a__twice": (edit("two", "three"), TEXT.format("two")),
    "a__same": (edit("one(", "one("), TEXT.format("one(")),
    "a__no_file": (edit("one(", "two(", "src/b.rt"), TEXT.format("one(")),
    "a__no_old": ("file: src/a.rt\n", "it has no 'old:' line"),
    "a_one": (edit("one(", "two("), NAMED),
}


@test
def edits_that_can_t_be_tried(t):
    top = tree(t, "edits.py", {"crates/reg_a/src/a.rt": SOURCE, **{f"crates/reg_a/edits/{name}.edit": text for name, (text, _) in EDITS.items()}})
    wanted = sorted(f"edits: crates/reg_a/edits/{name}.edit: {why}" for name, (_, why) in EDITS.items() if why)
    status, lines = told(t, top, "tools/edits.py", "--check")
    t.same((status, sorted(lines)), (1, wanted))
    put(top / "crates/reg_a/must-fail/a__one.edit", EDITS["a__one"][0])
    t.same([it for it in told(t, top, "tools/edits.py", "--check")[1] if "a__one" in it],
           [f"edits: crates/reg_a/{folder}/a__one.edit: {NAMED}" for folder in ("edits", "must-fail")], "two edits of one name")


# How many edits there are in edits/ and in must-fail/ of each crate, and what is wrong.
MANY = "edits: there are 121 edits, and 120 are allowed: remove those whose mistake another edit has"
AT_GATE = "edits: must-fail/ may have 16 edits in 3 crates: move some to edits/"
COUNTS = {
    "as many as there may be": (((100, 14), (0, 1), (0, 1), (4, 0)), []),
    "one more": (((100, 14), (0, 1), (0, 1), (5, 0)), [MANY]),
    "one more at the gate": (((100, 15), (0, 1), (0, 1), (3, 0)), [AT_GATE]),
    "one more crate at the gate": (((100, 13), (0, 1), (0, 1), (4, 1)), [AT_GATE]),
}


@each(COUNTS)
def as_many_edits_as_there_may_be(t, counts, wanted):
    files = {}
    for at, (others, gate) in enumerate(counts):
        files[f"crates/reg_{at}/src/a.rt"] = SOURCE
        files |= {f"crates/reg_{at}/edits/a__{it}.edit": edit("one(", "two(") for it in range(others)}
        files |= {f"crates/reg_{at}/must-fail/a__must_{it}.edit": edit("one(", "two(") for it in range(gate)}
    t.same(told(t, tree(t, "edits.py", files), "tools/edits.py", "--check"), (int(bool(wanted)), wanted))


# rt, which reports each edit of a crate as refused that its own copy of the crates has, but for those that ACCEPTED names, and ends with STATUS.
RT = """#!/bin/sh
echo "$*" >"$CALLS"
sort crates.txt >"$CALLS.crates"
ls crates >>"$CALLS.crates"
for it in crates/*/must-fail/*.edit; do
    name=$(echo "$it" | sed 's,crates/,,; s,/must-fail,,')
    case " $ACCEPTED " in *" $(basename "$it" .edit) "*) echo "rt: must-fail $name: accepted" ;; *) echo "rt: must-fail $name: refused" ;; esac
done
exit "$STATUS"
"""


@each({"all are refused": ("", 0, []), "one is not refused": ("a__one", 0, ["edits: reg_a/a__one.edit was not refused"]),
       "rt fails": ("", 1, ["edits: rt ended with status 1"])}, seconds=2)
def edits_are_tried(t, accepted, status, wanted):
    """An edit that rt does not report as refused fails the trial, and so does rt."""
    need("git")
    files = {"crates.txt": "reg_b: reg_c\nreg_a: reg_c sha1\nreg_c:\nreg_d: reg_a\n"}
    files["tools/build-times.txt"] = "reg_a 500\nreg_b 501\nreg_c 700\nreg_d 1\n"
    files |= {f"crates/reg_{crate}/src/a.rt": SOURCE for crate in "abcd"}
    files |= {f"crates/reg_a/edits/a__{it}.edit": edit("one(", "two(") for it in ("one", "two", "three", "four", "five")}
    files |= {f"crates/reg_b/edits/b__{it}.edit": edit("one(", "two(") for it in ("one", "two")}
    files["crates/reg_a/must-fail/a__must.edit"] = edit("one(", "two(")
    top = tree(t, "edits.py", files)
    t.tool("git", "init", "-q", top)
    put(t.room / "bin/rt", RT, 0o755)
    env = {**os.environ, "PATH": f"{t.room / 'bin'}:{os.environ['PATH']}", "CALLS": str(t.room / "calls")}
    env |= {"ACCEPTED": accepted, "STATUS": str(status)}
    trial = lambda *words: told(t, top, "tools/edits.py", *words, env=env)
    tried = lambda lines: sorted(it.split()[2].rstrip(":") for it in lines if it.startswith("rt: "))
    came, lines = trial("reg_a")
    t.same((came, [it for it in lines if not it.startswith("rt: ")]), (int(bool(wanted)), wanted))
    t.same(tried(lines), sorted(f"reg_a/a__{it}.edit" for it in ("one", "two", "three", "four", "five", "must")), "the edits of a crate")
    t.same((t.room / "calls").read_text(), "must-fail reg_a\n", "the words of rt")
    if accepted:
        return
    # The gate's sample: up to four edits of a crate that builds, with those that it uses, within 1,200 seconds. Each commit selects its own.
    samples = {}
    for commit in range(12):
        came, lines = trial("--some", str(commit))
        t.same((came, [it for it in lines if not it.startswith("rt: ")]), (int(bool(wanted)), wanted), f"the sample of commit {commit}")
        samples[commit] = tried(lines)
    crates = {it[0].split("/")[0] for it in samples.values()}
    t.same((crates, {len(it) for it in samples.values()}), ({"reg_a"}, {4}), f"crates and numbers of edits in {samples}")
    t.true(len({tuple(it) for it in samples.values()}) > 3, f"few samples differ: {samples}")
    t.same((t.room / "calls").read_text(), "ci\n", "the words of rt")
    t.same((t.room / "calls.crates").read_text().split("\n"), ["reg_a: reg_c sha1", "reg_c:", "reg_a", "reg_c", ""], "the crates that rt gets")


PAGE = """# Names

| Written | Means | Used by |
|---|---|---|
| `ℕ` | a number | `main_law` |
| `n + m` | a sum | `long` |
"""
SPECS = """use Rattle.std.specs.Prelude.{ℕ, ◌+◌}

abbrev pub helper : ℕ → ℕ
helper n = n + 1

abbrev pub main_law : ℕ
main_law = helper 2

abbrev pub long : ℕ
long =
""" + "    1 +\n" * 892 + "    1\n"
STATEMENT = {"docs/MODEL.md": PAGE, "docs/statement.txt": "# 1. Part\nreg_a A helper main_law long\n", "crates/reg_a/specs/A.antt": SPECS}
UNKNOWN = "reg_a A.{}: {} of std Prelude is neither printed nor in docs/MODEL.md"
# A file, what is replaced in it, and what is wrong then.
MISSTATED = {
    "nothing": ("docs/MODEL.md", "# Names", "# Names of it"),
    "a name that is explained nowhere": ("docs/MODEL.md", "`ℕ`", "`Nat`", *(UNKNOWN.format(it, "ℕ") for it in ("helper", "main_law", "long"))),
    "an operator that is explained nowhere": ("docs/MODEL.md", "`n + m`", "`n m`", *(UNKNOWN.format(it, "◌+◌") for it in ("helper", "long"))),
    "a definition that nothing uses": ("docs/MODEL.md", "`main_law`", "`other_law`", "reg_a A.main_law: no other definition uses it"),
    "a definition that is left out": ("docs/statement.txt", "helper ", "",
                                      "reg_a A.main_law: helper of reg_a A is neither printed nor in docs/MODEL.md"),
    "a definition that there is not": ("docs/statement.txt", "helper", "helpers helper", "no helpers in reg_a A"),
    "901 lines": ("crates/reg_a/specs/A.antt", "long =\n", "long =\n    1 +\n", "the statement has 901 lines of definitions, and 900 are allowed"),
}


@each(MISSTATED)
def a_statement(t, path, was, now, *wanted):
    """It has 900 lines of definitions."""
    top = tree(t, "statement.py", STATEMENT)
    change(top / path, (was, now))
    t.same(told(t, top, "tools/statement.py", "--check"), (int(bool(wanted)), list(wanted)))


@test(seconds=8)
def the_call_paths_of_the_page(t):
    """The functions of the first two call paths in docs/ARCHITECTURE.md, of which some have the same name, are on a path of so many calls."""
    page = (TOP / "docs/ARCHITECTURE.md").read_text(encoding="utf-8")
    paths = re.findall(r"^\*\*.*: (\d+) calls\*\*\n\n\| Calls \|.*\n\|---.*\n((?:\|.*\n)+)", page, re.MULTILINE)
    t.same(len(paths), 2, "paths")
    names, first = [], []
    for count, rows in paths:
        cells = "".join(row.split(" | ")[0] for row in rows.splitlines())
        names = [name for part in re.findall(r"\(((?:`[a-z_0-9]+`(?:, )?)+)\)", cells) for name in re.findall(r"\w+", part)]
        # The second path begins like the first one.
        if names[0] != "main":
            names = [*first[: first.index(names[0])], *names]
        first = first or names
        ran = t.tool(TOP / "tools/calls.py", "--path", *names[1:], timeout=program.LONGEST * program.PATIENCE).decode().splitlines()
        t.same([it.split()[-1] for it in ran[:-1]], names, "the functions that tools/calls.py prints")
        t.same(len(ran) - 2, int(count), "calls")


@test
def no_call_path(t):
    """Each name is that of one more function: `b` calls no other `b`."""
    code = "pub fn main() {\n    a(1)\n}\n\nfn a(n: u8) {\n    b(n)\n}\n\nfn b(n: u8) {\n    c(n)\n}\n\nfn c(n: u8) {\n    n;\n}\n"
    top = tree(t, "calls.py", {"crates/reg_desk/src/main.rt": code})
    path = lambda *names: told(t, top, "tools/calls.py", "--path", *names)
    t.same(path("c"), (0, ["reg_desk main.rt:1 main", "reg_desk main.rt:5 a", "reg_desk main.rt:9 b", "reg_desk main.rt:13 c", "4 functions"]))
    for names in (("b", "b"), ("c", "b"), ("d",)):
        t.same(path(*names), (1, [f"no path has {' '.join(names)}"]), f"a path through {names}")
