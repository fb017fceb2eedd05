#!/usr/bin/env python3
"""Tries edits: wrong function bodies that the prover must refuse. They are the files of crates/CRATE/must-fail/ and crates/CRATE/edits/.

Usage: tools/edits.py CRATE ..        tries all edits of these crates with `rt must-fail`
       tools/edits.py --check         proves nothing: checks that each edit applies, the form of its name, and how many edits there are
       tools/edits.py --some COMMIT   tries a sample of edits/ with `rt ci`, as the gate does; the hash of COMMIT selects it

The exit status is 1 if an edit is not refused, does not apply or was not tried, if rt fails, or if --check finds too many edits. rt runs in
a temporary copy of the crates as they stand in the working tree. `rt must-fail` reuses the proofs that `rt check` kept, so check the crate first.

--some proves the crate of the sample and those that it uses once more, or takes their proofs from an earlier `rt ci` if the toolchain keeps them.
The sample has up to four edits of one crate that builds, with those that it uses, within 1,200 seconds (tools/build-times.txt). Only you try
those of others.
"""
import hashlib
import re
import shutil
import subprocess
import sys
import tempfile
from pathlib import Path

TOP = Path(__file__).resolve().parent.parent
RT = shutil.which("rt") or "/opt/rattle/bin/rt"
# rt tries only the edits of the first folder.
GATE, OTHERS = "must-fail", "edits"
MOST, MOST_AT_GATE, MOST_CRATES_AT_GATE = 120, 16, 3
MOST_IN_SAMPLE, MOST_SECONDS_OF_SAMPLE = 4, 1200
NAME = re.compile(r"[a-z0-9_]+__[a-z0-9_]+\.edit")
REFUSED = re.compile(r"rt: must-fail (\w+/\w+\.edit): refused")


def edits_in(*folders):
    return sorted(it for folder in folders for it in TOP.glob(f"crates/*/{folder}/*") if it.suffix != ".md")


def crate_of(edit):
    return edit.parent.parent


def fault_of(edit):
    """Returns why an edit can't be tried, or None."""
    if not NAME.fullmatch(edit.name) or len([*crate_of(edit).glob(f"*/{edit.name}")]) > 1:
        return "its name must have the form FUNCTION__MISTAKE.edit, and no other edit of the crate may have it"
    text, old = "", ""
    for line in edit.read_text(encoding="utf-8").split("\n"):
        if line.startswith("file: "):
            path = crate_of(edit) / line.removeprefix("file: ").strip()
            text = path.read_text(encoding="utf-8") if path.is_file() else ""
        elif line.startswith("old: "):
            old = line.removeprefix("old: ")
        elif line.startswith("new:"):
            new = line.removeprefix("new:").removeprefix(" ")
            if not old or text.count(old) != 1 or new == old:
                return f"its 'old:' text must be in the file exactly once, and its 'new:' text must differ: {old.strip()}"
            text = text.replace(old, new)
    return None if old else "it has no 'old:' line"


def limits_exceeded():
    gate, every = edits_in(GATE), edits_in(GATE, OTHERS)
    if len(gate) > MOST_AT_GATE or len({crate_of(it) for it in gate}) > MOST_CRATES_AT_GATE:
        yield f"{GATE}/ may have {MOST_AT_GATE} edits in {MOST_CRATES_AT_GATE} crates: move some to {OTHERS}/"
    if len(every) > MOST:
        yield f"there are {len(every)} edits, and {MOST} are allowed: remove those whose mistake another edit has"


def crates_below(names):
    """Returns these crates and all that they use, each with its line of crates.txt."""
    lines = re.findall(r"^((\w+):.*)$", (TOP / "crates.txt").read_text(encoding="utf-8"), re.MULTILINE)
    uses, left, found = {name: line for line, name in lines}, [*names], {}
    while left:
        name = left.pop()
        if name in uses and name not in found:
            found[name] = uses[name]
            left += uses[name].split()[1:]
    return found


def sample_of(commit):
    """Returns some edits of one small crate, which the hash of the commit selects."""
    times = dict(re.findall(r"^(\w+) (\d+)$", (TOP / "tools/build-times.txt").read_text(encoding="utf-8"), re.MULTILINE))
    small = {crate for crate in times if sum(int(times[it]) for it in crates_below({crate}) if it in times) <= MOST_SECONDS_OF_SAMPLE}
    chance = lambda it: hashlib.sha256(f"{commit} {it.relative_to(TOP)}".encode()).digest()
    found = sorted((it for it in edits_in(OTHERS) if crate_of(it).name in small), key=chance)
    return [it for it in found if crate_of(it) == crate_of(found[0])][:MOST_IN_SAMPLE]


def copy_crates(room, edits):
    """Copies what git tracks or would add of the crates of these edits and those that they use, with only these edits, all of them in must-fail/."""
    listing = ["git", "ls-files", "--cached", "--others", "--exclude-standard", "crates", "HANDLES"]
    names = subprocess.check_output(listing, cwd=TOP, text=True).split("\n")
    crates = crates_below({crate_of(it).name for it in edits})
    is_left_out = lambda parts: parts[0] == "crates" and (parts[1] not in crates or parts[2] in (GATE, OTHERS))
    targets = {TOP / it: room / it for it in names if (TOP / it).is_file() and not is_left_out(it.split("/"))}
    targets.update({it: room / "crates" / crate_of(it).name / GATE / it.name for it in edits})
    for path, target in targets.items():
        target.parent.mkdir(parents=True, exist_ok=True)
        shutil.copyfile(path, target)
    (room / "crates.txt").write_text("".join(f"{line}\n" for line in crates.values()), encoding="utf-8")
    # rt takes the folder that has .git for the top of the repository.
    (room / ".git").mkdir()


def try_edits(edits, command):
    """Runs rt over a copy, and returns a line for each edit that was not refused, and one if rt failed."""
    left = {f"{crate_of(it).name}/{it.name}" for it in edits}
    with tempfile.TemporaryDirectory(prefix="desk-edits-") as room:
        copy_crates(Path(room), edits)
        with subprocess.Popen([RT, *command], cwd=room, stdout=subprocess.PIPE, stderr=subprocess.STDOUT, text=True) as ran:
            for line in ran.stdout:
                print(line, end="", flush=True)
                left -= {*REFUSED.findall(line)}
    return [f"{it} was not refused" for it in sorted(left)] + [f"rt ended with status {ran.returncode}"] * bool(ran.returncode)


def main(words):
    edits, command = edits_in(GATE, OTHERS), ["must-fail", *words]
    if len(words) == 2 and words[0] == "--some":
        edits, command = sample_of(words[1]), ["ci"]
    elif words != ["--check"]:
        edits = [it for it in edits if crate_of(it).name in words]
    if not edits:
        sys.exit(__doc__)
    faults = [f"{it.relative_to(TOP)}: {fault_of(it)}" for it in edits if fault_of(it)]
    if words == ["--check"]:
        faults += limits_exceeded()
    else:
        faults = faults or try_edits(edits, command)
    for it in faults:
        print(f"edits: {it}")
    return 1 if faults else 0


if __name__ == "__main__":
    sys.exit(main(sys.argv[1:]))
