"""`./desk` in a small repository of its own, with shell scripts in place of the toolchain. It runs the unproved program, which it keeps, or builds
the proved one. Both programs are scripts that print which one they are, and their words."""

import os
import shutil
import stat
import subprocess

from lib import program
from lib.trial import each, test

UNPROVED = "nothing was proved"
# The stub scripts of the toolchain. `tries` has a line for each run of `rt try`; a file `no-bitcode` or `broken` beside them changes what it does.
RT = """
case $1 in
version) cat "$kit/version" ;;
try)
    echo "$*" >>"$kit/tries"
    [ ! -e "$kit/broken" ] || { echo 'error: no such name'; exit 1; }
    if [ "$*" = 'try -- --version' ]; then
        [ ! -e "$kit/no-bitcode" ] || exit 0
        mkdir "$TMPDIR/room"
        echo bitcode >"$TMPDIR/room/module.bc"
        : >"$TMPDIR/room/module.o"
        exec sleep 60
    fi
    echo "tried $*"
    exit 7
    ;;
esac
"""
LAST = 'for it; do [ "${was:-}" != -o ] || made=$it; was=$it; done\n'
CLANG = LAST + 'grep -q bitcode "$kit"/../top/out/*/whole.bc && echo code >"$made"\n'
LINK = LAST + """
cat >"$made" <<'END'
#!/bin/sh
case $* in
--version) echo 'desk 0' ;;
*) echo unproved "$@" ;;
esac
END
chmod +x "$made"
"""
# A stub of tools/build.py, which records its command line.
BUILD = """#!/bin/sh
echo "build $*" >>"$(dirname "$0")/../ran"
made=$(dirname "$0")/../crates/reg_desk/out
mkdir -p "$made"
printf '#!/bin/sh\\necho proved "$@"\\n' >"$made/reg_desk"
chmod +x "$made/reg_desk"
"""


def put(path, text, is_program=False):
    path.parent.mkdir(parents=True, exist_ok=True)
    path.write_text(text)
    if is_program:
        path.chmod(path.stat().st_mode | stat.S_IXUSR | stat.S_IXGRP | stat.S_IXOTH)


class Repository:
    """The folder `top` with the launcher and two sources, and the folder `kit` with a toolchain."""

    def __init__(self, t):
        self.t, self.top, self.kit = t, t.room / "top", t.room / "kit"
        for it in ("desk", "tools/look.py", "tools/current.sh", "tools/large-pages.sh"):
            (self.top / it).parent.mkdir(parents=True, exist_ok=True)
            shutil.copy2(program.TOP / it, self.top / it)
        put(self.top / "tools/build.py", BUILD, is_program=True)
        put(self.top / "tools/trim.py", '#!/bin/sh\necho "trim $*" >>"$(dirname "$0")/../ran"\n', is_program=True)
        put(self.top / "crates.txt", "reg_desk:\n")
        put(self.top / "crates/reg_desk/src/main.rt", "fn main() {}\n")
        put(self.top / "crates/reg_desk/proofs/main.antt", "-- a proof\n")
        put(self.kit / "version", "kit 1\n")
        for name, does in (("bin/rt", RT), ("bin/rattle-link", LINK), ("toolchain/bin/clang", CLANG)):
            put(self.kit / name, f"#!/bin/sh\nkit={self.kit}\n{does}", is_program=True)
        self.env = {**os.environ, "PATH": f"{self.kit}/bin:{os.environ['PATH']}"}
        for it in ("DESK", "DESK_PATIENCE", "LD_PRELOAD"):
            self.env.pop(it, None)

    def run(self, *words):
        """The status, standard output, and standard error."""
        ran = self.t.tried(*words, env=self.env)
        return ran.returncode, ran.stdout.decode(), ran.stderr.decode()

    def desk(self, *words):
        return self.run(self.top / "desk", *words)

    def builds(self):
        """How many unproved programs were built."""
        tries = self.kit / "tries"
        return tries.read_text().splitlines().count("try -- --version") if tries.exists() else 0

    def looks(self, words, builds):
        """Checks that ./desk runs the unproved program with these words and says so, and that this many unproved programs were built by then."""
        status, out, err = self.desk(*words)
        self.t.same((status, out), (0, f"unproved {' '.join(words)}\n"), "status and standard output")
        self.t.has(err, UNPROVED, "standard error")
        self.t.same(self.builds(), builds, "unproved programs that were built")


@test(seconds=3)
def a_look_is_built_once_and_kept(t):
    it = Repository(t)
    status, out, err = it.desk("look")
    t.same((status, out, it.builds()), (0, "", 1), "status, standard output and builds")
    t.has(err, UNPROVED)
    t.same(sorted(path.name for path in (it.top / "out").iterdir()), ["desk-unproved", "desk-unproved.stamp"], "what is kept")
    it.looks(["script"], 1)
    it.looks(["script"], 1)
    t.same(it.desk("look")[0], 0)
    t.same(it.builds(), 1, "unproved programs that were built")


@test(seconds=2)
def a_first_script_keeps_its_look(t):
    it = Repository(t)
    it.looks(["script"], 1)
    it.looks(["--help"], 1)


# Each row is a command line.
LOOKS = (
    ("--help",), ("-h",), ("-V",), ("script",), ("script", "--why"), ("--why", "script"), ("script", "--strict", "--clock"), ("init", "--help"),
    ("key-id", "-h"), ("--why", "audit", "--help"),
)  # fmt: skip
OTHERS = (
    (), ("script", "ca.db"), ("script", "ca"), ("script", "--clock", "ca.db"), ("script", "--", "ca.db"), ("script", "--", "--help"), ("script", ""),
    ("script", "ca.db", "--help"), ("script", "/ca.db", "-V"), ("ca.db", "--help"), ("script", "--signer=ca.sign"), ("script", "-"), ("--why", "audit", "ca.db"),
    ("init", "ca.db", "--name", "--help"), ("import", "ca.db", "--now", "-h"), ("crl", "ca.db"), ("serve", "ca.db", "--port", "8080", "--requests", "1"),
    ("open", "ca.db", "--port=8080", "--control=ca.control", "--unsigned"), ("at", "ca.control"), ("schedule", "ca.db", "1970-01-01T00:00:00Z=398"),
    ("key-id", "ca.db", "00"), ("list", "ca.db", "revoked"), ("copy", "ca.db", "ca.copy"), ("audit", "ca.db"), ("look", "ca.db"),
)  # fmt: skip


@test(seconds=4)
def words_that_touch_no_file_are_run_unproved(t):
    it = Repository(t)
    for words in LOOKS:
        it.looks(words, 1)


@test(seconds=3)
def words_that_might_name_a_file_wait_for_the_proved_program(t):
    it = Repository(t)
    it.looks(["script"], 1)
    for words in OTHERS:
        (it.top / "crates/reg_desk/out/reg_desk").unlink(missing_ok=True)
        status, out, err = it.desk(*words)
        t.same((status, out), (0, " ".join(["proved", *words]) + "\n"), f"status and standard output of {words}")
        t.true(UNPROVED not in err, f"standard error of {words} says that the program is unproved: {err!r}")
    t.same(it.builds(), 1, "unproved programs that were built")


@test(seconds=2)
def a_proved_program_is_taken_first(t):
    it = Repository(t)
    it.looks(["script"], 1)
    t.same(it.desk("build")[0], 0)
    t.same(it.desk("script"), (0, "proved script\n", ""), "status, standard output and standard error")
    later = (it.top / "crates/reg_desk/out/reg_desk").stat().st_mtime + 10
    os.utime(it.top / "crates/reg_desk/proofs/main.antt", (later, later))
    it.looks(["script"], 1)


@each({
    "crates.txt": ("crates.txt", True), "a proof": ("crates/reg_desk/proofs/main.antt", True), "a page of a crate": ("crates/reg_desk/README.md", False),
    "a wrong body that the prover refuses": ("crates/reg_desk/edits/main.rt", False), "another one": ("crates/reg_desk/must-fail/main.rt", False),
}, seconds=1)  # fmt: skip
def what_changes_before_the_program_is_built_again(t, path, is_built):
    """A page, and the wrong bodies that the prover must refuse, are no part of the program: a change of one doesn't start a build of an hour."""
    it = Repository(t)
    t.same(it.desk("build")[0], 0)
    (it.top / "ran").unlink()
    later = (it.top / "crates/reg_desk/out/reg_desk").stat().st_mtime + 10
    put(it.top / path, (it.top / path).read_text() if (it.top / path).exists() else "")
    os.utime(it.top / path, (later, later))
    t.same(it.desk("script", "ca.db")[:2], (0, "proved script ca.db\n"), "status and standard output")
    t.same((it.top / "ran").exists(), is_built, "whether a build was started")


@each({"script ca.db": "script ca.db", "build": "build", "build --keep": "build --keep"})
def after_a_failed_build_no_older_program_is_run(t, words):
    """The status is that of the failed build. The older program doesn't count as current afterwards."""
    it = Repository(t)
    t.same(it.desk("build")[0], 0)
    put(it.top / "tools/build.py", '#!/bin/sh\necho "build $*" >>"$(dirname "$0")/../ran"\nexit 126\n', is_program=True)
    os.utime(it.top / "crates/reg_desk/out/reg_desk", (1, 1))
    (it.top / "ran").unlink()
    for _ in range(2):
        t.same(it.desk(*words.split())[:2], (126, ""), "status and standard output")
    t.same((it.top / "ran").read_text().splitlines(), [BUILDS[words][0]] * 2, "what was run")
    t.same((it.top / "crates/reg_desk/out/reg_desk").stat().st_mtime, 1, "the moment of the older program's last change")


# The words of ./desk, and what it runs for them.
BUILDS = {"build": ["build --lean", "trim "], "build --keep": ["build "], "script ca.db": ["build --lean", "trim "]}


@each({words: words for words in BUILDS}, seconds=1)
def a_build_is_trimmed_unless_it_is_to_be_kept(t, words):
    it = Repository(t)
    ran = lambda: (it.top / "ran").read_text().splitlines()
    t.same(it.desk(*words.split())[0], 0, "status")
    t.same(ran(), BUILDS[words], "what was run")
    for again in ("build", "build --keep"):
        t.same(it.desk(*again.split())[:2], (0, ""), f"status and standard output of {again} after no change")
    t.same(ran(), BUILDS[words], "what was run, including two builds after no change")


@test
def a_build_takes_none_of_the_input_and_prints_nothing_among_the_replies(t):
    it = Repository(t)
    build = BUILD.replace("#!/bin/sh\n", "#!/bin/sh\ncat >/dev/null\necho building\n", 1).replace('echo proved "$@"', "cat")
    put(it.top / "tools/build.py", build, is_program=True)
    ran = t.tried(it.top / "desk", "script", "ca.db", given=b"a line\n", env=it.env)
    t.same((ran.returncode, ran.stdout), (0, b"a line\n"), "status, and the input that the program got")
    t.has(ran.stderr, b"building", "standard error")


@test
def a_build_that_finds_nothing_to_do_is_tried_once(t):
    """After an edit of a comment, for example, the program stays older than its source."""
    it = Repository(t)
    t.same(it.desk("build")[0], 0)
    put(it.top / "tools/build.py", '#!/bin/sh\necho "build $*" >>"$(dirname "$0")/../ran"\n', is_program=True)
    os.utime(it.top / "crates/reg_desk/out/reg_desk", (1, 1))
    (it.top / "ran").unlink()
    for _ in range(2):
        t.same(it.desk("script", "ca.db")[:2], (0, "proved script ca.db\n"), "status and standard output")
    t.same((it.top / "ran").read_text().splitlines(), BUILDS["script ca.db"], "what was run")


@test
def a_link_to_the_launcher_runs_the_program_of_its_repository(t):
    it = Repository(t)
    t.same(it.desk("build")[0], 0)
    (t.room / "bin").mkdir()
    (t.room / "bin/desk").symlink_to(it.top / "desk")
    t.same(it.run(t.room / "bin/desk", "script", "ca.db"), (0, "proved script ca.db\n", ""), "status, standard output and standard error")


@test
def a_signal_to_the_launcher_reaches_the_program(t):
    """The launcher's process becomes the program, so whoever started ./desk can end the desk by it."""
    it = Repository(t)
    put(it.top / "crates/reg_desk/out/reg_desk", "#!/bin/sh\necho $$\n", is_program=True)
    process = subprocess.Popen([it.top / "desk", "script", "ca.db"], stdout=subprocess.PIPE, env=it.env)
    t.same(process.communicate(timeout=program.LONGEST)[0].decode(), f"{process.pid}\n", "the number of the program's process")


@test
def the_program_runs_under_the_name_desk(t):
    """Its help begins with the name by which it was started, and so does its line in ps(1). Here a shell that prints its name is in place of it."""
    it = Repository(t)
    made = it.top / "crates/reg_desk/out/reg_desk"
    made.parent.mkdir(parents=True)
    shutil.copy(os.path.realpath("/bin/sh"), made)
    t.same(it.desk("-c", 'echo "$0"'), (0, "desk\n", ""), "status, standard output and standard error")


@test
def tunables_that_are_set_already_come_behind_that_of_large_pages(t):
    it = Repository(t)
    put(it.top / "crates/reg_desk/out/reg_desk", '#!/bin/sh\necho "$GLIBC_TUNABLES"\n', is_program=True)
    it.env.pop("GLIBC_TUNABLES", None)
    t.same(it.desk("script", "ca.db"), (0, "glibc.malloc.hugetlb=1\n", ""), "none are set")
    it.env["GLIBC_TUNABLES"] = "glibc.malloc.arena_max=1"
    t.same(it.desk("script", "ca.db"), (0, "glibc.malloc.hugetlb=1:glibc.malloc.arena_max=1\n", ""), "one is set")


@test
def the_words_of_a_build(t):
    it = Repository(t)
    status, out, _ = it.desk("build", "--help")
    t.same((status, "--keep" in out), (0, True), "status, and whether the help names --keep")
    for words in (("build", "--kept"), ("build", "reg_core"), ("build", "--keep", "--keep")):
        t.same(it.desk(*words), (2, "", "usage: ./desk build [--keep]\n"), f"status, standard output and standard error of {words}")
    t.true(not (it.top / "ran").exists(), "something was built")


MB = 1_000_000
# A repository's crates, the crates that each uses, and how many megabytes a build leaves of each one's library, its proofs and all else. `office` comes first in
# crates.txt, whose order is free.
MADE = {"office": ("store", 0.9, 3, 0), "core": ("", 0.3, 1, 0), "laws": ("core", 0.2, 0.5, 0), "store": ("core laws", 0.8, 2, 0.1), "reg_desk": ("office", 0, 1, 0.4)}


def made_up(t):
    """A repository with a crates.txt, and with folders out/ such as rt leaves."""
    top = t.room / "made"
    for name in ("trim.py", "build.py", "build-times.txt"):
        (top / "tools").mkdir(parents=True, exist_ok=True)
        shutil.copy2(program.TOP / "tools" / name, top / "tools" / name)
    fill = lambda path, much: put(path, "x" * int(much * MB)) if much else None
    put(top / "crates.txt", "# crates\n" + "".join(f"{name}: {uses}\n" for name, (uses, *_) in MADE.items()))
    for name, (_, library, proofs, rest) in MADE.items():
        out = top / "crates" / name / "out"
        put(top / "crates" / name / f"src/{'main' if name == 'reg_desk' else 'lib'}.rt", "fn it() {}\n")
        fill(out / f"rlib/{name}.rlib/toolchain/checked.a", library)
        if library:
            put(out / f"rlib/{name}.rlib/format", "1\n")
            put(out / "rlib/stamp", f"stamp of {name}")
        fill(out / f"incremental/antt-checked-81/Rattle-{name}-proofs.it.oantt", proofs)
        fill(out / "reg_desk.o", rest)
    # A crate that an older checkout had.
    fill(top / "crates/gone/out/rlib/gone.rlib/toolchain/checked.a", 0.5)
    put(top / "crates/reg_desk/out/reg_desk", "#!/bin/sh\necho proved\n", is_program=True)
    put(top / "crates/reg_desk/out/reg_desk.stamp", "stamp")
    return top


def left_of(top):
    return sorted(str(it.relative_to(top / "crates")) for it in top.glob("crates/*/out/*"))


PROGRAM = ["reg_desk/out/reg_desk", "reg_desk/out/reg_desk.stamp"]
# The megabytes that trim.py may keep, and the crates whose libraries it keeps. If a library does not fit, it keeps none that depends on it.
LIMITS = {"2000": ["core", "laws", "office", "store"], "1.5": ["core", "laws", "store"], "1.2": ["core", "laws"], "0.4": ["core"], "0": []}


@each({limit: limit for limit in LIMITS}, seconds=1)
def what_a_trim_leaves(t, limit):
    top = made_up(t)
    sources = {it: it.read_bytes() for it in top.glob("crates/*/src/*")}
    ran = t.tried(top / "tools/trim.py", *([] if limit == "2000" else [str(int(float(limit) * MB))]))
    t.same((ran.returncode, ran.stdout), (0, b""), "status and standard output")
    t.has(ran.stderr, b"GB kept", "standard error")
    t.same(left_of(top), sorted([*PROGRAM, *(f"{name}/out/rlib" for name in LIMITS[limit])]), "what is left")
    t.same([(top / f"crates/{name}/out/rlib/stamp").read_text() for name in LIMITS[limit]], [f"stamp of {name}" for name in LIMITS[limit]], "stamps of the libraries")
    t.same(t.tool(top / "crates/reg_desk/out/reg_desk"), b"proved\n", "the program runs")
    t.same({it: it.read_bytes() for it in top.glob("crates/*/src/*")}, sources, "the sources")
    t.same(sorted(it.name for it in (top / "tools").iterdir()), ["build-times.txt", "build.py", "trim.py"], "the files in tools/")


@test
def a_trim_with_nothing_built(t):
    top = made_up(t)
    for it in top.glob("crates/*/out"):
        shutil.rmtree(it)
    t.tool(top / "tools/trim.py")
    t.same(left_of(top), [])


# A stub of rt, which makes a library or the program, and all files that rt leaves beside them.
MAKES = """
name=$(basename "$PWD")
case $1 in
lib)
    mkdir -p "out/rlib/$name.rlib" out/incremental
    echo stamp >out/rlib/stamp
    ;;
run)
    mkdir -p out/incremental
    printf '#!/bin/sh\\necho proved "$@"\\n' >out/reg_desk
    chmod +x out/reg_desk
    touch out/reg_desk.stamp out/reg_desk.o
    ;;
esac
"""
LIBRARIES = ["reg_core/out/rlib", "reg_store/out/rlib"]
WORK = ["reg_core/out/incremental", "reg_desk/out/incremental", "reg_desk/out/reg_desk.o", "reg_store/out/incremental"]


@each({"build": ("build", LIBRARIES), "build --keep": ("build --keep", [*LIBRARIES, *WORK])}, seconds=2)
def what_a_build_leaves(t, words, stays):
    it = Repository(t)
    for name in ("build.py", "trim.py", "build-times.txt"):
        shutil.copy2(program.TOP / "tools" / name, it.top / "tools" / name)
    put(it.top / "crates.txt", "reg_desk: reg_store\nreg_store: reg_core\nreg_core:\n")
    for name in ("reg_store", "reg_core"):
        put(it.top / f"crates/{name}/src/lib.rt", "fn it() {}\n")
    put(it.kit / "bin/rt", f"#!/bin/sh\n{MAKES}", is_program=True)
    t.same(it.desk(*words.split())[:2], (0, ""), "status and standard output")
    t.same(left_of(it.top), sorted([*PROGRAM, *stays]), "what is left")
    t.same(it.desk("script", "ca.db"), (0, "proved script ca.db\n", ""), "the program runs, and is not built again")


# A stub of rt, which makes a library or the program, if the libraries that its crate uses are there. It fails for the crate that FAILS names.
NEEDS = """#!/bin/sh
name=$(basename "$PWD")
echo "$name" >>"$CALLS"
for it in $(sed -n "s/^$name: *//p" ../../crates.txt); do
    [ -e "../$it/out/rlib/stamp" ] || { echo "no library $it"; exit 1; }
done
[ "$name" != reg_slow ] || sleep 1
case $FAILS in "$name fails") echo "not proved"; exit 1 ;; "$name is killed") kill -9 $$ ;; esac
mkdir -p out/rlib && echo "stamp of $name" >out/rlib/stamp
"""
# The crates, some of which wait for two others.
DIAMOND = {"reg_core": "", "reg_slow": "reg_core", "reg_quick": "reg_core", "reg_both": "reg_slow reg_quick", "reg_desk": "reg_both reg_quick"}


@each({"each crate is proved": ("", []), "a crate is not proved": ("reg_slow fails", ["reg_both", "reg_desk"]),
       "rt is killed, as if memory is short": ("reg_slow is killed", ["reg_both", "reg_desk"]),
       "the first crate is not proved": ("reg_core fails", ["reg_both", "reg_desk", "reg_quick", "reg_slow"])}, seconds=3)
def a_crate_is_built_after_those_that_it_uses(t, fails, left):
    """Each crate is built once. A crate that can't be built ends the build with status 126 and the output of rt, and the earlier library stays."""
    top = t.room / "top"
    put(top / "crates.txt", "".join(f"{name}: {uses}\n" for name, uses in reversed(DIAMOND.items())))
    for name in DIAMOND:
        put(top / f"crates/{name}/src/{'main' if name == 'reg_desk' else 'lib'}.rt", "fn it() {}\n")
    put(top / "crates/reg_slow/out/rlib/stamp", "an earlier one\n")
    (top / "tools").mkdir()
    shutil.copy2(program.TOP / "tools/build.py", top / "tools")
    put(t.room / "bin/rt", NEEDS, is_program=True)
    env = {**os.environ, "PATH": f"{t.room / 'bin'}:{os.environ['PATH']}", "CALLS": str(t.room / "calls"), "FAILS": fails}
    ran = t.tried(top / "tools/build.py", env=env)
    t.same(sorted((t.room / "calls").read_text().split()), sorted(it for it in DIAMOND if it not in left), "the crates that rt was started for")
    t.same((ran.returncode, ran.stdout), (126 if fails else 0, b""), f"status and standard output; standard error is {ran.stderr!r}")
    if fails:
        name, how = fails.split(" ", 1)
        t.has(ran.stderr.decode(), f"desk: {name} could not be built:\n{'not proved' if how == 'fails' else ''}")
    wanted = "an earlier one\n" if fails else "stamp of reg_slow\n"
    t.same((top / "crates/reg_slow/out/rlib/stamp").read_text(), wanted, "the library")


@test(seconds=4)
def a_changed_source_or_toolchain_is_built_anew(t):
    it = Repository(t)
    it.looks(["script"], 1)
    put(it.top / "crates/reg_desk/proofs/main.antt", "-- another proof\n")
    it.looks(["script"], 1)
    put(it.top / "crates/reg_desk/src/main.rt", "fn main() { }\n")
    it.looks(["script"], 2)
    put(it.kit / "version", "kit 2\n")
    it.looks(["script"], 3)
    put(it.top / "crates.txt", "reg_desk: std\n")
    it.looks(["script"], 4)
    (it.top / "out/desk-unproved").unlink()
    it.looks(["script"], 5)


@each({
    "rt try leaves no bitcode": (lambda kit: put(kit / "no-bitcode", ""), "rt try leaves no bitcode"),
    "there is no clang": (lambda kit: (kit / "toolchain/bin/clang").unlink(), "clang does not start"),
    "clang takes other options": (lambda kit: put(kit / "toolchain/bin/clang", "#!/bin/sh\necho unknown option\nexit 1\n"), "unknown option"),
    "the program does not start": (lambda kit: put(kit / "bin/rattle-link", "#!/bin/sh\nfor made; do [ \"$was\" != -o ] || : >\"$made\"; was=$made; done\n"), "does not start"),
}, seconds=3)  # fmt: skip
def another_toolchain_leaves_rt_try(t, change, why):
    it = Repository(t)
    change(it.kit)
    for _ in range(2):
        status, out, err = it.desk("script", "--why")
        t.same((status, out), (7, "tried try -- script --why\n"), "status and standard output, which are those of rt try")
        t.has(err, why, "the reason")
        t.has(err, UNPROVED)
    t.same(list((it.top / "out").iterdir()), [], "what is kept")
    t.same(it.desk("look")[:2], (3, ""), "status and standard output of ./desk look")


@test
def a_program_that_does_not_compile_is_reported_once(t):
    it = Repository(t)
    put(it.kit / "broken", "")
    status, out, err = it.desk("script")
    t.same((status, out, it.builds()), (126, "", 1), "status, standard output and builds")
    t.has(err, "error: no such name")


@test(seconds=5)
def the_tests_take_the_unproved_program_and_say_so(t):
    it = Repository(t)
    tests = it.top / "tests"
    for name in ("run", "faults.c"):
        (tests / name).parent.mkdir(exist_ok=True)
        shutil.copy2(program.TESTS / name, tests / name)
    shutil.copytree(program.TESTS / "lib", tests / "lib", ignore=shutil.ignore_patterns("__pycache__"))
    for name in ("groups", "desk"):
        (tests / name).mkdir()
    put(tests / "cases/one.args", "script\n")
    put(tests / "cases/one", "")
    put(tests / "cases/one.stdout", "unproved script\n")
    status, out, err = it.run(tests / "run", "--proved")
    t.same((status, out, it.builds()), (1, "", 0), "status, standard output and builds with --proved, without a proved program")
    t.has(err, "not built")
    status, out, _ = it.run(tests / "run")
    t.same((status, out.splitlines()[-1], it.builds()), (0, "1 passed, 0 failed, 0 skipped", 1), "status, last line and builds")
    t.true(out.splitlines()[-2].endswith("; the program that was tested is unproved"), f"nothing says that the program is unproved: {out!r}")
    put(tests / "cases/one.stdout", "proved script\n")
    t.same(it.desk("build")[0], 0)
    for words in ((), ("--proved",)):
        status, out, _ = it.run(tests / "run", *words)
        t.same((status, out.splitlines()[-1]), (0, "1 passed, 0 failed, 0 skipped"), "status and last line")
        t.true("unproved" not in out, f"the proved program is called unproved: {out!r}")


@test
def the_version_names_the_commit_and_whether_sources_changed_since(t):
    it = Repository(t)
    put(it.top / "crates/reg_desk_cli/src/desk.rt", 'const VERSION: &str = "1.2";\n')
    shutil.copy2(program.TOP / "tools/version.sh", it.top / "tools")
    git = lambda *words: t.tool("git", "-C", it.top, "-c", "user.name=a", "-c", "user.email=a@example.com", *words).decode().strip()
    for words in (("init", "--quiet"), ("add", "."), ("commit", "--quiet", "--message=a")):
        git(*words)
    commit = git("rev-parse", "--short=7", "HEAD")
    first = lambda: it.desk("--version")[1].splitlines()[0]
    t.same(first(), f"desk 1.2 (commit {commit})", "the first line")
    put(it.top / "crates/reg_desk/src/main.rt", "fn main() { }\n")
    t.same(first(), f"desk 1.2 (commit {commit}, changed since)", "the first line after a change of a source")
