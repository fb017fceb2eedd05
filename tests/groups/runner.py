"""tests/run itself, over groups and cases that were made for these tests: a test that fails, hangs or can't run is reported as that, and a case
accepts the expected output alone. A shell script takes the place of the program."""

import os
import re
import shlex
import shutil
import sys

from lib import documents, program
from lib.trial import Failed, each, test

GROUP = '''"""A group."""
import os
import time

from lib.trial import Skipped, each, need, test


@test
def passes(t):
    t.same(t.done("says", "a"), "a\\n")


@test
def differs(t):
    t.same(t.done("says", "a"), "b\\n", "what it says")


@test
def lacks(t):
    t.has("abc", "d")


@test
def raises(t):
    [][1]


@test(seconds=0)
def hangs(t):
    time.sleep(100)


@test
def can_not_run(t):
    need("no-such-program")


@each({"one": 1, "two": 2})
def is_one(t, number):
    t.same(number, 1)


@test
def touches(t):
    with t.untouched("it"):
        (t.room / "new").write_text("")


@test(seconds=100)
def takes_long(t):
    with t.at_once("it"):
        time.sleep(5)


@test
def is_at_once(t):
    with t.at_once("it"):
        pass


def helper(t):
    raise AssertionError
'''
WRONG = ["differs", "hangs", "is_one[two]", "lacks", "raises", "takes_long", "touches"]
# A program that says its words, and ends with status 3 and a line on standard error if the first word is `fails`.
SAYS = """#!/bin/sh
cat >/dev/null
case $1 in
says) shift; for it in "$@"; do printf '%b\\n' "$it"; done ;;
fails) echo one; echo why >&2; exit 3 ;;
esac
"""


def made(t, files):
    """A copy of tests/run, with these files as its tests."""
    top = t.room / "top/tests"
    shutil.copytree(program.TESTS / "lib", top / "lib", ignore=shutil.ignore_patterns("__pycache__"))
    shutil.copy(program.TESTS / "run", top)
    # tests/run compiles this file.
    (top / "faults.c").touch()
    for name in ("groups", "cases", "desk"):
        (top / name).mkdir()
    for path, text in files.items():
        (top / path).parent.mkdir(exist_ok=True)
        (top / path).write_text(text)
    (t.room / "desk").write_text(SAYS)
    (t.room / "desk").chmod(0o755)
    return top


def ran(t, top, *names, patience="1"):
    """The exit status, the failed tests, and the last line of a run."""
    env = {**os.environ, "DESK": str(t.room / "desk"), "DESK_PATIENCE": patience, "TMPDIR": str(t.room)}
    got = t.tried(sys.executable, top / "run", *names, env=env)
    text = got.stdout.decode()
    failed = sorted(re.findall(r"^FAILED (\S+?): ", text, re.MULTILINE))
    return got.returncode, failed, (text or got.stderr.decode()).splitlines()[-1]


@test(seconds=10)
def what_is_reported(t):
    """A test that is not over in its time has failed: here after six seconds, since it has a fiftieth of the usual patience."""
    top = made(t, {"groups/sample.py": GROUP, "cases/it": "", "cases/it.args": "says\n", "cases/it.stdout": "", "desk/more/it.case": "desk says\n"})
    t.same(ran(t, top, patience="0.02"), (1, [f"sample:{it}" for it in WRONG], "5 passed, 7 failed, 1 skipped"))


NONE = "tests/run: there is no {} (tests/run --list has the groups)"


@each({"a test that passes": (("sample:passes",), (0, [], "1 passed, 0 failed, 0 skipped")),
       "a test that fails": (("sample:differs",), (1, ["sample:differs"], "0 passed, 1 failed, 0 skipped")),
       "a test that can't run": (("sample:can_not_run",), (1, [], "0 passed, 0 failed, 1 skipped")),
       "one that can't run beside one that passes": (("sample:can_not_run", "sample:passes"), (0, [], "1 passed, 0 failed, 1 skipped")),
       "each row of a table": (("sample:is_one",), (1, ["sample:is_one[two]"], "1 passed, 1 failed, 0 skipped")),
       "a row of a table": (("sample:is_one[one]",), (0, [], "1 passed, 0 failed, 0 skipped")),
       "a test by two names": (("sample:passes", "sample:passes", "sample:passes"), (0, [], "1 passed, 0 failed, 0 skipped")),
       "no such group": (("samples",), (1, [], NONE.format("samples"))),
       "no such test": (("sample:passe", "sample:passes"), (1, [], NONE.format("sample:passe"))),
       "a function that is no test": (("sample:helper",), (1, [], NONE.format("sample:helper")))}, seconds=3)
def tests_by_name(t, names, wanted):
    t.same(ran(t, made(t, {"groups/sample.py": GROUP}), *names), wanted)


@each({it: it for it in ("--proved", "--build")})
def another_program_is_not_taken_for_the_proved_one(t, word):
    told = "tests/run: DESK names another program than the one that --build and --proved mean: leave one of them out"
    t.same(ran(t, made(t, {"groups/sample.py": GROUP}), word, "sample:passes"), (1, [], told))


@test(seconds=2)
def a_group_that_can_t_be_read(t):
    top = made(t, {"groups/sample.py": GROUP, "groups/wrong.py": "import no_such_module\n"})
    status, failed, last = ran(t, top, "sample:passes")
    t.same((status, failed), (1, []))
    t.true(last.endswith("ModuleNotFoundError: No module named 'no_such_module'"), last)


# The lines of a case after its step, and whether the program's output is the expected one.
STEPS = {
    "as expected": ("desk says one two\n> one\n> two\n", True),
    "a line is missing": ("desk says one two\n> one\n> two\n> three\n", False),
    "a line more": ("desk says one two three\n> one\n> two\n", False),
    "no line is expected": ("desk says one\n", False),
    "a line that goes on": ("desk says onetwo\n> one\n", False),
    "a line that begins otherwise": ("desk says twoone\n> one\n", False),
    "any text in a line": ("desk says 'one more two'\n> one{*}two\n", True),
    "no text in a line": ("desk says onetwo\n> one{*}two\n", True),
    "any text is none of two lines": ("desk says one two\n> one{*}two\n", False),
    "a point is a point": ("desk says oneXtwo\n> one.two\n", False),
    "no line end": ("desk says one\n>| one\n", False),
    "bytes": ("desk says one\n>x 6f6e650a\n", True),
    "other bytes": ("desk says one\n>x 6f6e650b\n", False),
    "three times": ("desk says aaa\n>* 3 a\n>\n", True),
    "twice": ("desk says aaa\n>* 2 a\n>\n", False),
    "an escape": ("desk says 'a\\tb'\n> a\\tb\n", True),
    "a status and an error": ("desk fails\n> one\n! why\n= 3\n", True),
    "another status": ("desk fails\n> one\n! why\n= 2\n", False),
    "no status": ("desk fails\n> one\n! why\n", False),
    "a status that is not there": ("desk says one\n> one\n= 3\n", False),
    "no error": ("desk fails\n> one\n= 3\n", False),
    "another error": ("desk fails\n> one\n! because\n= 3\n", False),
    "an error that is not there": ("desk says one\n> one\n! why\n", False),
    "the second step differs": ("desk says one\n> one\ndesk says two\n> one\n", False),
    "a step that there is not": ("dsk says one\n", False),
    "no step": ("# desk says one\n# > one\n", False),
    "a line of a step that prints none": ("folder it\n> it\n", False),
    "an error of a step that prints none": ("folder it\n! it\n", False),
    "a status of a step that has none": ("folder it\n= 1\n", False),
    "a step that prints nothing": ("folder it\nrun ls\n> it\n", True),
}


@test(seconds=10)
def what_a_case_accepts(t):
    top = made(t, {f"desk/sample/{name}.case": f"# A case.\n{text}" for name, (text, _) in STEPS.items()})
    wrong = sorted(name for name, (_, holds) in STEPS.items() if not holds)
    got = t.tried(sys.executable, top / "run", "sample", env={**os.environ, "DESK": str(t.room / "desk"), "TMPDIR": str(t.room)})
    failed = sorted(re.findall(r"^FAILED sample:(.*?): \1\.case:", got.stdout.decode(), re.MULTILINE))
    t.same((got.returncode, failed), (1, wrong))
    t.same(got.stdout.decode().splitlines()[-1], f"{len(STEPS) - len(wrong)} passed, {len(wrong)} failed, 0 skipped")


# The expected output of a case whose program says `one` and `two`, the statuses, and whether the case passes.
PLAIN = {
    "as expected": ("one\ntwo\n", "", True), "a line is missing": ("one\ntwo\nthree\n", "", False), "a line more": ("one\n", "", False),
    "no line end": ("one\ntwo", "", False), "another status": ("one\ntwo\n", "it 3\n", False),
}


@each(PLAIN, seconds=2)
def what_lines_and_replies_accept(t, wanted, statuses, holds):
    top = made(t, {"cases/it": "", "cases/it.args": "says\none\ntwo\n", "cases/it.stdout": wanted, "cases.status": statuses})
    t.same(ran(t, top, "cases")[::2], (0, "1 passed, 0 failed, 0 skipped") if holds else (1, "0 passed, 1 failed, 0 skipped"))


@test(seconds=2)
def a_status_of_lines_and_replies(t):
    top = made(t, {"cases/it": "", "cases/it.args": "fails\n", "cases/it.stdout": "one\n", "cases.status": "# NAME STATUS\nit 3\n"})
    t.same(ran(t, top, "cases"), (0, [], "1 passed, 0 failed, 0 skipped"))
    (top / "cases.status").unlink()
    t.same(ran(t, top, "cases"), (1, ["cases:it"], "0 passed, 1 failed, 0 skipped"), "without its status")


@each({"no such kind": "wirte:1", "no such kind after another rule": "write:1,wirte:1", "no number": "write:", "the call before the first": "write:0",
       "no such error": "write:1=EWHAT"})
def a_fault_that_can_t_be_injected(t, rule):
    """A mistake in a rule would let a test pass without its fault. So it ends the program."""
    env = {**os.environ, "LD_PRELOAD": os.environ["DESK_FAULTS_LIBRARY"], "FAULTS_FAIL": rule}
    got = t.tried("sh", "-c", "echo ran", env=env)
    t.same((got.returncode, got.stdout), (99, b""))
    t.has(got.stderr, b" is not understood\n")


@each({"the second": ("write:2", "a\nc\n"), "from the second on": ("write:2+", "a\n"), "the first two": ("write:1-2", "c\n"),
       "one after the last": ("write:4", "a\nb\nc\n")})
def which_calls_fail(t, rule, wanted):
    """The shell writes each line by a call of its own."""
    env = {**os.environ, "LD_PRELOAD": os.environ["DESK_FAULTS_LIBRARY"], "FAULTS_FAIL": rule, "FAULTS_ONLY": "stdout"}
    t.same(t.tried("dash", "-c", "echo a; echo b; echo c", env=env).stdout.decode(), wanted)


@test
def lines_of_a_page_that_are_not_there(t):
    """Tests that type the lines of a page would otherwise type nothing, and pass."""
    for read in (lambda: documents.blocks("No such part"), lambda: documents.block("Signatures", "no such line")):
        try:
            read()
        except Failed:
            continue
        raise Failed("lines that are not there are read")


@test(seconds=10)
def a_random_day_that_differs(t):
    """tests/random fails at the first reply that is not that of the model. It prints the day without the lines that don't matter."""
    wrapper = t.room / "wrapped"

    def play(edit):
        wrapper.write_text(f'#!/bin/sh\n{shlex.quote(program.program())} "$@" | LC_ALL=C sed "{edit}"\n')
        wrapper.chmod(0o755)
        env, words = {**os.environ, "DESK": str(wrapper)}, ("--plan", "in-memory", "--seed", "1")
        got = t.tried(sys.executable, program.TESTS / "random", *words, env=env, timeout=program.LONGEST * program.PATIENCE)
        return got.returncode, got.stdout.decode()

    status, told = play("")
    t.same((status, told[:12]), (0, "in-memory 1:"))
    status, told = play("s/^subscriber 2$/subscriber 3/")
    t.same(status, 1, f"the status of a day with another reply: {told}")
    for part in ("with 2 steps left", "wanted  subscriber 2", "got     subscriber 3", "tests/random --seed 1 --count 1 --plan in-memory"):
        t.has(told, part, "what it prints")
