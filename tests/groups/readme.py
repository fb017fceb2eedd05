"""Runs README's lines of its small CA in an empty folder, unchanged unless port 8080 is in use, and compares their output with README's."""

import os
import re
import shlex
import shutil
import socket

from lib import program
from lib.authority import need_cryptography
from lib.documents import version
from lib.trial import Failed, need, test

SMALL_CA = "Your own small CA, signed and verified by openssl"


def readme():
    return (program.TOP / "README.md").read_text(encoding="utf-8")


def blocks(heading):
    """The code blocks under a heading of README, each as a list of lines."""
    found = re.search(rf"^## {heading}\n(.*?)(?=^## |\Z)", readme(), re.MULTILINE | re.DOTALL)
    if not found:
        raise Failed(f"README has no heading {heading!r}")
    return [[line[4:] for line in it.splitlines()] for it in re.findall(r"(?:^    [^\n]*\n)+", found[1], re.MULTILINE)]


def home_of(t):
    """A home folder whose ~/durshavon has this repository's examples, and the tested program as `desk`."""
    home = t.room / "home"
    (home / "durshavon").mkdir(parents=True)
    (home / "durshavon/examples").symlink_to(program.TOP / "examples")
    (home / "durshavon/desk").write_text(f'#!/bin/sh\nexec {shlex.quote(program.program())} "$@"\n')
    os.chmod(home / "durshavon/desk", 0o755)
    return home


def is_free(port):
    with socket.socket() as it:
        it.setsockopt(socket.SOL_SOCKET, socket.SO_REUSEADDR, 1)
        try:
            it.bind(("127.0.0.1", port))
        except OSError:
            return False
    return True


def in_order(t, wanted, told):
    """Fails unless the output has these lines, in this order."""
    lines = iter(told.splitlines())
    for want in wanted:
        if not any(line == want for line in lines):
            raise Failed(f"{want!r} does not come where README has it, in {told}")


@test(seconds=4)
def the_small_ca_ends_in_verify_ok(t):
    need("openssl", "curl", "bash")
    need_cryptography(t)
    typed, printed = blocks(SMALL_CA)
    if not is_free(8080):
        typed = [it.replace("8080", str(program.free_port())) for it in typed]
    (t.room / "ca").mkdir()
    env = {**os.environ, "HOME": str(home_of(t)), "TZ": "America/New_York"}
    env.pop("LD_PRELOAD", None)
    script = "\n".join(["exec 2>&1", "cd ca", *typed, "wait"])
    ran = t.tried("timeout", program.LONGEST - 10, "bash", "-c", script, env=env)
    told = ran.stdout.decode()
    t.true(ran.returncode != 124, f"the lines did not end in time: {told}")
    in_order(t, printed, told)
    t.same(told.count("Response verify OK"), 2, f"answers that verify, in {told}")
    t.same(len(re.findall(r"^verify OK$", told, re.MULTILINE)), 1, f"CRLs that verify, in {told}")
    t.same(re.findall(r"^(?:[EF][0-9]+ .*|bad-.*|refused.*)$", told, re.MULTILINE), [], f"refusals and faults, in {told}")


@test
def the_first_look_has_these_lines_and_replies(t):
    _, shown = blocks("Try it")
    day, replies = ((program.TOP / f"examples/first-day{it}.txt").read_text().splitlines() for it in ("", ".replies"))
    pairs = iter(zip(day, replies, strict=True))
    for row in shown:
        line, reply = re.split(r" {2,}", row)
        t.true(any(it == (line, reply) for it in pairs), f"{row!r} is not a line of examples/first-day.txt and its reply, or is out of order")


@test
def no_line_is_longer_than_120_letters(t):
    lines = readme().splitlines()
    t.same([it for it in lines if len(it) > 120], [], "lines of README.md")
    t.true(len(lines) <= 120, f"README.md has {len(lines)} lines")


@test(seconds=3)
def what_is_reported_as_proved_is_built(t):
    """`./desk --version` reports a missing program, one that is newer than all its sources, and one that is older than a source."""
    need("bash")
    top = t.room / "top"
    source, built = top / "crates/reg_desk_cli/src/desk.rt", top / "crates/reg_desk/out/reg_desk"
    for it in ("tools", "crates/reg_desk_cli/src", "crates/reg_desk/out"):
        (top / it).mkdir(parents=True)
    for it in ("desk", "crates.txt", "tools/version.sh", "tools/current.sh", "crates/reg_desk_cli/src/desk.rt"):
        shutil.copy2(program.TOP / it, top / it)

    def version_lines():
        ran = t.tried(top / "desk", "--version")
        t.same(ran.returncode, 0, "status")
        return ran.stdout.decode().splitlines()

    t.same(version_lines()[0].split()[:2], ["desk", version()])
    t.true(version_lines()[1].startswith("not built; "), "`./desk --version` does not report that the program is missing")
    built.write_text("#!/bin/sh\n")
    built.chmod(0o755)
    t.true(version_lines()[1].startswith("each function proved and built by Rattle: "), "`./desk --version` does not report a current program")
    later = built.stat().st_mtime + 10
    os.utime(source, (later, later))
    t.true(version_lines()[1].startswith("not built: the program that is there is older than its sources"),
           "`./desk --version` does not report that the program is older than a source")
