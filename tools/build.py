#!/usr/bin/env python3
"""Proves and builds a program of this repository and all libraries below it, in parallel as far as processors and memory allow. A crate
that begins the longest chain of waiting crates goes first. Prints on standard error how long each crate took, if more than five seconds. If a crate
fails, the build stops with that crate's messages. A crate that is built and has not changed is not built again.

The length of a chain comes from the seconds that each crate took when it was last measured (tools/build-times.txt). From these the tool also
estimates how long is left: the longest chain that is not done, at the speed of this build.

Usage: tools/build.py [--times] [--lean] [CRATE]        (CRATE is reg_desk if left out. --times prints the processor time and the
elapsed time of each crate at the end, and writes tools/build-times.txt if each took more than five seconds. --lean removes the proofs of each library's
functions once the library is built: a build needs less disk, and a later one proves a changed crate from nothing)
"""
import fcntl
import os
import re
import shutil
import subprocess
import sys
import tempfile
import threading
import time
from concurrent.futures import FIRST_COMPLETED, ThreadPoolExecutor, wait

TOP = os.path.dirname(os.path.dirname(os.path.abspath(__file__)))
RT = shutil.which("rt") or "/opt/rattle/bin/rt"
# The bytes that one check takes on average, as measured; a second job of a check takes about half as much again.
MEMORY_OF_A_CHECK = 2_000_000_000
MOST_JOBS = 4
TIMES = f"{TOP}/tools/build-times.txt"
# The elapsed seconds per line of a crate that was not measured.
SECONDS_OF_A_LINE = 0.05
# The seconds between two reports of progress.
TELL_EVERY = 60


class Crate:
    """A line of crates.txt: a crate, and the crates of this repository that it uses."""

    def __init__(self, line, name, uses, seconds):
        self.line, self.name, self.uses = line, name, uses
        self.folder = f"{TOP}/crates/{name}"
        self.seconds = seconds or SECONDS_OF_A_LINE * sum(text.count(b"\n") for text in sources(self.folder))

    def is_program(self):
        return os.path.isfile(f"{self.folder}/src/main.rt")


def sources(folder):
    for part in ("src", "specs", "proofs"):
        for at, _, names in os.walk(f"{folder}/{part}"):
            for name in names:
                with open(f"{at}/{name}", "rb") as file:
                    yield file.read()


def read_times():
    """Returns the elapsed seconds that each crate took when it was last measured."""
    try:
        with open(TIMES, encoding="utf-8") as file:
            return {name: float(seconds) for name, seconds in (row.split() for row in file if row.strip() and not row.startswith("#"))}
    except FileNotFoundError:
        return {}


def write_times(took):
    with open(TIMES, "w", encoding="utf-8") as file:
        file.write("# Seconds of the clock of each crate, when all was last built anew by tools/build.py --times.\n")
        file.writelines(f"{name} {built.seconds:.0f}\n" for name, built in sorted(took.items()))


def read_crates():
    """Returns the crates by name, each after those that it uses."""
    times = read_times()
    with open(f"{TOP}/crates.txt", encoding="utf-8") as file:
        rows = [row.partition("#")[0].strip() for row in file]
    rows = [(row, re.match(r"(\w+)[^:]*:(.*)", row)) for row in rows if row]
    names = {words[1] for _, words in rows}
    return {words[1]: Crate(row, words[1], [it for it in words[2].split() if it in names], times.get(words[1])) for row, words in rows}


def below(crates, name):
    """Returns the names of the crates that this one uses, each after those that it uses itself."""
    found = []
    for it in crates[name].uses:
        found += [other for other in [*below(crates, it), it] if other not in found]
    return found


def folder_of_rooms():
    """Returns the folder for temporary copies: the system's, or out/ if that is on another disk, so that a library can be hard-linked and not copied."""
    other = tempfile.gettempdir()
    if os.stat(other).st_dev == os.stat(TOP).st_dev:
        return other
    os.makedirs(f"{TOP}/out", exist_ok=True)
    return f"{TOP}/out"


def link_or_copy(source, target):
    try:
        os.link(source, target)
    except OSError:
        shutil.copy2(source, target)


def lend(crate, room, parts):
    """Puts these parts of a crate's folder into a temporary copy of the repository, as hard links if both are on the same disk."""
    for part in parts:
        if os.path.isdir(f"{crate.folder}/{part}"):
            shutil.copytree(f"{crate.folder}/{part}", f"{room}/crates/{crate.name}/{part}", copy_function=link_or_copy)


class Built:
    """How a crate's build ended: rt's status and output, the elapsed seconds and the processor seconds."""

    def __init__(self, words, folder):
        started = time.monotonic()
        how = {"stdin": subprocess.DEVNULL, "stdout": subprocess.PIPE, "stderr": subprocess.STDOUT, "errors": "replace"}
        with subprocess.Popen([*words], cwd=folder, **how) as ran:
            self.said = ran.stdout.read()
            _, status, used = os.wait4(ran.pid, 0)
            ran.returncode = self.status = os.waitstatus_to_exitcode(status)
        self.seconds, self.processor = time.monotonic() - started, used.ru_utime + used.ru_stime


def rt_command(jobs, is_first, *words):
    """Returns the command line of a run of rt. Crates outside of the longest chain run with lower priority."""
    return [*([] if is_first else ["nice", "-n", "10"]), RT, words[0], "--jobs", str(jobs), *words[1:]]


def build_library(crates, crate, is_lean, jobs, is_first):
    """Builds a library in a temporary copy, because rt locks a crate and those below it, and moves the result into the crate's
    folder."""
    with tempfile.TemporaryDirectory(prefix="desk-build-", dir=folder_of_rooms()) as room:
        for name in below(crates, crate.name):
            lend(crates[name], room, ["src", "specs", "proofs", "out/rlib"])
        lend(crate, room, ["src", "specs", "proofs", "out"])
        with open(f"{room}/crates.txt", "w", encoding="utf-8") as file:
            file.write("".join(f"{crates[it].line}\n" for it in [*below(crates, crate.name), crate.name]))
        built = Built(rt_command(jobs, is_first, "lib"), f"{room}/crates/{crate.name}")
        if not built.status:
            if is_lean:
                shutil.rmtree(f"{room}/crates/{crate.name}/out/incremental", ignore_errors=True)
            shutil.rmtree(f"{crate.folder}/out", ignore_errors=True)
            shutil.move(f"{room}/crates/{crate.name}/out", f"{crate.folder}/out")
        return built


def build_program(crate, is_first):
    """Builds a program in place, once all below it is built. A run with --help opens no file of the caller. It has one job,
    because each job loads all that the program reaches, which takes longer than the proofs."""
    return Built(rt_command(1, is_first, "run", "--", "--help"), crate.folder)


def tell(text):
    print(f"desk: {text}", file=sys.stderr, flush=True)


def in_words(seconds):
    minutes, rest = divmod(round(seconds), 60)
    return f"{minutes} min {rest:02} s" if minutes else f"{rest} s"


def chains(crates, names):
    """Returns for each crate the seconds of the longest chain that begins with it."""
    behind = dict.fromkeys(names, 0)
    for name in reversed(names):
        behind[name] += crates[name].seconds
        for it in crates[name].uses:
            behind[it] = max(behind[it], behind[name])
    return behind


class Progress:
    """Reports each minute how far a build is."""

    def __init__(self, crates, names, behind):
        self.crates, self.names, self.behind = crates, names, behind
        self.began, self.done, self.started, self.ended = time.monotonic(), {}, {}, threading.Event()

    def pace(self):
        """How many seconds here one second of build-times.txt takes, by the crates that were built; 1 if these are few."""
        told = [(built.seconds, self.crates[it].seconds) for it, built in self.done.items() if built.seconds > 5]
        expected = sum(it for _, it in told)
        return sum(it for it, _ in told) / expected if expected > 60 else 1.0

    def left(self):
        """The seconds of the longest chain that is not done."""
        now, pace = time.monotonic(), self.pace()
        running = dict(self.started)
        waiting = [it for it in self.names if it not in self.done and it not in running]
        chains = [pace * self.behind[it] for it in waiting]
        chains += [max(pace * self.behind[it] - (now - at), pace * (self.behind[it] - self.crates[it].seconds)) for it, at in running.items()]
        return max(chains, default=0)

    def text(self):
        running = ", ".join(sorted(self.started))
        return (
            f"{len(self.done)} of {len(self.names)} crates done in {in_words(time.monotonic() - self.began)}; at work on {running}; "
            f"some {max(1, round(self.left() / 60))} min left"
        )

    def tell_on(self):
        while not self.ended.wait(TELL_EVERY):
            tell(self.text())


def free_memory():
    with open("/proc/meminfo", encoding="ascii") as file:
        return 1024 * int(re.search(r"MemAvailable:\s+(\d+)", file.read())[1])


def room_for(jobs, running):
    """Returns whether there is memory for a check with so many jobs; running ones may not have taken all of theirs yet."""
    if not running:
        return True
    wanted = MEMORY_OF_A_CHECK * (1 + 0.5 * (jobs - 1))
    promised = sum(MEMORY_OF_A_CHECK * (1 + 0.5 * (it - 1)) for _, it in running.values())
    return wanted + promised <= 0.85 * (free_memory() + promised / 2)


def build(crates, names, is_lean=False):
    """Builds these crates in parallel, and returns how each build ended, or None if one failed."""
    lanes, behind = len(os.sched_getaffinity(0)), chains(crates, names)
    left, running, progress = sorted(names, key=lambda it: -behind[it]), {}, Progress(crates, names, behind)
    took = progress.done
    teller = threading.Thread(target=progress.tell_on, daemon=True)
    teller.start()
    with ThreadPoolExecutor(lanes) as pool:
        while left or running:
            ready = [it for it in left if all(other in took for other in crates[it].uses)]
            for at, name in enumerate(ready):
                idle = lanes - sum(jobs for _, jobs in running.values())
                # The build takes as long as the longest chain: its crate gets at least two jobs if memory allows, and the others a lower priority.
                is_first = at == 0 and behind[name] >= max([behind[it] for it, _ in running.values()], default=0)
                share = idle // (len(ready) - at)
                jobs = max(1, min(MOST_JOBS, max(2, share) if is_first else share))
                while jobs > 1 and not room_for(jobs, running):
                    jobs -= 1
                if (is_first or idle > 0) and room_for(jobs, running):
                    left.remove(name)
                    call = (build_program, crates[name]) if crates[name].is_program() else (build_library, crates, crates[name], is_lean, jobs)
                    running[pool.submit(*call, is_first)] = name, jobs
                    progress.started[name] = time.monotonic()
            for it in wait(running, return_when=FIRST_COMPLETED).done:
                (name, _), built = running.pop(it), it.result()
                del progress.started[name]
                if built.status:
                    tell(f"{name} could not be built:\n{built.said}")
                    subprocess.run(["pkill", "-TERM", "-P", str(os.getpid())], check=False)
                    return None
                took[name] = built
                if built.seconds > 5:
                    tell(f"{name} proved and built in {in_words(built.seconds)}")
    progress.ended.set()
    return took


def main():
    words = [it for it in sys.argv[1:] if it not in ("--times", "--lean")]
    crates = read_crates()
    if len(words) > 1 or any(it not in crates for it in words):
        raise SystemExit(__doc__)
    if not os.path.exists(RT):
        tell("the command rt of the Rattle toolchain is not found, and nothing was built")
        raise SystemExit(127)
    name, started = (words or ["reg_desk"])[0], time.monotonic()
    with open(f"{TOP}/crates.txt", encoding="utf-8") as held:
        fcntl.flock(held, fcntl.LOCK_EX)
        took = build(crates, [*below(crates, name), name], "--lean" in sys.argv)
    if took is None:
        raise SystemExit(126)
    if "--times" in sys.argv:
        for it, built in sorted(took.items(), key=lambda it: -it[1].processor):
            print(f"{built.processor:8.1f} {built.seconds:8.1f} {it}")
        print(f"{sum(it.processor for it in took.values()):8.1f} {time.monotonic() - started:8.1f} all")
        if all(it.seconds > 5 for it in took.values()):
            write_times(took)
    tell(f"{len(took)} crates built, {in_words(time.monotonic() - started)}")


if __name__ == "__main__":
    main()
