"""Plays a day's steps on the program, finds the first answer that differs from the model's, and then shortens the day."""

import shutil
import tempfile
from itertools import groupby
from pathlib import Path

from lib import program

from . import days, http
from .moments import text_of
from .smaller import smaller

# A script's lines are run together, and so are the steps of an open register.
KINDS = {"script": "script", **{it: "open" for it in days.OPEN}}


class Player:
    """Plays steps in a folder of its own."""

    def __init__(self, plan, room):
        self.plan, self.room, self.clock = plan, Path(room), Path(room) / "clock"

    def run(self, *words, given=b""):
        return program.run(words, given, cwd=self.room, timeout=600)

    def answers(self, steps):
        """The program's answer to each step; None if there is none."""
        if not self.plan.in_memory:
            self.make()
        told = []
        for kind, some in groupby(enumerate(steps), key=lambda it: KINDS.get(it[1][0], it[0])):
            some = [step for _, step in some]
            told += {"script": self.script, "open": self.open}.get(kind, self.jobs)(some)
        return told

    def make(self):
        first = self.plan.schedules[0]
        words = ["--crl-life", self.plan.crl_life, "--ocsp-life", self.plan.ocsp_life, "--cap", self.plan.cap]
        ran = self.run("init", "ca.db", "--name", program.NAME, "--key", program.KEY, "--days", first[0][1], *words)
        assert (ran.status, ran.out, ran.err) == (0, b"created\n", b""), ran
        if len(first) > 1:
            self.job("schedule", first)

    def script(self, steps):
        words = ["script"] if self.plan.in_memory else ["script", "ca.db"]
        ran = self.run(*words, given=b"".join(it[1] + b"\n" for it in steps))
        told = ran.out.split(b"\n")[:-1]
        if (ran.status, ran.err) != (0, b"") or len(told) > len(steps):
            told = [*told[: len(steps) - 1], ending(ran)]
        return (told + [None] * len(steps))[: len(steps)]

    def jobs(self, steps):
        return [self.job(*it) for it in steps]

    def job(self, word, *given):
        if word == "import":
            ran = self.run("import", "ca.db", "--now", text_of(given[0]), given=given[1])
        elif word == "schedule":
            ran = self.run("schedule", "ca.db", *(f"{text_of(since)}={days_}" for since, days_ in given[0]))
        elif word == "key-id":
            ran = self.run("key-id", "ca.db", given[0])
        elif word == "crl":
            ran = self.run("crl", "ca.db", *(["--number", given[0]] if given[0] is not None else []))
        else:
            ran = self.run("audit", "ca.db")
        if word == "crl" and (ran.status, ran.out) == (1, b""):
            return ran.err.rstrip(b"\n")
        return ran.out if (ran.status, ran.err) == (0, b"") else ending(ran)

    def open(self, steps):
        """Runs the steps on an open desk, whose clock is set before each step."""
        told = []
        self.clock.write_text(str(steps[0][1]))
        (self.room / "control").unlink(missing_ok=True)
        with program.Opened(["open", "ca.db", "--control", "control", "--unsigned"], cwd=self.room, clock=self.clock) as desk:
            if not desk.listens:
                return [ending(desk.wait())] + [None] * (len(steps) - 1)
            with program.Control(self.room / "control") as control:
                for step in steps:
                    told.append(self.exchange(desk, control, *step))
            ended = desk.end()
            if ended.err or ended.out:
                told[-1] = ending(ended)
        return told

    def exchange(self, desk, control, word, now, *given):
        self.clock.write_text(str(now))
        if word == "http":
            return desk.send(http.request(*given))
        if word == "tell":
            # Words may have any byte, so they go as they are.
            control.stream.sendall(given[0] + b"\n")
            return control.file.readline().rstrip(b"\n")
        ran = program.run(["at", "control"], b"".join(it + b"\n" for it in given[0]), cwd=self.room)
        told = ran.out.split(b"\n")[:-1]
        refused = any(it[:1] in (b"E", b"F", b"b") for it in told)
        as_said = (ran.status, ran.err) == ((3, b"refused\n") if refused else (0, b""))
        return b"\n".join(told) if as_said else ending(ran)


def ending(ran):
    """The answer of a step if the program did not end as it must."""
    return b"status %d, standard error %r, standard output %r" % (ran.status, ran.err[-300:], ran.out[-300:])


def played(plan, steps):
    """The answers of the program to these steps, in a new folder."""
    room = tempfile.mkdtemp(prefix="d")
    try:
        return Player(plan, room).answers(steps)
    finally:
        shutil.rmtree(room, ignore_errors=True)


def difference(wanted, got):
    """The index of the first answer that differs; None if none does."""
    got = list(got) + [None] * (len(wanted) - len(got))
    return next((i for i, (a, b) in enumerate(zip(wanted, got)) if a != b), None)


def fewest(plan, steps, seconds=None, tell=lambda text: None):
    """The steps without as many as possible, so that some answer still differs."""
    return smaller(plan, steps, lambda some: difference(days.answers(plan, some), played(plan, some)) is not None, seconds, tell)


def shown(step):
    word, *given = step
    if word == "script":
        return f"script    {text(given[0])}"
    if word == "schedule":
        return "schedule  " + " ".join(f"{text_of(since)}={days_}" for since, days_ in given[0])
    if word == "key-id":
        return f"key-id    {given[0]}"
    if word == "import":
        return f"import    --now {text_of(given[0])}  < {text(given[1])}"
    if word == "http":
        method, target, fields, body = given[1:]
        return f"http      {text_of(given[0])} {method} {target}" + f" {' | '.join(fields)}" * bool(fields) + f"  body {body.hex()}" * bool(body)
    if word == "tell":
        return f"control   {text_of(given[0])} {text(given[1])}"
    if word == "at":
        return f"desk at   {text_of(given[0])} {' / '.join(map(text, given[1]))}"
    return f"desk {word}" + "".join(f" --number {it}" for it in given if it is not None)


def text(line):
    """A line as it is if it can be printed, else as Python writes its bytes."""
    plain = line.decode("latin-1")
    return plain if plain.isascii() and plain.isprintable() else repr(line)[1:]


def answer_shown(told):
    if told is None:
        return "(nothing)"
    return text(told) if len(told) < 2000 and b"\x00" not in told else f"{len(told)} bytes {told.hex()}"


def report(plan, steps, again):
    """A report of a difference: the steps, the expected answer and the actual one."""
    wanted, got = days.answers(plan, steps), played(plan, steps)
    place = difference(wanted, got)
    lines = [f"  {shown(it)}" for it in steps]
    if place is None:
        return "\n".join([*lines, "  no difference any more: the program does not always answer the same", f"  again   {again}"])
    got = [*got, *[None] * len(wanted)][place]
    over = "desk script" if plan.in_memory else f"a register of --crl-life {plan.crl_life} --ocsp-life {plan.ocsp_life} --cap {plan.cap}"
    return "\n".join([
        f"  over {over}:", *lines, f"  of the step  {shown(steps[place])}",
        f"  wanted  {answer_shown(wanted[place])}", f"  got     {answer_shown(got)}", f"  again   {again}",
    ])


def look(plan, name, seed, seconds=None, tell=lambda text: None):
    """Plays the day of a plan and a seed. Returns the day, and None or a report of its first difference, which it shortens for at most `seconds`."""
    day = days.Day(plan, seed)
    place = difference(day.wanted, played(plan, day.steps))
    if place is None:
        return day, None
    tell(f"{name} {seed}: step {place + 1} of {len(day.steps)} differs; it is made smaller")
    steps = fewest(plan, day.steps[: place + 1], seconds, tell)
    return day, f"{name} {seed}: another answer at step {place + 1}, with {len(steps)} steps left\n" + report(
        plan, steps, f"tests/random --seed {seed} --count 1 --plan {name}"
    )
