"""Runs cases that are text: each file NAME.case has steps, which run one after the other in a new folder. tests/README.md describes the steps,
and the lines after a step. An HTTP response is compared as its head lines, which each end with CR LF (shown as LF), an empty line, and its body.
"""

import os
import re
import shlex
import signal as signals
from dataclasses import dataclass, field

from . import program as desk
from .trial import Failed, show

ISSUERS = {"{T}": ["--name", desk.NAME, "--key", desk.KEY], "{P256}": ["--name", desk.NAME, "--key", desk.P256_KEY]}
ESCAPE = re.compile(r"\\(x[0-9A-Fa-f]{2}|[rnt\\])")
NAMED = {"r": b"\r", "n": b"\n", "t": b"\t", "\\": b"\\"}
ANY = "{*}"


@dataclass
class Step:
    word: str
    rest: str
    line: int
    given: bytes = b""
    wanted: list = field(default_factory=list)
    told: list = field(default_factory=list)
    status: int = 0


def bytes_of(text):
    """The bytes of a text with escapes."""
    made, at = b"", 0
    for it in ESCAPE.finditer(text):
        made += text[at : it.start()].encode()
        made += NAMED[it[1]] if it[1] in NAMED else bytes([int(it[1][1:], 16)])
        at = it.end()
    return made + text[at:].encode()


def piece_of(mark, text):
    """The bytes of a line of a case, by the mark after < or >."""
    if mark == "x":
        return bytes.fromhex(text)
    if mark == "*":
        times, _, text = text.partition(" ")
        return bytes_of(text) * int(times)
    return bytes_of(text) + (b"" if mark == "|" else b"\n")


def read(path):
    steps = []
    for number, line in enumerate(path.read_text().split("\n"), 1):
        if not line.strip() or line.startswith("#"):
            continue
        kind, mark, text = re.fullmatch(r"([<>!=]?)([|x*]?)(?: (.*))?", line).groups() if line[0] in "<>!=" else ("", "", line)
        text = text or ""
        if not kind:
            word, _, rest = line.partition(" ")
            steps.append(Step(word, rest.strip(), number))
        elif kind == "<":
            steps[-1].given += piece_of(mark, text)
        elif kind == ">":
            steps[-1].wanted.append((mark, text))
        elif kind == "!":
            steps[-1].told.append((mark, text))
        else:
            steps[-1].status = int(text)
    return steps


def pattern_of(wanted, values):
    """The expected output as a pattern of bytes."""
    made = b""
    for mark, text in wanted:
        for name, value in values.items():
            text = text.replace(name, value)
        parts = text.split(ANY) if mark in ("", "|") else [None]
        if parts == [None]:
            made += re.escape(piece_of(mark, text))
        else:
            made += b"[^\n]*".join(re.escape(bytes_of(it)) for it in parts) + (b"" if mark == "|" else b"\n")
    return made


def text_of(wanted):
    return "".join(f"{text}" + ("\n" if mark == "" else "") if mark in ("", "|") else f"[{mark} {text}]" for mark, text in wanted)


class Case:
    """A running case: the open desk, and the steps."""

    def __init__(self, t, path):
        self.t, self.path, self.opened = t, path, None

    def run(self):
        steps = read(self.path)
        if not steps:
            raise Failed(f"{self.path.name}: it has no step")
        for step in steps:
            self.do(step)

    def do(self, step):
        work = getattr(self, f"do_{step.word}", None)
        if work is None:
            raise Failed(f"{self.path.name}:{step.line}: no step is called {step.word!r}")
        came = work(step)
        if came is not None:
            self.judge(step, came)
        elif step.wanted or step.told or step.status:
            raise Failed(f"{self.path.name}:{step.line}: the step {step.word} prints nothing and has no status, so nothing can be expected of it")

    def judge(self, step, came):
        values = {"{port}": str(self.opened.port) if self.opened else ""}
        for what, got, wanted in (("standard output", came.out, step.wanted), ("standard error", came.err, step.told)):
            if not re.fullmatch(pattern_of(wanted, values), got, re.DOTALL):
                raise Failed(
                    f"{self.path.name}:{step.line}: {step.word} {step.rest}\n    given  {show(step.given)}\n"
                    f"    wanted {show(text_of(wanted))} on {what}\n    got    {show(got.decode('latin-1'))}"
                    + (f"\n    and    {show(came.err)} on standard error" if what == "standard output" and came.err else "")
                )
        if came.status != step.status:
            raise Failed(f"{self.path.name}:{step.line}: {step.word} {step.rest}\n    wanted status {step.status}, got {came.status}; {show(came.err)}")

    def words(self, step):
        words = []
        for it in shlex.split(step.rest):
            words += ISSUERS.get(it, [it.replace("{port}", str(self.opened.port) if self.opened else "{port}")])
        return words

    # The steps

    def do_desk(self, step):
        return self.t.desk(*self.words(step), given=step.given)

    def do_at(self, step):
        return self.t.desk("at", *self.words(step), given=step.given)

    def do_run(self, step):
        ran = self.t.tried(*self.words(step), given=step.given)
        return desk.Ran(ran.returncode, ran.stdout, ran.stderr)

    def do_open(self, step, command="open"):
        self.opened = self.t.open(*self.words(step), command=command)

    def do_serve(self, step):
        self.do_open(step, "serve")

    def do_end(self, step):
        return self.opened.end(getattr(signals, f"SIG{step.rest or 'TERM'}"))

    def do_wait(self, step):
        return self.opened.wait()

    def answered(self, response):
        head, end, body = response.partition(b"\r\n\r\n")
        return desk.Ran(0, head.replace(b"\r\n", b"\n") + end.replace(b"\r\n", b"\n") + body, b"")

    def do_http(self, step):
        method, target, *fields = step.rest.split(" ", 2)
        fields = [it.strip() for it in fields[0].split("|")] if fields else []
        body = step.given if step.given or method == "POST" else None
        self.t.note(f"http {step.rest}")
        return self.answered(self.opened.ask(method, target, body, fields))

    def do_send(self, step):
        self.t.note(f"send {step.given[:2000]!r}")
        # Each line end becomes CR LF. A last line without LF gets no end.
        return self.answered(self.opened.send(step.given.replace(b"\r\n", b"\n").replace(b"\n", b"\r\n") if step.rest != "as-is" else step.given))

    def do_clock(self, step):
        self.t.clock(step.rest)

    def do_sql(self, step):
        file, statement = step.rest.split(" ", 1)
        rows = self.t.sql(file, statement)
        return desk.Ran(0, "".join("|".join(column_text(it) for it in row) + "\n" for row in rows).encode(), b"")

    def do_signer(self, step):
        path, *words = step.rest.split()
        told = dict(zip(words[::2], words[1::2]))

        def answer(message, call):
            if call == int(told.get("fails", 0)):
                return None
            if call == int(told.get("hangs", 0)):
                return "hang"
            return bytes.fromhex(told["gives"]) if "gives" in told else desk.ANY_SIGNATURE

        self.t.signer(path, answer)

    def do_file(self, step):
        path, *mode = step.rest.split()
        (self.t.room / path).write_bytes(step.given)
        if mode:
            os.chmod(self.t.room / path, int(mode[0], 8))

    def do_folder(self, step):
        (self.t.room / step.rest).mkdir()

    def do_remove(self, step):
        (self.t.room / step.rest).unlink()

    def do_mode(self, step):
        return desk.Ran(0, b"%o\n" % (os.stat(self.t.room / step.rest).st_mode & 0o7777), b"")

    def do_use(self, step):
        for it in read(self.path.parent / step.rest):
            self.do(it)


def column_text(value):
    return value.hex() if isinstance(value, bytes) else "" if value is None else str(value)
