"""An open desk from outside: its port, its control socket, its clock, many lines at once, long requests; a script on a terminal;
and causes of faults that need another user, a full disk or a failing clock."""

import contextlib
import os
import pty
import re
import socket
import struct
import subprocess
import threading
import time

from lib import authority, program, registers
from lib.trial import Skipped, each, need, test

DAY = "2026-01-01T00:00:00Z"


# The port

def listeners(port):
    """The local addresses, in the kernel's table, at which a process listens at a port: IPv4, then IPv6."""
    found = []
    for table in ("/proc/net/tcp", "/proc/net/tcp6"):
        with contextlib.suppress(FileNotFoundError), open(table) as lines:
            for line in list(lines)[1:]:
                _, local, _, state, *_ = line.split()
                if state == "0A" and int(local.split(":")[1], 16) == port:
                    found.append(local.split(":")[0])
    return found


def own_addresses():
    told = subprocess.run(["hostname", "-I"], capture_output=True, text=True).stdout.split()
    return ["127.0.0.2", *[it for it in told if ":" not in it]]


@each({"open": ("open", ()), "serve": ("serve", ("--requests", "5"))})
def listens_at_127_0_0_1_alone(t, command, words):
    t.register()
    opened = t.open("ca.db", *words, command=command)
    t.same(listeners(opened.port), ["%08X" % struct.unpack("=I", socket.inet_aton("127.0.0.1"))], "the addresses at which it listens")
    for address in own_addresses():
        with socket.socket() as it:
            it.settimeout(5)
            t.true(it.connect_ex((address, opened.port)) != 0, f"it accepts connections at {address}")
    t.same(program.parted(opened.ask("GET", "/counts"))[0], 200)


# The control socket

@test
def only_its_owner_can_use_the_control_socket(t):
    t.register()
    before = os.umask(0)
    try:
        t.open()
    finally:
        os.umask(before)
    t.same("%o" % (os.stat(t.room / "control").st_mode & 0o7777), "600")


@test
def a_live_control_socket_is_not_taken_over(t):
    t.register()
    t.register("other.db")
    (t.room / "plain").write_text("left as it is")
    opened = t.open()
    t.same(t.control().ask("subscriber acme"), "subscriber 1")
    for path in ("control", "plain"):
        ran = t.desk("open", "other.db", "--port", program.free_port(), "--control", path, "--unsigned")
        t.same((ran.status, ran.out, ran.err), (1, b"", b"F4 read\n"), f"a second desk at {path}")
    t.same((t.room / "plain").read_text(), "left as it is")
    # The first desk still answers, at the control socket and at its port.
    t.same(t.control().ask("subscriber acme"), "E05 name-taken 1")
    t.same(program.parted(opened.ask("GET", "/counts"))[0], 200)


LINES = 20_000


@test(seconds=4)
def lines_in_one_piece_are_answered_in_order(t):
    t.register()
    t.clock(DAY)
    t.open()
    control = t.control()
    given = b"".join(b"subscriber n%d\n" % it for it in range(1, LINES + 1))
    # The desk reads no more lines while its replies are unread. So a thread sends lines while the test reads replies.
    writer = threading.Thread(target=control.stream.sendall, args=(given,))
    writer.start()
    got = [control.file.readline() for _ in range(LINES)]
    writer.join(30)
    t.same(next((at for at, it in enumerate(got, 1) if it != b"subscriber %d\n" % at), None), None, "the first line with another reply")


@each({"16 kB": 16_000, "just over": 16_400, "64 kB": 65_600})
def bytes_past_a_read_are_not_lost(t, size):
    t.register()
    t.open()
    control = t.control()
    count = size // 7 + 1
    control.stream.sendall(b"counts\n" * count)
    t.same([control.file.readline() for _ in range(count)], [b"good 0 revoked 0 expired 0\n"] * count)


@test(seconds=2)
def at_gets_all_replies_where_its_input_ended_at_once(t):
    t.register()
    t.clock(DAY)
    t.open()
    lines = [f"subscriber n{it}" for it in range(1, 3_001)] + ["revoke 9", "counts"]
    wanted = [f"subscriber {it}" for it in range(1, 3_001)] + ["E17 no-request", "good 0 revoked 0 expired 0"]
    ran = t.desk("at", "control", given="\n".join(lines) + "\n")
    t.same((ran.status, ran.err), (3, b"refused\n"), "status and standard error")
    t.same(ran.lines, wanted)


@test
def at_ends_with_1_where_the_desk_ends_meanwhile(t):
    t.register()
    opened = t.open()
    pipes = {it: subprocess.PIPE for it in ("stdin", "stdout", "stderr")}
    client = subprocess.Popen([program.program(), "at", "control"], cwd=t.room, env=program.environment(), **pipes)
    with client:
        client.stdin.write(b"counts\n")
        client.stdin.flush()
        # `desk at` prints a reply although its input has not ended.
        t.same(client.stdout.readline(), b"good 0 revoked 0 expired 0\n")
        opened.end()
        with contextlib.suppress(BrokenPipeError):
            client.stdin.write(b"counts\n")
            client.stdin.flush()
        out, told = client.communicate(timeout=program.LONGEST)
    # Its write or its read fails first, depending on the machine.
    t.same((client.returncode, out), (1, b""), f"status and standard output, with {told!r} on standard error")
    t.true(told in (b"F4 read\n", b"F5 write\n"), f"standard error has {told!r}")


# The machine's clock, which these tests do not set

def near(t, moment, what):
    late = time.time() - moment
    t.true(-2 <= late <= 30, f"{what} is {late:.0f} seconds behind the machine's clock")


@test
def the_moment_is_now(t):
    t.register()
    opened = t.open()
    t.same(t.control().ask("subscriber acme"), "subscriber 1")
    _, lines, _ = program.parted(opened.ask("GET", "/counts"))
    date = next(it for it in lines if it.startswith("Date: "))
    near(t, time.mktime(time.strptime(date, "Date: %a, %d %b %Y %H:%M:%S GMT")) - time.timezone, "the moment of a response")
    opened.end()
    near(t, t.sql("ca.db", "SELECT last_at FROM office")[0][0], "the moment of a command at the control socket")


@test
def a_clocked_script_runs_now(t):
    t.register()
    t.same(t.done("script", "ca.db", "--clock", given="subscriber acme"), "subscriber 1\n")
    near(t, t.sql("ca.db", "SELECT last_at FROM office")[0][0], "the moment of a line")


# Long requests

def in_two(t, opened, given, at):
    """Sends a request in two pieces, the second after the first was read."""
    with opened.connect() as client:
        client.sendall(given[:at])
        authority.until(lambda: program.is_read(client), "the desk to read the first piece")
        client.sendall(given[at:])
        return program.parted(program.read_all(client))


def head_of(size, first="GET /counts HTTP/1.1"):
    """A head of this many bytes, including its empty line."""
    lines = f"{first}\r\nHost: ca.example\r\n"
    return (lines + "X: " + "x" * (size - len(lines) - 7) + "\r\n\r\n").encode()


@each({"8,192 bytes": (8_192, 200), "a byte more": (8_193, 431)})
def a_long_head(t, size, status):
    t.register()
    opened = t.open()
    given = head_of(size)
    t.same(len(given), size)
    for at in (10, 4_096, size - 1):
        t.same(in_two(t, opened, given, at)[0], status, f"split at {at}")


@each({"65,536 bytes": (65_536, 200), "a byte more": (65_537, 413)})
def a_long_body(t, size, status):
    t.register()
    opened = t.open()
    head = f"POST /ocsp HTTP/1.1\r\nHost: ca.example\r\nContent-Type: application/ocsp-request\r\nContent-Length: {size}\r\n\r\n".encode()
    for at in (len(head), len(head) + 1, len(head) + 32_768):
        got, _, body = in_two(t, opened, head + bytes(size), at)
        t.same(got, status, f"split at {at}")
        if status == 200:
            # The body is no OCSP request: the answer is malformedRequest (RFC 6960 2.3), which has no signature.
            t.same(body.hex(), "30030a0101")


# The log

@test
def a_log_has_each_exchange(t):
    t.register()
    t.clock(DAY)
    opened = t.open("ca.db", "--log")
    control = t.control()
    asked = ["subscriber acme", "order 1 30", f"register 1 05 {DAY} 2026-01-10T00:00:00Z", "request 05 asked", "revoke 1", "revoke 2"]
    replies = ["subscriber 1", "order 1", "registered", "request 1 due 2026-01-02T00:00:00Z", "revoked", "E17 no-request"]
    t.same([control.ask(it) for it in asked], replies)
    response = opened.ask("GET", "/counts")
    told = opened.end().err_lines
    serial = f"{5:040x}"
    named = {"request 05 asked": f" request 1 {serial} asked", "revoke 1": f" request 1 {serial}"}
    for line, reply in zip(asked, replies):
        wanted = rf'{DAY} control "{line}" "{reply}" {len(reply) + 1} \d+{named.get(line, "")}'
        t.same(sum(1 for it in told if re.fullmatch(wanted, it)), 1, f"lines of {line!r} in {told}")
    wanted = rf'{DAY} 127\.0\.0\.1:\d+ "GET /counts HTTP/1\.1" "HTTP/1\.1 200 OK" {len(response)} \d+'
    t.same([bool(re.fullmatch(wanted, it)) for it in told if " control " not in it], [True], f"lines of the request in {told}")


@test
def without_log_nothing_is_logged(t):
    t.register()
    opened = t.open()
    t.same(t.control().ask("revoke 2"), "E17 no-request")
    opened.ask("GET", "/counts")
    t.same(opened.end().err, b"")


# A script on a terminal

@test(seconds=4)
def a_long_script_shows_its_progress_on_a_terminal(t):
    t.register()
    count = 2_000
    half = f"{DAY} order 1 398\n".encode() * (count // 2)
    ours, theirs = pty.openpty()
    with open(t.room / "replies", "wb") as replies:
        words = [program.program(), "script", "ca.db"]
        job = subprocess.Popen(words, cwd=t.room, stdin=subprocess.PIPE, stdout=replies, stderr=theirs, env=program.environment())
    os.close(theirs)
    job.stdin.write(f"{DAY} subscriber acme\n".encode() + half)
    job.stdin.flush()
    # It prints its progress after a line, once a second since its start. When the first reply is there, it has started.
    authority.until(lambda: (t.room / "replies").stat().st_size, "a reply")
    time.sleep(1.3)
    job.stdin.write(half)
    job.stdin.close()
    told = b""
    # The terminal's other side is closed when the program ends.
    with contextlib.suppress(OSError):
        while piece := os.read(ours, 4096):
            told += piece
    os.close(ours)
    t.same(job.wait(program.LONGEST), 0)
    t.true(re.search(rb"\d+ lines done, \d+ a second", told), f"it does not show its progress: {told!r}")
    t.same((t.room / "replies").read_text(), "subscriber 1\n" + "".join(f"order {it}\n" for it in range(1, count + 1)))


@test
def no_progress_is_shown_without_a_terminal(t):
    t.register()
    t.same(len(t.done("script", "ca.db", given=f"{DAY} subscriber acme\n" + f"{DAY} order 1 398\n" * 2_000).splitlines()), 2_001)


@test(seconds=2)
def a_command_comes_after_the_end_of_thousands_of_certificates(t):
    """All have ended since the last command."""
    registers.make(t.room / "ca.db", registers.Records(5_000, 0, 5_000), 3)
    later = "2026-06-01T00:00:00Z"
    t.same(t.done("script", "ca.db", given=f"{later} subscriber second\n{later} counts\n"), "subscriber 2\ngood 0 revoked 1 expired 4999\n")


# Causes

A_LINE = b"2026-01-01T00:00:00Z counts\n"


@test
def no_right_to_read_or_to_write(t):
    t.register()
    for mode in (0, 0o444):
        for file in t.room.glob("ca.db*"):
            os.chmod(file, mode)
        for command in ("crl", "script"):
            for more, told in ((("--why",), b"F2 store\n  permission denied, or the file system is read-only (FILE)\n"), ((), b"F2 store\n")):
                ran = t.as_nobody(command, "ca.db", *more, given=A_LINE)
                t.same((ran.returncode, ran.stdout, ran.stderr), (1, b"", told), f"{command} {more}, mode {mode:o}")
    # Lines for a log that may only be read would be lost, so the desk does not start.
    (t.room / "ca.log").write_text("before\n")
    os.chmod(t.room / "ca.log", 0o444)
    ran = t.as_nobody("serve", "ca.db", "--port", program.free_port(), "--requests", 1, "--log-file", "ca.log", "--why")
    told = b"F5 write\n  permission denied, or the file system is read-only (--log-file)\n"
    t.same((ran.returncode, ran.stdout, ran.stderr, (t.room / "ca.log").read_text()), (1, b"", told, "before\n"), "a log")


@test
def no_right_to_make(t):
    """Neither a register nor a control socket nor a log."""
    t.register()
    for file in t.room.iterdir():
        os.chmod(file, 0o666)
    folder = t.room / "closed"
    folder.mkdir(mode=0o555)
    init = ("init", "closed/ca.db", "--name", program.NAME, "--key", program.KEY)
    opens = ("open", "ca.db", "--port", program.free_port(), "--control", "closed/control", "--unsigned")
    logs = ("serve", "ca.db", "--port", program.free_port(), "--requests", 1, "--log-file", "closed/ca.log")
    for words, line, place in ((init, b"F2 store", b"FILE"), (opens, b"F4 read", b"--control"), (logs, b"F5 write", b"--log-file")):
        ran = t.as_nobody(*words, "--why")
        told = b"%s\n  permission denied, or the file system is read-only (%s)\n" % (line, place)
        t.same((ran.returncode, ran.stdout, ran.stderr), (1, b"", told), words[0])
    t.same(list(folder.iterdir()), [])


@test
def a_full_output(t):
    for words, told in ((("--why",), b"F5 write\n  disk full (standard output)\n"), ((), b"F5 write\n")):
        with open("/dev/full", "wb") as full:
            ran = subprocess.run([program.program(), "script", *words], input=A_LINE, stdout=full, stderr=subprocess.PIPE, cwd=t.room, timeout=program.LONGEST)
        t.same((ran.returncode, ran.stderr), (1, told), f"script {words}")


@test
def a_full_disk(t):
    if os.geteuid() != 0:
        raise Skipped("a small file system wants root")
    need("mount")
    (t.room / "disk").mkdir()
    if subprocess.run(["mount", "-t", "tmpfs", "-o", "size=64k", "tmpfs", t.room / "disk"], capture_output=True).returncode:
        raise Skipped("no file system can be mounted here")
    try:
        ran = t.desk("init", "disk/ca.db", "--name", program.NAME, "--key", program.KEY, "--why")
        t.same((ran.status, ran.out, ran.err), (1, b"", b"F2 store\n  disk full (FILE)\n"))
        t.same(list((t.room / "disk").iterdir()), [], "files that are left on the disk")
    finally:
        subprocess.run(["umount", t.room / "disk"], check=True)


@test
def a_clock_that_fails(t):
    t.register()
    for more, told in ((("--why",), b"F4 read\n  the machine's clock can't be read\n"), ((), b"F4 read\n")):
        opened = t.open("ca.db", "--requests", "1", *more, command="serve", faults={"FAULTS_FAIL": "clock:1+"})
        opened.ask("GET", "/counts")
        ended = opened.wait()
        t.same((ended.status, ended.err), (1, told), f"serve {more}")


@test
def a_clock_before_1970_is_read_as_the_start_of_1970(t):
    """A machine whose clock lost its setting still answers, and its operator still has the desk's metrics."""
    t.register()
    t.clock(-86_400)
    desk = t.open()
    status, fields, _ = program.parted(desk.ask("GET", "/counts"))
    t.same((status, "Date: Thu, 01 Jan 1970 00:00:00 GMT" in fields), (200, True), f"the status of GET /counts, and whether its date is the start of 1970: {fields}")
    t.same((t.control().ask("counts"), desk.process.poll()), ("good 0 revoked 0 expired 0", None), "a line, and the exit status of the desk, which must still run")
