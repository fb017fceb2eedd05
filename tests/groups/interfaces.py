"""The interfaces of an open desk: its port, its control socket, its clock, its log, and the replies that `at` and `script` print."""

import contextlib
import fcntl
import os
import re
import select
import socket
import stat
import subprocess
import time
from concurrent.futures import ThreadPoolExecutor
from pathlib import Path

from lib import faults
from lib.authority import until
from lib.program import LONGEST, Control, Opened, environment, free_port, moment_of, parted, program, read_all, seconds_of
from lib.trial import Skipped, each, need, test

DAY = "2026-01-01T00:00:00Z"
ENTERED = f"{DAY} subscriber acme\n{DAY} order 1 398\n{DAY} register 1 05 {DAY} 2026-12-31T00:00:00Z\n"
LISTENS = "0A"


def listening_at(port):
    """The addresses at which a process of this machine listens with this port, as the kernel writes them, low byte first."""
    rows = [it.split() for name in ("tcp", "tcp6") for it in open(f"/proc/net/{name}").read().splitlines()[1:]]
    local = [row[1].split(":") for row in rows if row[3] == LISTENS]
    return [address for address, at in local if int(at, 16) == port]


@test
def the_port_is_that_of_the_loopback_address_alone(t):
    t.register()
    t.register("served.db")
    for opened in (t.open(), t.open("served.db", "--requests", 1, command="serve")):
        t.same(listening_at(opened.port), ["0100007F"], "the addresses at which it listens (127.0.0.1)")
        # Every address of 127.0.0.0/8 is this machine's.
        with socket.socket() as other:
            t.true(other.connect_ex(("127.0.0.2", opened.port)) != 0, "it accepts connections at 127.0.0.2")


@test
def the_ipv6_loopback_address_in_place_of_127_0_0_1(t):
    if "00000000000000000000000000000001" not in Path("/proc/net/if_inet6").read_text():
        raise Skipped("this system has no IPv6 loopback address")
    t.register()
    t.register("served.db")
    for opened in (t.open("ca.db", "--listen", "[::1]", "--log-file", "log"), t.open("served.db", "--requests", 2, "--listen=[::1]", command="serve")):
        t.same(listening_at(opened.port), ["00000000000000000000000001000000"], "the addresses at which it listens (::1)")
        with socket.create_connection(("::1", opened.port), 10) as client:
            client.sendall(b"GET /counts HTTP/1.1\r\nHost: localhost\r\n\r\n")
            t.same(parted(read_all(client))[0], 200)
        with socket.socket() as other:
            t.true(other.connect_ex(("127.0.0.1", opened.port)) != 0, "it accepts connections at 127.0.0.1")
    t.register("second.db")
    ran = t.desk("serve", "second.db", "--port", opened.port, "--listen", "[::1]", "--requests", 1, "--why")
    t.same((ran.status, ran.out, ran.err), (1, b"", b"F4 read\n  port in use (--port)\n"), "a second desk at the same port")
    t.same((t.room / "log").read_text().split()[1].rpartition(":")[0], "[::1]", "the client in the log")


@each({"the register": "ca.db", "a link to it": "link", "its write-ahead log": "ca.db-wal", "its journal": "ca.db-journal"})
def a_log_in_the_place_of_a_register(t, log):
    """Log lines would damage a file of the register, so the desk refuses such a log before it does anything else."""
    t.register(lines=ENTERED)
    (t.room / "link").symlink_to("ca.db")
    before = (t.room / "ca.db").read_bytes()
    follows = ["follow", "ca.db", "--unsigned", "--from", "leader"]
    for command in (["open", "ca.db", "--unsigned", "--control", "control"], ["serve", "ca.db", "--requests", "1"], follows):
        ran = t.desk(*command, "--port", free_port(), "--log-file", log, "--why", timeout=60)
        t.same((ran.status, ran.out, ran.err), (1, b"", b"F5 write\n  the path already exists: give another one (--log-file)\n"))
    t.same((t.room / "ca.db").read_bytes(), before)
    t.has(t.done("audit", "ca.db"), "sound")


@each({"that is there": True, "that is not there": False}, seconds=4)
def a_log_in_the_place_of_a_write_ahead_log_that_a_desk_can_t_look_at(t, is_there):
    """In each run one allocation fails, or one look at a file. Lines in this log would damage the register, so the desk never listens with it."""
    t.register(lines=ENTERED)
    before, log = (t.room / "ca.db").read_bytes(), t.room / "ca.db-wal"

    def run(fail):
        """How a desk with this log ends. If it listens, it is ended."""
        log.unlink(missing_ok=True)
        if is_there:
            log.touch()
        words = ["serve", "ca.db", "--requests", "1", "--log-file", "ca.db-wal"]
        with Opened(words, cwd=t.room, faults=faults.environment(count=t.room / "count", same=1, fail=fail)) as desk:
            ended = desk.end() if desk.listens else desk.wait()
            return desk.listens, ended.status, ended.err

    t.same(run(None), (False, 1, b"F5 write\n"), "without a fault")
    last = faults.counted(t.room / "count")["alloc"]
    # It looks at the log with the last ones. It can do without one of those that read the command line.
    for at in [*range(1, last - 60, 9), *range(last - 60, last + 1)]:
        listens, status, told = run(f"alloc:{at}")
        is_memory = told == b"F1 memory\n" or (at < last - 60 and told == b"F5 write\n")
        t.same((listens, status, is_memory), (False, 1, True), f"allocation {at} of {last}: {told!r}")
    run(None)
    for at in range(1, faults.counted(t.room / "count")["stat"] + 1):
        t.same(run(f"stat:{at}=EIO"), (False, 1, b"F5 write\n"), f"look {at} at a file")
    t.same((t.room / "ca.db").read_bytes(), before, "the register")
    log.unlink()
    t.has(t.done("audit", "ca.db"), "sound")


@test
def a_log_in_the_place_of_that_of_a_register_behind_a_link(t):
    """The register's own log lies beside the file to which the link leads."""
    (t.room / "registers").mkdir()
    t.register("registers/ca.db", lines=ENTERED)
    (t.room / "ca.db").symlink_to("registers/ca.db")
    ran = t.desk("open", "ca.db", "--unsigned", "--control", "control", "--port", free_port(), "--log-file", "registers/ca.db-wal", "--why")
    t.same((ran.status, ran.out, ran.err), (1, b"", b"F5 write\n  the path already exists: give another one (--log-file)\n"))


@test
def a_log_at_another_path_to_the_folder_of_a_register(t):
    """A folder is mounted at a second place, as in a container: its files have two paths, and one name each."""
    if os.geteuid():
        raise Skipped("a mounted folder wants root")
    need("mount")
    t.register(lines=ENTERED)
    before = (t.room / "ca.db").read_bytes()
    (t.room / "mounted").mkdir()
    if subprocess.run(["mount", "--bind", t.room, t.room / "mounted"], capture_output=True).returncode:
        raise Skipped("no folder can be mounted here")
    t.callback(subprocess.run, ["umount", t.room / "mounted"], check=True)
    for log in ("mounted/ca.db", "mounted/ca.db-wal", "mounted/ca.db-journal"):
        ran = t.desk("open", "ca.db", "--unsigned", "--control", "control", "--port", free_port(), "--log-file", log, "--why", timeout=60)
        t.same((ran.status, ran.out, ran.err), (1, b"", b"F5 write\n  the path already exists: give another one (--log-file)\n"), log)
    t.same((t.room / "ca.db").read_bytes(), before, "the register")


@test
def a_log_on_another_file_system_is_no_file_of_the_register(t):
    """The desk opens a log that has the register's inode number, but on another file system."""
    if os.geteuid():
        raise Skipped("file systems of their own want root")
    need("mount")
    for name in ("registers", "logs"):
        (t.room / name).mkdir()
        if subprocess.run(["mount", "-t", "tmpfs", "-o", "size=4m", "tmpfs", t.room / name], capture_output=True).returncode:
            raise Skipped("no file system can be mounted here")
        t.callback(subprocess.run, ["umount", t.room / name], check=True)
    (t.room / "logs/ca.log").touch()
    t.register("registers/ca.db")
    number, other = (os.stat(t.room / it).st_ino for it in ("registers/ca.db", "logs/ca.log"))
    if number != other:
        raise Skipped(f"the first files of two file systems have other numbers here: {number}, {other}")
    desk = t.open("registers/ca.db", "--log-file", "logs/ca.log")
    t.same(t.done("at", "control", given="counts\n"), "good 0 revoked 0 expired 0\n")
    desk.end()
    t.has((t.room / "logs/ca.log").read_text(), '"counts"', "the log")


@test
def the_control_socket_by_its_older_name(t):
    t.register(lines=ENTERED)
    t.open("ca.db", "--counter", "older")
    t.same(t.done("at", "older", given="status 05\n"), "good\n")


@test
def only_its_owner_can_use_the_control_socket(t):
    t.register()
    t.open()
    mode = os.stat(t.room / "control").st_mode
    t.same((stat.S_ISSOCK(mode), oct(stat.S_IMODE(mode))), (True, "0o600"), "the control socket")
    t.same(oct(stat.S_IMODE(os.stat(t.room / "ca.db").st_mode)), "0o600", "the register")


@test
def a_live_control_socket_is_not_taken_over(t):
    t.register(lines=ENTERED)
    t.register("other.db")
    t.open()
    ran = t.desk("open", "other.db", "--port", free_port(), "--control", "control", "--unsigned")
    t.same((ran.status, ran.out, ran.err), (1, b"", b"F4 read\n"), "the second desk at the same control socket")
    t.same(t.done("at", "control", given="status 05\n"), "good\n", "the first desk")


@test
def a_stale_socket_is_taken_over_and_a_file_is_not(t):
    t.register(lines=ENTERED)
    t.open().end()
    t.true((t.room / "control").is_socket(), "a desk that was ended has removed its socket")
    opened = t.open()
    t.same(t.done("at", "control", given="status 05\n"), "good\n")
    opened.end()
    (t.room / "file").write_text("no socket")
    ran = t.desk("open", "ca.db", "--port", free_port(), "--control", "file", "--unsigned")
    t.same((ran.status, ran.out, ran.err), (1, b"", b"F4 read\n"), "a control socket at the path of a file")
    t.same((t.room / "file").read_text(), "no socket", "the file")


@test
def a_stale_socket_that_can_t_be_looked_at_is_no_file(t):
    """An operator who is told of a file would look for one."""
    t.register(lines=ENTERED)
    with socket.socket(socket.AF_UNIX) as stale:
        stale.bind(str(t.room / "control"))
    words = ["open", "ca.db", "--port", free_port(), "--control", "control", "--unsigned", "--why"]
    ran, count = faults.run(t, words, only="control", fail="stat:1=EACCES")
    told = b"F4 read\n  permission denied, or the file system is read-only (--control)\n"
    t.same((ran.status, ran.err, count["met"]), (1, told, 1))


@test
def a_control_socket_that_may_not_be_created_is_not_missing(t):
    """An operator who is told of a missing file would look for one. The first bind(2) is that of the port."""
    t.register()
    words = ["open", "ca.db", "--port", free_port(), "--control", "control", "--unsigned", "--why"]
    ran, count = faults.run(t, words, fail="bind:2=EACCES")
    told = b"F4 read\n  permission denied, or the file system is read-only (--control)\n"
    t.same((ran.status, ran.out, ran.err, count["met"]), (1, b"", told, 1))


@test(seconds=30)
def eight_desks_that_open_at_one_stale_socket(t):
    """Forty times, eight desks open at one stale socket at once: one serves at it, and seven fail."""
    files = [f"{at}.db" for at in range(8)]
    for file in files:
        t.register(file)
    with ThreadPoolExecutor(len(files)) as pool:
        for at in range(40):
            path = t.room / f"{at}.control"
            with socket.socket(socket.AF_UNIX) as stale:
                stale.bind(str(path))
            desks = list(pool.map(lambda file: t.enter_context(Opened(["open", file, "--control", path.name, "--unsigned"], cwd=t.room)), files))
            serving = [it for it in desks if it.listens]
            t.same(len(serving), 1, f"{at}: how many serve")
            with Control(path) as control:
                t.same(control.ask("status 05"), "unknown", f"{at}: the one that serves")
            failed = [it.wait() for it in desks if it is not serving[0]]
            t.same([(it.status, it.out, it.err) for it in failed], [(1, b"", b"F4 read\n")] * 7, f"{at}: the others")
            serving[0].end()


@test
def the_lock_of_the_folder_of_a_control_socket(t):
    """A desk waits while another program has a lock, also a shared one. It releases its own before it listens. It works in another folder."""
    t.register()
    (t.room / "sockets").mkdir()
    folder = os.open(t.room / "sockets", os.O_RDONLY)
    fcntl.flock(folder, fcntl.LOCK_SH)
    tried = lambda: (t.room / "count").exists() and faults.counted(t.room / "count")["lock"]
    with ThreadPoolExecutor(1) as pool:
        opening = pool.submit(t.open, "ca.db", "--control", "sockets/control", faults=faults.environment(count=t.room / "count", only="sockets"))
        until(tried, "a desk that tries to lock the folder", seconds=20)
        t.same((t.room / "sockets/control").exists(), False, "whether there is a socket")
        fcntl.flock(folder, fcntl.LOCK_UN)
        opening.result()
    fcntl.flock(folder, fcntl.LOCK_EX | fcntl.LOCK_NB)
    os.close(folder)


# Standard streams that are closed, what `desk at` prints on standard error, and how many of its lines are run.
CLOSED = {"<&-": (b"F4 read\n", 0), ">&-": (b"F5 write\n", 1), ">&- 2>&-": (b"", 1), "<&- >&- 2>&-": (b"", 0)}


@each({closed: (closed, *ends) for closed, ends in CLOSED.items()})
def no_connection_gets_the_number_of_a_closed_standard_stream(t, closed, told, lines):
    """Otherwise `desk at` would send the replies to the desk, or read lines from it."""
    t.register()
    t.open()
    words = ["bash", "-c", f'exec "$@" {closed}', "-", program(), "at", "control"]
    ran = t.tried(*words, given="subscriber acme\nsubscriber beta\n", timeout=60, env=environment())
    t.same((ran.returncode, ran.stderr), (1, told))
    t.same(t.control().ask("subscriber last"), f"subscriber {lines + 1}", "the reply to a later line")


@test
def no_file_of_a_register_gets_the_number_of_closed_standard_error(t):
    """Otherwise the desk would write its log into that file."""
    t.register()
    port = free_port()
    words = ["open", "ca.db", "--port", str(port), "--control", "control", "--unsigned", "--log"]
    it = subprocess.Popen(
        ["bash", "-c", 'exec "$@" 2>&-', "-", program(), *words], cwd=t.room, stdin=subprocess.DEVNULL, stdout=subprocess.PIPE, env=environment()
    )
    t.callback(it.wait, LONGEST)
    t.callback(it.kill)
    with it.stdout:
        t.same(it.stdout.readline(), b"listening %d\n" % port)
    t.same(os.readlink(f"/proc/{it.pid}/fd/2"), "/dev/null", "the file with the number of standard error")


@test
def moments_are_those_of_the_machines_clock(t):
    t.register()
    opened = t.open()
    before = int(time.time())
    _, lines, _ = parted(opened.ask("GET", "/counts"))
    with t.control() as control:
        control.ask("subscriber acme")
        control.ask("order 1 2")
        at = [moment_of(int(time.time()) + it) for it in (0, 86_400)]
        t.same(control.ask(f"register 1 05 {at[0]} {at[1]}"), "registered")
        due = control.ask("request 05 asked").removeprefix("request 1 due ")
    after = int(time.time())
    told = time.strptime(next(it for it in lines if it.startswith("Date: ")), "Date: %a, %d %b %Y %H:%M:%S GMT")
    seconds = seconds_of(time.strftime("%Y-%m-%dT%H:%M:%SZ", told))
    t.true(before <= seconds <= after, f"Date is {seconds}, which is not between {before} and {after}")
    # A request with the ground `asked` is due within a day.
    t.true(before + 86_400 <= seconds_of(due) <= after + 86_400, f"the request is due at {due}")


@test
def a_clock_that_is_set_is_that_of_answers_and_commands(t):
    t.register(lines=ENTERED)
    t.clock("2026-02-28T23:59:59Z")
    opened = t.open()
    t.same([it for it in parted(opened.ask("GET", "/counts"))[1] if it.startswith("Date")], ["Date: Sat, 28 Feb 2026 23:59:59 GMT"])
    t.same(t.done("at", "control", given="accept-clock 2026-02-28T23:59:59Z\nrequest 05 asked\n"), "clock accepted\nrequest 1 due 2026-03-01T23:59:59Z\n")
    t.clock("2026-03-01T00:00:00Z")
    t.same(t.done("at", "control", given="revoke 1\nstatus 05\n"), "revoked\nrevoked 2026-03-01T00:00:00Z reason 0\n")


@test
def at_prints_each_reply_in_order(t):
    t.register(lines=ENTERED)
    t.clock(DAY)
    t.open()
    ran = t.desk("at", "control", given="counts\nstatus 05\nstatus 06\nnext-crl\n")
    t.same((ran.status, ran.out, ran.err), (0, b"good 1 revoked 0 expired 0\ngood\nunknown\nnext-crl at-once\n", b""))
    ran = t.desk("at", "control", given="counts\nrevoke 7\nstatus 05\n")
    t.same((ran.status, ran.out, ran.err), (3, b"good 1 revoked 0 expired 0\nE17 no-request\ngood\n", b"refused\n"))
    ran = t.desk("at", "control", given="counts\nrevoke 7")
    t.same((ran.status, ran.out, ran.err), (3, b"good 1 revoked 0 expired 0\n", b"no-line-end\n"), "a last line without its end")
    ran = t.desk("at", "control", given="")
    t.same((ran.status, ran.out, ran.err), (0, b"", b""), "no line")
    ran = t.desk("at", "nobody", given="counts\n")
    t.same((ran.status, ran.out, ran.err), (1, b"", b"F4 read\n"), "a socket that is not there")


REGISTERS = f"register 1 05 {DAY} 2026-12-31T00:00:00Z"
# The words of a job, its lines or rows, the first of two lines that it sends, and the reply to that.
JOBS_OF_AT = {
    "at": (["at", "control"], "counts\nstatus 05\n", "counts", "good 0 revoked 0 expired 0"),
    "at --import": (["at", "control", "--import", "rows"], f"1,05,{DAY},2026-12-31T00:00:00Z\n" * 2, REGISTERS, "E08 no-order"),
    "at --revoke": (["at", "control", "--revoke", "rows"], "05,superseded\n06,asked\n", f"request {5:040} superseded", "E14 unknown-serial"),
    "replay": (["replay", "control", "rows"], f'{DAY} control "crl" "crl 1 entries 0" 16 9\n' * 2, "crl", "crl 1 entries 0"),
}


@each(JOBS_OF_AT)
def a_reply_is_printed_before_the_next_one_comes(t, words, given, line, reply):
    """The job prints the first reply although its standard input stays open and no second reply has come."""
    (t.room / "rows").write_text(given)
    with socket.socket(socket.AF_UNIX) as server:
        server.bind(str(t.room / "control"))
        server.listen(1)
        it = subprocess.Popen([program(), *words], cwd=t.room, stdin=subprocess.PIPE, stdout=subprocess.PIPE, stderr=subprocess.DEVNULL, env=environment())
        t.callback(it.wait, LONGEST)
        t.callback(it.kill)
        it.stdin.write(given.encode())
        it.stdin.flush()
        client, _ = server.accept()
        with client, client.makefile("rb") as lines:
            client.settimeout(20)
            t.same(lines.readline().decode(), f"{line}\n", "the first line that it sends")
            client.sendall(f"{reply}\n".encode())
            t.true(lines.readline(), "it does not send a second line")
            t.true(select.select([it.stdout], [], [], 20)[0], "it prints nothing")
            t.same(it.stdout.readline().decode(), f"{reply}\n", "what it prints")
        it.stdin.close()
        it.stdout.close()


# The most rows of an import whose lines are sent before their replies are read.
IN_FLIGHT = 256


@contextlib.contextmanager
def sending(t, words):
    """The job `at` with these words, and its connection to a control socket at which the test answers."""
    with socket.socket(socket.AF_UNIX) as server:
        server.bind(str(t.room / "control"))
        server.listen(1)
        it = subprocess.Popen([program(), *words], cwd=t.room, stdin=subprocess.PIPE, stdout=subprocess.PIPE, stderr=subprocess.PIPE, env=environment())
        t.callback(it.wait, LONGEST)
        t.callback(it.kill)
        client, _ = server.accept()
        with client:
            client.settimeout(20)
            yield it, client


def lines_from(client, count):
    """The next `count` lines of a connection, and what came behind them, if anything did."""
    text = b""
    while text.count(b"\n") < count:
        more = client.recv(65_536)
        if not more:
            break
        text += more
    lines = text.split(b"\n")
    return [it.decode() for it in lines[:count]], b"\n".join(lines[count:])


@each({"256 rows": (IN_FLIGHT, [256]), "257 rows": (257, [256, 1]), "513 rows": (513, [256, 256, 1]), "one row": (1, [1])})
def an_import_sends_256_lines_before_it_reads_their_replies(t, count, pieces):
    """No reply is sent before all lines of a piece came; the next piece comes only after the last reply."""
    (t.room / "rows").write_text("".join(f"{at},{at:x},{DAY},2026-12-31T00:00:00Z\n" for at in range(1, count + 1)))
    expected = [f"register {at} {at:x} {DAY} 2026-12-31T00:00:00Z" for at in range(1, count + 1)]
    replies = [("registered", "E08 no-order")[at % 2] for at in range(count)]
    with sending(t, ["at", "control", "--import", "rows"]) as (it, client):
        sent = 0
        for size in pieces:
            lines, behind = lines_from(client, size)
            t.same((lines, behind), (expected[sent:sent + size], b""), f"the lines of a piece after {sent}")
            piece = [f"{reply}\n".encode() for reply in replies[sent:sent + size]]
            for reply in piece[:-1]:
                client.sendall(reply)
                t.same(it.stdout.readline(), reply, "a reply that is printed before the next one comes")
            t.same(select.select([client], [], [], 0.2)[0], [], f"lines that come before the last reply to the piece after {sent}")
            client.sendall(piece[-1])
            t.same(it.stdout.readline(), piece[-1], "the last reply")
            sent += size
        t.same(client.recv(1), b"", "what comes after the last line")
        out, err = it.communicate(timeout=LONGEST)
    t.same((it.returncode, out, err), (0 if count == 1 else 3, b"", b"" if count == 1 else b"refused\n"))


@each({"all lines are read": 65_536, "lines are unread": 10})
def an_import_writes_the_replies_that_came_before_the_connection_ended(t, most):
    (t.room / "rows").write_text(f"1,05,{DAY},2026-12-31T00:00:00Z\n" * 300)
    with sending(t, ["at", "control", "--import", "rows"]) as (it, client):
        t.same(client.recv(most)[:10], b"register 1", "what it sends")
        client.sendall(b"registered\nsame\nsa")
    out, err = it.communicate(timeout=LONGEST)
    t.same((it.returncode, out, err), (1, b"registered\nsame\n", b"F4 read\n"))


@test
def at_sends_each_line_of_its_input_once_the_reply_to_the_line_before_came(t):
    with sending(t, ["at", "control"]) as (it, client):
        it.stdin.write(b"counts\n" * 3)
        it.stdin.flush()
        for at in range(3):
            t.same(lines_from(client, 1), (["counts"], b""), f"line {at}")
            t.same(select.select([client], [], [], 0.2)[0], [], "another line before the reply")
            client.sendall(b"good\n")
            t.same(it.stdout.readline(), b"good\n", "a reply, while standard input stays open")


@test
def many_lines_in_one_write_are_all_answered_in_order(t):
    t.register(lines=ENTERED)
    t.clock(DAY)
    t.open()
    lines = [f"status {serial:x}" for serial in range(1, 20_001)]
    with Control(t.room / "control") as control:
        sent = 0
        text = "".join(f"{it}\n" for it in lines).encode()
        control.stream.setblocking(False)
        replies, last_reply = b"", time.monotonic()
        while replies.count(b"\n") < len(lines):
            with contextlib.suppress(BlockingIOError):
                sent += control.stream.send(text[sent:]) if sent < len(text) else 0
            with contextlib.suppress(BlockingIOError):
                got = control.stream.recv(65_536)
                t.true(got, f"the control connection ended after {replies.count(10)} of {len(lines)} replies")
                replies, last_reply = replies + got, time.monotonic()
            t.true(time.monotonic() - last_reply < 60, f"no reply came for 60 s, after {replies.count(10)} of {len(lines)}")
            time.sleep(0.0002)
    wanted = b"".join(b"good\n" if serial == 5 else b"unknown\n" for serial in range(1, 20_001))
    t.true(replies == wanted, "a reply is wrong, or in the wrong place")


@test
def a_long_line_is_answered_and_a_longer_one_ends_the_connection(t):
    t.register()
    t.clock(DAY)
    t.open()
    with t.control() as control:
        t.same(control.ask("status " + "0" * 8_100), "E22 syntax")
        t.same(control.ask("counts"), "good 0 revoked 0 expired 0")
    with t.control() as control:
        control.stream.sendall(b"x" * 9_000)
        t.same(control.file.read(), b"", "what a client receives that sent 9,000 bytes without a line end")


@test
def the_log_has_each_exchange_also_revocations_and_refusals(t):
    t.register(lines=ENTERED)
    t.clock("2026-01-02T00:00:00Z")
    opened = t.open("ca.db", "--log")
    opened.ask("POST", "/requests", '{"serial":"05","ground":"superseded"}')
    opened.ask("GET", "/nowhere")
    t.desk("at", "control", given="revoke 1\nrevoke 1\nnonsense\n")
    opened.ask("GET", "/status/05")
    told = opened.end().err_lines
    bare = [re.sub(r"127\.0\.0\.1:\d+", "PEER", re.sub(r'" \d+ \d+', '"', it)) for it in told]
    at, serial = "2026-01-02T00:00:00Z", f"{5:040x}"
    t.same(
        bare,
        [
            f'{at} PEER "POST /requests HTTP/1.1" "HTTP/1.1 200 OK" request 1 {serial} superseded',
            f'{at} PEER "GET /nowhere HTTP/1.1" "HTTP/1.1 404 Not Found"',
            f'{at} control "revoke 1" "revoked" request 1 {serial}',
            f'{at} control "revoke 1" "E19 revoked-before {at}"',
            f'{at} control "nonsense" "E22 syntax"',
            f'{at} PEER "GET /status/05 HTTP/1.1" "HTTP/1.1 200 OK"',
        ],
        "the log",
    )


@test
def without_log_nothing_is_logged(t):
    t.register(lines=ENTERED)
    opened = t.open()
    opened.ask("GET", "/counts")
    t.desk("at", "control", given="revoke 1\n")
    t.same(opened.end().err, b"", "standard error")


@test
def serve_has_a_log_too(t):
    t.register(lines=ENTERED)
    t.clock(DAY)
    opened = t.open("ca.db", "--requests", 1, "--log", command="serve")
    opened.ask("GET", "/counts")
    ended = opened.wait()
    t.same((ended.status, len(ended.err_lines)), (0, 1), "status, and how many lines")
    t.has(ended.err_lines[0], '"GET /counts HTTP/1.1" "HTTP/1.1 200 OK"')


@test
def a_script_over_a_file_prints_refusals(t):
    t.register(lines=ENTERED)
    ran = t.desk("script", "ca.db", given=f"{DAY} revoke 1\n{DAY} counts\n{DAY} status 5 5\n")
    t.same((ran.status, ran.out, ran.err), (0, b"E17 no-request\ngood 1 revoked 0 expired 0\nE22 syntax\n", b""))


@test
def a_strict_script_ends_with_status_3_at_the_first_refusal(t):
    t.register(lines=ENTERED)
    ran = t.desk("script", "ca.db", "--strict", given=f"{DAY} counts\n{DAY} revoke 1\n{DAY} order 1 1\n")
    t.same((ran.status, ran.out, ran.err), (3, b"good 1 revoked 0 expired 0\nE17 no-request\n", b"refused\n"))
    t.same(t.done("script", "ca.db", given=f"{DAY} order 1 1\n"), "order 2\n", "the next order: the line after the refusal was not run")


@test
def an_audit_names_the_row_that_is_broken(t):
    t.register(lines=ENTERED)
    t.sql("ca.db", "UPDATE standing SET state = 'R'")
    ran = t.desk("audit", "ca.db")
    t.same(
        (ran.status, ran.out, ran.err),
        (1, b"broken: standing 1: differs from the records, or a row with a lower serial number is missing\n", b"broken\n"),
    )


def large_register(t, count):
    """A register whose latest CRL lists this many serial numbers."""
    lines = [f"{DAY} subscriber acme\n"]
    for at in range(1, count + 1):
        lines.append(f"{DAY} order 1 398\n{DAY} register {at} {at:x} {DAY} 2026-12-31T00:00:00Z\n{DAY} request {at:x} superseded\n{DAY} revoke {at}\n")
    return t.register(lines="".join(lines) + f"{DAY} crl\n")


@test(seconds=5)
def answers_are_sent_whole_at_the_end(t):
    # The test makes CRL 1, which `serve` does not parse, larger than the buffers of a loopback connection.
    t.register(lines=f"{DAY} crl\n{DAY} crl\n")
    t.sql("ca.db", "UPDATE crl SET der = zeroblob(12000000) WHERE number = 1")
    t.clock(DAY)
    opened = t.open("ca.db", "--requests", 2, command="serve")
    with opened.connect() as slow:
        slow.sendall(b"GET /crl/1 HTTP/1.1\r\n\r\n")
        time.sleep(0.3)
        t.same(parted(opened.ask("GET", "/counts"))[0], 200)
        time.sleep(0.3)
        got = 0
        while piece := slow.recv(1_000_000):
            got += len(piece)
            time.sleep(0.01)
    t.true(got > 12_000_000, f"the slow client got {got} bytes of some 12,000,150")
    t.same(opened.wait().status, 0, "status")


@test
def long_requests_are_answered(t):
    t.register(lines=ENTERED)
    t.clock(DAY)
    opened = t.open()
    status, _, body = parted(opened.ask("GET", "/status/05", headers=[f"X-Long: {'x' * 8_000}"]))
    t.same((status, body), (200, b'{"status":"good"}'), "a head of 8,000 bytes")
    body = bytes(65_536)
    with opened.connect() as client:
        client.sendall(b"POST /ocsp HTTP/1.1\r\nContent-Length: 65536\r\n\r\n" + body[:30_000])
        time.sleep(0.1)
        client.sendall(body[30_000:])
        got = b""
        while piece := client.recv(65_536):
            got += piece
    t.same((parted(got)[0], parted(got)[2].hex()), (200, "30030a0101"), "a body of 65,536 bytes in two pieces")


@test
def a_crl_of_many_entries_is_printed_whole(t):
    large_register(t, 300)
    der = t.desk("crl", "ca.db").out
    t.true(len(der) > 4_096, f"the CRL has {len(der)} bytes")
    text = t.tool("openssl", "crl", "-inform", "DER", "-noout", "-text", given=der).decode()
    t.same(text.count("Serial Number:"), 300, "entries")
    opened = t.open()
    t.true(parted(opened.ask("GET", "/crl"))[2] == der, "GET /crl gives another CRL")
