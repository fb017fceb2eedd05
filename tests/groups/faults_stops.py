"""The process is killed in place of its Nth call that writes, truncates, syncs, creates or removes a register's file. Unsynced writes may be lost.
Opened again, the register has a prefix of the commands, with at least all answered ones. It accepts the rest, and its audit is sound."""

from lib import faults, program
from lib.faults import CHANGES, LIFE, REGISTERED, Course
from lib.trial import Failed, each

FILES = "ca.db,ca.db-wal"
LOST_WRITES = {
    "nothing is lost": {},
    "what was not synced is lost": {"lose": 1},
    "some of what was not synced is lost": {"lose": 7},
    "the write is torn": {"torn": 1},
    "the write is torn and some is lost": {"torn": 1, "lose": 3},
    "new files are lost": {"lose": 1, "lose_files": 1},
}
DAY = "2026-01-01T00:00:00Z"
ROWS = "".join(f"{at},{at:x},{DAY},2026-01-10T00:00:00Z\n" for at in range(1, 5))
ORDERS = f"{DAY} subscriber acme\n" + f"{DAY} order 1 398\n" * 4
STEPS = ["1970-01-01T00:00:00Z=398", "2026-03-15T00:00:00Z=200", "2027-03-15T00:00:00Z=100"]


def script(lines):
    return "".join(f"{asked}\n" for asked, _ in lines)


def stopped_at_each_step(t, base, lines, sound, told):
    course = Course(t, base, lines, sound)
    faults.copy(base, t.room / "ca.db")
    last = faults.total(t, ["script", "ca.db"], "steps", script(lines), only=FILES)
    t.true(last > 10, f"only {last} steps")
    for at in range(1, last + 1):
        course.round(None, 1, f"stopped at step {at}", only=FILES, stop=at, **told)


@each(LOST_WRITES, seconds=10)
def a_script_is_stopped(t, told):
    stopped_at_each_step(t, t.register("base.db"), LIFE, (1, 1, 3), told)


@each(LOST_WRITES, seconds=10)
def a_script_of_the_other_commands_is_stopped(t, told):
    stopped_at_each_step(t, t.register("base.db", script(REGISTERED)), CHANGES, (1, 0, 0), told)


@each(LOST_WRITES, seconds=10)
def a_register_that_is_made_is_stopped(t, told):
    words = ["init", "ca.db", "--name", program.NAME, "--key", program.KEY]
    faults.copy(None, t.room / "ca.db")
    last = faults.total(t, words, "steps", only=FILES)
    for at in range(1, last + 1):
        faults.copy(None, t.room / "ca.db")
        ran, count = faults.run(t, words, only=FILES, stop=at, **told)
        t.same((ran.status, count["met"]), (-9, 1), f"stopped at step {at}")
        again = program.run(words, cwd=t.room)
        if (again.status, again.out) != (0, b"created\n") and again.err != b"not-empty\n":
            raise Failed(f"made again after a stop at step {at}: {again}")
        opened = program.run(["script", "ca.db"], f"{DAY} counts\n", cwd=t.room)
        t.same((opened.status, opened.out), (0, b"good 0 revoked 0 expired 0\n"), f"opened after a stop at step {at}")
        faults.audited(t, "ca.db", (0, 0, 0), f"stopped at step {at}")


@each(LOST_WRITES, seconds=10)
def an_import_is_stopped(t, told):
    base, words = t.register("base.db", ORDERS), ["import", "ca.db", "--now", DAY]
    faults.copy(base, t.room / "ca.db")
    last = faults.total(t, words, "steps", ROWS, only=FILES)
    wanted = faults.tables(t.room / "ca.db")
    for at in range(1, last + 1):
        faults.copy(base, t.room / "ca.db")
        ran, _ = faults.run(t, words, ROWS, only=FILES, stop=at, **told)
        t.same((ran.status, set(ran.lines) <= {"registered"}), (-9, True), f"stopped at step {at}")
        again = program.run(words, ROWS, cwd=t.room)
        same = again.lines.count("same")
        t.same((again.status, again.lines), (0, ["same"] * same + ["registered"] * (4 - same)), f"imported again after step {at}")
        t.true(same >= len(ran.lines), f"{len(ran.lines)} rows were answered before a stop at step {at}, but the register has {same}")
        t.same(faults.tables(t.room / "ca.db"), wanted, f"the tables after step {at}")
        faults.audited(t, "ca.db", (4, 0, 0), f"stopped at step {at}")


# The words of each setting, and its reply.
SET = {"a schedule": (["schedule", "ca.db", *STEPS], b"schedule set\n"), "a key identifier": (["key-id", "ca.db", "0102"], b"key-id set\n")}


@each({f"{name}, {loss}": (*SET[name], LOST_WRITES[loss]) for name in SET for loss in LOST_WRITES}, seconds=5)
def what_is_set_is_stopped(t, words, done, told):
    base = t.register("base.db", script(REGISTERED))
    faults.copy(base, t.room / "ca.db")
    before = faults.tables(t.room / "ca.db")
    last = faults.total(t, words, "steps", only=FILES)
    after = faults.tables(t.room / "ca.db")
    for at in range(1, last + 1):
        faults.copy(base, t.room / "ca.db")
        ran, _ = faults.run(t, words, only=FILES, stop=at, **told)
        found = faults.tables(t.room / "ca.db")
        t.true(found in (before, after) and (not ran.out or found == after), f"the tables after a stop at step {at}: {found}")
        t.same(program.run(words, cwd=t.room).out, done, f"set again after step {at}")
        faults.audited(t, "ca.db", (1, 0, 0), f"stopped at step {at}")


@each({"all is lost": 1, "some is lost": 5, "other is lost": 6, "some more is lost": 7}, seconds=2)
def a_machine_stops_after_an_answered_command(t, seed):
    told = {"lose": seed, "lose_files": 1, "only": FILES}
    words = {"init": (["init", "ca.db", "--name", program.NAME, "--key", program.KEY], "", ["created"]),
             "script": (["script", "ca.db"], ORDERS, None),
             "import": (["import", "ca.db", "--now", DAY], ROWS, ["registered"] * 4),
             "schedule": (["schedule", "ca.db", *STEPS], "", ["schedule set"]),
             "key-id": (["key-id", "ca.db", "0102"], "", ["key-id set"]),
             "a CRL": (["script", "ca.db"], f"{DAY} crl\n", ["crl 1 entries 0"])}  # fmt: skip
    for name, (it, given, wanted) in words.items():
        ran, _ = faults.run(t, it, given, **told)
        t.true(ran.status == 0 and wanted in (None, ran.lines), f"{name}: {ran}")
        after = faults.tables(t.room / "ca.db")
        t.true(after is not None, f"{name}: the register is lost")
        t.same(len(after["orders"]), 0 if name == "init" else 4, f"{name}: orders in the register")
        t.same(len(after["cert"]), 0 if name in ("init", "script") else 4, f"{name}: certificates in the register")
        t.same(len(after["longest"]), 3 if name in ("schedule", "key-id", "a CRL") else 1, f"{name}: steps of the schedule in the register")
        t.same(len(after["crl"]), int(name == "a CRL"), f"{name}: CRLs in the register")
    faults.audited(t, "ca.db", (4, 0, 1), "in the end")


@each(LOST_WRITES, seconds=15)
def an_open_desk_is_stopped(t, told):
    base = t.register("base.db")
    course = Course(t, base, LIFE, (1, 1, 3))
    clock, at = t.room / "clock", 0
    while True:
        at += 1
        faults.copy(base, t.room / "ca.db")
        (t.room / "control").unlink(missing_ok=True)
        clock.write_text(str(program.seconds_of(DAY)))
        env = faults.environment(count=t.room / "count", same=1, only=FILES, stop=at, **told)
        with program.Opened(["open", "ca.db", "--control", "control", "--unsigned"], cwd=t.room, clock=clock, faults=env) as desk:
            place = answered(t, desk, clock) if desk.listens else 0
            desk.end()
        met = faults.counted(t.room / "count")["met"]
        course.goes_on("ca.db", place, 1 if met else 0, f"an open desk stopped at step {at}")
        if not met:
            break
    t.true(at > 20, f"only {at} steps")


def answered(t, desk, clock):
    """Sends the lines to the control socket, each under the clock of its moment, until the desk is killed. Returns how many were answered."""
    try:
        with program.Control(t.room / "control") as control:
            for place, (asked, wanted) in enumerate(LIFE):
                moment, line = asked.split(" ", 1)
                clock.write_text(str(program.seconds_of(moment)))
                reply = control.ask(line)
                if reply == "":
                    return place
                t.same(reply, wanted, asked)
    except OSError:
        return 0
    return len(LIFE)
