"""SIGKILL ends a script, and SIGKILL or SIGTERM an open desk, at random moments. When the register is opened again, it has each answered command."""

import os
import random
import signal
import subprocess
import tempfile
import threading
import time

from lib import authority, program
from lib.faults import audited
from lib.trial import each

ROUNDS, LINES = 8, 20_000


def feed(process, lines):
    """Writes lines to a program's standard input, until there are no more or the program has ended."""
    try:
        process.stdin.write("".join(lines).encode())
        process.stdin.close()
    except OSError:
        pass


def ended_while_fed(t, words, lines, ended, how, after, is_answering):
    """Writes lines to a program. After a while, counted from its start or its first reply, a signal ends the process `ended`, by default the program.
    Returns the id in the last reply, or 0 without a reply."""
    with tempfile.TemporaryFile(dir=t.room) as replies:
        client = subprocess.Popen(
            [program.program(), *words], cwd=t.room, stdin=subprocess.PIPE, stdout=replies, stderr=subprocess.DEVNULL, env=program.environment()
        )
        feeder = threading.Thread(target=feed, args=(client, lines))
        feeder.start()
        if is_answering:
            authority.until(lambda: os.fstat(replies.fileno()).st_size, "a reply")
        time.sleep(after)
        ended = ended or client
        ended.send_signal(how)
        ended.wait(program.LONGEST)
        # The client of the control socket ends by itself when the desk has ended.
        client.wait(program.LONGEST)
        feeder.join()
        replies.seek(0)
        whole = replies.read().decode().split("\n")[:-1]
    return int(whole[-1].split()[1]) if whole else 0


ENDS = {
    "a script, by SIGKILL": ("script", signal.SIGKILL),
    "an open desk, by SIGKILL": ("open", signal.SIGKILL),
    "an open desk, by SIGTERM": ("open", signal.SIGTERM),
}


@each(ENDS, seconds=6)
def what_was_answered_stands(t, command, how):
    t.register()
    draw, most = random.Random(20260101), 0
    for number in range(ROUNDS):
        after, now = draw.uniform(0.02, 0.6), program.moment_of(time.time())
        if command == "script":
            lines = [f"{now} subscriber n{number}-{at}\n" for at in range(LINES)]
            last = ended_while_fed(t, ["script", "ca.db"], lines, None, how, after, number % 2)
        else:
            (t.room / "control").unlink(missing_ok=True)
            with program.Opened(["open", "ca.db", "--control", "control", "--unsigned"], cwd=t.room) as desk:
                lines = [f"subscriber n{number}-{at}\n" for at in range(LINES)]
                last = ended_while_fed(t, ["at", "control"], lines, desk.process, how, after, number % 2)
        again = t.done("script", "ca.db", given=f"{program.moment_of(time.time())} subscriber after-{number}\n")
        following = int(again.split()[1])
        t.true(following > last, f"round {number}: subscriber {last} was answered and is lost: the next subscriber is {following}")
        most = max(most, following)
    t.true(most > ROUNDS, f"only {most} subscribers were entered")
    audited(t, "ca.db", (0, 0, 0), "in the end")
