"""No command changes a file that is not a register, such as an empty file or one that is not a database. None creates a file beside it."""

from lib import program
from lib.trial import each

DAMAGED = "  damaged, or not a database: check the path and the disk"
DAY = "2026-01-01T00:00:00Z"
# Commands, each with its standard input.
COMMANDS = {
    "script": (["script", "ca.db"], f"{DAY} subscriber acme\n"),
    "script by the clock": (["script", "ca.db", "--clock"], "subscriber acme\n"),
    "import": (["import", "ca.db", "--now", DAY], f"1,05,{DAY},{DAY}\n"),
    "crl": (["crl", "ca.db"], ""),
    "schedule": (["schedule", "ca.db", "1970-01-01T00:00:00Z=90"], ""),
    "key-id": (["key-id", "ca.db", "0102"], ""),
    "serve": (["serve", "ca.db", "--requests", "1", "--port"], ""),
    "open": (["open", "ca.db", "--control", "control", "--unsigned", "--port"], ""),
    "audit": (["audit", "ca.db"], ""),
    "copy": (["copy", "ca.db", "copy.db"], ""),
}
# The contents of the file, the line that reports them, and the cause that --why adds, if there is one.
FILES = {
    "no byte": (b"", "not-a-register\n", ""),
    "one byte": (b"x", "not-a-register\n", ""),
    "three bytes": (b"abc", "F2 store\n", DAMAGED),
    "a page of zeros": (bytes(4096), "F2 store\n", DAMAGED),
    "a text": (b"no database, and longer than the head of one\n" * 100, "F2 store\n", DAMAGED),
    "a text that begins with the letter of SQLite": (b"Serial,notBefore,notAfter\n" * 200, "F2 store\n", DAMAGED),
    "bytes of each value": (bytes(range(256)) * 64, "F2 store\n", DAMAGED),
}


@each({f"{command}, {file}": (*COMMANDS[command], *FILES[file]) for command in COMMANDS for file in FILES})
def a_command_leaves_it(t, words, given, contents, line, cause):
    (t.room / "ca.db").write_bytes(contents)
    words = [*words, program.free_port()] if words[-1] == "--port" else words
    place = "" if words[0] == "copy" else " (FILE)"
    for more, told in (([], line), (["--why"], line + (f"{cause}{place}\n" if cause else ""))):
        with t.untouched(words[0]):
            ran = t.desk(*words, *more, given=given)
        t.same((ran.status, ran.out, ran.err), (1, b"", told.encode()))


@each(COMMANDS)
def a_log_beside_an_empty_file_stays_too(t, words, given):
    for name, contents in (("ca.db", b""), ("ca.db-wal", b"what another program left")):
        (t.room / name).write_bytes(contents)
    words = [*words, program.free_port()] if words[-1] == "--port" else words
    with t.untouched(words[0]):
        ran = t.desk(*words, given=given)
    t.same((ran.status, ran.out, ran.err), (1, b"", b"not-a-register\n"))
