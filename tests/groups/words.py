"""The command line: its commands and options, the help, and which words are refused or accepted, with their effects."""

import re
import shlex
import subprocess

from lib.documents import version
from lib.program import KEY, LONGEST, NAME, environment, program
from lib.trial import each, test
from model import der

ISSUER = ("--name", NAME, "--key", KEY)
SERVE, OPEN = ("serve", "none.db"), ("open", "none.db", "--control", "S")
UNSIGNED = (*OPEN, "--unsigned")
FOLLOW = ("follow", "none.db", "--unsigned")
SCHEDULE, FIRST_STEP = ("schedule", "none.db"), "1970-01-01T00:00:00Z=398"
# Error messages, or their beginnings.
BOTH = "give both --signer and --algorithm, or neither; an algorithm is ecdsa-sha256, ecdsa-sha384, rsa-sha256 or ed25519"
ONE_OF_BOTH = (
    "open needs --signer SOCKET with --algorithm NAME, or --unsigned for a placeholder digest instead of signatures, and not both; with --responder, --signer may be left out, and --unsigned is refused"
)
TOGETHER = "give --responder, --responder-signer and --responder-algorithm together, and without --embed; an algorithm is ecdsa-sha256, ecdsa-sha384, rsa-sha256 or ed25519"
RESPONDER = ("--responder=r.der", "--responder-signer=r.sign", "--responder-algorithm=ed25519")
RESPONDER_HELP = ("--responder <CERT>", "--responder-signer <SOCKET>", "--responder-algorithm <NAME>", "--embed <CERT>")
NUMBER, RANGE = "a number is 1 to 18 digits", "within the range"
MOMENT, STEP = "a moment is written as", "a step is written as "


def refused(t, *words):
    """Runs a wrong command line. Checks that its status is 2, that it prints an error and the usage on standard error only, and creates no file.
    Returns standard error."""
    ran = t.desk(*words)
    told = ran.err.decode()
    t.same((ran.status, ran.out), (2, b""), "status and standard output")
    t.true(told.startswith("error: "), f"standard error does not begin with an error: {told!r}")
    t.true(re.search(r"^Usage: \S+", told, re.MULTILINE), f"standard error has no usage: {told!r}")
    t.same(sorted(it.name for it in t.room.iterdir()), [], "created files")
    return told


UNKNOWN = {
    "no word": (),
    "another word": ("frobnicate",),
    "help is no word": ("help",),
    "version is an option of no command": ("crl", "none.db", "--version"),
    "--why with a value": ("crl", "none.db", "--why=1"),
    "--why twice": ("crl", "none.db", "--why", "--why"),
    "--log before a command": ("--log", *SERVE, "--port", "80", "--requests", "1"),
    "--log twice": (*SERVE, "--port", "80", "--requests", "1", "--log", "--log"),
    "--published twice": (*SERVE, "--port", "80", "--requests", "1", "--published", "a", "--published", "b"),
    "--log-file twice": (*SERVE, "--port", "80", "--requests", "1", "--log-file", "a", "--log-file", "b"),
    "init alone": ("init",),
    "init without a key": ("init", "none.db", "--name", NAME),
    "init without a name": ("init", "none.db", "--key", KEY),
    "init without a file": ("init", *ISSUER),
    "init of two files": ("init", "none.db", "G", *ISSUER),
    "script of two files": ("script", "none.db", "G"),
    "import without a moment": ("import", "none.db"),
    "import with a moment and the clock": ("import", "none.db", "--now", "2026-01-01T00:00:00Z", "--clock"),
    "import without a file": ("import", "--now", "2026-01-01T00:00:00Z"),
    "crl without a file": ("crl",),
    "crl with a number below 0": ("crl", "none.db", "--number", "-1"),
    "crl with another option": ("crl", "none.db", "--nubmer", "1"),
    "serve without requests": (*SERVE, "--port", "80"),
    "serve without a port": (*SERVE, "--requests", "1"),
    "open without a control socket": ("open", "none.db", "--port", "80", "--unsigned"),
    "open with a control socket of either name": (*UNSIGNED, "--port", "80", "--counter", "S"),
    "open without a port": UNSIGNED,
    "open without a file": ("open", "--port", "80", "--control", "S", "--unsigned"),
    "open with requests": (*UNSIGNED, "--port", "80", "--requests", "1"),
    "unsigned with a value": (*OPEN, "--port", "80", "--unsigned=true"),
    "unsigned twice": (*UNSIGNED, "--port", "80", "--unsigned"),
    "follow without a leader": (*FOLLOW, "--port", "80"),
    "follow without a port": (*FOLLOW, "--from", "127.0.0.1:80"),
    "at without a socket": ("at",),
    "at with two sockets": ("at", "S", "F"),
    "schedule without a step": SCHEDULE,
    "key-id without an identifier": ("key-id", "none.db"),
    "key-id of two": ("key-id", "none.db", "00", "01"),
    "list without a word": ("list", "none.db"),
    "list without a file": ("list",),
    "list of two words": ("list", "none.db", "crls", "orders"),
    "json with a value": ("list", "none.db", "crls", "--json=1"),
    "copy without a path": ("copy", "none.db"),
    "copy to two paths": ("copy", "none.db", "G", "H"),
    "audit without a file": ("audit",),
    "audit of two files": ("audit", "none.db", "G"),
    "clock with a value": ("script", "none.db", "--clock=1"),
    "strict with a value": ("script", "none.db", "--strict="),
    "a strict import with a value": ("import", "none.db", "--now", "2026-01-01T00:00:00Z", "--strict=1"),
    "a strict import without a file": ("import", "--now", "2026-01-01T00:00:00Z", "--strict"),
}


@each({name: (words,) for name, words in UNKNOWN.items()})
def words_that_are_refused(t, words):
    refused(t, *words)


@test
def an_option_without_its_value_is_named(t):
    # For this error the program prints no usage, only how to get help.
    ran = t.desk("init", "none.db", *ISSUER, "--days")
    t.same((ran.status, ran.out), (2, b""), "status and standard output")
    t.same(ran.err_lines, ["error: a value is required for '--days <N>' but none was supplied", "", "For more information, try '--help'."])


@each({
    "another word": (("frobnicate",), "frobnicate"),
    "what serve lacks": (("serve",), "--port <N>"),
    "another option": (("crl", "none.db", "--nubmer", "1"), "unexpected argument '--nubmer'"),
})
def a_refusal_says_what_is_wrong(t, words, what):
    t.has(refused(t, *words), what)


# The moments that a list takes.
LISTING = {it: f"{it}=2026-01-01T00:00:00Z" for it in ("--before", "--now", "--from", "--to")}
# Options with a malformed value, or one out of range: the words before the option, the option, the value, and a part of the message.
VALUES = [
    *[(("init", "none.db", *ISSUER), "--days", it, NUMBER) for it in ("x", "1.5", "", "0000000000000000398")],
    (("init", "none.db", *ISSUER), "--crl-life", "8d", NUMBER),
    (("init", "none.db", *ISSUER), "--ocsp-life", "+28800", NUMBER),
    *[(("init", "none.db", *ISSUER), "--cap", it, NUMBER) for it in ("1234567890123456789", "1_000", "-")],
    *[((*SERVE, "--requests=1"), "--port", it, RANGE) for it in ("0", "65536", "http", "0000000000000000080", "")],
    *[((*SERVE, "--port=80"), "--requests", it, RANGE) for it in ("0", "1000001", "999999999999999999", "0000000000000000001", "")],
    *[(UNSIGNED, "--port", it, RANGE) for it in ("0", "65536", "http", "")],
    *[((*FOLLOW, "--port=80"), "--from", it, "an address is 127.0.0.1:PORT") for it in ("127.0.0.1:0", "127.0.0.1:65536", "127.0.0.1:x", "127.0.0.1:")],
    *[((*UNSIGNED, "--port=80"), "--confirm-by", it, RANGE) for it in ("0", "9", "one", "")],
    *[((*FOLLOW, "--port=80", "--from=S"), "--lag", it, RANGE) for it in ("0", "86401", "1s", "")],
    *[((*FOLLOW, "--port=80", "--from=S"), "--follower", it, NUMBER) for it in ("-1", "one", "1000000000000000000", "")],
    *[(("import", "none.db"), "--now", it, MOMENT) for it in ("yesterday", "2026-01-01", "2026-02-29T00:00:00Z", "")],
    *[(("list", "none.db", "crls"), "--now", it, MOMENT) for it in ("today", "2026-01-01T00:00:00", "")],
    *[(("list", "none.db", "ending"), "--before", it, MOMENT) for it in ("2026-02-30T00:00:00Z", "0", "")],
    *[(("list", "none.db", "ending", *[LISTING[right] for right in LISTING if right != it]), it, "tomorrow", MOMENT) for it in LISTING],
    *[(("crl", "none.db"), "--number", it, NUMBER) for it in ("", "x", "latest", "0000000000000000001")],
]


@each({f"{words[0]} {option}={value}": (words, option, value, why) for words, option, value, why in VALUES})
def a_bad_value_is_named_with_its_option(t, words, option, value, why):
    told = refused(t, *words, f"{option}={value}")
    first = told.splitlines()[0]
    t.true(first.startswith(f"error: invalid value '{value}' for '{option}': "), f"the value and its option are not first: {first!r}")
    t.has(first, why)


STEPS = (
    "", "=", "398", "1970-01-01T00:00:00Z", "1970-01-01T00:00:00Z=", "1970-01-01T00:00:00Z=398=2",
    "1970-01-01T00:00:00Z=0000000000000000398", "now=200",
)  # fmt: skip


@each({it or "nothing": (it,) for it in STEPS})
def a_bad_step_is_named_at_either_place(t, step):
    for words in ((step, FIRST_STEP), (FIRST_STEP, step)):
        told = refused(t, *SCHEDULE, *words)
        t.has(told, f"error: invalid value '{step}' for 'MOMENT=DAYS': ")
        t.has(told, STEP)
        # The step that the error gives as an example is read: there is no such register.
        t.same(t.desk(*SCHEDULE, FIRST_STEP, re.search(rf"{STEP}(\S+)", told)[1]).status, 1, "status of the step in the error")


SIGNER, SERVED = ("script", "none.db"), ("serve", "none.db", "--port=80", "--requests=1")


@each({
    "script without an algorithm": ((*SIGNER, "--signer", "ca.sign"), "'ca.sign' for '--signer'"),
    "script without a socket": ((*SIGNER, "--algorithm", "ed25519"), "for '--algorithm'"),
    "another algorithm": ((*SIGNER, "--signer", "ca.sign", "--algorithm", "ed448"), "'ed448' for '--algorithm'"),
    "no name of one": (("script", "--signer=ca.sign", "--algorithm="), "'' for '--algorithm'"),
    "in capitals": (("script", "--signer=ca.sign", "--algorithm=ECDSA-SHA256"), "'ECDSA-SHA256' for '--algorithm'"),
    "serve without an algorithm": ((*SERVED, "--signer=ca.sign"), "'ca.sign' for '--signer'"),
    "serve without a socket": ((*SERVED, "--algorithm=ed25519"), "for '--algorithm'"),
    "serve with half a name": ((*SERVED, "--signer=ca.sign", "--algorithm=rsa"), "'rsa' for '--algorithm'"),
    "open without an algorithm": ((*OPEN, "--port=80", "--signer=ca.sign"), "'ca.sign' for '--signer'"),
    "open unsigned and without an algorithm": ((*UNSIGNED, "--port=80", "--signer=ca.sign"), "'ca.sign' for '--signer'"),
    "open unsigned and without a socket": ((*UNSIGNED, "--port=80", "--algorithm=ed25519"), "'ed25519' for '--algorithm'"),
})
def a_socket_and_a_known_algorithm_are_given_both_or_neither(t, words, named):
    told = refused(t, *words)
    t.has(told, f"{named}: {BOTH}")


@each({
    "neither": OPEN,
    "both": (*UNSIGNED, "--signer=ca.sign", "--algorithm=ed25519"),
    "neither beside the CA's certificate": (*OPEN, "--embed=ca.der"),
    "both beside a responder": (*UNSIGNED, "--signer=ca.sign", "--algorithm=ed25519", *RESPONDER),
    "that a digest alone seals, beside a responder": (*UNSIGNED, *RESPONDER),
})
def open_is_told_of_a_signer_or_that_there_is_none(t, *words):
    told = refused(t, *words, "--port=80")
    t.same(told.splitlines()[0], f"error: {ONE_OF_BOTH}", "the error, which names both ways to open")
    # The same options of `follow` have the same rule.
    words = ("follow", "none.db", "--from=127.0.0.1:80", *words[2:])
    told = refused(t, *words, "--port=80")
    t.same(told.splitlines()[0], f"error: follow{ONE_OF_BOTH.removeprefix('open')}", "the error of follow")


@each({it or "nothing": (it,) for it in ("0.0.0.0", "::", "[::]", "::1", "127.0.0.2", "localhost", "192.0.2.1", "[::1]:80", "")})
def what_is_no_loopback_address_is_refused_by_name(t, address):
    for words in ((*SERVE, "--requests=1"), UNSIGNED, (*FOLLOW, "--from=S")):
        told = refused(t, *words, "--port=80", f"--listen={address}").splitlines()[0]
        t.has(told, f"error: invalid value '{address}' for '--listen': the desk listens only on the loopback interface, at 127.0.0.1 or [::1]")


@each({"neither": (), "both": ("--now=2026-01-01T00:00:00Z", "--clock")})
def an_import_has_one_moment(t, *words):
    t.same(refused(t, "import", "none.db", *words).splitlines()[0], "error: import needs --now MOMENT or --clock, and not both")


@test
def the_older_name_of_control_is_hidden(t):
    told = t.done("open", "--help")
    t.true("--counter" not in told, f"help names --counter: {told!r}")


@each({
    "its certificate alone": (RESPONDER[:1], "'r.der' for '--responder'"),
    "without what holds its key": (RESPONDER[::2], "'ed25519' for '--responder-algorithm'"),
    "without an algorithm": (RESPONDER[:2], "'r.sign' for '--responder-signer'"),
    "without its certificate": (RESPONDER[1:], "'ed25519' for '--responder-algorithm'"),
    "with another algorithm": ((*RESPONDER[:2], "--responder-algorithm=ed448"), "'ed448' for '--responder-algorithm'"),
    "with the CA's certificate beside it": ((*RESPONDER, "--embed=ca.der"), "'ed25519' for '--responder-algorithm'"),
})
def a_responder_is_told_whole(t, words, named):
    for command in (SERVED, (*OPEN, "--port=80"), (*UNSIGNED, "--port=80"), (*FOLLOW, "--port=80", "--from=S")):
        t.has(refused(t, *command, *words), f"{named}: {TOGETHER}")


LISTED = "a list is revoked, certificates, ending, open-requests, overdue, requests, subscribers, orders or crls; ending needs --before, and no other takes it; crls takes neither --subscriber nor --serial, orders takes no --from or --to, and subscribers takes only --subscriber"


@each({
    "another word": ("expired",),
    "in capitals": ("Revoked",),
    "no word": ("",),
    "ending without a moment": ("ending",),
    "another with one": ("revoked", "--before=2026-01-01T00:00:00Z"),
    "CRLs of a subscriber": ("crls", "--subscriber=acme"),
    "CRLs by serial number": ("crls", "--serial=0a"),
    "orders of a time": ("orders", "--from=2026-01-01T00:00:00Z"),
    "subscribers of a time": ("subscribers", "--to=2026-01-01T00:00:00Z"),
    "subscribers by serial number": ("subscribers", "--serial=0a"),
})
def a_list_has_its_word(t, *words):
    t.same(refused(t, "list", "none.db", *words).splitlines()[0], f"error: {LISTED}", "the error, which names all lists")


@each({" ".join(it)[:40]: it for it in (
    ("--subscriber", "", "a subscriber's name is 1 to 64 bytes"), ("--subscriber", "a" * 65, "a subscriber's name is 1 to 64 bytes"),
    ("--serial", "", "a serial number's prefix is 1 to 40 hexadecimal digits"), ("--serial", "0x1f", "a serial number's prefix is 1 to 40 hexadecimal digits"),
    ("--serial", "0" * 41, "a serial number's prefix is 1 to 40 hexadecimal digits"), ("--from", "2026-01-01", "a moment is written as 2026-01-01T00:00:00Z"),
    ("--to", "", "a moment is written as 2026-01-01T00:00:00Z"),
)})
def what_a_filter_tells_has_a_form(t, option, value, wanted):
    t.same(refused(t, "list", "none.db", "requests", f"{option}={value}").splitlines()[0], f"error: invalid value '{value}' for '{option}': {wanted}")


@each({it: it for it in ("subscriber", "serial")})
def what_one_part_of_a_filter_tells_is_read_beside_the_other(t, wrong):
    told = {"subscriber": "acme", "serial": "0a"}
    value, wanted = {"subscriber": ("a" * 65, "a subscriber's name is"), "serial": ("0x1f", "a serial number's prefix is")}[wrong]
    told[wrong] = value
    error = refused(t, "list", "none.db", "requests", *[f"--{name}={it}" for name, it in told.items()]).splitlines()[0]
    t.true(error.startswith(f"error: invalid value '{value}' for '--{wrong}': {wanted}"), error)


@each({" ".join(it): it for it in (
    ("import", "--signer=ca.sign"), ("script", "--embed=ca.der"), ("script", "--responder=r.der"), ("script", "--published=ca.crl"), ("crl", "--published=ca.crl"), ("crl", "--embed=ca.der"), ("crl", "--algorithm=ed25519"), ("schedule", "--signer=ca.sign"),
    ("key-id", "--signer=ca.sign"), ("script", "--key-id=00"), ("crl", "--clock"), ("at", "--strict"), ("crl", "--listen=[::1]"), ("at", "--listen=[::1]"),
    ("crl", "--log"), ("script", "--log"), ("at", "--log"), ("audit", "--log"), ("script", "--log-file=l"), ("at", "--log-file=l"), ("audit", "--json"), ("crl", "--before=2026-01-01T00:00:00Z"), ("script", "--unsigned"), ("serve", "--unsigned"), ("schedule", "--unsigned"),
)})
def an_option_of_another_command_is_unexpected(t, command, option):
    t.has(refused(t, command, "none.db", option), "unexpected argument")


@each({it: it for it in ("--clock", "--strict")})
def a_script_over_memory_is_not_clocked_and_not_strict(t, option):
    t.has(refused(t, "script", option), "--clock and --strict need a FILE")


@each({"script": (("script",),), "crl": (("crl",),), "import": (("import", "--now", "2026-01-01T00:00:00Z"),), "copy": (("copy", "none.db"),), "audit": (("audit",),)})
def a_file_whose_name_is_no_text_is_refused(t, words):
    # The name has the byte FF, which no UTF-8 text contains.
    t.has(refused(t, *words, "ca\udcff.db"), "not UTF-8")


@test
def an_option_without_its_value_is_refused(t):
    ran = t.desk(*SERVE, "--port", "80", "--requests", "1", "--log-file")
    t.same((ran.status, ran.out), (2, b""), "status and standard output")
    t.has(ran.err.decode(), "error: a value is required for '--log-file <PATH>' but none was supplied\n")


@each({it: it for it in ("--version", "-V")})
def the_version_is_printed(t, word):
    ran = t.desk(word)
    t.same((ran.status, ran.out.decode(), ran.err), (0, f"desk {version()}\n", b""), "status, version in CHANGELOG.md, and standard error")


# The words of a help command, and parts of its output.
HELPED = {
    "--help": ("init", "script", "import", "crl", "serve", "open", "follow", "at", "replay", "schedule", "key-id", "list", "copy", "audit", "--why", "-V, --version"),
    "-h": ("init", "script", "import", "crl", "serve", "open", "follow", "at", "replay", "schedule", "key-id", "list", "copy", "audit"),
    "init --help": ("<FILE>", "--name <HEX>", "--key <HEX>", "--key-id <HEX>", "--days <N>", "--crl-life <N>", "--ocsp-life <N>", "--cap <N>", "--why"),
    "init -h": ("<FILE>", "--name <HEX>"),
    "script --help": ("[FILE]", "--signer <SOCKET>", "--algorithm <NAME>", "--clock", "--strict", "--why", "desk script ca.db"),
    "import --help": ("<FILE>", "--now <MOMENT>", "--clock", "--strict", "--why", "at the moment of the machine's clock as the import begins"),
    "crl --help": ("<FILE>", "--number <N>", "--why"),
    "serve --help": ("<FILE>", "--port <N>", "--listen <ADDRESS>", "--requests <N>", "--signer <SOCKET>", "--algorithm <NAME>", *RESPONDER_HELP, "--published <CRL>", "--log", "--log-file <PATH>", "--why"),
    "open --help": ("<FILE>", "--port <N>", "--listen <ADDRESS>", "--control <SOCKET>", "--signer <SOCKET>", "--algorithm <NAME>", "--unsigned", *RESPONDER_HELP, "--published <CRL>", "--confirm-by <N>", "--log", "--log-file <PATH>", "--why"),
    "follow --help": (
        "<FILE>", "--from <ADDRESS>", "--port <N>", "--listen <ADDRESS>", "--control <SOCKET>", "takes queries, but no commands", "--lag <SECONDS>",
        "--follower <N>", "--signer <SOCKET>", "--algorithm <NAME>", "--unsigned", *RESPONDER_HELP, "--log", "--log-file <PATH>", "--why",
    ),
    "at --help": ("<SOCKET>", "--import <FILE>", "--orders <SUBSCRIBER> <DAYS>", "--revoke <FILE>", "--why", "desk at ca.control"),
    "replay --help": ("<SOCKET>", "<LOG>", "--why", "desk replay ca.control ca.log"),
    "schedule F --help": ("<FILE>", "<MOMENT=DAYS>...", "--why"),
    "key-id --help": ("<FILE>", "<HEX>", "--why"),
    "list --help": ("<FILE>", "<LIST>", "--before <MOMENT>", "--now <MOMENT>", "--json", "--why", "desk list ca.db revoked"),
    "copy --help": ("<FILE>", "<PATH>", "--why", "desk copy ca.db", "desk at ca.control"),
    "audit --help": ("<FILE>", "--why", "desk audit ca.db"),
    "--why audit --help": ("<FILE>", "--why", "desk audit ca.db"),
}


@each({words: (words, parts) for words, parts in HELPED.items()})
def help_is_printed_with_status_0(t, words, parts):
    told = t.done(*words.split())
    for it in (*parts, "Usage: "):
        t.has(told, it)


# The options of an open desk that the help of another command names.
OTHERS_OPTIONS = {"at": {"--control"}, "replay": {"--control", "--log", "--log-file"}, "follow": {"--confirm-by"}}
COMMANDS = ("init", "script", "import", "crl", "serve", "open", "follow", "at", "replay", "schedule", "key-id", "list", "copy", "audit")


@each({it: it for it in COMMANDS})
def help_names_no_option_of_another_command(t, command):
    told = t.done(command, "--help")
    own = set(re.findall(r"^ +(?:-\w, )?(--[a-z-]+)", told, re.MULTILINE))
    named = set(re.findall(r"--[a-z][a-z-]*", told))
    t.same(sorted(named - own - OTHERS_OPTIONS.get(command, set())), [], f"options that only other commands have, in {told}")


# The options of `init` for which its help names a range and a default, and their columns.
RANGED = {"--days": "days", "--crl-life": "crl_life", "--ocsp-life": "ocsp_life", "--cap": "cap"}


@each({option: (option, column) for option, column in RANGED.items()})
def the_range_and_the_default_that_help_names_hold(t, option, column):
    """`desk init` accepts both ends of the range, and no number beyond them. Without the option, the register has the default."""
    told = t.done("init", "--help")
    least, most, default = map(int, re.search(rf" {option} <N> .*, (\d+) to (\d+) \[default: (\d+)", told).groups())
    for number, status in ((least - 1, 1), (least, 0), (most, 0), (most + 1, 1)):
        t.same(t.desk("init", f"{number}.db", *ISSUER, f"{option}={max(number, 0)}").status, status, f"status of init with {option} {number}")
    t.done("init", "ca.db", *ISSUER)
    t.same(t.sql("ca.db", f"SELECT {column} FROM office"), [(default,)], "the register without the option")


@each({it: it for it in ("--port", "--requests")})
def serve_takes_the_numbers_that_its_help_names(t, option):
    """Status 2 refuses a number beyond the range. Within the range, the status is 1: there is no such register."""
    least, most = map(int, re.search(rf" {option} <N> .*?(\d+) to (\d+)", t.done("serve", "--help")).groups())
    for number, status in ((least - 1, 2), (least, 1), (most, 1), (most + 1, 2)):
        words = {"--port": 80, "--requests": 1, option: number}
        t.same(t.desk(*SERVE, *[f"{name}={value}" for name, value in words.items()]).status, status, f"status of serve with {option} {number}")


# Words to which an option is added whose value has as many digits as help names, and their status.
DIGITS = {"crl --number": (("crl", "ca.db"), "--number", "9", 1), "list --serial": (("list", "ca.db", "revoked"), "--serial", "f", 0)}


@each(DIGITS)
def as_many_digits_as_help_names_are_accepted(t, words, option, digit, status):
    """Status 2 refuses one digit more. Status 1: there is no CRL with that number."""
    t.register()
    most = int(re.search(rf" {option} <[A-Z]+> .*?1 to (\d+) (?:hexadecimal )?digits", t.done(words[0], "--help"), re.DOTALL)[1])
    for more, wanted in ((0, status), (1, 2)):
        t.same(t.desk(*words, option, digit * (most + more)).status, wanted, f"status of {option} with {most + more} digits")


# The options of `init` for which its help names the most bytes, and so many bytes of their values.
SIZED = {"--name": lambda size: der.value(0x30, bytes(size - 4)), "--key": bytes, "--key-id": bytes}


@each({option: (option, value) for option, value in SIZED.items()})
def as_many_bytes_as_help_names_are_accepted(t, option, value):
    """`desk init` accepts as many bytes of a Name, a key or a key identifier as its help says, and not one more."""
    most = int(re.search(rf" {option} <HEX> .*? (\d+) bytes", t.done("init", "--help"))[1])
    for more, status in ((0, 0), (1, 1)):
        words = {"--name": NAME, "--key": KEY, option: value(most + more).hex()}
        ran = t.desk("init", f"{more}.db", *[word for it in words.items() for word in it])
        t.same((ran.status, ran.err), (status, b"bad-issuer\n" if status else b""), f"status and standard error with {option} of {most + more} bytes")


SIGNERS = {"--algorithm": "--signer", "--responder-algorithm": "--responder-signer"}


@each({f"{command} {option}": (command, option) for command, options in (("script", 1), ("serve", 2), ("open", 2)) for option in list(SIGNERS)[:options]})
def the_help_of_an_algorithm_names_its_signer(t, command, option):
    named = re.search(rf" {option} <NAME> .* the signer at (--[a-z-]+): ", t.done(command, "--help"))[1]
    t.same(named, SIGNERS[option], f"the option that the help of {option} names")


# The words of a run that is not all accepted, its input, and the text before the exit status in help.
STATUS = {
    "at": (("at", "control"), "x\n", "Exit status "), "replay": (("replay", "control", "ca.log"), "", "Exit status "), "audit": (("audit", "broken.db"), "", "Exit status "),
    "script": (("script", "other.db", "--strict"), "x\n", "exit status "), "import": (("import", "other.db", "--now", "2026-01-01T00:00:00Z", "--strict"), "1,2\n", "exit status "),
}


@each(STATUS)
def a_refusal_ends_with_the_status_that_help_names(t, words, given, text):
    """`replay` stops at a command that the log has only in part, and `audit` at a row that is not sound."""
    for file in ("ca.db", "other.db", "broken.db"):
        t.register(file)
    t.sql("broken.db", "UPDATE kept SET n_good = 7")
    (t.room / "ca.log").write_text('2026-01-01T00:00:00Z control "subscriber \\x41" "subscriber 1" 13 9\n')
    t.open()
    (status,) = re.findall(rf"{text}(\d+)", t.done(words[0], "--help"))
    t.same(t.desk(*words, given=given).status, int(status), f"the status of {words[0]}, and the one that its help names")


@test
def a_schedule_has_as_many_steps_as_help_names(t):
    t.register()
    most = int(re.search(r"; 1 to (\d+) steps,", t.done("schedule", "--help"))[1])
    steps = [FIRST_STEP, *[f"{year}-01-01T00:00:00Z=100" for year in range(2_000, 2_000 + most)]]
    for count, status in ((most, 0), (most + 1, 1)):
        t.same(t.desk("schedule", "ca.db", *steps[:count]).status, status, f"the status with {count} steps")


# The command with rows of a file, the text before and after their fields in its help, and the reply to a row.
FIELDS = {
    "at --import": (("at", "--import", "rows.csv"), "Instead of standard input: register each certificate of this CSV file, ", "\n", "registered"),
    "at --orders": (("at", "--import", "rows.csv", "--orders", "1", "398"), "; the rows are ", ";", "registered"),
    "at --revoke": (("at", "--revoke", "rows.csv"), "of each row of this file, ", ";", "revoked"),
    "import": (("import", "--now", "2026-01-01T00:00:00Z"), "a CSV file on standard input: ", ".", "registered"),
}


@each(FIELDS)
def rows_have_the_fields_that_help_names(t, words, before, after, reply):
    """The first row has the names of the fields, in their order in help. It gets no reply."""
    day, end = "2026-01-01T00:00:00Z", "2026-12-31T00:00:00Z"
    lines = ["subscriber acme", "order 1 398", *([f"register 1 05 {day} {end}"] if reply == "revoked" else ())]
    t.register(lines="".join(f"{day} {it}\n" for it in lines))
    t.clock(day)
    names = t.done(words[0], "--help").partition(before)[2].partition(after)[0].split(",")
    values = {"order": "1", "serial": "05", "notBefore": day, "notAfter": end, "ground": "superseded"}
    t.true(names and set(names) <= set(values), f"help names other fields: {names}")
    rows = f"{','.join(names)}\n{','.join(values[it] for it in names)}\n"
    (t.room / "rows.csv").write_text(rows)
    if words[0] == "at":
        t.open()
        told = t.done("at", "control", *words[1:])
    else:
        told = t.done("import", "ca.db", *words[1:], given=rows)
    t.same(told, f"{reply}\n", f"the replies to the rows {rows!r}")


def is_running_after_a_second(t, words):
    try:
        subprocess.run([program(), *words], cwd=t.room, env=environment(), capture_output=True, timeout=1)
    except subprocess.TimeoutExpired:
        return True
    return False


@test
def the_examples_in_help_can_be_typed(t):
    """Each command's help has an example at least. Its command line is read. The run ends only for lack of a register or an open desk; a follower
    does not end, because it waits for its leader."""
    commands = re.findall(r"^  ([a-z][a-z-]*) ", t.done("--help").partition("\nCommands:\n")[2].partition("\n\n")[0], re.MULTILINE)
    for command in commands:
        examples = re.findall(r"^  (?:echo \S.* \| )?(desk [^<>|\n]*)", t.done(command, "--help").partition("\nExample")[2], re.MULTILINE)
        t.true(examples, f"the help of {command} has no example")
        for example in examples:
            words = shlex.split(example)[1:]
            if command == "follow":
                t.true(is_running_after_a_second(t, words), f"`{example}` ends")
                continue
            ran = t.desk(*words)
            t.same((words[0], ran.status), (command, 0 if command == "init" else 1), f"command and status of `{example}`, which printed {ran.err!r}")
            (t.room / "ca.db").unlink(missing_ok=True)
            (t.room / "ca.db-wal").unlink(missing_ok=True)


@each({"help": "--help", "the version": "--version"})
def a_text_that_can_t_be_printed_is_status_1(t, word):
    with open("/dev/full", "wb") as full:
        ran = subprocess.run([program(), word], cwd=t.room, stdout=full, stderr=subprocess.PIPE, env=environment(), timeout=LONGEST)
    t.same((ran.returncode, ran.stderr), (1, b"F5 write\n"), "status and standard error")


# Accepted command lines. Their file is missing, so each ends with `F2 store` and status 1.
TAKEN = {
    "the lowest port and number": (*SERVE, "--port", "1", "--requests", "1"),
    "the highest": (*SERVE, "--port", "65535", "--requests", "1000000"),
    "ones between": (*SERVE, "--port", "8080", "--requests", "3"),
    "options before the file": ("serve", "--requests=3", "--port=8080", "none.db"),
    "open with its options before": ("open", "--unsigned", "--control=ca.control", "none.db", "--port", "8080"),
    "open at the highest port": (*UNSIGNED, "--port", "65535"),
    "open by the older name of --control": ("open", "none.db", "--port=80", "--counter=S", "--unsigned"),
    "open at the IPv6 loopback address": (*UNSIGNED, "--port=80", "--listen=[::1]"),
    "serve at the usual address": (*SERVE, "--port=80", "--requests=1", "--listen", "127.0.0.1"),
    "a number of no digit but zeros": ("crl", "none.db", "--number", "000000000000000000"),
    "the highest number of a CRL": ("crl", "none.db", "--number", "999999999999999999"),
    "a script over a file": ("script", "реестр/центр 1.db"),
    "strict, then clocked": ("script", "--strict", "--clock", "none.db"),
    "clocked, then strict": ("script", "--clock", "--strict", "none.db"),
    "a file behind --": ("script", "--clock", "--", "none.db"),
    "strict before --": ("script", "--strict", "--", "none.db"),
    "a strict import": ("import", "none.db", "--now", "2026-01-01T00:00:00Z", "--strict"),
    "an import at the clock's moment": ("import", "none.db", "--clock"),
    "a strict import, strict first": ("import", "--strict", "none.db", "--now=2026-01-01T00:00:00Z"),
    **{f"the list {it}": ("list", "none.db", it) for it in ("revoked", "certificates", "open-requests", "overdue", "requests", "subscribers", "orders", "crls")},
    "a list with all that a filter tells": ("list", "none.db", "requests", "--serial=0A", "--from=2026-01-01T00:00:00Z", "--to", "2026-02-01T00:00:00Z", "--subscriber", "acme"),
    "the list of what ends, with all options": ("list", "--json", "--now", "2026-01-01T00:00:00Z", "none.db", "ending", "--before=9999-12-31T23:59:59Z"),
    "a schedule of 16 steps": (*SCHEDULE, FIRST_STEP, *[f"20{it}-01-01T00:00:00Z=0{it}" for it in range(27, 42)]),
    **{
        f"{command} and {name}": (command, "none.db", *more, "--signer", "ca.sign", "--algorithm", name)
        for name in ("ecdsa-sha256", "ecdsa-sha384", "rsa-sha256", "ed25519")
        for command, more in (("script", ()), ("serve", ("--port=80", "--requests=1")), ("open", ("--port=80", "--control=S")))
    },
}


@each({name: (words,) for name, words in TAKEN.items()})
def words_that_are_accepted(t, words):
    ran = t.desk(*words)
    t.same((ran.status, ran.out, ran.err), (1, b"", b"F2 store\n"), "status, standard output and standard error")
    t.same(sorted(it.name for it in t.room.iterdir()), [], "created files")


def terms(t):
    return t.sql("ca.db", "SELECT hex(name), hex(pubkey), days, crl_life, ocsp_life, cap FROM office")


@test
def init_has_its_values(t):
    words = ("--cap=7", f"--key={KEY}", "ca.db", "--days", "90", "--crl-life", "60", "--ocsp-life", "000000000000028800", "--name", NAME)
    t.same(t.done("init", *words), "created\n")
    t.same(terms(t), [(NAME, KEY, 90, 60, 28_800, 7)])


@test
def init_leaves_the_rest_as_usual(t):
    t.same(t.done("init", "ca.db", "--name", NAME, "--key", KEY), "created\n")
    t.same(terms(t), [(NAME, KEY, 398, 691_200, 345_600, 1_000_000)])


@test
def a_schedule_has_its_steps(t):
    t.register()
    t.same(t.done("schedule", "ca.db", "1970-01-01T00:00:00Z=398", "2026-03-15T00:00:00Z=0200"), "schedule set\n")
    t.same(t.sql("ca.db", "SELECT from_at, days FROM longest ORDER BY from_at"), [(0, 398), (1_773_532_800, 200)])


@test
def an_import_has_its_moment(t):
    t.register(lines="2026-01-01T00:00:00Z subscriber acme\n2026-01-01T00:00:00Z order 1 398\n")
    row = "order,serial,notBefore,notAfter\n1,05,2026-01-01T00:00:00Z,2026-12-31T00:00:00Z\n"
    t.same(t.done("import", "ca.db", "--now", "2026-01-01T00:00:07Z", given=row), "registered\n")
    t.same(t.sql("ca.db", "SELECT last_at FROM office"), [(1_767_225_607,)])


@test
def an_import_has_the_clock_s_moment(t):
    t.register(lines="2026-01-01T00:00:00Z subscriber acme\n2026-01-01T00:00:00Z order 1 398\n")
    row = "order,serial,notBefore,notAfter\n1,05,2026-01-01T00:00:00Z,2026-12-31T00:00:00Z\n"
    t.clock("2026-01-01T00:00:09Z")
    t.same(t.done("import", "ca.db", "--clock", "--strict", given=row), "registered\n")
    t.same(t.sql("ca.db", "SELECT last_at FROM office"), [(1_767_225_609,)])
    t.same(t.done("import", "ca.db", "--clock", given=row), "same\n", "the same row again")


@test
def a_crl_is_that_of_its_number(t):
    t.register(options=("--crl-life", "60"), lines="".join(f"2026-01-0{it}T00:00:00Z crl\n" for it in range(1, 5)))
    for words, number in (((), 4), (("--number", "3"), 3), (("--number=000000000000000003",), 3), (("--number", "1"), 1)):
        ran = t.desk("crl", "ca.db", *words)
        t.same((ran.status, ran.err), (0, b""), f"status and standard error of {words}")
        told = t.tool("openssl", "crl", "-inform", "DER", "-noout", "-crlnumber", "-lastupdate", "-nextupdate", given=ran.out).decode().splitlines()
        t.same(told, [f"crlNumber=0x{number:02X}", f"lastUpdate=Jan  {number} 00:00:00 2026 GMT", f"nextUpdate=Jan  {number} 00:01:00 2026 GMT"])
    for number in ("0", "5", "999999999999999999"):
        ran = t.desk("crl", "ca.db", "--number", number)
        t.same((ran.status, ran.out, ran.err), (1, b"", b"E21 no-crl\n"), f"number {number}")


@each({"a subscriber that is none": ("x", "398"), "days that are none": ("1", "x"), "more than 18 digits": ("1234567890123456789", "398"), "nothing": ("", "398")})
def an_order_of_an_import_is_of_two_numbers(t, subscriber, days):
    wrong = days if subscriber == "1" else subscriber
    told = refused(t, "at", "ca.control", "--import", "rows.csv", "--orders", subscriber, days).splitlines()[0]
    t.true(told.startswith(f"error: invalid value '{wrong}' for '--orders': {NUMBER}"), f"the value and its option are not first: {told!r}")
