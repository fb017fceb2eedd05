"""The Debian package of tools/package.sh: built twice, checked by lintian, and installed into a fresh root of Debian. The tests type its first
steps there (README.Debian), run the commands of its units in place of systemd, and again with systemd if systemd-nspawn can start it. They
upgrade and remove it while it runs. Removing it leaves the registers and the keys. The test `the_package` needs root. debootstrap fetches a Debian
of some 100 MB, which PACKAGE_ROOT=FOLDER keeps for the next time."""

import contextlib
import gzip
import http.client
import os
import re
import shlex
import shutil
import socket
import stat
import subprocess
import sys
import threading
import time
from collections import Counter
from pathlib import Path

from lib import authority, native, program
from lib.authority import EXAMPLES, Authority, moment_of
from lib.documents import block, version
from lib.program import TOP
from lib.trial import Failed, Skipped, each, need, test

REGISTER, KEY = "/var/lib/durshavon/ca.db", "/var/lib/durshavon-signer/ca.key"
SOCKET, PUBLISHED = "/run/durshavon-signer/ca.sign", "/var/lib/durshavon-crl/ca"
COPIES = "/var/backups/ca"
CONTROL = "/run/durshavon/ca/control"
# How many seconds the typed lines may run.
LONGEST = program.LONGEST
# The units of a register for `systemctl enable`.
ENABLED = ("desk@ca.service", "desk-crl@ca.timer", "desk-signer@ca.socket", "desk-responder@ca.socket")
# A responder's key, its socket and its certificate.
RESPONDER = ("/var/lib/durshavon-signer/ca.ocsp.key", "/run/durshavon-signer/ca.ocsp.sign", "/etc/durshavon/ca.ocsp.der")
DEBIAN = "bookworm"
# Further packages of the root: systemd, those that the first steps install, and their dependencies that debootstrap does not find.
MORE = "dbus,systemd,systemd-sysv,python3-cffi-backend,python3-cryptography,openssl,curl"


def as_user(user):
    return ["setpriv", "--reuid", user, "--regid", user, "--clear-groups"]


class Root:
    """A root of Debian, and programs that run in it."""

    def __init__(self, t):
        self.t, kept = t, os.environ.get("PACKAGE_ROOT")
        self.path = Path(kept or t.room / "root")
        if not (self.path / "usr/bin/dpkg").exists():
            ran = t.tried("debootstrap", "--variant=minbase", f"--include={MORE}", DEBIAN, self.path, timeout=900)
            if ran.returncode:
                raise Skipped(f"debootstrap could not fetch a Debian: {ran.stdout.decode('latin-1').splitlines()[-1:]}")
        if self.tried("python3", "-c", "import cryptography").returncode:
            raise Skipped(f"{self.path} has not all of {MORE}: remove it, and another is fetched")

    def words(self, words, user=None):
        """The command line that runs a program in the root, with its own /proc; `desk` is the installed one."""
        as_whom = as_user(user) if user else []
        enter = 'mount -t proc proc "$0/proc"; exec chroot "$0" "$@"'
        return ["env", "-u", "DESK", "unshare", "--mount", "bash", "-c", enter, str(self.path), *as_whom, *map(str, words)]

    def tried(self, *words, given=b"", user=None):
        return self.t.tried(*self.words(words, user), given=given, timeout=LONGEST)

    def run(self, *words, **how):
        """The standard output of a program in the root."""
        ran = self.tried(*words, **how)
        self.t.same(ran.returncode, 0, f"status of {words[0]}, which printed {(ran.stdout + ran.stderr)[-2000:]!r}")
        return ran.stdout.decode()

    def owner(self, *words, **how):
        """The same, as the user `durshavon`, who owns the registers."""
        return self.run(*words, user="durshavon", **how)


def built(t):
    """The package's path. It is built with the tested program, in a folder with those files of this repository that tools/package.sh needs."""
    folder = authority.stood_in(t)
    for it in (".git", "LICENSE", "crates.txt", "CHANGELOG.md", "SECURITY.md", "signer"):
        (folder / it).symlink_to(TOP / it)
    (folder / "crates").mkdir()
    # tools/version.sh reads the version in the first, and pages lead to the others.
    for it in ("reg_desk_cli", "reg_core", "reg_core_lists", "reg_ocsp", "reg_store"):
        (folder / "crates" / it).symlink_to(TOP / "crates" / it)
    # git does not follow a link to .gitignore.
    (folder / ".gitignore").write_bytes((TOP / ".gitignore").read_bytes())
    made = folder / "crates/reg_desk/out"
    made.mkdir(parents=True)
    shutil.copy(program.program(), made / "reg_desk")
    packages = []
    # The second one is built elsewhere on earth, by a user whose new files are their own.
    for it, how in (("first", ""), ("second", "umask 077; export TZ=Asia/Tokyo; ")):
        words = ("bash", "-c", f'{how}exec bash tools/package.sh "$0"', t.room / it)
        ran = t.tried("env", "-C", folder, "GIT_OPTIONAL_LOCKS=0", *words, timeout=LONGEST)
        t.same(ran.returncode, 0, f"status of tools/package.sh, which reported {ran.stderr[-1000:]!r}")
        packages.append(ran.stdout.decode().splitlines()[-1])
    first, second = (Path(it) for it in packages)
    t.same(first.name, second.name)
    t.same(first.read_bytes() == second.read_bytes(), True, "whether two builds have the same bytes")
    made = t.tool("git", "-C", TOP, "show", "-s", "--format=%ct", "HEAD").decode()
    t.has(first.name, f"durshavon_{version()}+{time.strftime('%Y%m%d%H%M%S', time.gmtime(int(made)))}.", "the commit's moment in the version")
    return first


@test
def the_unit_waits_until_the_desk_answers(t):
    """wait-for-desk.sh waits until the desk replies. A refusal is a reply too: here the desk's clock is behind. It fails if the desk ends first."""
    t.register(lines="2026-01-02T00:00:00Z subscriber acme\n")
    t.clock("2026-01-01T00:00:00Z")
    desk = t.open()
    waits = lambda *words: t.tried("env", f"DESK={program.program()}", "sh", TOP / "packaging/wait-for-desk.sh", *words)
    t.same(waits("control", desk.process.pid).returncode, 0, "an open desk")
    desk.end()
    ran = waits("control", desk.process.pid)
    t.same((ran.returncode, ran.stderr), (1, b"the desk ended before it answered at control\n"), "a desk that has ended, whose socket is left")
    t.same(waits("control").returncode, 2, "without the number of a process")


@test
def the_unit_pauses_before_it_looks_again(t):
    """A large register takes minutes to open, and meanwhile wait-for-desk.sh leaves the processors to the desk. Here the desk answers the fourth
    time."""
    stubs = {"desk": 'echo desk >>told\n[ "$(grep -c desk told)" -ge 4 ]\n', "sleep": 'echo "sleep $*" >>told\n'}
    (t.room / "bin").mkdir()
    for name, does in stubs.items():
        (t.room / "bin" / name).write_text(f"#!/bin/sh\n{does}")
        (t.room / "bin" / name).chmod(0o755)
    paths = (f"PATH={t.room}/bin:{os.environ['PATH']}", f"DESK={t.room}/bin/desk")
    t.tool("env", *paths, "sh", TOP / "packaging/wait-for-desk.sh", "control", os.getpid(), timeout=20)
    t.same((t.room / "told").read_text().splitlines(), [*["desk", "sleep 0.1"] * 3, "desk"], "what the script ran")


@test
def the_unit_writes_nothing_while_it_waits(t):
    """wait-for-desk.sh asks ten times a second, for minutes while a large register is opened. The journal has none of the replies."""
    (t.room / "desk").write_text("#!/bin/sh\necho reply\necho F4 read >&2\n[ -e again ] || { touch again; exit 1; }\n")
    (t.room / "desk").chmod(0o755)
    told = t.tool("env", f"DESK={t.room}/desk", "sh", TOP / "packaging/wait-for-desk.sh", "counter", os.getpid(), timeout=20)
    t.same(((t.room / "again").exists(), told), (True, b""), "whether it asked, and what it printed")


def words_of(text):
    """How often each word occurs in a text, whether in capital letters or not."""
    return Counter(re.findall(r"\w+", text.casefold()))


def without_roff(page):
    """A page's text, without the escapes of tools/man.py."""
    return re.sub(r"\\(f[BIR]|[-:&e]|\(\w\w)", lambda escape: "" if escape[1][0] in "f:&" else " ", page)


@test(seconds=2)
def the_manual_pages_have_what_help_and_the_rules_say(t):
    """desk(1) has the words of each command's help in its section, and desk-script(5) those of docs/RULES.md."""
    t.tool("env", "-C", TOP, sys.executable, "tools/man.py", program.program(), t.room)
    pages = {name: without_roff((t.room / name).read_text(encoding="utf-8")) for name in ("desk.1", "desk-script.5")}
    sections = pages["desk.1"].partition(".SH COMMANDS")[2].partition(".SH ")[0].split(".SS ")[1:]
    commands = re.findall(r"^  ([a-z][a-z-]*)", t.done("--help").partition("Commands:\n")[2].partition("\n\n")[0], re.MULTILINE)
    t.same(len(sections), len(commands), "sections of commands")
    for name, section in zip(commands, sections):
        told = re.sub(r"^(Usage|Arguments|Options):", "", t.done(name, "--help"), flags=re.MULTILINE)
        t.same(words_of(told) - words_of(section), Counter(), f"words of `desk {name} --help` that desk(1) lacks")
    # In place of these characters by themselves, a terminal may show others, which a reader would copy.
    lines = [line for name in pages for line in (t.room / name).read_text(encoding="utf-8").splitlines() if not line.startswith((".", "'"))]
    t.same([line for line in lines if re.search(r"[-'`^~]", re.sub(r"\\(\(\w\w|.)", "", line))], [], "lines with a character that roff may replace")
    _, _, rules = (TOP / "docs/RULES.md").read_text(encoding="utf-8").partition("\n")
    t.same(words_of(rules) - words_of(pages["desk-script.5"]), Counter(), "words of RULES.md that desk-script(5) lacks")


# The settings that restrict every service of the package, and those of each service.
FORBIDDEN = """ProtectSystem=strict NoNewPrivileges=yes CapabilityBoundingSet= ProtectHome=yes PrivateTmp=yes PrivateDevices=yes ProtectClock=yes ProtectHostname=yes
ProtectKernelTunables=yes ProtectKernelModules=yes ProtectKernelLogs=yes ProtectControlGroups=yes ProtectProc=invisible ProcSubset=pid RestrictNamespaces=yes RestrictRealtime=yes
RestrictSUIDSGID=yes LockPersonality=yes MemoryDenyWriteExecute=yes SystemCallArchitectures=native SystemCallFilter=@system-service""".split()
ASKS_THE_DESK = ["PrivateNetwork=no", "IPAddressDeny=any", "IPAddressAllow=localhost"]
HAS_A_KEY = ["PrivateNetwork=yes", "RestrictAddressFamilies=AF_UNIX", "InaccessiblePaths=-/var/lib/durshavon", "LimitCORE=0", "UMask=0077", "User=durshavon-signer"]
SERVICES = {
    "desk@": [*ASKS_THE_DESK, "RestrictAddressFamilies=AF_INET AF_INET6 AF_UNIX", "UMask=0077", "User=durshavon", "StateDirectoryMode=0700", "RuntimeDirectoryMode=0700"],
    "desk-follow@": [*ASKS_THE_DESK, "RestrictAddressFamilies=AF_INET AF_INET6 AF_UNIX", "UMask=0077", "User=durshavon", "StateDirectoryMode=0700", "RuntimeDirectoryMode=0700"],
    "desk-crl@": [*ASKS_THE_DESK, "RestrictAddressFamilies=AF_INET AF_INET6 AF_UNIX", "UMask=0077", "User=durshavon"],
    "desk-publish@": [*ASKS_THE_DESK, "RestrictAddressFamilies=AF_INET AF_INET6 AF_UNIX", "UMask=0022", "User=durshavon"],
    "desk-signer@": HAS_A_KEY,
    "desk-responder@": HAS_A_KEY,
}


def units(*kinds):
    """The names of the package's units of these kinds, and their texts."""
    return {it.name: it.read_text() for kind in kinds for it in sorted((TOP / "packaging").glob(f"*@.{kind}"))}


@test
def what_each_service_is_forbidden(t):
    found = {name.removesuffix(".service"): text.splitlines() for name, text in units("service").items()}
    t.same(sorted(found), sorted(SERVICES), "services")
    for name, own in SERVICES.items():
        t.same([it for it in [*FORBIDDEN, "SystemCallFilter=~@privileged @resources", *own] if it not in found[name]], [],
               f"settings that {name}.service lacks")


@test
def the_timer_runs_every_five_minutes(t):
    need("systemd-analyze")
    [calendar] = re.findall(r"^OnCalendar=(.*)$", (TOP / "packaging/desk-crl@.timer").read_text(), re.MULTILINE)
    told = t.tool("env", "TZ=UTC", "LC_ALL=C", "systemd-analyze", "calendar", "--base-time=2026-01-01 00:00:30", "--iterations=3", calendar).decode()
    t.same(re.findall(r"(?:Next elapse|Iteration #\d|Iter\. #\d): \S+ (.*)", told), [f"2026-01-01 00:{minute}:00 UTC" for minute in ("05", "10", "15")], told)


@test
def the_timer_keeps_its_time(t):
    """By default systemd may start a unit a minute late, and a time that passed while the machine was off would be left out."""
    found = (TOP / "packaging/desk-crl@.timer").read_text().splitlines()
    t.same([it for it in ("AccuracySec=10s", "Persistent=yes") if it not in found], [], "settings that desk-crl@.timer lacks")


@each({name: name for name in ("desk@", "desk-follow@", "desk-crl@", "desk-publish@")})
def each_register_has_a_port_of_its_own(t, name):
    """Each of these services reads the file with its register's port and address. Otherwise, on a machine with two registers, one's CRL would be
    issued or published by what the other one says. Without the file, all have the same port."""
    found = units("service")[f"{name}.service"].splitlines()
    t.has(found, "EnvironmentFile=-/etc/durshavon/%i.conf")
    [usual] = [it.split("=", 1)[1].split() for it in found if it.startswith("Environment=")]
    t.has(usual, "PORT=8080", "the usual port")


@test
def each_service_asks_the_desk_at_the_port_of_its_register(t):
    """On a machine with two registers, one has another port than the usual one."""
    found = units("service")
    wanted = {"desk@": "--port ${PORT}", "desk-follow@": "--from ${FROM} --port ${PORT}", "desk-crl@": "--address ${ADDRESS} --port ${PORT}", "desk-publish@": "http://${ADDRESS}:${PORT}/crl"}
    for name, words in wanted.items():
        [start] = re.findall(r"^ExecStart=(.*)$", found[f"{name}.service"], re.MULTILINE)
        t.has(start, f" {words} ", name)


# What starts each unit that can be enabled. The other units are started by these, or by a connection to a socket.
WANTED = {
    "desk@.service": ["multi-user.target"], "desk-follow@.service": ["multi-user.target"], "desk-crl@.timer": ["timers.target"],
    "desk-signer@.socket": ["sockets.target"], "desk-responder@.socket": ["sockets.target"],
}


@test
def each_unit_that_is_enabled_starts_with_the_machine(t):
    """A server never reaches graphical.target, for example: a desk of that target would not answer after a reboot."""
    found = {name: re.findall(r"^WantedBy=(.*)$", text, re.MULTILINE) for name, text in units("service", "socket", "timer").items()}
    t.same({name: wanted for name, wanted in found.items() if wanted}, WANTED)


@test
def the_timer_s_crl_does_not_wait_after_a_lost_key(t):
    [script] = re.findall(r"^ExecStart=(.*)$", units("service")["desk-crl@.service"], re.MULTILINE)
    t.has(f"{script} ", " --at-once key-compromise,control-lost ")


@test
def a_desk_that_ends_is_started_again_unless_its_command_line_is_wrong(t):
    found = units("service")["desk@.service"].splitlines()
    t.same([it for it in ("Restart=always", "RestartSec=2", "RestartPreventExitStatus=2", "StartLimitIntervalSec=0") if it not in found], [],
           "settings that desk@.service lacks")
    t.same(t.desk("open", "ca.db", "--port", "8080", "--control", "control").status, 2, "the status of `desk open` without a signer")


@test
def a_follower_and_a_desk_of_one_register_never_run_together(t):
    """systemd stops one when the other is started. Like a desk, a follower is started again unless its command line is wrong."""
    found = units("service")["desk-follow@.service"].splitlines()
    wanted = ("Conflicts=desk@%i.service", "Restart=always", "RestartSec=2", "RestartPreventExitStatus=2", "StartLimitIntervalSec=0")
    t.same([it for it in wanted if it not in found], [], "settings that desk-follow@.service lacks")


@each({"signer": "signer", "responder": "responder"})
def a_signer_that_fails_is_started_again_every_two_seconds(t, name):
    """Otherwise systemd would soon give its socket up, for example while its user can't read the key, and refuse all clients from then on."""
    found = units("service")[f"desk-{name}@.service"].splitlines()
    t.same([it for it in ("Restart=on-failure", "RestartSec=2", "StartLimitIntervalSec=0") if it not in found], [], "settings that the service lacks")


@each({"signer": "signer", "responder": "responder"})
def only_the_desk_can_connect_to_a_signer(t, name):
    """Whoever can connect to the socket can have CRLs and OCSP answers signed. Its folder, which systemd makes, can be entered by the desk's user."""
    found = units("socket")[f"desk-{name}@.socket"].splitlines()
    told = [it for it in found if re.match("(Socket(User|Group|Mode)|DirectoryMode|Accept|RemoveOnStop)=", it)]
    t.same(told, ["SocketUser=durshavon", "SocketMode=0600", "DirectoryMode=0755", "RemoveOnStop=yes"], "its settings")


# What each unit requires, and the files without which it is left out: a unit that is enabled or wanted does not fail before these are there.
REQUIRED = {
    "desk@.service": ["ConditionPathExists=/var/lib/durshavon/%i.db"],
    "desk-follow@.service": [],
    "desk-crl@.service": ["Requisite=desk@%i.service"],
    "desk-crl@.timer": [],
    "desk-publish@.service": ["Requisite=desk@%i.service", "ConditionPathExists=/etc/durshavon/%i.pem"],
    "desk-signer@.service": ["Requires=desk-signer@%i.socket"],
    "desk-signer@.socket": ["ConditionPathExists=/etc/durshavon/%i.pem", "ConditionPathExists=/var/lib/durshavon-signer/%i.key"],
    "desk-responder@.service": ["Requires=desk-responder@%i.socket"],
    "desk-responder@.socket": ["ConditionPathExists=/etc/durshavon/%i.pem", "ConditionPathExists=/etc/durshavon/%i.ocsp.der",
                               "ConditionPathExists=/var/lib/durshavon-signer/%i.ocsp.key"],
}


@test
def what_each_unit_requires(t):
    """Neither unit for CRLs starts a desk that was stopped."""
    found = units("service", "socket", "timer")
    is_told = re.compile(r"(Requisite|Requires|BindsTo|PartOf|Condition\w+)=").match
    t.same({name: list(filter(is_told, text.splitlines())) for name, text in found.items()}, REQUIRED)


@test
def a_desk_starts_after_a_check_of_both_its_signers(t):
    """Both programs get the options of the signer and those of the responder, whose sockets are there by then. The control socket has its older name,
    too."""
    found = units("service")["desk@.service"].splitlines()
    t.has(found, "After=network.target desk-signer@%i.socket desk-responder@%i.socket")
    told = {line.split("=")[0]: line.split("=", 1)[1].split() for line in found if line.startswith(("ExecStartPre=", "ExecStart="))}
    check = ["/usr/lib/durshavon/check-signer.py", "--allow-absent", "/etc/durshavon/%i.pem", "$OPTIONS", "$RESPONDER"]
    t.same(told["ExecStartPre"], check, "the check")
    t.same(told["ExecStart"][-3:], ["$OPTIONS", "$RESPONDER", "--why"], "the end of the desk's command line")
    t.has(found, "ExecStartPost=-/bin/ln -sfn control /run/durshavon/%i/counter")
    t.has(found, "ExecStartPost=/usr/lib/durshavon/wait-for-desk.sh /run/durshavon/%i/control $MAINPID", "until it answers, the unit has not started")


# The folders that each service may write, since the rest of the system is read-only to it, and their modes.
FOLDERS = {
    "desk@": ["StateDirectory=durshavon", "StateDirectoryMode=0700", "RuntimeDirectory=durshavon/%i", "RuntimeDirectoryMode=0700", "LogsDirectory=durshavon", "LogsDirectoryMode=0750"],
    "desk-follow@": ["StateDirectory=durshavon", "StateDirectoryMode=0700", "RuntimeDirectory=durshavon/%i", "RuntimeDirectoryMode=0700", "LogsDirectory=durshavon", "LogsDirectoryMode=0750"],
    "desk-crl@": [],
    "desk-publish@": ["StateDirectory=durshavon-crl/%i", "StateDirectoryMode=0755"],
    "desk-signer@": [],
    "desk-responder@": [],
}


@test
def which_folders_each_service_may_write(t):
    """Without its folder /var/log/durshavon, for example, a desk with the documented option --log-file would not start."""
    found = {name.removesuffix(".service"): text.splitlines() for name, text in units("service").items()}
    t.same({name: [it for it in lines if re.match(r"\w+Directory(Mode)?=|ReadWritePaths=", it)] for name, lines in found.items()}, FOLDERS)


@each({"signer": "signer", "responder": "responder"})
def the_native_signer_gets_the_words_of_signer_py(t, name):
    """The drop-ins differ from the services only in the program, its option --persistent, and the memory that it may lock: 12 MiB with a token."""
    start = lambda text: [line.split() for line in text.splitlines() if line.startswith("ExecStart=")]
    [service] = start(units("service")[f"desk-{name}@.service"])
    native_conf = (TOP / f"packaging/native-{name}.conf").read_text()
    t.same(service[:2], ["ExecStart=/usr/bin/python3", "/usr/lib/durshavon/signer.py"], "the program of the service")
    wanted = ["ExecStart=/usr/lib/durshavon/desk-signer", "--persistent", *service[2:]]
    t.same(start(native_conf), [["ExecStart="], wanted], "what the drop-in starts")
    t.has(native_conf.splitlines(), "LimitMEMLOCK=16M", "the drop-in")


@test
def a_desk_has_fifteen_minutes_to_open_a_large_register(t):
    """By default systemd would kill it after 90 seconds, again and again."""
    t.has(units("service")["desk@.service"].splitlines(), "TimeoutStartSec=15min")


@test
def the_latest_crl_is_published_also_if_no_new_one_can_be_issued(t):
    """desk-publish@ca.service starts with desk-crl@ca.service, whatever becomes of that, and runs after it."""
    found = units("service")
    t.has(found["desk-crl@.service"].splitlines(), "Wants=desk-publish@%i.service")
    after = [line for line in found["desk-publish@.service"].splitlines() if line.startswith("After=")]
    t.same(after, ["After=desk@%i.service desk-crl@%i.service"], "what desk-publish@.service comes after")


@test
def every_user_can_read_what_is_published(t):
    """desk-publish@.service lets every user, such as the web server's, read the published CRLs."""
    found = units("service")["desk-publish@.service"].splitlines()
    t.same([it for it in ("StateDirectory=durshavon-crl/%i", "StateDirectoryMode=0755", "UMask=0022") if it not in found], [],
           "settings that desk-publish@.service lacks")


def maintained(t, script, *words, fails="-", reports=""):
    """The commands that a script of the package gives to systemctl if systemd runs. Its tools are replaced, so it changes nothing on the machine; a
    command that has the word `fails` fails. The script ends with status 0, and prints `reports`."""
    (t.room / "bin").mkdir(exist_ok=True)
    for name in ("systemctl", "getent", "useradd", "install"):
        log = f'echo "{name} $*" >>"{t.room}/told"' if name != "getent" else ":"
        (t.room / "bin" / name).write_text(f'#!/bin/sh\n{log}\ncase " $* " in *" {fails} "*) exit 1 ;; esac\n')
        (t.room / "bin" / name).chmod(0o755)
    text = (TOP / "packaging" / script).read_text().replace("/run/systemd/system", str(t.room)).replace("/var/lib/", f"{t.room}/lib/")
    (t.room / script).write_text(text)
    (t.room / "told").write_text("")
    printed = t.tool("env", f"PATH={t.room}/bin:{os.environ['PATH']}", "sh", script, *words).decode()
    t.same(printed, reports, f"what {script} prints")
    return [rest for tool, *rest in commands(t) if tool == "systemctl"]


def commands(t):
    """The commands of the last script that `maintained` ran, each as its words."""
    return [line.split() for line in (t.room / "told").read_text().splitlines()]


@test
def an_upgrade_restarts_each_service_that_runs(t):
    services = [name.replace("@", "@*") for name, text in units("service").items() if "Type=oneshot" not in text]
    t.same([(first, sorted(rest)) for first, *rest in maintained(t, "postinst", "configure", "1")], [("daemon-reload", []), ("try-restart", sorted(services))])
    t.same(maintained(t, "postinst", "configure", ""), [["daemon-reload"]], "the first installation")


@test
def a_removal_stops_and_disables_each_unit(t):
    all_units = units("service", "socket", "timer")
    stops, disables = maintained(t, "prerm", "remove")
    t.same((stops[0], sorted(stops[1:])), ("stop", sorted(name.replace("@", "@*") for name in all_units)))
    t.same((disables[:2], sorted(disables[2:])), (["--quiet", "disable"], sorted(name for name, text in all_units.items() if "[Install]" in text)))
    t.same(maintained(t, "prerm", "upgrade"), [], "an upgrade")


@test
def a_unit_that_fails_does_not_fail_the_package(t):
    """Otherwise dpkg would leave the package half-configured, or refuse to remove it. The script says what to look at."""
    told = "durshavon: not every service was restarted: systemctl --failed 'desk*' names the others\n"
    maintained(t, "postinst", "configure", "1", fails="try-restart", reports=told)
    told = "durshavon: systemd has not read its units again: systemctl daemon-reload\n"
    maintained(t, "postinst", "configure", "1", fails="daemon-reload", reports=told)
    maintained(t, "postrm", "remove", fails="daemon-reload", reports=told)
    told = "durshavon: units of a register may still be enabled, in /etc/systemd/system\n"
    maintained(t, "prerm", "remove", fails="disable", reports=told)


# The command that fails, and one that the script must not reach.
ENDS = {
    "a user that can't be made": ("postinst", "configure", "useradd", "install"),
    "a service that can't be stopped": ("prerm", "remove", "systemctl stop", "systemctl --quiet"),
}


@each(ENDS)
def a_script_ends_at_a_failure(t, script, word, fails, later):
    """dpkg then reports it. Otherwise the service would have no user, or its program would be removed while it runs."""
    maintained(t, script, word)
    for name in ("systemctl", "useradd", "install"):
        (t.room / "bin" / name).write_text(f'#!/bin/sh\necho "{name} $*" >>told\ncase "{name} $*" in "{fails}"*) exit 1 ;; esac\n')
    (t.room / "bin/getent").write_text("#!/bin/sh\nexit 2\n")
    (t.room / "told").write_text("")
    ran = t.tried("env", f"PATH={t.room}/bin:{os.environ['PATH']}", "sh", script, word)
    told = (t.room / "told").read_text()
    t.same((ran.returncode != 0, fails in told, later in told), (True, True, False), f"whether {script} failed, at {fails}, before {later}")


@test
def what_a_purge_says(t):
    """Registers and keys stay, and a purge names the folder in which there are any. A removal, after which they can be used again, names none."""
    says = lambda what, name: f"durshavon: the {what} in {t.room}/lib/{name} stay; remove them by hand if nobody needs them any more\n"
    registers, keys = t.room / "lib/durshavon", t.room / "lib/durshavon-signer"
    maintained(t, "postrm", "purge")
    for folder in (registers, keys):
        folder.mkdir(parents=True)
    (registers / "ca.db").touch()
    maintained(t, "postrm", "purge", reports=says("registers", "durshavon"))
    (keys / "ca.key").touch()
    maintained(t, "postrm", "remove")
    maintained(t, "postrm", "purge", reports=says("registers", "durshavon") + says("keys", "durshavon-signer"))


@test
def the_package_is_installed_and_removed_without_systemd(t):
    """On a machine without systemd, such as a container, there is no systemctl, and the scripts end with status 0."""
    (t.room / "bin").mkdir()
    for name in ("sh", "ls"):
        (t.room / "bin" / name).symlink_to(shutil.which(name))
    for name in ("getent", "useradd", "install"):
        (t.room / "bin" / name).write_text("#!/bin/sh\n")
        (t.room / "bin" / name).chmod(0o755)
    for script, *words in (("postinst", "configure", ""), ("prerm", "remove"), ("postrm", "remove"), ("postrm", "purge")):
        (t.room / script).write_text((TOP / "packaging" / script).read_text().replace("/run/systemd/system", f"{t.room}/none").replace("/var/lib/", f"{t.room}/lib/"))
        ran = t.tried("env", f"PATH={t.room}/bin", "sh", script, *words)
        t.same((ran.returncode, ran.stdout + ran.stderr), (0, b""), f"status and output of {script} {words[0]}")


@test
def its_users_have_no_shell_and_their_folders_keep_their_modes(t):
    """The first installation makes both users and their folders. An upgrade changes neither, whatever mode and owner the operator gave a folder."""
    wanted = []
    for user in ("durshavon", "durshavon-signer"):
        home = f"{t.room}/lib/{user}"
        wanted.append(f"useradd --system --user-group --home-dir {home} --no-create-home --shell /usr/sbin/nologin {user}".split())
        wanted.append(f"install -d -m 0700 -o {user} -g {user} {home}".split())
    maintained(t, "postinst", "configure", "", fails="passwd")
    t.same([it for it in commands(t) if it[0] != "systemctl"], wanted, "what the first installation makes")
    for user in ("durshavon", "durshavon-signer"):
        (t.room / "lib" / user).mkdir(parents=True)
    maintained(t, "postinst", "configure", "1")
    t.same([it for it in commands(t) if it[0] != "systemctl"], [], "what an upgrade makes")


@test
def the_command_passes_its_words_on(t):
    """packaging/desk passes its words on to the program, also empty words and words with blanks."""
    (t.room / "lib").mkdir()
    (t.room / "lib/desk").write_text("#!/bin/sh\nprintf '<%s>' \"$@\"\n")
    (t.room / "lib/desk").chmod(0o755)
    shutil.copy(TOP / "tools/large-pages.sh", t.room / "lib")
    (t.room / "desk-command").write_text((TOP / "packaging/desk").read_text().replace("/usr/lib/durshavon", str(t.room / "lib")))
    t.same(t.tool("sh", "desk-command", "audit", "the ca.db", "", "*"), b"<audit><the ca.db><><*>")
    # Its process becomes the program, so a signal to it reaches the program.
    (t.room / "lib/desk").write_text("#!/bin/sh\necho $$\n")
    process = subprocess.Popen(["sh", "desk-command", "serve"], cwd=t.room, stdout=subprocess.PIPE)
    t.same(process.communicate(timeout=program.LONGEST)[0].decode(), f"{process.pid}\n", "the number of the program's process")


@test
def completion_in_bash(t):
    """bash completes commands, options and file names, also after --why."""
    (t.room / "bin").mkdir()
    (t.room / "bin/desk").symlink_to(program.program())
    (t.room / "a register.db").touch()

    def completed(*words):
        script = 'PATH=$0/bin:$PATH; . "$1"; shift; COMP_WORDS=("$@"); COMP_CWORD=$(($# - 1)); _desk; printf "%s\\n" "${COMPREPLY[@]}"'
        return t.tool("env", "TZ=Asia/Tokyo", "bash", "-c", script, t.room, TOP / "packaging/desk.bash", *words).decode().splitlines()

    for before in ((), ("--why",)):
        t.same(sorted(completed("desk", *before, "s")), ["schedule", "script", "serve"])
        t.same(sorted(completed("desk", *before, "script", "ca.db", "--s")), ["--signer", "--strict"])
        t.same(completed("desk", *before, "audit", "a r"), ["a register.db"])
    t.same(sorted(completed("desk", "list", "ca.db", "o")), ["open-requests", "orders", "overdue"])
    for option in ("--algorithm", "--responder-algorithm"):
        t.same(sorted(completed("desk", "open", "ca.db", option, "")), ["ecdsa-sha256", "ecdsa-sha384", "ed25519", "rsa-sha256"], f"after {option}")
    before = authority.now()
    [moment] = completed("desk", "list", "ca.db", "orders", "--now", "")
    t.true(before <= program.seconds_of(moment) <= authority.now(), f"{moment} is not the present moment in UTC")
    paths = ("--signer", "--responder", "--published", "--log-file", "--port")
    t.same({it: completed("desk", "open", "ca.db", it, "a r") for it in paths}, {it: ["a register.db"] if it != "--port" else [""] for it in paths}, "after each option")


@test(seconds=200)
def the_package(t):
    if os.getuid():
        raise Skipped("it makes a root of Debian, and is for root")
    need("debootstrap", "dpkg-deb", "git")
    deb = built(t)
    if shutil.which("lintian"):
        told = t.tried("lintian", "--allow-root", "--fail-on", "none", deb, timeout=LONGEST).stdout.decode()
        t.same([line for line in told.splitlines() if line.startswith("E:")], [], "errors of lintian")
    linked(t, deb)
    has_native = b"./usr/lib/durshavon/desk-signer\n" in t.tool("dpkg-deb", "-c", deb)
    t.same(has_native, native.has_libcrypto(), "whether the package has the native signer")
    root = Root(t)
    it = Authority(t)
    installed(t, root, deb)
    cleared(root)
    first_steps(t, root, it)
    moved_in(t, root)
    documented(t, root)
    booted(t, root, it)
    removed(t, root)


@test(seconds=15)
def what_the_package_needs_and_has(t):
    """It names the newest version of glibc that its programs need, and each package whose programs its scripts run. Every user can read its files, and each path
    of a file of it that a page, a unit or a script names is there."""
    need("dpkg-deb", "git", "make")
    if not Path(os.environ.get("KIT", "/opt/rattle")).exists():
        raise Skipped("the licences of the package are in the toolchain's folder, which is not here")
    deb, files = built(t), t.room / "files"
    t.tool("dpkg-deb", "-x", deb, files)
    programs = [it for it in (files / "usr/lib/durshavon/desk", files / "usr/lib/durshavon/desk-signer") if it.exists()]
    versions = {tuple(map(int, it.split(b"."))) for file in programs for it in re.findall(rb"GLIBC_(\d+\.\d+)", file.read_bytes())}
    wanted = [f"libc6 (>= {'.'.join(map(str, max(versions)))})", *(["libssl3"] if native.has_libcrypto() else []), "passwd", "openssl", "curl", "python3"]
    needs = t.tool("dpkg-deb", "-f", deb, "Depends").decode().strip()
    t.same(re.sub(r"libssl3\w*", "libssl3", needs).split(", "), wanted, "the packages that it needs")
    modes = {line.split()[0] for line in t.tool("dpkg-deb", "-c", deb).decode().splitlines()}
    t.same(modes, {"drwxr-xr-x", "-rwxr-xr-x", "-rw-r--r--"}, "the modes of its files")
    texts = {path: path.read_bytes() for path in files.rglob("*") if path.is_file() and path.suffix != ".gz" and path not in programs}
    named = {it.decode() for text in texts.values() for it in re.findall(rb"/usr/(?:lib|share)/durshavon/[\w./-]*\w", text)}
    t.true(len(named) > 15, f"too few paths were found: {named}")
    t.same(sorted(it for it in named if not (files / it[1:]).exists()), [], "paths that lead nowhere")


# Crates of a toolchain: what each uses, and its licences. The program uses `one`, which uses `two`, and not `spare`.
CRATES = {
    "std": ("", {"LICENSE": "Standard terms"}),
    "one": ("dep std\ndep two\n", {"LICENSE-MIT": "Some  terms\nof one", "LICENSE-APACHE": "Apache License\nVersion 2.0, with a text"}),
    "two": ("dep std\n", {"LICENSE": "Some terms of\none"}), "spare": ("", {"LICENSE": "Spare terms"}),
}


@test
def its_files_belong_to_root_whoever_built_it(t):
    """Otherwise that user's number would own the program on each machine that has the package. Here a file belongs to nobody when it is packed."""
    need("dpkg-deb")
    if os.geteuid():
        raise Skipped("only root can give a file to another user")
    (t.room / "root/DEBIAN").mkdir(parents=True)
    (t.room / "root/DEBIAN/control").write_text("Package: durshavon\nVersion: 1\nArchitecture: all\nMaintainer: T <t@example.org>\nDescription: T\n")
    (t.room / "root/file").touch()
    shutil.chown(t.room / "root/file", "nobody")
    packs = (TOP / "tools/package.sh").read_text().rpartition("\npackage=")[2]
    t.tool("bash", "-c", f"set -eu; out=. root=root version=1 architecture=all; package={packs}")
    told = t.tool("dpkg-deb", "-c", "durshavon_1_all.deb").decode().splitlines()
    t.same({line.split()[1] for line in told}, {"root/root"}, f"the owners of {told}")


@test
def whose_licences_the_package_has(t):
    """The file `copyright` has each text once, with all crates that are linked into the program, also those that other crates use. There is none
    while the page names not all of them."""
    kit, top = t.room / "kit", t.room / "top"
    for name, (uses, licences) in CRATES.items():
        for path, text in {f"rlibs/{name}.rlib/format": uses, **{f"rattle/{name}/{it}": text for it, text in licences.items()}}.items():
            (kit / path).parent.mkdir(parents=True, exist_ok=True)
            (kit / path).write_text(text)
    (top / "docs").mkdir(parents=True)
    (top / "crates.txt").write_text("# crates\nreg_desk: std reg_a\nreg_a: std one\n")
    made = lambda: t.tried("env", "-C", top, sys.executable, TOP / "tools/copyright.py", kit)
    (top / "docs/LICENCES.md").write_text("`one`, `std` and spare\n")
    ran = made()
    t.same((ran.returncode, ran.stdout, ran.stderr), (1, b"", b"docs/LICENCES.md does not name two, which the program is linked with\n"))
    (top / "docs/LICENCES.md").write_text("`one`, `std` and `two`\n")
    first, *parts = re.split(r"\n={100}\n", made().stdout.decode())
    t.has(first, "`one`, `std` and `two`")
    wanted = {"one/LICENSE-APACHE": "Apache License 2.0: /usr/share/common-licenses/Apache-2.0", "std/LICENSE": "Standard terms",
              "one/LICENSE-MIT, two/LICENSE": "Some  terms\nof one"}
    t.same(dict(zip(parts[::2], map(str.strip, parts[1::2]))), wanted, "the crates with each text")


def linked(t, deb):
    """Each link of a page, and each page that a unit names, leads to a file of the package."""
    files = t.room / "files"
    t.tool("dpkg-deb", "-x", deb, files)
    pages = sorted((files / "usr/share/doc/durshavon").rglob("*.md"))
    links = [page.parent / path for page in pages for path in re.findall(r"\]\(([^)#:\s]+)(?:#[^)]*)?\)", page.read_text(encoding="utf-8"))]
    links += [files / path for unit in (files / "lib/systemd/system").glob("*@.*") if unit.is_file() for path in re.findall(r"file:///(\S+)", unit.read_text())]
    t.true(len(links) > 20, f"too few links were found: {links}")
    t.same([str(it.relative_to(files)) for it in links if not it.exists()], [], "links that lead nowhere")


def installed(t, root, deb):
    shutil.copy(deb, root.path / "root/durshavon.deb")
    root.run("dpkg", "--install", "/root/durshavon.deb")
    t.same(root.run("dpkg-query", "-W", "-f", "${Status}", "durshavon"), "install ok installed")
    verified = root.tried("dpkg", "--verify", "durshavon").stdout.decode().splitlines()
    # A small root may leave documents out.
    t.same([line for line in verified if not re.search("/usr/share/(doc|man)/", line)], [], "installed files that differ from the packed ones")
    t.has(root.run("desk", "--help"), "Usage: desk [OPTIONS] <COMMAND>")
    t.same(root.run("desk", "--version").splitlines()[0].split()[:2], ["desk", version()], "desk --version")
    replies = root.run("desk", "script", given=(EXAMPLES / "first-day.txt").read_bytes())
    t.same(replies, (EXAMPLES / "first-day.replies.txt").read_text(), "the replies of examples/first-day.txt")
    traced = root.tried("bash", "-x", "/usr/bin/desk", "--help").stderr.decode()
    t.has(traced, "GLIBC_TUNABLES=glibc.malloc.hugetlb=1", "the command asks for a heap in large pages")
    t.same(root.run("stat", "-c", "%a %U %G", "/var/lib/durshavon").strip(), "700 durshavon durshavon", "the folder of registers")


def cleared(root):
    """Removes what an earlier run left, since the root may be a kept one."""
    for it in (REGISTER, REGISTER + "-wal", KEY, SOCKET, *RESPONDER, "/etc/durshavon/ca.conf", "/etc/durshavon/ca.pem", CONTROL):
        (root.path / it[1:]).unlink(missing_ok=True)
    for it in (PUBLISHED, COPIES, "/var/lib/durshavon/before", "/root/elsewhere"):
        shutil.rmtree(root.path / it[1:], ignore_errors=True)


def steps(t, port):
    """The lines of the first steps, which docs/OPERATIONS.md has too, with another port. apt is left out: the root has the packages already."""
    lines = [line for line in (TOP / "packaging/README.Debian").read_text().splitlines(keepends=True) if line.startswith("    ")]
    t.has((TOP / "docs/OPERATIONS.md").read_text(), "".join(lines), "docs/OPERATIONS.md has the lines of README.Debian")
    first, *lines = [line.strip().replace("8080", str(port)) for line in lines]
    t.same(first, "apt install ./durshavon_VERSION_amd64.deb python3-cryptography openssl curl")
    return lines


class Units:
    """Does what `systemctl` would do, by the units' own settings, without systemd."""

    def __init__(self, t, root, running):
        self.t, self.root, self.running, self.kept = t, root, running, {}

    def setting(self, unit, name):
        """A setting of a unit for the register `ca`."""
        path = self.root.path / "lib/systemd/system" / unit.replace("@ca.", "@.")
        found = (re.search(rf"^{name}=(.+)$", it.read_text(), re.MULTILINE) for it in (*Path(f"{path}.d").glob("*.conf"), path))
        return next(it for it in found if it)[1].replace("%i", "ca")

    def words(self, unit, setting="ExecStart"):
        """The command line of a service, with the variables from its register's file."""
        said = {"ADDRESS": "127.0.0.1", "OPTIONS": "", "RESPONDER": ""}
        said |= dict(line.split("=", 1) for line in (self.root.path / "etc/durshavon/ca.conf").read_text().splitlines())
        words = self.setting(unit, setting).replace("${ADDRESS}", said["ADDRESS"]).replace("${PORT}", said["PORT"])
        for name in ("OPTIONS", "RESPONDER"):
            words = words.replace(f"${name}", said[name].strip('"'))
        return shlex.split(words)

    def start(self, unit):
        if unit.endswith(".timer"):
            return
        if unit.endswith(".socket"):
            self.listen(unit)
        elif self.setting(unit, "Type") == "oneshot":
            self.once(unit)
        else:
            for part in ("", "/ca"):
                self.root.run("install", "-d", "-m", "0700", "-o", "durshavon", "-g", "durshavon", f"/run/durshavon{part}")
            user = self.setting(unit, "User")
            self.root.run(*self.words(unit, "ExecStartPre"), user=user)
            self.keep(unit, self.words(unit), user)
            process = str(self.kept[unit].pid)
            self.root.run(*(process if it == "$MAINPID" else it for it in self.words(unit, "ExecStartPost")), user=user)

    def stop(self, unit):
        """Ends a service, and deletes its RuntimeDirectory."""
        authority.end(self.kept.pop(unit))
        self.root.run("rm", "-rf", f"/run/{self.setting(unit, 'RuntimeDirectory')}")

    def once(self, unit):
        """Runs a service to its end. Returns its output, followed by that of the unit that it starts."""
        if "publish" in unit:
            self.root.run("install", "-d", "-m", "0755", "-o", "durshavon", "-g", "durshavon", PUBLISHED)
        told = self.root.run(*self.words(unit), user=self.setting(unit, "User"))
        return told + (self.once(self.setting(unit, "Wants")) if "-crl@" in unit else "")

    def keep(self, unit, words, user, **how):
        words = ["chroot", self.root.path, *as_user(user), *words]
        self.t.note(" ".join(map(str, words)))
        nothing = subprocess.DEVNULL
        self.kept[unit] = process = subprocess.Popen([*map(str, words)], stdin=nothing, stdout=nothing, stderr=nothing, **how)
        self.running.callback(authority.end, process)

    def listen(self, unit):
        """Opens the socket of a unit, and hands it over to its service as systemd does."""
        path, user = self.setting(unit, "ListenStream"), self.setting(unit, "SocketUser")
        self.root.run("install", "-d", "-m", self.setting(unit, "DirectoryMode"), os.path.dirname(path))
        listener = self.running.enter_context(socket.socket(socket.AF_UNIX))
        listener.bind(str(self.root.path) + path)
        listener.listen(64)
        self.root.run("chown", user, path)
        self.root.run("chmod", self.setting(unit, "SocketMode"), path)
        service, at = unit.replace(".socket", ".service"), listener.fileno()
        handed = ["bash", "-c", 'exec 3<&"$0"; export LISTEN_PID=$$ LISTEN_FDS=1; exec "$@"', at]
        self.keep(service, [*handed, *self.words(service)], self.setting(service, "User"), pass_fds=[at])

    def typed(self, line):
        words = shlex.split(line)
        for unit in (it for it in words if "@" in it):
            if "restart" in words:
                self.stop(unit)
            self.start(unit)


def first_steps(t, root, it):
    """Runs the first steps line by line, then a day's work at the control socket, which openssl checks."""
    port = program.free_port()
    for made in (it.pem, it.key):
        shutil.copy(made, root.path / "root")
    told = ""
    with contextlib.ExitStack() as running:
        units = Units(t, root, running)
        for line in steps(t, port):
            if line.startswith("systemctl "):
                units.typed(line)
            else:
                ran = root.tried("timeout", LONGEST, "bash", "-c", f"cd /root; {line}")
                told += (ran.stdout + ran.stderr).decode()
                t.same(ran.returncode, 0, f"status of {line}, which printed {told}")
        t.same(told, "created\nverify OK\n", "what was printed")
        crl = works(t, root, it, port)
        told = units.once("desk-publish@ca.service")
        t.same((told, published(root)), (f"crl 2 published in {PUBLISHED}\n", crl), "the reply, and the published CRL")
        answers_by_a_responder(t, root, it, units, port)
    later = moment_of(authority.now() + 1)
    told = root.owner("desk", "script", REGISTER, *it.signing(SOCKET), given=f"{later} status 05\n")
    t.same(told.split()[0], "revoked", "a status after SIGTERM ended the desk")
    root.run("install", "-d", "-m", "0700", "-o", "durshavon", COPIES)
    t.has(root.owner("/usr/lib/durshavon/backup.sh", REGISTER, COPIES), ": sound, 1 certificates, 1 revoked, 3 CRLs\n", "a copy of the register")


def moved_in(t, root):
    """The document's line moves a register that root made elsewhere to the package's path, and gives it to its user."""
    (line,) = block("Into an installed package", "install")
    makes = ["mkdir elsewhere; cd elsewhere", "desk init ca.db $(/usr/lib/durshavon/issuer-words.sh ../ca.pem)", "desk script ca.db --clock <<< 'subscriber acme'"]
    t.same(root.run("bash", "-ec", "\n".join(["cd /root", *makes, line])), "created\nsubscriber 1\n")
    t.same(root.owner("desk", "script", REGISTER, "--clock", given="subscriber acme\n"), "E05 name-taken 1\n", "the reply of the moved register")
    t.same(root.run("stat", "-c", "%a %U", REGISTER), "600 durshavon\n")


def responder_steps(port):
    """The lines that make a responder's key, and those that give it to an installed desk, with another port."""
    made = block("A responder", "openssl req")
    made = made[: next(at for at, line in enumerate(made) if line.startswith("/usr/lib/durshavon/signer.py"))]
    return [*made, *(line.replace("8080", str(port)) for line in block("A responder's key, installed", "install"))]


def answers_by_a_responder(t, root, it, units, port):
    """Runs these lines. A responder's key then signs OCSP answers, and the CA's key signs CRLs. Checks the modes and owners of its key and socket."""
    told, lines = "", []
    for line in [*responder_steps(port), ""]:
        if line and not line.startswith("systemctl "):
            lines.append(line)
            continue
        ran = root.tried("timeout", LONGEST, "bash", "-ec", "\n".join(["cd /root", *lines]))
        told += (ran.stdout + ran.stderr).decode()
        t.same(ran.returncode, 0, f"status of {lines}, which printed {told}")
        lines = []
        if line:
            units.typed(line)
    t.has(told, "Response verify OK", "what was printed")
    t.same(it.asked_by_openssl("05", f"http://127.0.0.1:{port}/ocsp", verify=True), "revoked", "by the responder")
    key, path, _ = RESPONDER
    t.same(root.run("stat", "-c", "%a %U", key, path).splitlines(), ["400 durshavon-signer", "600 durshavon"], "mode and owner of its key and socket")
    t.same(root.owner("desk", "at", CONTROL, given="crl\n"), "crl 3 entries 1\n", "a CRL")
    it.verifies(t.tool("curl", "-s", f"http://127.0.0.1:{port}/crl"))


def published(root):
    path = root.path / PUBLISHED.lstrip("/") / "ca.crl"
    return path.read_bytes() if path.exists() else None


def works(t, root, it, port):
    """Revokes a certificate at the control socket. openssl verifies the next answer and the CRL, which has the revocation. Checks which users can
    reach the key and its signer. Returns the CRL."""
    now = authority.now()
    registers = f"register 1 05 {moment_of(now)} {moment_of(now + 90 * authority.DAY)}"
    given = "".join(f"{line}\n" for line in ("subscriber acme", "order 1 398", registers, "request 05 superseded", "revoke 1", "crl"))
    told = root.owner("desk", "at", CONTROL, given=given).splitlines()
    t.same([line.partition(" due ")[0] for line in told], ["subscriber 1", "order 1", "registered", "request 1", "revoked", "crl 2 entries 1"])
    t.same(it.asked_by_openssl("05", f"http://127.0.0.1:{port}/ocsp", verify=True), "revoked")
    crl = t.tool("curl", "-s", f"http://127.0.0.1:{port}/crl")
    it.verifies(crl)
    t.same(list(authority.listed(t, crl)), [5])
    t.same(root.run("stat", "-c", "%a %U", KEY, os.path.dirname(KEY), SOCKET).split("\n")[:3], ["400 durshavon-signer", "700 durshavon-signer", "600 durshavon"])
    asks = 'import socket, sys; s = socket.socket(socket.AF_UNIX); s.connect(sys.argv[1]); s.sendall(b"x"); s.shutdown(1); print(s.recv(9))'
    t.same(root.owner("python3", "-c", asks, SOCKET), "b''\n", "the signer's reply if the desk's user sends another message")
    for user in ("nobody", "durshavon-signer"):
        t.same(root.tried("python3", "-c", asks, SOCKET, user=user).returncode, 1, f"the status of a connection to the signer as {user}")
    for user in ("nobody", "durshavon"):
        t.same(root.tried("cat", KEY, user=user).stdout, b"", f"the bytes of the key that {user} can read")
    return crl


def documented(t, root):
    """Checks the manual, the completion in bash, and the units."""
    listed = root.run("desk", "--help").partition("\nCommands:\n")[2].partition("\n\n")[0]
    commands = sorted(re.findall(r"^  ([a-z][a-z-]*) ", listed, re.MULTILINE))
    for page in ("man1/desk.1", "man5/desk-script.5"):
        text = gzip.decompress((root.path / f"usr/share/man/{page}.gz").read_bytes())
        (t.room / "page").write_bytes(text)
        if shutil.which("man"):
            ran = t.tried("man", "--warnings=w", "-l", t.room / "page", env=dict(os.environ, MANWIDTH="100", LC_ALL="C.UTF-8"))
            t.same((ran.returncode, ran.stderr, len(ran.stdout) > 1000), (0, b"", True), f"{page} by man: status, warnings, whether it has text")
        if page == "man1/desk.1":
            told = re.findall(r'^\.SS "desk ([a-z\\-]+)', text.decode(), re.MULTILINE)
            t.same(sorted(it.replace("\\", "") for it in told), commands, "the commands in desk.1")

    def completed(*words):
        script = ('cd /root; . /usr/share/bash-completion/completions/desk; COMP_WORDS=("$@"); COMP_CWORD=$(($# - 1)); _desk; '
                  'printf "%s " "${COMPREPLY[@]}"')
        return root.run("bash", "-c", script, "bash", *words).split()

    t.same(sorted(completed("desk", "s")), [it for it in commands if it.startswith("s")], "desk s..")
    t.has(" ".join(completed("desk", "init", "ca.db", "--")), "--name --key --key-id --days --crl-life --ocsp-life --cap")
    t.has(" ".join(completed("desk", "--why", "script", "ca.db", "--")), "--signer --algorithm")
    opens = "--signer --algorithm --unsigned --responder --responder-signer --responder-algorithm --embed --published --confirm-by --log --log-file --why"
    t.has(" ".join(completed("desk", "open", "ca.db", "--")), opens)
    t.has(" ".join(completed("desk", "import", "ca.db", "--now", "")), time.strftime("%Y-%m-%dT", time.gmtime()))
    t.same(sorted(completed("desk", "list", "ca.db", "o")), ["open-requests", "orders", "overdue"], "desk list ca.db o..")
    for option in ("--algorithm", "--responder-algorithm"):
        t.same(sorted(completed("desk", "open", "ca.db", option, "e")), ["ecdsa-sha256", "ecdsa-sha384", "ed25519"], f"desk open ca.db {option} e..")
    t.has(completed("desk", "script", "durs"), "durshavon.deb")
    for unit in sorted(it for it in (root.path / "lib/systemd/system").glob("desk*@.*") if it.is_file()):
        told = root.tried("systemd-analyze", "verify", "--man=no", unit.name.replace("@", "@ca"))
        wrong = [line for line in (told.stdout + told.stderr).decode("latin-1").splitlines() if "desk" in line.lower()]
        t.same(wrong, [], f"what systemd finds wrong with {unit.name}")


def booted(t, root, it):
    """Runs the first steps again in a container with systemd, if systemd-nspawn can start one. Some machines don't allow it."""
    if not shutil.which("systemd-nspawn"):
        return
    cleared(root)
    port = program.free_port()
    ending, told = root.path / "root/ended", root.path / "root/told"
    for path in (ending, told):
        path.unlink(missing_ok=True)
    (root.path / "root/steps").write_text("\n".join(["cd /root", *steps(t, port), "touch ended", ""]))
    unit = f"[Service]\nType=oneshot\nExecStart=bash -c 'timeout {LONGEST} bash /root/steps >/root/told 2>&1'\n[Install]\nWantedBy=multi-user.target\n"
    (root.path / "etc/systemd/system/steps.service").write_text(unit)
    root.run("systemctl", "enable", "steps.service")
    words = ["systemd-nspawn", "--quiet", "--register=no", "--keep-unit", "--settings=no", "--timezone=off", "--resolv-conf=off"]
    # Without this systemd-nspawn refuses mlockall(2), by which the native signer locks its memory.
    words += ["--system-call-filter=@memlock", "-D", str(root.path), "--boot"]
    t.note(" ".join(words))
    with open(t.room / "boot.log", "wb") as log:
        machine = subprocess.Popen(words, stdin=subprocess.DEVNULL, stdout=log, stderr=subprocess.STDOUT)
    try:
        with contextlib.suppress(Failed):
            authority.until(lambda: machine.poll() is not None or ending.exists(), "the first steps", 300)
        t.note(f"systemd-nspawn started it: {told.exists()}")
        if told.exists():
            printed = [line for line in told.read_text().splitlines() if not line.startswith("Created symlink ")]
            t.same(printed, ["created", "verify OK"], "what the first steps printed")
            t.same(it.asked_by_openssl("05", f"http://127.0.0.1:{port}/ocsp", verify=True), "unknown", "desk@ca.service, asked over HTTP")
            behind(t, root, machine, it, port)
    finally:
        # SIGTERM has the container shut down in order.
        machine.terminate()
        with contextlib.suppress(subprocess.TimeoutExpired):
            machine.wait(60)
        if machine.poll() is None:
            machine.kill()
            machine.wait()
    with socket.socket() as client:
        t.true(client.connect_ex(("127.0.0.1", port)) != 0, "the port still answers after the container was shut down")
    root.tried("systemctl", "disable", "steps.service", *ENABLED)


def behind(t, root, machine, it, port):
    """The other units, in the running container: they publish CRLs, copy an open register, and use a responder's key."""
    authority.until(lambda: published(root), "the CRL that desk-crl@ca.service has published")
    inside = Path(f"/proc/{machine.pid}/task/{machine.pid}/children").read_text().split()[0]
    at = ("env", "-u", "DESK", "nsenter", "-t", inside, "-a")
    # The test starts the unit once more by itself, and fails if the unit fails.
    t.tool(*at, "systemctl", "start", "desk-publish@ca.service")
    copy = (*at, "/usr/lib/durshavon/backup.sh", REGISTER, COPIES)
    root.run("install", "-d", "-m", "0700", COPIES)
    t.same(t.tried(*copy).returncode, 1, "status of backup.sh for an open register without its control socket")
    t.has(t.tool(*copy, CONTROL).decode(), ": sound, 0 certificates, 0 revoked, 1 CRLs\n", "a copy of an open register")
    upgraded(t, root, it, at, port)
    gone_back(t, root, at)
    a_held_port(t, at, port)
    a_key_that_its_signer_can_t_read(t, it, at, port)
    a_wrong_key(t, root, it, at, port)
    told = t.tool(*at, "bash", "-ec", "\n".join(["cd /root", *responder_steps(port)])).decode()
    t.has(told, "Response verify OK", "a responder's key for the installed desk")
    t.same(it.asked_by_openssl("05", f"http://127.0.0.1:{port}/ocsp", verify=True), "unknown", "by the responder")
    by_the_native_signer(t, root, it, at, port)
    while_the_key_is_away(t, root, it, at, port)
    taken_away(t, root, at, port)


def newer(t, root):
    """A package of a later version, whose `desk --version` says `newer`."""
    folder = t.room / "newer"
    t.tool("dpkg-deb", "-R", root.path / "root/durshavon.deb", folder)
    control = folder / "DEBIAN/control"
    control.write_text(re.sub(r"^(Version: .*)$", r"\1.newer", control.read_text(), flags=re.MULTILINE))
    (folder / "usr/lib/durshavon/version").write_text("newer\n")
    t.tool("dpkg-deb", "-Znone", "--root-owner-group", "--build", folder, root.path / "root/newer.deb")
    return "/root/newer.deb"


def silence(t, port, work):
    """The longest time in seconds without an answer to a client that asks again and again during the work and after it."""
    answered, ended = [], threading.Event()

    def ask():
        client = http.client.HTTPConnection("127.0.0.1", port, timeout=60)
        with contextlib.suppress(OSError, http.client.HTTPException), contextlib.closing(client):
            client.request("GET", "/counts")
            if client.getresponse().status == 200:
                answered.append(time.monotonic())

    def asks():
        while not ended.is_set():
            ask()
            time.sleep(0.01)

    requester = threading.Thread(target=asks)
    requester.start()
    try:
        authority.until(lambda: answered, "an answer before the work")
        work()
        done = time.monotonic()
        authority.until(lambda: answered[-1] > done, "an answer after the work")
    finally:
        ended.set()
        requester.join()
    return max(later - earlier for earlier, later in zip(answered, answered[1:]))


def upgraded(t, root, it, at, port):
    """A newer package is installed while the desk runs. The desk and its signer restart with it within ten seconds, on a slow machine too."""
    units = ("desk@ca.service", "desk-signer@ca.service")
    processes = lambda: [t.tool(*at, "systemctl", "show", "--property=MainPID", "--value", unit).decode().strip() for unit in units]
    package, before = newer(t, root), processes()
    t.true("0" not in before, f"the desk or its signer did not run before: {before}")
    longest = silence(t, port, lambda: t.tool(*at, "dpkg", "--install", package))
    t.note(f"nobody was answered for {longest:.2f} s")
    t.true(longest < 10, f"the desk answered no client for {longest:.2f} s")
    after = processes()
    t.same([old == new for old, new in zip(before, after)], [False, False], f"whether the processes are the same, before {before} and after {after}")
    t.true("0" not in after, f"the desk or its signer does not run after it: {after}")
    t.same(t.tool(*at, "desk", "--version"), b"newer\n", "the version after the upgrade")
    t.same(it.asked_by_openssl("05", f"http://127.0.0.1:{port}/ocsp", verify=True), "unknown", "an answer after the upgrade")
    t.same(t.tool(*at, "desk", "at", CONTROL, given="counts\n"), b"good 0 revoked 0 expired 0\n", "the counts after the upgrade")
    t.tool(*at, "systemctl", "is-active", "desk-crl@ca.timer", "desk-signer@ca.socket")


def gone_back(t, root, at):
    """The document's lines put the copy in the place of the register. Later entries are gone, and the desk goes on."""
    asks = lambda line: t.tool(*at, "desk", "at", CONTROL, given=f"{line}\n")
    t.same(asks("subscriber late"), b"subscriber 1\n", "an entry after the copy")
    [copy] = (it.name for it in (root.path / COPIES[1:]).iterdir())
    lines = [line.replace("ca.db-20260101T021500Z", copy) for line in block("Go back to a backup", "systemctl stop")]
    t.same([copy in line for line in lines].count(True), 1, f"lines that name the copy, of {lines}")
    # The register gets another group. SQLite then changes the group of the -wal file, which it makes anew.
    lines += [f"chgrp root {REGISTER}", "/usr/lib/durshavon/after-a-backup.py --help", "systemctl start desk@ca desk-crl@ca.timer"]
    t.has(t.tool(*at, "bash", "-ec", "\n".join(lines)), b"--published CRL", "the help of the installed script")
    t.same(asks("subscriber anew"), b"subscriber 1\n", "an entry after the copy is back")
    root.run("rm", "-r", "/var/lib/durshavon/before")


def state(t, at, unit):
    return t.tool(*at, "systemctl", "show", "--property=ActiveState", "--value", unit).decode().strip()


def answers(t, port):
    return t.tried("curl", "-s", f"http://127.0.0.1:{port}/counts").returncode == 0


def a_held_port(t, at, port):
    """Another program has the port for so long that systemd would give up by default. systemd starts the desk once the port is free."""
    t.tool(*at, "systemctl", "stop", "desk@ca.service")
    with socket.socket() as holder:
        holder.setsockopt(socket.SOL_SOCKET, socket.SO_REUSEADDR, 1)
        holder.bind(("127.0.0.1", port))
        holder.listen()
        t.same(t.tried(*at, "systemctl", "start", "desk@ca.service").returncode, 1, "status of systemctl start")
        time.sleep(15)
        t.same(state(t, at, "desk@ca.service"), "activating", "the unit after 15 seconds")
    authority.until(lambda: state(t, at, "desk@ca.service") == "active", "desk@ca.service once the port is free")
    t.true(answers(t, port), "the desk does not answer")
    t.has(t.tool(*at, "journalctl", "-u", "desk@ca.service").decode(), "  port in use", "the journal has the cause")


def a_key_that_its_signer_can_t_read(t, it, at, port):
    """The signer can't read its key for so long that systemd would give up by default. It runs once its user owns the key again."""
    url = f"http://127.0.0.1:{port}/ocsp"
    t.tool(*at, "systemctl", "stop", "desk-signer@ca.service")
    t.tool(*at, "chown", "root", KEY)
    t.has(t.tried("openssl", "ocsp", "-issuer", it.pem, "-serial", "5", "-url", url).stdout, b"internalerror", "an answer without the signer")
    time.sleep(10)
    # The unit is active while the signer tries to read the key.
    t.true(state(t, at, "desk-signer@ca.service") in ("activating", "active"), "systemd no longer starts the signer")
    t.tool(*at, "chown", "durshavon-signer", KEY)
    is_signed = lambda: b"Response verify OK" in t.tried("openssl", "ocsp", "-issuer", it.pem, "-serial", "5", "-url", url, "-CAfile", it.pem, timeout=LONGEST).stderr
    authority.until(is_signed, "an answer that is signed")


def a_wrong_key(t, root, it, at, port):
    """The desk does not start with a signer that has another key, and the journal has the cause. It starts with the right signer, and with one that
    does not run. The package's own signer ends if it has another key, and gives no signature."""
    Authority(t, name="other")
    shutil.copy(t.room / "other.key", root.path / "root")
    kept = (root.path / KEY[1:]).read_bytes()
    (root.path / KEY[1:]).write_bytes((t.room / "other.key").read_bytes())
    t.tool(*at, "systemctl", "restart", "desk-signer@ca.service")
    t.same(t.tried(*at, "desk", "at", CONTROL, given="crl\n").stdout, b"F3 signer\n", "a CRL while another key is in the place of the CA's")
    t.has(t.tool(*at, "journalctl", "-u", "desk-signer@ca.service").decode(), "is the certificate of another key", "the journal has the cause")
    (root.path / KEY[1:]).write_bytes(kept)
    conf = root.path / "etc/durshavon/ca.conf"
    before = conf.read_text()
    path = "/var/lib/durshavon/wrong"
    t.tool(*at, "install", "-d", "-o", "durshavon", path)
    t.tool(*at, "install", "-m", "0400", "-o", "durshavon", "/root/other.key", f"{path}/ca.key")
    words = ("python3", "/usr/lib/durshavon/signer.py", f"{path}/ca.key", f"{path}/ca.sign")
    t.tool(*at, "systemd-run", "--quiet", "--unit=wrong", "--property=User=durshavon", *words)
    conf.write_text(before.replace(SOCKET, f"{path}/ca.sign"))
    authority.until((root.path / path[1:] / "ca.sign").exists, "the other signer")
    t.same(t.tried(*at, "systemctl", "restart", "desk@ca.service").returncode, 1, "status of systemctl restart")
    t.same(answers(t, port), False, "whether it answers")
    wanted = f"{path}/ca.sign: openssl does not verify the signer's signature by /etc/durshavon/ca.pem"
    t.has(t.tool(*at, "journalctl", "-u", "desk@ca.service").decode(), wanted, "the journal has the cause")
    t.tool(*at, "systemctl", "stop", "wrong.service")
    t.tool(*at, "systemctl", "restart", "desk@ca.service")
    t.true(answers(t, port), "the desk does not answer while its signer does not run")
    conf.write_text(before)
    t.tool(*at, "rm", "-r", path)
    t.tool(*at, "systemctl", "restart", "desk@ca.service")
    t.same(it.asked_by_openssl("05", f"http://127.0.0.1:{port}/ocsp", verify=True), "unknown", "with the right signer, as soon as systemctl returns")


def taken_away(t, root, at, port):
    """The package is removed while it runs, and then installed again. Each time no unit of it runs or is enabled afterwards."""
    running = lambda: t.tool(*at, "systemctl", "list-units", "--plain", "--no-legend", "--state=active,activating", "desk*@*").decode()
    t.has(running(), "desk@ca.service")
    for line in ("--remove durshavon", "--install /root/durshavon.deb"):
        t.tool(*at, "dpkg", *line.split())
        t.same((running(), links(root)), ("", []), f"the units that run, and those that are enabled, after dpkg {line}")
        with socket.socket() as client:
            t.true(client.connect_ex(("127.0.0.1", port)) != 0, f"the port still answers after dpkg {line}")


def links(root):
    """The names of the enabled units."""
    return sorted(it.name for it in (root.path / "etc/systemd/system").rglob("desk*"))


def by_the_native_signer(t, root, it, at, port):
    """The native signer signs for the CA and the responder under all restrictions of the units, and its memory is locked. After the document's lines
    signer.py signs."""
    if not (root.path / "usr/lib/durshavon/desk-signer").exists():
        return
    t.same(it.asked_by_openssl("05", f"http://127.0.0.1:{port}/ocsp", verify=True), "unknown", "by the responder")
    t.same(t.tool(*at, "/usr/lib/durshavon/check-signer.py", "/etc/durshavon/ca.pem", *it.signing(SOCKET)), b"", "by the CA's key")
    asks = 'import socket, sys; s = socket.socket(socket.AF_UNIX); s.connect(sys.argv[1]); s.sendall(b"x"); s.shutdown(1); print(s.recv(9))'
    for unit, path in (("desk-signer@ca", SOCKET), ("desk-responder@ca", RESPONDER[1])):
        t.same(t.tool(*at, "python3", "-c", asks, path), b"b''\n", f"{unit}: the reply to another message")
        process = t.tool(*at, "systemctl", "show", "--property=MainPID", "--value", unit).decode().strip()
        status = dict(line.split(":", 1) for line in t.tool(*at, "cat", f"/proc/{process}/status").decode().splitlines())
        t.same(status["Name"].strip(), "desk-signer", f"{unit}: its program")
        t.true(int(status["VmLck"].split()[0]) > 0, f"{unit}: its memory is not locked")
        t.has(t.tool(*at, "journalctl", "-u", unit).decode(), "refused to sign 1 bytes: ", f"{unit}: the journal has the reason")
        t.tool(*at, "systemctl", "stop", f"{unit}.service")
        t.same(state(t, at, f"{unit}.service"), "inactive", f"{unit}: its state after the stop")
    t.same(it.asked_by_openssl("05", f"http://127.0.0.1:{port}/ocsp", verify=True), "unknown", "the socket starts the responder's signer")
    t.tool(*at, "bash", "-ec", "\n".join(block("With the package's units", "install -d", "signer/README")))
    t.same(it.asked_by_openssl("05", f"http://127.0.0.1:{port}/ocsp", verify=True), "unknown", "by signer.py")
    process = t.tool(*at, "systemctl", "show", "--property=MainPID", "--value", "desk-responder@ca").decode().strip()
    t.has(t.tool(*at, "cat", f"/proc/{process}/cmdline"), b"/usr/lib/durshavon/signer.py", "the responder's program")
    t.tool(*at, "bash", "-ec", "rm -r /etc/systemd/system/desk-*@.service.d; systemctl daemon-reload; systemctl restart desk-signer@ca desk-responder@ca")


def while_the_key_is_away(t, root, it, at, port):
    """The CA's key leaves the machine, and comes back for a CRL."""
    url = f"http://127.0.0.1:{port}"
    types = lambda beginning: t.tool(*at, "bash", "-ec", "\n".join(["cd /root", *block("A responder's key, installed", beginning)])).decode()
    types("sed -i")
    t.true(answers(t, port), "desk@ca.service does not answer without the CA's key")
    t.same(it.asked_by_openssl("05", f"{url}/ocsp", verify=True), "unknown", "by the responder alone")
    ran = t.tried(*at, "desk", "at", CONTROL, given="crl\n")
    t.same((ran.returncode, ran.stdout), (3, b"F3 signer\n"), "a CRL at the control socket")
    t.tool(*at, "systemctl", "start", "desk-crl@ca.service")
    t.has(types("systemctl stop"), "crl 2 entries 0\n", "a CRL while the key is back")
    t.true(answers(t, port), "desk@ca.service does not answer after that")
    crl = t.tool("curl", "-s", f"{url}/crl")
    it.verifies(crl)
    t.has(t.tool("openssl", "crl", "-inform", "DER", "-noout", "-crlnumber", given=crl), b"crlNumber=0x02", "the CRL's number")
    t.same(it.asked_by_openssl("05", f"{url}/ocsp", verify=True), "unknown", "by the responder alone, again")
    t.same((root.path / KEY[1:]).exists(), False, "whether the CA's key is on the machine")


def removed(t, root):
    folders = {what: root.path / os.path.dirname(path)[1:] for what, path in (("registers", REGISTER), ("keys", KEY))}
    names = {what: sorted(it.name for it in folder.iterdir()) for what, folder in folders.items()}
    t.same((names["registers"], "ca.ocsp.key" in names["keys"]), (["ca.db", "ca.db-wal"], True), "the files before the removal")
    root.run("systemctl", "enable", *ENABLED)
    t.same(links(root), sorted(ENABLED), "the enabled units before the removal")
    root.run("dpkg", "--remove", "durshavon")
    t.same(links(root), [], "the enabled units after the removal")
    left = [str(it) for part in ("usr", "lib/systemd", "etc") for it in sorted((root.path / part).rglob("*"))
            if "/usr/share/doc" not in str(it) and not it.is_dir()
            and ("durshavon" in it.name or (it.name.startswith("desk") and "systemd" in str(it)) or str(it).endswith("usr/bin/desk"))]
    t.same(left, [], "files that the removal left")
    ran = root.tried("dpkg", "--purge", "durshavon")
    for what, folder in folders.items():
        t.has((ran.stdout + ran.stderr).decode(), f"the {what} in /{folder.relative_to(root.path)} stay", f"the purge reports the {what}")
        t.same(sorted(it.name for it in folder.iterdir()), names[what], f"the {what} after the purge")
        t.same(stat.S_IMODE(folder.stat().st_mode), 0o700, f"the mode of the folder of the {what}")
