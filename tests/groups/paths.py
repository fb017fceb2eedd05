"""Runs the code blocks of docs/OPERATIONS.md: each path from nothing to a signed CRL, and each signer that it names. They run in a folder like the
repository, unchanged except for ports and the folders of an installed package (tests/run package has those), and end in `verify OK` and
`Response verify OK` of openssl."""

import grp
import os
import pwd
import re
import shutil
import sys

from lib import authority, program
from lib.authority import KEYS, Authority, moment_of
from lib.documents import block, blocks, document
from lib.trial import Failed, each, need, test

# The configuration of `openssl ca` for a CA in demoCA.
CONFIG = """[ca]
default_ca = it
[it]
dir = demoCA
database = demoCA/index.txt
new_certs_dir = demoCA/newcerts
serial = demoCA/serial
crlnumber = demoCA/crlnumber
certificate = demoCA/cacert.pem
private_key = demoCA/private/cakey.pem
default_md = sha256
default_crl_days = 8
policy = any
[any]
commonName = supplied
"""

# Paths of an installed package, and of the same files in the folder in which the lines run.
HERE = {"/usr/lib/durshavon/": "examples/", "/run/durshavon/ca/": "", "/run/durshavon-signer/": "", "/etc/durshavon/": "", "/var/lib/durshavon/": ""}


def here(line):
    for installed, path in HERE.items():
        line = line.replace(installed, path)
    return line


def folder_of(t, algorithm="ecdsa-sha256"):
    """A folder like the repository, with the tested program as `desk`, a CA's certificate in ca.pem and its key in ca.key."""
    top = authority.stood_in(t)
    it = Authority(t, algorithm)
    for made in (it.pem, it.key):
        shutil.copy(made, top)
    return top


def typed(t, top, lines):
    """The output of bash for these lines. The processes that they start end afterwards."""
    env = {**os.environ, "TZ": "America/New_York", "PATH": f"{top}:{os.environ['PATH']}"}
    env.pop("LD_PRELOAD", None)
    script = "\n".join([f"cd {top}", *map(here, lines), "jobs -p | xargs -r kill", "wait"])
    ran = t.tried("timeout", program.LONGEST - 10, "bash", "-c", script, env=env)
    told = (ran.stdout + ran.stderr).decode()
    t.true(ran.returncode != 124, f"the lines did not end in time: {told}")
    return told


def ends_well(t, told, crls=1, answers=0, replies=("created\n", "crl 1 entries 0\n")):
    """Checks that the output has these numbers of CRLs and answers that openssl verifies, these replies, and neither refusals nor faults."""
    t.same(len(re.findall(r"^verify OK$", told, re.MULTILINE)), crls, f"CRLs that verify, in {told}")
    t.same(told.count("Response verify OK"), answers, f"answers that verify, in {told}")
    for reply in replies:
        t.has(told, reply)
    t.same(re.findall(r"^(?:[EF][0-9]+ .*|bad-.*|refused.*)$", told, re.MULTILINE), [], f"refusals and faults, in {told}")


def office(port):
    """The document's line that opens the desk, and lines that request an OCSP answer and a CRL."""
    opens = block("Open it and close it", "desk open ca.db")[0].replace("8080", port)
    return [
        f"{opens} &",
        "until [ -S control ]; do sleep 0.1; done",
        f"openssl ocsp -issuer ca.pem -serial 5 -url http://127.0.0.1:{port}/ocsp -CAfile ca.pem",
        "desk at control <<< crl",
        f"curl -s http://127.0.0.1:{port}/crl | openssl crl -inform DER -noout -verify -CAfile ca.pem",
    ]


@test(seconds=3)
def from_the_repository(t):
    """After the lines of "From the repository" a desk is opened, which answers and issues a CRL. Then the lines for cron run."""
    need("curl", "bash")
    authority.need_cryptography(t)
    port = str(program.free_port())
    [issues], [publishes] = (block("CRLs", beginning) for beginning in ("*/5 * * * *", "5 * * * *"))
    top = folder_of(t)
    issues = issues.replace("8080", port)
    publishes = publishes.replace("8080", port).replace("/var/lib/durshavon-crl/ca", "published")
    cron = ["mkdir published", *(f'{line.split("  ")[1]}; echo "cron $?"' for line in (issues, publishes))]
    told = typed(t, top, [*block("From the repository", "./desk init"), *office(port), *cron])
    ends_well(t, told, crls=2, answers=1, replies=("created\n", "crl 1 entries 0\n", "crl 2 entries 0\n", "cron 0\ncrl 2 published in published\ncron 0\n"))
    t.same(sorted(it.name for it in (top / "published").iterdir()), ["ca.crl", "ca.crl.pem"])


def of_a_responder(beginning, port):
    """A block of "A responder" whose last line opens the desk, followed by lines that send requests to it."""
    *lines, opens = block("A responder", beginning)
    return [*lines, f'{opens.replace("8080", port)} & desk=$!', *office(port)[1:]]


@each({"beside the CA's key": "openssl req", "the CA's key with its certificate": "openssl x509"}, seconds=4)
def a_responder(t, beginning):
    """After the lines of "From the repository" a responder signs the answers. openssl verifies them with only the CA's certificate."""
    need("curl", "bash")
    authority.need_cryptography(t)
    port = str(program.free_port())
    asks = re.search(r"^`(openssl ocsp -issuer ca\.pem [^`]*)` then prints `Response verify OK`", document(), re.MULTILINE)[1]
    lines = [*of_a_responder(beginning, port), asks.replace("8080", port)]
    told = typed(t, folder_of(t), [*block("From the repository", "./desk init"), *lines])
    ends_well(t, told, crls=2, answers=2, replies=("created\n", "crl 1 entries 0\n", "crl 2 entries 0\n"))


@test(seconds=5)
def a_responder_while_the_ca_s_key_is_away(t):
    """The CA's signer ends after the first CRL: answers go on, and a `crl` line is refused. A script issues a CRL once the key is back."""
    need("curl", "bash")
    authority.need_cryptography(t)
    port = str(program.free_port())
    first = [f"{line} signer=$!" if line.endswith("&") else line for line in block("From the repository", "./desk init")]
    starts = [line for line in first if line.startswith(("examples/signer.py", "until"))]
    t.same(len(starts), 2, f"lines that start the signer, of {first}")
    ends = ["kill $signer", "while [ -S ca.sign ]; do sleep 0.1; done"]
    made = block("A responder", "openssl req")[:-1]
    opened = of_a_responder("desk open ca.db --port 8080 --control control $RESPONDER", port)
    closed = ["kill $desk", "wait $desk", *starts, *block("A responder", "desk script ca.db --clock"), first[-1]]
    told = typed(t, folder_of(t), [*first, *ends, *made, *opened, *closed])
    t.same(re.findall(r"^verify OK$", told, re.MULTILINE), ["verify OK"] * 3, f"CRLs that verify, in {told}")
    t.same(told.count("Response verify OK"), 1, f"answers that verify, in {told}")
    replies = re.findall(r"^(?:[EF][0-9]+ .*|bad-.*|refused.*|crl .*)$", told, re.MULTILINE)
    t.same(replies, ["crl 1 entries 0", "F3 signer", "crl 2 entries 0", "refused"], f"standard output and then standard error, in {told}")


@test(seconds=4)
def a_key_identifier_that_a_register_lacks(t):
    """The CA's key identifier is not the SHA-1 of its key, and the register lacks it. openssl finds no CRL until the document's lines set it."""
    need("curl", "bash")
    authority.need_cryptography(t)
    top = authority.stood_in(t)
    it = Authority(t, more=("-addext", "subjectKeyIdentifier=0A1B2C3D4E5F6071", "-addext", "authorityKeyIdentifier=none"))
    t.tool("openssl", "req", "-newkey", *KEYS["ecdsa-sha256"], "-nodes", "-keyout", "a.key", "-out", "a.csr", "-subj", "/CN=a")
    (t.room / "a.cnf").write_text("authorityKeyIdentifier = keyid:always\n")
    t.tool("openssl", "x509", "-req", "-in", "a.csr", "-CA", it.pem, "-CAkey", it.key, "-set_serial", 5, "-days", 90, "-extfile", "a.cnf", "-out", "a.pem")
    for made in (it.pem, it.key, t.room / "a.pem"):
        shutil.copy(made, top)
    init, *first = block("From the repository", "./desk init")
    t.has(init, "$(examples/issuer-words.sh ca.pem)")
    lines = block("The CA's key identifier", "ID=")
    init = init.replace("ca.pem)", "ca.pem | cut -d ' ' -f 1-4)")
    told = typed(t, top, [init, *first, lines[-2], f"{lines[-1]} 2>&1", *lines])
    t.same(re.findall(r"^verify OK$", told, re.MULTILINE), ["verify OK"], f"openssl crl -verify finds nothing wrong before, in {told}")
    before, _, after = told.partition("key-id set\n")
    t.has(before, "error 3 at 0 depth lookup: unable to get certificate CRL", "openssl's error before the lines")
    t.has(after, "crl 2 entries 0\na.pem: OK\n")


# A part of the line in the section "Signatures" that starts the signer.
SIGNERS = {"openssl behind socat": "openssl dgst", "signer.py": "/signer.py"}


def started(heading, part):
    """The section's line that starts a signer, and a line that waits for its socket."""
    lines = [line for lines in blocks(heading) for line in lines if part in line and "ca.sign" in line]
    if len(lines) != 1:
        raise Failed(f"{heading!r} has {len(lines)} lines with {part!r}")
    return [f"{lines[0]} &", "until [ -S ca.sign ]; do sleep 0.1; done"]


def register_by(signer):
    """The lines of "From the repository", with these in place of those that start its signer."""
    lines = block("From the repository", "./desk init")
    begin = next(at for at, line in enumerate(lines) if line.startswith("examples/signer.py"))
    return [lines[0], *signer, 'SIGNER="--signer ca.sign --algorithm ecdsa-sha256"', *lines[begin + 3 :]]


@each(SIGNERS, seconds=2)
def a_signer_of_the_document(t, part):
    need("bash", "curl", *(["socat"] if part.startswith("openssl") else []))
    if part.endswith(".py"):
        authority.need_cryptography(t)
    told = typed(t, folder_of(t), [*register_by(started("Signatures", part)), *office(str(program.free_port()))])
    ends_well(t, told, crls=2, answers=1)


@each({"-t 10, as it stands": True, "without -t 10": False}, seconds=4)
def a_signer_behind_socat_that_takes_a_second(t, patient):
    """The document's line for socat runs a command that sleeps for a second. Without -t 10 socat ends before the signature is there."""
    need("bash", "socat")
    top = folder_of(t)
    (top / "slowly").write_text("#!/bin/sh\nsleep 1\nexec openssl dgst -sha256 -sign ca.key\n")
    (top / "slowly").chmod(0o755)
    line, *rest = started("Signatures", "openssl dgst")
    t.has(line, "socat -t 10 UNIX-LISTEN:")
    line = line.replace("openssl dgst -sha256 -sign ca.key", "./slowly")
    if patient:
        ends_well(t, typed(t, top, register_by([line, *rest])))
    else:
        told = typed(t, top, register_by([line.replace("-t 10 ", ""), *rest]))
        t.has(told, "F3 signer\n")
        t.true("verify OK" not in told, f"a CRL was signed, in {told}")


@test(seconds=4)
def only_ours_before_a_responder_s_key(t):
    """The line that puts only_ours.py in front of a responder's key replaces the signer of "A responder"."""
    need("bash", "curl", "socat")
    authority.need_cryptography(t)
    port = str(program.free_port())
    (line,) = [line for lines in blocks("Signatures") for line in lines if "ocsp.sign" in line]
    lines = of_a_responder("openssl req", port)
    place = next(at for at, it in enumerate(lines) if it.startswith("/usr/lib/durshavon/signer.py"))
    told = typed(t, folder_of(t), [*block("From the repository", "./desk init"), *lines[:place], f"{line} &", *lines[place + 1 :]])
    ends_well(t, told, crls=2, answers=1, replies=("created\n", "crl 1 entries 0\n", "crl 2 entries 0\n"))


@each({it: it for it in ("ecdsa-sha256", "ecdsa-sha384", "rsa-sha256")}, seconds=4)
def a_key_in_a_token(t, algorithm):
    """By the document's lines a key in SoftHSM2 signs CRLs and an OCSP answer. The test has a key of each kind."""
    need("bash", "curl", "socat", "softhsm2-util", "pkcs11-tool")
    lines = block("A key in hardware", "ALGORITHM=")
    t.has(lines[0], "ALGORITHM=ecdsa-sha256 ")
    lines[0] = lines[0].replace("ecdsa-sha256", algorithm)
    top = folder_of(t, algorithm)
    # From here on only the token has the key.
    given = next(at for at, line in enumerate(lines) if "--import ca.key" in line)
    lines.insert(given + 1, "rm ca.key")
    told = typed(t, top, [*lines, *office(str(program.free_port()))])
    ends_well(t, told, crls=2, answers=1)
    t.same((top / "ca.pin").stat().st_mode & 0o777, 0o600, "the mode of the PIN's file")


@test(seconds=2)
def a_token_that_does_not_sign(t):
    """pkcs11-signer.sh prints nothing and fails if the PIN is wrong, a key or a token is missing, or the key is of another kind."""
    need("softhsm2-util", "pkcs11-tool")
    lines = block("A key in hardware", "ALGORITHM=")
    top = folder_of(t)
    until = next(at for at, line in enumerate(lines) if line.startswith("SIGN="))
    (t.room / "left").mkdir()
    env = {**os.environ, "SOFTHSM2_CONF": str(top / "softhsm2.conf"), "TMPDIR": str(t.room / "left")}
    typed(t, top, lines[:until])
    module = re.search(r"MODULE=(\S+)", lines[0])[1]
    (top / "wrong.pin").write_text("1174\n")
    for what, words in {
        "the key": ("ecdsa-sha256", module, "ca", "01", top / "ca.pin"),
        "another PIN": ("ecdsa-sha256", module, "ca", "01", top / "wrong.pin"),
        "no such file of a PIN": ("ecdsa-sha256", module, "ca", "01", top / "no.pin"),
        "no such key": ("ecdsa-sha256", module, "ca", "02", top / "ca.pin"),
        "no such token": ("ecdsa-sha256", module, "other", "01", top / "ca.pin"),
        "no such module": ("ecdsa-sha256", "/nowhere.so", "ca", "01", top / "ca.pin"),
        "a key of another kind": ("rsa-sha256", module, "ca", "01", top / "ca.pin"),
        "no such algorithm": ("ed25519", module, "ca", "01", top / "ca.pin"),
    }.items():
        ran = t.tried("sh", authority.EXAMPLES / "pkcs11-signer.sh", *words, given=b"x" * 5000, env=env)
        t.same((ran.returncode == 0, ran.stdout != b""), (what == "the key", what == "the key"), what)
    t.same(list((t.room / "left").iterdir()), [], "temporary files that are left")


@test
def a_token_signs_nothing_if_the_digest_fails(t):
    """pkcs11-signer.sh would otherwise have it sign an empty digest, or a part of one. Here openssl fails."""
    (t.room / "bin").mkdir()
    for name, does in (("openssl", "exit 1"), ("pkcs11-tool", f'touch "{t.room}/signed"; echo a signature')):
        (t.room / "bin" / name).write_text(f"#!/bin/sh\n{does}\n")
        (t.room / "bin" / name).chmod(0o755)
    (t.room / "ca.pin").write_text("271828\n")
    env = {**os.environ, "PATH": f"{t.room}/bin:{os.environ['PATH']}"}
    ran = t.tried("sh", authority.EXAMPLES / "pkcs11-signer.sh", "ecdsa-sha256", "module.so", "ca", "01", "ca.pin", given=b"x", env=env)
    told = (ran.returncode != 0, ran.stdout, (t.room / "signed").exists())
    t.same(told, (True, b"", False), "whether it failed, its output, whether the token signed")


@test
def the_pin_of_a_token_is_in_no_command_line(t):
    """pkcs11-signer.sh passes the PIN in the environment, since other users of the machine see the words of each process."""
    (t.room / "bin").mkdir()
    (t.room / "bin/pkcs11-tool").write_text(f'#!/bin/sh\necho "$@" >"{t.room}/words"\nprintf %s "$PIN" >"{t.room}/pin"\n')
    (t.room / "bin/pkcs11-tool").chmod(0o755)
    (t.room / "ca.pin").write_text("271828\n")
    env = {**os.environ, "PATH": f"{t.room}/bin:{os.environ['PATH']}"}
    t.tool("sh", authority.EXAMPLES / "pkcs11-signer.sh", "ecdsa-sha256", "module.so", "ca", "01", "ca.pin", given=b"x", env=env)
    words = (t.room / "words").read_text().split()
    t.same([it for it in words if "271828" in it], [], f"words that have the PIN, of {words}")
    t.same((t.room / "pin").read_text(), "271828", "the PIN in the environment of pkcs11-tool")


@test(seconds=6)
def coming_from_openssl_ca(t):
    need("bash", "curl")
    authority.need_cryptography(t)
    top = folder_of(t)
    made = top / "demoCA"
    for folder in (made, made / "newcerts", made / "private"):
        folder.mkdir()
    shutil.move(top / "ca.key", made / "private/cakey.pem")
    shutil.copy(top / "ca.pem", made / "cacert.pem")
    for name, text in {"serial": "05\n", "crlnumber": "01\n", "index.txt": "", "index.txt.attr": "unique_subject = no\n", "ca.cnf": CONFIG}.items():
        (made / name).write_text(text)
    openssl = lambda *words: t.tool("env", "-C", top, "openssl", *words)
    for name in ("a", "b"):
        openssl("req", "-newkey", *KEYS["ecdsa-sha256"], "-nodes", "-keyout", "x.key", "-out", "x.csr", "-subj", f"/CN={name}.example")
        openssl("ca", "-config", "demoCA/ca.cnf", "-batch", "-in", "x.csr", "-out", f"{name}.pem", "-days", "90", "-notext")
    openssl("ca", "-config", "demoCA/ca.cnf", "-revoke", "a.pem", "-crl_reason", "superseded")
    for _ in range(3):
        openssl("ca", "-config", "demoCA/ca.cnf", "-gencrl", "-out", "demoCA/crl.pem")
    lines = [*block("Coming from openssl ca", "FILES="), *office(str(program.free_port()))]
    told = typed(t, top, lines)
    ends_well(t, told, crls=2, answers=1, replies=("created\n", "crl 4 entries 1\n", "5: revoked\n", "crl 5 entries 1\n"))
    # The script from index.txt issues CRLs 1 to 3, and they are signed too: the register has no placeholder digest.
    for number in (1, 2, 3):
        crl = program.run(["crl", "ca.db", "--number", number], cwd=top).out
        t.has(t.tool("openssl", "crl", "-inform", "DER", "-noout", "-verify", "-CAfile", top / "ca.pem", given=crl), b"verify OK", f"CRL {number}")


@test(seconds=4)
def from_a_placeholder_digest_to_a_signature(t):
    """A register whose CRL has a placeholder digest is opened with a signer, and a line at the control socket issues a CRL that verifies."""
    it = Authority(t)
    it.signer()
    it.register()
    begun = authority.now()
    t.same(t.done("script", "ca.db", given=authority.first_day(begun)).splitlines(), authority.first_day_replies(begun))
    desk = t.open("ca.db", *it.signing())
    t.same(t.control().ask("crl"), "crl 2 entries 1")
    it.verifies(authority.body_of(t, desk.ask("GET", "/crl"), "application/pkix-crl"))


@test(seconds=4)
def the_lists(t):
    """The document's lines print lists of a closed register. For an open desk they print all rows of a list that has more than one page."""
    need("bash", "curl", "jq")
    top, port = folder_of(t), str(program.free_port())
    names = [f"s{number}" for number in range(251)]
    t.register(top / "ca.db", "".join(f"2026-01-01T00:00:00Z subscriber {name}\n" for name in names))
    closed = typed(t, top, block("Lists", "desk list ca.db revoked"))
    t.has((top / "revoked.csv").read_text(), "serial,subscriber,name,order,")
    t.has(closed, "serial,subscriber,name,order,", "the header of the list of certificates that end")
    *function, asks = [line.replace("8080", port) for line in block("Lists", "list() {")]
    t.same(asks, "list revoked")
    opens = [f"desk open ca.db --port {port} --control control --unsigned &", "until [ -S control ]; do sleep 0.1; done"]
    told = typed(t, top, [*opens, *function, "list subscribers", asks])
    t.same(told.splitlines()[1:], [f'{{"subscriber":{at},"name":"{name}"}}' for at, name in enumerate(names, 1)],
           "rows of both lists, of which the second has none")


@test(seconds=2)
def the_log_s_rotation(t):
    """The document's lines for logrotate: the renamed file keeps its lines, and the next line goes into a new file."""
    need("logrotate", "curl")
    lines = "\n".join(block("The log", "/var/log/durshavon/*.log {"))
    owner = f"{pwd.getpwuid(os.getuid()).pw_name} {grp.getgrgid(os.getgid()).gr_name}"
    (t.room / "rotation").write_text(lines.replace("/var/log/durshavon", str(t.room / "log")).replace("durshavon durshavon", owner) + "\n")
    (t.room / "log").mkdir(mode=0o750)
    t.register()
    desk = t.open("ca.db", "--log-file", "log/ca.log")
    desk.ask("GET", "/counts")
    t.tool("logrotate", "--force", "--state", "state", "rotation")
    desk.ask("GET", "/crl")
    texts = {it.name: it.read_text() for it in (t.room / "log").iterdir()}
    t.same({name: re.findall(r'"GET (\S+) HTTP', text) for name, text in texts.items()}, {"ca.log": ["/crl"], "ca.log.1": ["/counts"]})
    t.same((t.room / "log/ca.log").stat().st_mode & 0o777, 0o600)


@test
def each_line_that_may_sign_names_the_signer(t):
    """No line of the document, the examples or the units opens a register without a signer: its CRLs would have a placeholder digest."""
    files = [it for folder in ("examples", "packaging") for it in sorted((program.TOP / folder).iterdir()) if it.is_file()]
    texts = [document(), *(it.read_text(encoding="utf-8") for it in files)]
    found = [line for text in texts for line in re.findall(r"\bdesk (?:script|open|serve) ca\.db[^`\n|]*", text)]
    t.true(len(found) > 8, f"too few lines were found: {found}")
    # With a responder no CRL has a placeholder digest.
    is_told = lambda line: "$SIGNER" in line or "--signer" in line or (" open " in line and "$RESPONDER" in line)
    t.same([it for it in found if not is_told(it)], [], "lines with no signer")


@test
def each_signer_signs_for_one_ca_alone(t):
    """Each line of README, the document, the packaged files and the walkthrough that starts a signer names the CA's certificate first."""
    files = [it for folder in ("examples", "packaging") for it in sorted((program.TOP / folder).iterdir()) if it.suffix in (".sh", ".service", ".Debian")]
    texts = [document(), *(it.read_text(encoding="utf-8") for it in (program.TOP / "README.md", *files))]
    lines = [line for text in texts for line in text.splitlines()]
    by_python = [line for line in lines if re.search(r"signer\.py\"? .*\S+\.key .*(\.sign|--inherited)", line)]
    by_socat = [line for line in lines if "UNIX-LISTEN:" in line and not line.startswith("#")]
    t.true(len(by_python) > 6 and len(by_socat) > 3, f"too few lines were found: {by_python} {by_socat}")
    guarded = re.compile(r"signer\.py\"? --only-ours \S+\.pem |only_ours(\.py)? (--responder \S+ )?ca\.pem |EXEC:\"\$SIGN\"")
    t.same([line for line in by_python + by_socat if not guarded.search(line)], [], "lines with no certificate")


@test
def words_that_examples_can_t_read(t):
    (t.room / "no.pem").write_text("no certificate\n")
    only_ours = [sys.executable, authority.EXAMPLES / "only_ours.py"]
    for words, status in (([*only_ours], 2), ([*only_ours, "ca.pem"], 2), ([*only_ours, "no.pem", "cat"], 1), ([*only_ours, "nowhere.pem", "cat"], 1),
                          (["sh", authority.EXAMPLES / "pkcs11-signer.sh"], 2)):
        ran = t.tried(*words, given=b"x")
        t.same((ran.returncode, ran.stdout), (status, b""), " ".join(map(str, words[1:])))
