"""A CA whose certificate has another key identifier than the SHA-1 of its key (RFC 5280 4.2.1.2). Its CRLs must have the same one, or relying parties
find no CRL. openssl, Java and GnuTLS check this. Other tests are of examples/issuer-words.sh, and of key identifiers in the column office.name."""

import hashlib
import random

from lib import authority, program
from lib.authority import DAY, EXAMPLES, Authority, moment_of, values_of, with_key_identifier
from lib.documents import block
from lib.registers import tlv
from lib.trial import Skipped, each, need, test

OWN = "00112233445566778899aabbccddeeff"
# openssl's errors: it found no CRL of this issuer (3), and the certificate is revoked (23).
NO_CRL, REVOKED = "error 3 at", "error 23 at"
JAVA = """
import java.io.FileInputStream;
import java.security.cert.*;
import java.util.*;

public class Pkix {
    public static void main(String[] words) throws Exception {
        CertificateFactory factory = CertificateFactory.getInstance("X.509");
        X509Certificate ca = (X509Certificate) factory.generateCertificate(new FileInputStream(words[0]));
        Certificate leaf = factory.generateCertificate(new FileInputStream(words[1]));
        PKIXParameters wanted = new PKIXParameters(Set.of(new TrustAnchor(ca, null)));
        wanted.setRevocationEnabled(true);
        CRL crl = factory.generateCRL(new FileInputStream(words[2]));
        wanted.addCertStore(CertStore.getInstance("Collection", new CollectionCertStoreParameters(List.of(crl))));
        try {
            CertPathValidator.getInstance("PKIX").validate(factory.generateCertPath(List.of(leaf)), wanted);
            System.out.println("good");
        } catch (CertPathValidatorException why) {
            System.out.println(why.getReason());
        }
    }
}
"""


class Identified(Authority):
    """A CA with this key identifier, which has issued 05 and 06, as 05.pem and 06.pem."""

    def __init__(self, t, identifier=OWN, algorithm="ecdsa-sha256"):
        super().__init__(t, algorithm)
        if not isinstance(identifier, str):
            identifier = identifier(bytes.fromhex(self.words()[3]))
        self.identifier = identifier
        with_key_identifier(self, identifier)
        # The extension is given in DER, since openssl 3.0 copies no key identifier of one or two bytes.
        named = tlv(0x30, tlv(0x80, bytes.fromhex(identifier))).hex(":")
        (t.room / "leaf.cnf").write_text(f"authorityKeyIdentifier = DER:{named}\nsubjectKeyIdentifier = hash\n")
        for serial in ("05", "06"):
            t.tool("openssl", "req", "-newkey", *authority.KEYS["ecdsa-sha256"], "-nodes", "-keyout", f"{serial}.key", "-out", "asked.csr", "-subj", f"/CN={serial}")
            t.tool("openssl", "x509", "-req", "-in", "asked.csr", "-CA", self.pem, "-CAkey", self.key, "-set_serial", serial, "-days", "90", "-extfile", "leaf.cnf",
                   "-out", f"{serial}.pem")  # fmt: skip

    def runs(self, *lines):
        """Runs lines of a script at the current moment with the CA's signer, checks that none is refused, and returns the replies."""
        at = moment_of(authority.now())
        with self.signer():
            replies = self.t.done("script", "ca.db", *self.signing(), given="".join(f"{at} {it}\n" for it in lines)).splitlines()
        self.t.same([it for it in replies if it[0] in "EF"], [], "refusals")
        return replies

    def registers(self):
        begun = authority.now()
        begins, ends = moment_of(begun), moment_of(begun + 89 * DAY)
        self.runs("subscriber acme", "order 1 90", "order 1 90", f"register 1 05 {begins} {ends}", f"register 2 06 {begins} {ends}", "request 05 key-compromise", "revoke 1")

    def crl(self, *words):
        """A CRL in DER, by default the latest one. Also writes it to ca.crl (PEM) and ca.crl.der."""
        crl = self.t.done("crl", "ca.db", *words).encode("latin-1")
        (self.t.room / "ca.crl.der").write_bytes(crl)
        self.t.tool("openssl", "crl", "-inform", "DER", "-in", "ca.crl.der", "-out", "ca.crl")
        return crl

    def by_openssl(self, serial):
        """openssl's result for a certificate with the CRL: OK, or the error."""
        ran = self.t.tried("openssl", "verify", "-CAfile", self.pem, "-CRLfile", "ca.crl", "-crl_check", f"{serial}.pem")
        told = (ran.stdout + ran.stderr).decode()
        return next((it for it in (NO_CRL, REVOKED) if it in told), "OK" if f"{serial}.pem: OK" in told else told)

    def by_java(self, serial):
        return self.t.tool("java", "Pkix.java", self.pem, f"{serial}.pem", "ca.crl.der").decode().strip()

    def by_gnutls(self, serial):
        """certtool's exit status for a certificate with the CRL, and whether it reports it as revoked and as trusted."""
        ran = self.t.tried("certtool", "--verify", "--load-ca-certificate", self.pem, "--load-crl", "ca.crl", "--infile", f"{serial}.pem")
        told = (ran.stdout + ran.stderr).decode().partition("\nChain verification output: ")[2]
        return ran.returncode, "certificate chain is revoked." in told, "The certificate is trusted." in told


def need_java(t):
    if t.tried("java", "--list-modules").returncode or b"jdk.compiler" not in t.tried("java", "--list-modules").stdout:
        raise Skipped("no java that compiles here: apt install default-jdk-headless")
    (t.room / "Pkix.java").write_text(JAVA)


# The last one is as long as a SHA-1. New versions of Go's crypto/x509 make such key identifiers, by RFC 7093 2.
OWN_ONES = {"of 16 bytes": OWN, "of one byte": "00", "of 32 bytes": "5a" * 32, "of 64 bytes": "a5" * 64, "of 20 bytes of a SHA-256": lambda key: hashlib.sha256(key).hexdigest()[:40]}


@each(OWN_ONES, seconds=4)
def openssl_takes_the_crls_of_a_ca_with_its_own_key_identifier(t, identifier):
    it = Identified(t, identifier)
    t.same(it.words()[4:], ["--key-id", it.identifier], "the last words that issuer-words.sh prints")
    it.register()
    it.registers()
    t.same(it.runs("crl"), ["crl 1 entries 1"])
    it.verifies(it.crl())
    t.same((it.by_openssl("05"), it.by_openssl("06")), (REVOKED, "OK"))
    t.has(t.done("audit", "ca.db"), "sound, ")


@test(seconds=4)
def a_register_that_has_the_wrong_one_gets_the_right_one(t):
    it = Identified(t)
    t.same(t.done("init", "ca.db", *it.words()[:4]), "created\n")
    it.registers()
    it.runs("crl")
    first = it.crl()
    t.same((it.by_openssl("05"), it.by_openssl("06")), (NO_CRL, NO_CRL), "results with a CRL that has the SHA-1 of the key")
    t.same(t.done("key-id", "ca.db", OWN), "key-id set\n")
    t.same(it.crl(), first, "CRL 1, once the key identifier is set")
    t.same(it.runs("counts", "crl"), ["good 1 revoked 1 expired 0", "crl 2 entries 1"])
    it.verifies(it.crl())
    t.same((it.by_openssl("05"), it.by_openssl("06")), (REVOKED, "OK"), "results with a CRL that has the certificate's key identifier")
    t.same(it.crl("--number", "1"), first, "CRL 1, after CRL 2")
    t.has(t.done("audit", "ca.db"), "sound, ")


@test(seconds=4)
def a_signer_of_this_issuer_alone_signs_them(t):
    """`examples/signer.py --only-ours` signs CRLs with the key identifier of the CA certificate or with the SHA-1 of its key, and no others."""
    authority.need_cryptography(t)
    it = Identified(t)
    t.same(t.done("init", "ca.db", *it.words()[:4]), "created\n")
    signer = t.room / "only.sign"
    authority.started(t, ["python3", authority.EXAMPLES / "signer.py", "--only-ours", it.pem, it.key, signer], signer)
    at = moment_of(authority.now())
    for identifier, reply in ((None, "crl 1 entries 0"), (OWN, "crl 2 entries 0"), (OWN[:-2], "F3 signer"), (OWN + "00", "F3 signer"), (OWN, "crl 3 entries 0")):
        if identifier:
            t.same(t.done("key-id", "ca.db", identifier), "key-id set\n")
        t.same(t.done("script", "ca.db", *it.signing("only.sign"), given=f"{at} crl\n"), f"{reply}\n", f"with {identifier}")


@test(seconds=4)
def ocsp_goes_by_the_sha_1_of_the_key(t):
    """CertIDs and the responderID have the SHA-1 of the CA's key, also if its certificate has another key identifier (RFC 6960 4.1.1, 4.2.1)."""
    it = Identified(t)
    it.register()
    it.registers()
    with it.signer():
        desk = t.open("ca.db", "--requests", "9", *it.signing(), command="serve")
        answer = authority.body_of(t, desk.ask("POST", "/ocsp", it.asks("05", "06")))
    t.same((it.reads("05", answer), it.reads("06", answer)), ("revoked", "good"))
    key = bytes.fromhex(it.words()[3])
    t.same(authority.inside(authority.inside(authority.basic_of(answer), 0)[2], 0)[1], bytes.fromhex("0414") + hashlib.sha1(key).digest(), "responderID")


@test(seconds=8)
def java_takes_the_crls_of_a_ca_with_its_own_key_identifier(t):
    need_java(t)
    it = Identified(t, algorithm="rsa-sha256")
    t.same(t.done("init", "ca.db", *it.words()[:4]), "created\n")
    it.registers()
    it.runs("crl")
    it.crl()
    t.same(it.by_java("06"), "UNDETERMINED_REVOCATION_STATUS", "result with a CRL that has the SHA-1 of the key")
    t.same(t.done("key-id", "ca.db", OWN), "key-id set\n")
    it.runs("crl")
    it.crl()
    t.same((it.by_java("05"), it.by_java("06")), ("REVOKED", "good"), "results with a CRL that has the certificate's key identifier")


@test(seconds=5)
def gnutls_takes_the_crls_of_a_ca_with_its_own_key_identifier(t):
    need("certtool")
    it = Identified(t)
    it.register()
    it.registers()
    it.runs("crl")
    it.crl()
    t.same((it.by_gnutls("05"), it.by_gnutls("06")), ((1, True, False), (0, False, True)), "status, revoked, trusted")


# The output of examples/issuer-words.sh


# The subjectKeyIdentifier of a certificate in openssl's syntax, and the output for it.
READ = {
    "the SHA-1 of its key": ("hash", ()),
    "none": ("none", ()),
    "one byte": ("00", ("00",)),
    "bytes that begin with zeros": ("0000a1b2", ("0000a1b2",)),
    "the SHA-1 of its key but for a bit": (lambda key: f"{int(hashlib.sha1(key).hexdigest(), 16) ^ 1:040x}", None),
    "the SHA-1 of its key and a byte more": (lambda key: hashlib.sha1(key).hexdigest() + "00", None),
    "a critical one": ("critical,0a0b", ("0a0b",)),
    "64 bytes": ("a5" * 64, ("a5" * 64,)),
}


@each(READ, seconds=2)
def issuer_words_prints_a_key_identifier_that_is_not_the_sha_1_of_the_key(t, said, told):
    """For a certificate with the SHA-1 of its key, or with none, it prints `--name` and `--key` alone, and the register has no key identifier."""
    it = Authority(t)
    name_and_key = it.words()
    t.same((name_and_key[0::2], len(name_and_key)), (["--name", "--key"], 4), "words of a certificate that openssl makes")
    if not isinstance(said, str):
        said = said(bytes.fromhex(name_and_key[3]))
        told = (said,)
    with_key_identifier(it, said)
    wanted = [*name_and_key, *(("--key-id", *told) if told else ())]
    t.same(it.words(), wanted, "words for a certificate in PEM")
    t.tool("openssl", "x509", "-in", it.pem, "-outform", "DER", "-out", "ca.der")
    t.same(t.tool("sh", EXAMPLES / "issuer-words.sh", "ca.der").decode().split(), wanted, "words for a certificate in DER")
    it.register()
    t.done("init", "bare.db", *name_and_key)
    t.same(t.sql("ca.db", "SELECT name FROM office") == t.sql("bare.db", "SELECT name FROM office"), not told, "whether it is the Name alone")
    line, got = f"{moment_of(authority.now())} crl\n", []
    for file in ("ca.db", "bare.db"):
        t.same(t.done("script", file, given=line), "crl 1 entries 0\n")
        got.append(t.desk("crl", file).out)
    t.same(got[0] == got[1], not told, "whether the CRL is the same as without --key-id")
    t.has(got[0], tlv(0x30, tlv(0x80, bytes.fromhex(told[0]) if told else hashlib.sha1(bytes.fromhex(name_and_key[3])).digest())), "its authorityKeyIdentifier")


@test(seconds=2)
def issuer_words_of_a_key_identifier_that_no_register_has(t):
    """It has 65 bytes. `init` refuses it, and creates no file."""
    it = Authority(t)
    with_key_identifier(it, "a5" * 65)
    t.same(it.words()[4:], ["--key-id", "a5" * 65])
    ran = t.desk("init", "ca.db", *it.words())
    t.same((ran.status, ran.out, ran.err, (t.room / "ca.db").exists()), (1, b"", b"bad-issuer\n", False))


# Key identifiers in the column office.name


def identifier_in(crl):
    """The authorityKeyIdentifier's key identifier in a CRL (RFC 5280 4.2.1.1)."""
    extensions = values_of(authority.inside(crl, 0)[1])[-1][1]
    value = values_of(authority.inside(extensions, 0)[1])[1][1]
    return authority.inside(value, 0)[1]


@test(seconds=6)
def each_crl_keeps_the_one_that_its_number_has(t):
    """A CRL keeps the key identifier that was set last before it. Between two CRLs, the test sets none, one or two."""
    draws = random.Random(40)
    t.register()
    key = hashlib.sha1(bytes.fromhex(program.KEY)).digest()
    current, kept, firsts = key, [], []
    for number in range(1, 41):
        times = draws.choice((0, 1, 1, 2))
        firsts += [number] * (times > 0)
        for _ in range(times):
            current = draws.randbytes(draws.choice((1, 20, 64)))
            t.same(t.done("key-id", "ca.db", current.hex()), "key-id set\n")
        t.same(t.done("script", "ca.db", given=f"{program.moment_of(1_800_000_000 + number)} crl\n"), f"crl {number} entries 0\n")
        kept.append((t.desk("crl", "ca.db").out, current))
    t.same([identifier_in(crl) for crl, _ in kept], [current for _, current in kept], "the key identifier of each CRL")
    t.same([t.desk("crl", "ca.db", "--number", number).out for number in range(1, 41)], [crl for crl, _ in kept], "each CRL after all later ones")
    t.same(t.done("audit", "ca.db"), "sound, 0 certificates, 0 revoked, 40 CRLs\n")
    (name,) = t.sql("ca.db", "SELECT name FROM office")[0]
    wanted = bytes.fromhex(program.NAME) + b"".join(tlv(0x80, number.to_bytes(8, "big"), kept[number - 1][1]) for number in reversed(firsts))
    t.same(name.hex(), wanted.hex(), "office.name")


# Names by the form of their length (X.690 8.1.3), the longest of 1,024 bytes.
NAMES = {f"a Name of {size} bytes": size for size in (3, 15, 129, 131, 258, 260, 261, 1024)}


def name_of(size):
    """A value with the tag of a Name, of this many bytes in all."""
    return next(made for made in (tlv(0x30, bytes(it % 256 for it in range(contents))) for contents in range(size)) if len(made) == size)


@each(NAMES, seconds=2)
def the_documents_statement_takes_the_column_apart(t, size):
    """The SQL statement of docs/MODEL.md finds the key identifiers, which follow the Name in office.name."""
    name = name_of(size).hex().upper()
    apart = "\n".join(block("DER (`crates/reg_der/specs`)", "WITH", "MODEL"))
    t.same(t.done("init", "ca.db", "--name", name, "--key", program.KEY), "created\n")
    t.same(t.sql("ca.db", apart), [], "the rows for a register without key identifiers")
    wanted = []
    for number, identifier in ((1, "0A"), (2, "5A" * 64), (3, "00FF")):
        t.done("key-id", "ca.db", identifier)
        t.done("script", "ca.db", given="2026-01-01T00:00:00Z crl\n")
        wanted.insert(0, (f"{number:016X}", identifier))
        t.same(t.sql("ca.db", apart), wanted, f"the rows after {number} key identifiers")


@test
def a_register_with_forty_key_identifiers(t):
    """Its column office.name is longer than the longest Name. The file is as if `crl` and `key-id` came in turn, but for the octets of the CRLs."""
    t.register(lines="2026-01-01T00:00:00Z crl\n" * 40)
    identifiers = b"".join(tlv(0x80, first.to_bytes(8, "big"), bytes([first]) * 64) for first in range(40, 0, -1))
    t.sql("ca.db", "UPDATE office SET name = ?", bytes.fromhex(program.NAME) + identifiers)
    t.same(t.done("script", "ca.db", given="2026-01-01T00:00:00Z crl\n"), "crl 41 entries 0\n")
    t.same(identifier_in(t.desk("crl", "ca.db").out), bytes([40]) * 64, "the key identifier of the next CRL")
    t.same(t.done("key-id", "ca.db", "0B0C"), "key-id set\n")
    t.clock("2026-01-01T00:00:00Z")
    desk = t.open()
    t.same(t.control().ask("crl"), "crl 42 entries 0")
    t.same(identifier_in(program.parted(desk.ask("GET", "/crl"))[2]), bytes.fromhex("0B0C"), "that of the CRL after it")


@test
def the_documents_worked_example(t):
    """The file has the octets of docs/RULES.md and docs/MODEL.md after each step of the example."""
    lines = block("The tables of a file", "300D", "RULES")
    parts = [line.split("   ")[0].replace(" ", "") for line in lines]
    (modelled,) = block("DER (`crates/reg_der/specs`)", "300D", "MODEL")
    t.same(modelled.split(), parts, "the octets in docs/MODEL.md and in docs/RULES.md")
    name = lambda: t.sql("ca.db", "SELECT hex(name) FROM office")[0][0]
    t.register(options=("--key-id", "0A"))
    t.same(name(), parts[0] + parts[2], "office.name of a register created with 0A")
    t.done("script", "ca.db", given="2026-01-01T00:00:00Z crl\n")
    t.done("key-id", "ca.db", "0B0C")
    t.same(name(), "".join(parts), "office.name after `key-id 0B0C`")
    t.done("script", "ca.db", given="2026-01-01T00:00:00Z crl\n2026-01-01T00:00:00Z crl\n")
    t.same([identifier_in(t.desk("crl", "ca.db", "--number", number).out).hex() for number in (1, 2, 3)], ["0a", "0b0c", "0b0c"], "key identifiers")
    t.register("bare.db")
    t.same(t.sql("bare.db", "SELECT hex(name) FROM office"), [(parts[0],)], "office.name of a register without key identifiers")
