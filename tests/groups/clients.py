"""Each client accepts OCSP answers or CRLs signed with each algorithm, except those that docs/OPERATIONS.md, "Clients by algorithm", names for it."""

import os
import re
from pathlib import Path

from groups.responder import GO, JAVA, LEAVES, a_day, leaf
from lib import program
from lib.authority import KEYS, Authority, body_of
from lib.documents import section
from lib.trial import Skipped, each, need, test

ALGORITHMS = {it: it for it in KEYS}
# For how many seconds a client may run.
LONGEST = program.LONGEST
# Both programs verify the CRL by the CA's key, and then print for each certificate whether the CRL lists it.
JAVA_CRL = """
import java.nio.file.*; import java.security.cert.*;
public class Crl {
    public static void main(String[] words) throws Exception {
        CertificateFactory factory = CertificateFactory.getInstance("X.509");
        X509Certificate ca = (X509Certificate) factory.generateCertificate(Files.newInputStream(Path.of(words[0])));
        X509CRL crl = (X509CRL) factory.generateCRL(Files.newInputStream(Path.of(words[1])));
        crl.verify(ca.getPublicKey());
        for (String name : new String[] {"good.pem", "revoked.pem"}) {
            System.out.println(crl.isRevoked(factory.generateCertificate(Files.newInputStream(Path.of(name)))) ? "revoked" : "good");
        }
    }
}
"""
GO_CRL = """
package main

import ("crypto/x509"; "encoding/pem"; "fmt"; "os")

func main() {
	read := func(name string) []byte { text, _ := os.ReadFile(name); block, _ := pem.Decode(text); return block.Bytes }
	ca, _ := x509.ParseCertificate(read(os.Args[1]))
	octets, _ := os.ReadFile(os.Args[2])
	crl, err := x509.ParseRevocationList(octets)
	if err == nil { err = crl.CheckSignatureFrom(ca) }
	if err != nil { fmt.Println(err); return }
	for _, name := range os.Args[3:] {
		leaf, _ := x509.ParseCertificate(read(name))
		said := "good"
		for _, entry := range crl.RevokedCertificates { if entry.SerialNumber.Cmp(leaf.SerialNumber) == 0 { said = "revoked" } }
		fmt.Println(said)
	}
}
"""


def told_of(ran):
    return (ran.stdout + ran.stderr).decode("latin-1")


def openssl_ocsp(t, it, url):
    for name, _ in LEAVES:
        told = told_of(t.tried("openssl", "ocsp", "-issuer", it.pem, "-CAfile", it.pem, "-cert", f"{name}.pem", "-url", url))
        found = re.search(rf"{name}\.pem: (\w+)\n", told)
        yield found[1] if found and "Response verify OK" in told else "no answer"


def openssl_crl(t, it, url):
    (t.room / "ca.crl.pem").write_bytes(t.tool("openssl", "crl", "-inform", "DER", "-in", "ca.crl"))
    for name, _ in LEAVES:
        told = told_of(t.tried("openssl", "verify", "-CAfile", it.pem, "-CRLfile", "ca.crl.pem", "-crl_check", f"{name}.pem"))
        yield "good" if f"{name}.pem: OK" in told else "revoked" if "certificate revoked" in told else told


def java(t, source, name, *words):
    need("javac", "java")
    (t.room / f"{name}.java").write_text(source)
    t.tool("javac", f"{name}.java", timeout=LONGEST)
    told = t.tried("java", "-cp", t.room, name, *words, timeout=LONGEST).stdout.decode().split()
    return [it.lower() for it in told] or ["no answer"] * 2


def java_ocsp(t, it, url):
    return java(t, JAVA, "Checked", it.pem, url, "good.pem", "revoked.pem")


def java_crl(t, it, url):
    return java(t, JAVA_CRL, "Crl", it.pem, "ca.crl")


def gnutls_ocsp(t, it, url, *more):
    need("ocsptool")
    for name, _ in LEAVES:
        told = told_of(t.tried("ocsptool", f"--ask={url}", "--load-issuer", it.pem, "--load-cert", f"{name}.pem", *more))
        found = re.search(r"Certificate Status: (\w+)", told)
        yield found[1] if found and "Verifying OCSP Response: Success" in told else "no answer"


def gnutls_crl(t, it, url):
    need("certtool")
    (t.room / "ca.crl.pem").write_bytes(t.tool("openssl", "crl", "-inform", "DER", "-in", "ca.crl"))
    told = told_of(t.tried("certtool", "--verify-crl", "--load-ca-certificate", it.pem, "--infile", "ca.crl.pem"))
    # certtool verifies the CRL, but looks up no certificate in it. So the test looks for each serial number in the text that certtool prints.
    if not re.search(r"Verification output: Verified\b", told):
        return [told] * 2
    listed = told_of(t.tried("certtool", "--crl-info", "--infile", "ca.crl.pem"))
    return ["revoked" if f"Serial Number (hex): {serial:02x}\n" in listed else "good" for _, serial in LEAVES]


def nss_ocsp(t, it, url):
    need("certutil", "vfychain")
    (t.room / "nss").mkdir()
    t.tool("certutil", "-N", "-d", "sql:nss", "--empty-password")
    added = t.tried("certutil", "-A", "-d", "sql:nss", "-n", "ca", "-t", "CT,,", "-a", "-i", it.pem)
    for name, serial in LEAVES if added.returncode == 0 else ():
        leaf(t, it, name, serial, f"authorityInfoAccess=OCSP;URI:{url}\n")
        told = told_of(t.tried("vfychain", "-d", "sql:nss", "-pp", "-g", "leaf", "-m", "ocsp", "-s", "requireInfo,failIfNoInfo", "-u", "1", "-a", f"{name}.pem"))
        yield "good" if "Chain is good!" in told else "revoked" if "ERROR -8180" in told else told
    if added.returncode:
        yield from [told_of(added)] * 2


def go(t, source, name, *words):
    need("go")
    path = Path("/usr/share/gocode")
    if not (path / "src/golang.org/x/crypto/ocsp").is_dir():
        raise Skipped("no golang.org/x/crypto here: apt install golang-golang-x-crypto-dev")
    (t.room / f"{name}.go").write_text(source)
    env = {**os.environ, "GO111MODULE": "off", "GOPATH": str(path), "GOCACHE": str(t.room / "cache"), "HOME": str(t.room)}
    told = t.tool("go", "run", f"{name}.go", *words, env=env, timeout=LONGEST).decode().splitlines()
    return told if len(told) == 2 else told * 2


def go_ocsp(t, it, url):
    return go(t, GO, "checked", it.pem, url, "good.pem", "revoked.pem")


def go_crl(t, it, url):
    return go(t, GO_CRL, "crl", it.pem, "ca.crl", "good.pem", "revoked.pem")


# The function that runs each client. The keys are the first cells of the document's table.
CLIENTS = {
    "`openssl ocsp` 3.0, OCSP": openssl_ocsp, "`openssl verify -crl_check` 3.0, CRLs": openssl_crl,
    "Java 17, PKIX, OCSP": java_ocsp, "Java 17, `X509CRL`, CRLs": java_crl,
    "GnuTLS 3.7, `ocsptool --load-issuer`, OCSP": gnutls_ocsp, "GnuTLS 3.7, `certtool --verify-crl`, CRLs": gnutls_crl,
    "NSS 3.87, `vfychain`, OCSP": nss_ocsp,
    "Go 1.19, `golang.org/x/crypto/ocsp`, OCSP": go_ocsp, "Go 1.19, `crypto/x509`, CRLs": go_crl,
}


def told_by_the_document():
    """For each client, the algorithms whose signatures it reads: all but those that the table names."""
    rows = [[it.strip() for it in line.strip("|").split("|")] for line in section("Clients by algorithm").splitlines() if line.startswith("|")]
    names = {"P-256": "ecdsa-sha256", "P-384": "ecdsa-sha384", "RSA": "rsa-sha256", "Ed25519": "ed25519"}
    return {client: set(names.values()) - {names[it] for it in unread.split()} for client, unread in rows[2:]}


@each({f"{client}, {algorithm}": (client, algorithm) for client in CLIENTS for algorithm in ALGORITHMS}, seconds=6)
def a_client_accepts_what_the_document_says(t, client, algorithm):
    """The client checks a good certificate and a revoked one. If it can't read the algorithm's signatures, it calls neither good or revoked."""
    it = Authority(t, algorithm)
    it.signer()
    for name, serial in LEAVES:
        leaf(t, it, name, serial)
    a_day(t, it, *it.signing())
    desk = t.open("ca.db", *it.signing())
    (t.room / "ca.crl").write_bytes(body_of(t, desk.ask("GET", "/crl"), "application/pkix-crl"))
    said = list(CLIENTS[client](t, it, f"http://127.0.0.1:{desk.port}/ocsp"))
    if algorithm in told_by_the_document()[client]:
        t.same(said, ["good", "revoked"])
    else:
        t.same([it in ("good", "revoked") for it in said], [False, False], f"whether the client calls a certificate good or revoked; it says {said}")


@test
def the_document_has_each_client(t):
    t.same(sorted(told_by_the_document()), sorted(CLIENTS))


@test(seconds=3)
def ocsptool_with_trusted_certificates(t):
    """With --load-trust, ocsptool accepts only an answer that has the signer's certificate. The desk's answers by the CA's own key have none."""
    it = Authority(t)
    it.signer()
    for name, serial in LEAVES:
        leaf(t, it, name, serial)
    a_day(t, it, *it.signing())
    desk = t.open("ca.db", *it.signing())
    t.same(list(gnutls_ocsp(t, it, f"http://127.0.0.1:{desk.port}/ocsp", "--load-trust", it.pem)), ["no answer"] * 2)
