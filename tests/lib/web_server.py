"""Debian's nginx with examples/nginx.conf in front of a desk, in the test's folder, with its own certificates, log, cache and ports."""

import os
import re
import subprocess
import urllib.error
import urllib.request

from . import authority, program
from .authority import EXAMPLES
from .trial import need

# Debian has nginx in /usr/sbin.
os.environ["PATH"] = os.environ.get("PATH", "") + ":/usr/sbin"

# The main configuration of the server, with all paths in one folder.
AROUND = """{user}pid {folder}/nginx.pid;
error_log {folder}/error.log;
worker_processes 2;
events {{ worker_connections 1024; }}
http {{
    types {{ text/html html; }}
    client_body_temp_path {folder}/body;
    proxy_temp_path {folder}/proxy;
    fastcgi_temp_path {folder}/fastcgi;
    scgi_temp_path {folder}/scgi;
    uwsgi_temp_path {folder}/uwsgi;
    include {folder}/desk.conf;
}}
"""


# The configuration of `openssl ca` for the office's CA.
OFFICE = """[ca]
default_ca = it
[it]
database = office.txt
new_certs_dir = .
serial = office.serial
certificate = office.pem
private_key = office.key
default_md = sha256
default_days = 30
default_crl_days = 8
policy = any
[any]
organizationName = optional
commonName = supplied
"""


def certificates(t):
    """Makes certificates for the server, the office's CA, two of its clerks (`former` is revoked) and a stranger, and the office's CRL."""
    for name, subject in (("desk", "/CN=localhost"), ("office", "/CN=Office"), ("stranger", "/CN=stranger")):
        authority.certificate(t, name, subject)
    for name, text in (("office.cnf", OFFICE), ("office.txt", ""), ("office.serial", "01\n")):
        (t.room / name).write_text(text)
    for name in ("clerk", "former"):
        key = authority.KEYS["ecdsa-sha256"]
        t.tool("openssl", "req", "-newkey", *key, "-nodes", "-keyout", f"{name}.key", "-out", f"{name}.csr", "-subj", f"/O=The Office/CN={name}")
        t.tool("openssl", "ca", "-config", "office.cnf", "-batch", "-in", f"{name}.csr", "-out", f"{name}.pem", "-notext")
    revoke(t, "former")


def revoke(t, name):
    """Revokes a clerk's certificate, and issues the next CRL of the office, office.crl."""
    t.tool("openssl", "ca", "-config", "office.cnf", "-revoke", f"{name}.pem")
    t.tool("openssl", "ca", "-config", "office.cnf", "-gencrl", "-out", "office.crl")


class Front:
    """A server in front of the desk at a port. It caches answers for `seconds`, in place of the example's 60."""

    def __init__(self, t, desk_port, name="front", seconds=60):
        need("nginx")
        self.t, self.seconds = t, seconds
        self.folder, self.port, self.tls_port = t.room / name, program.free_port(), program.free_port()
        (self.folder / "share").mkdir(parents=True)
        for it in ("board", "office"):
            (self.folder / "share" / it).symlink_to(EXAMPLES / it)
        for it in ("desk.pem", "desk.key", "office.pem", "office.crl"):
            (self.folder / it).write_bytes((t.room / it).read_bytes())
        (self.folder / "desk.conf").write_text(self.site(desk_port))
        user = "user root;\n" if os.getuid() == 0 else ""
        (self.folder / "nginx.conf").write_text(AROUND.format(user=user, folder=self.folder))
        words = ["nginx", "-c", self.folder / "nginx.conf", "-e", self.folder / "error.log", "-g", "daemon off;"]
        t.note(" ".join(map(str, words)))
        self.process = subprocess.Popen([*map(str, words)], cwd=self.folder, stdin=subprocess.DEVNULL)
        t.callback(authority.end, self.process)
        authority.until(self.answers, f"nginx at {self.port}: {self.error_log()}")

    def site(self, desk_port):
        """The example, with paths of this folder in place of the machine's. Each must occur in it."""
        text = (EXAMPLES / "nginx.conf").read_text()
        for was, now in (
            (r"/var/cache/nginx/desk", f"{self.folder}/cache"), (r"/var/log/nginx", str(self.folder)),
            (r"/etc/nginx/(?=\w+\.(pem|key|crl))", f"{self.folder}/"), (r"/usr/share/durshavon", f"{self.folder}/share"),
            (r"/var/lib/durshavon-crl/ca\b", f"{self.folder}/share"),
            (r"127\.0\.0\.1:8080", f"127.0.0.1:{desk_port}"),
            (r"listen 80;", f"listen 127.0.0.1:{self.port};"), (r"listen 443 ssl;", f"listen 127.0.0.1:{self.tls_port} ssl;"),
            (r"200 60s;", f"200 {self.seconds}s;"), (r"max-age=60\b", f"max-age={self.seconds}"),
        ):
            text, count = re.subn(was, now, text)
            self.t.true(count, f"examples/nginx.conf has no {was}")
        return text

    def error_log(self):
        log = self.folder / "error.log"
        return log.read_text()[-500:] if log.exists() else ""

    def answers(self):
        try:
            urllib.request.urlopen(f"http://127.0.0.1:{self.port}/nowhere", timeout=60).close()
        except urllib.error.HTTPError:
            return True
        except OSError:
            return False
        return True

    def url(self, path, tls=False):
        return f"https://127.0.0.1:{self.tls_port}{path}" if tls else f"http://127.0.0.1:{self.port}{path}"

    def ask(self, path, *words, tls=False, given=b""):
        """A response by curl: the status, the header fields by name, and the body."""
        (self.t.room / "body").unlink(missing_ok=True)
        told = self.t.tool("curl", "-s", "-k", "-D", "head", "-o", "body", "-w", "%{http_code}", *words, self.url(path, tls), given=given)
        lines = (self.t.room / "head").read_bytes().decode("latin-1").split("\r\n")
        fields = dict(line.split(": ", 1) for line in lines if ": " in line)
        body = self.t.room / "body"
        return int(told), fields, body.read_bytes() if body.exists() else b""

    def state(self, path):
        """Whether the answer came from the cache (HIT), or from the desk (MISS, EXPIRED)."""
        return self.ask(path)[1].get("X-Cache-Status")

    def asked_of_desk(self):
        """How many requests nginx sent to the desk, from its log: each line has the cache status before the seconds."""
        lines = (self.folder / "desk.log").read_text().splitlines()
        return sum(1 for line in lines if line.split()[-2] not in ("HIT", "-"))
