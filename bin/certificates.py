"""A certificate of its own: what bin/davserve --make-cert makes, and how clients are told to trust it."""
import ipaddress
import os
import re
import shutil
import subprocess
import tempfile

from repository import tell

USAGE = "usage: bin/davserve --make-cert NAME[,NAME..] DIR"
DAYS = 365
# A name of the DNS, of which the first part may be an asterisk.
NAME = re.compile(r"(\*\.)?[a-z0-9]([a-z0-9-]*[a-z0-9])?(\.[a-z0-9]([a-z0-9-]*[a-z0-9])?)*", re.IGNORECASE)
LONGEST_NAME = 253

# It may prove a server and sign nothing, so whoever trusts it trusts nothing else.
CONFIGURATION = """\
[req]
distinguished_name = subject
x509_extensions = extensions
prompt = no
[subject]
CN = davserve
[extensions]
basicConstraints = critical, CA:FALSE
keyUsage = critical, digitalSignature
extendedKeyUsage = serverAuth
subjectKeyIdentifier = hash
subjectAltName = {names}
"""

TOLD = """\
{certificate} is a certificate of its own for {names}, good for {days} days, and {key} is its key.
Serve with it:  bin/davserve --listen 0.0.0.0:8443 --users FILE --tls-cert {certificate} --tls-key {key}
Copy {certificate} to each client, never the key, and name it there:
  curl     curl --cacert cert.pem https://{name}:8443/
  rclone   rclone lsf :webdav: --webdav-url https://{name}:8443/ --ca-cert cert.pem
  davfs2   a line `trust_server_cert /FOLDER/cert.pem` in /etc/davfs2/davfs2.conf
  gvfs     cp cert.pem /usr/local/share/ca-certificates/davserve.crt && update-ca-certificates, as root; GNOME Files then opens davs://{name}:8443/
Make a new one, elsewhere, before it ends, and put its two files in place of these: SIGHUP has the server read them.
"""


class Refused(Exception):
    """Why none is made, and the status for it."""

    def __init__(self, why, status=2):
        super().__init__(why)
        self.status = status


def alternative(name):
    """A name as certificates have it."""
    try:
        return f"IP:{ipaddress.ip_address(name)}"
    except ValueError:
        if not NAME.fullmatch(name) or len(name) > LONGEST_NAME:
            raise Refused(f"{name!r} is no name of a server: a name is as dav.example.org, *.example.org, 192.0.2.1 or 2001:db8::1") from None
        return f"DNS:{name}"


def said_by_openssl(*words):
    ran = subprocess.run(["openssl", *words], stdin=subprocess.DEVNULL, stdout=subprocess.PIPE, stderr=subprocess.PIPE, check=False)
    if ran.returncode:
        raise Refused(f"openssl {words[0]} has failed: {ran.stderr.decode(errors='replace').strip()}", 1)
    return ran.stdout


def put(path, text, mode):
    """Makes a file with this mode, where none stands."""
    with os.fdopen(os.open(path, os.O_WRONLY | os.O_CREAT | os.O_EXCL, mode), "wb") as file:
        os.fchmod(file.fileno(), mode)
        file.write(text)


def made(names, folder):
    """Makes a key and a certificate in a folder; the paths of both."""
    alternatives = ",".join(map(alternative, names))
    certificate, key = (os.path.join(folder, name) for name in ("cert.pem", "key.pem"))
    for path in (certificate, key):
        if os.path.lexists(path):
            raise Refused(f"{path} stands there already, and stays as it is: name another folder", 1)
    if not shutil.which("openssl"):
        raise Refused("it is made by openssl: install the package openssl", 127)
    os.makedirs(folder, exist_ok=True)
    put(key, said_by_openssl("genpkey", "-algorithm", "EC", "-pkeyopt", "ec_paramgen_curve:P-256"), 0o600)
    try:
        with tempfile.NamedTemporaryFile("w", encoding="ascii") as configuration:
            configuration.write(CONFIGURATION.format(names=alternatives))
            configuration.flush()
            put(certificate, said_by_openssl("req", "-x509", "-new", "-sha256", "-days", str(DAYS), "-key", key, "-config", configuration.name), 0o644)
    except BaseException:
        os.remove(key)
        raise
    return certificate, key


def make(words):
    """Does what the words behind --make-cert ask for. The status."""
    if len(words) != 2 or not all(words):
        tell(USAGE)
        return 2
    names = words[0].split(",")
    try:
        certificate, key = made(names, words[1])
    except Refused as why:
        tell(why)
        return why.status
    except OSError as why:
        tell(f"{why.filename}: {why.strerror}")
        return 1
    host = names[0] if not names[0].startswith("*.") else "dav" + names[0][1:]
    print(TOLD.format(certificate=certificate, key=key, names=", ".join(names), days=DAYS, name=f"[{host}]" if ":" in host else host), end="", flush=True)
    return 0
