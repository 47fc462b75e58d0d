"""Clients that others wrote: the suites of litmus, and how cadaver, rclone, davfs2 and gvfs put a file and get it back. For tests/clients, tests/login and tests/lives."""
import contextlib
import ctypes
import os
import re
import shutil
import subprocess
from typing import NamedTuple

from programs import FOLDERS, is_here

# Whoever waits so many seconds for a client waits for ever.
PATIENCE = 300

# The suites of litmus, and how many tests each of them has at least.
SUITES = {"basic": 16, "copymove": 13, "http": 4, "props": 30, "locks": 41}


def litmus(url, folder, suite, *login, may_skip=False):
    """What a suite of litmus tells, and whether each of its tests was run and has passed, or each that it did not skip where it may; a name and a password are those of a user who logs in."""
    told = subprocess.run(["litmus", url, *login], cwd=folder, env={**os.environ, "TESTS": suite}, stdout=subprocess.PIPE, text=True, timeout=PATIENCE, check=False).stdout
    counts = re.findall(r"of (\d+) tests run: (\d+) passed, 0 failed", told)
    have_passed = len(counts) == 1 and counts[0][0] == counts[0][1]
    return told, have_passed and (may_skip or int(counts[0][0]) >= SUITES[suite] and "skipped" not in told.lower())


# The certificates that clients trust that have no option for one more.
TRUSTED = "/etc/ssl/certs/ca-certificates.crt"
# In a folder of mounts of its own a command sees another file there.
TRUSTING = ["unshare", "--mount", "sh", "-c", f'mount --bind "$0" {TRUSTED} && exec "$@"']


def made_certificate(folder):
    """The words for a listener that speaks TLS to clients of 127.0.0.1, by a certificate of its own, and the path of that."""
    start = os.path.join(os.path.dirname(os.path.abspath(__file__)), "..", "bin", "davserve")
    subprocess.run([start, "--make-cert", "localhost,127.0.0.1", folder], stdout=subprocess.DEVNULL, check=True)
    certificate = os.path.join(folder, "cert.pem")
    return ["--tls-cert", certificate, "--tls-key", os.path.join(folder, "key.pem")], certificate


class User(NamedTuple):
    """Who works with a server: its URL, whose address is a number, a name and a password, a folder for files of clients, and a certificate that is trusted. Where there is no name, nobody logs in."""

    url: str
    folder: str
    name: str = ""
    word: str = ""
    trusts: str = ""

    @property
    def host(self):
        return self.url.split("/")[2]

    def run(self, words, typed="", **more):
        """What a client tells. It knows of no other files than those of this folder, and has no terminal where it could ask for a password."""
        known = {"HOME": self.folder, "PATH": os.pathsep.join([os.environ["PATH"], *FOLDERS]), "LC_ALL": "C.UTF-8", **more}
        ran = subprocess.run(words, cwd=self.folder, env=known, input=typed, stdout=subprocess.PIPE, stderr=subprocess.STDOUT, text=True, errors="replace", start_new_session=True, timeout=PATIENCE, check=False)
        return ran.stdout

    def run_trusting(self, words, typed="", **more):
        """The same, where the client trusts what the system does: the certificate is among that."""
        if not self.trusts:
            return self.run(words, typed, **more)
        both = self.write("trusted.pem", (read(TRUSTED) + read(self.trusts)).decode())
        return self.run([*TRUSTING, both, *words], typed, **more)

    def write(self, name, text):
        """The path of a file that nobody else reads."""
        path = os.path.join(self.folder, name)
        with open(os.open(path, os.O_WRONLY | os.O_CREAT | os.O_TRUNC, 0o600), "w", encoding="utf-8") as file:
            file.write(text)
        return path


def read(path):
    """What is in a file; none where there is no file."""
    with contextlib.suppress(FileNotFoundError), open(path, "rb") as file:
        return file.read()


# ---- Each client puts a file, and gets it back into another one, where it is let; what it told.


def by_cadaver(user, sent, path, got):
    user.write(".netrc", f"machine {user.host.partition(':')[0]} login {user.name} password {user.word}\n" if user.name else "")
    return user.run_trusting(["cadaver", "-r", "/dev/null", user.url], f"put {sent} {path}\nget {path} {got}\nquit\n")


def rclone(user, *words):
    obscured = ["--webdav-user", user.name, "--webdav-pass", user.run(["rclone", "obscure", "-"], user.word).strip()] if user.name else []
    trusting = ["--ca-cert", user.trusts] if user.trusts else []
    return user.run(["rclone", "--config", user.write("rclone.conf", ""), *trusting, "--retries", "1", "--low-level-retries", "1", "--webdav-url", user.url, *obscured, *words])


def by_rclone(user, sent, path, got):
    return rclone(user, "copyto", sent, f":webdav:{path}") + rclone(user, "copyto", f":webdav:{path}", got)


# The password is asked for on the standard input, and what is mounted stays until the session ends.
SESSION = 'gio mount "$0" && gio copy "$1" "$0$2" && gio copy "$0$2" "$3"'


def by_gvfs(user, sent, path, got):
    for_sockets = os.path.join(user.folder, "session")
    os.makedirs(for_sockets, 0o700, exist_ok=True)
    url = f"{'davs' if user.trusts else 'dav'}://{user.name}@{user.host}/"
    return user.run_trusting(["dbus-run-session", "sh", "-c", SESSION, url, sent, path, got], user.word + "\n", XDG_RUNTIME_DIR=for_sockets, GVFS_DISABLE_FUSE="1")


def by_davfs(user, sent, path, got):
    """It is mounted twice, so that what is got back isn't what it has kept itself."""
    told = mounted_by_davfs(user, lambda folder: shutil.copyfile(sent, os.path.join(folder, path)))
    return told + mounted_by_davfs(user, lambda folder: shutil.copyfile(os.path.join(folder, path), got))


def mounted_by_davfs(user, work):
    """Works in the folder that is mounted, where it is; what was told."""
    mount, cache = (os.path.join(user.folder, name) for name in ("mount", "cache"))
    shutil.rmtree(cache, ignore_errors=True)
    os.makedirs(mount, exist_ok=True)
    os.mkdir(cache)
    # It gives up the rights of root, and has a user of its own then.
    os.chmod(user.folder, 0o755)
    os.chmod(cache, 0o777)
    secrets = user.write("secrets", f"{user.url} {user.name} {user.word}\n")
    # Linux 6.18 lists no folder with the usual buffer.
    trusting = f"trust_server_cert {user.trusts}\n" if user.trusts else ""
    settings = user.write("davfs2.conf", f"ask_auth 0\nbuf_size 64\nsecrets {secrets}\ncache_dir {cache}\n{trusting}")
    told = user.run(["mount.davfs", user.url, mount, "-o", f"conf={settings}"])
    if not os.path.ismount(mount):
        return told
    try:
        with contextlib.suppress(OSError):
            work(mount)
    finally:
        told += user.run(["umount", mount])
        if os.path.ismount(mount):
            user.run(["umount", "-i", "-l", mount])
    return told


# The clients, each with the programs that it needs and how it works.
CLIENTS = {
    "cadaver": (["cadaver"], by_cadaver),
    "rclone": (["rclone"], by_rclone),
    "davfs2": (["mount.davfs"], by_davfs),
    "gvfs": (["gvfsd-dav", "gio", "dbus-run-session"], by_gvfs),
}


def lacks_mounts(folder):
    """What isn't there to mount a folder that a program serves; none where all is."""
    if not os.path.exists("/dev/fuse"):
        return "/dev/fuse"
    try:
        device = os.open("/dev/fuse", os.O_RDWR)
    except OSError:
        return "the right to mount"
    system = ctypes.CDLL(None)
    with contextlib.closing(os.fdopen(device, "rb+", buffering=0)):
        is_mounted = system.mount(b"none", os.fsencode(folder), b"fuse", 0, b"fd=%d,rootmode=40000,user_id=0,group_id=0" % device) == 0
        if is_mounted:
            system.umount2(os.fsencode(folder), 2)
    return None if is_mounted else "the right to mount"


def lacks_trust():
    """What isn't there to have a client trust one certificate more; none where all is."""
    if not os.path.exists(TRUSTED):
        return TRUSTED
    ran = subprocess.run([*TRUSTING, TRUSTED, "true"], stdout=subprocess.DEVNULL, stderr=subprocess.DEVNULL, check=False)
    return "the right to mount" if ran.returncode else None


def is_client_here(test, name, folder, by_tls=False):
    """Whether a client can be tried; where it can't, the test says why."""
    if not all(is_here(test, program) for program in CLIENTS[name][0]):
        return False
    lack = lacks_mounts(folder) if name == "davfs2" else lacks_trust() if by_tls and name in ("cadaver", "gvfs") else None
    if lack:
        print(f"{test}: {lack} was not there, so nothing was tried with {name}", flush=True)
    return lack is None
