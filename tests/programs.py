"""What the tests and the benches share: the words that they are run with, the programs that they run, and what these take."""
import contextlib
import os
import shutil
import subprocess
import sys
import time

# What a test needs, or tries where it is there: each program, or file, and the package of Debian that has it.
PACKAGES = {
    "gcc": "gcc",
    "/usr/include/stdio.h": "libc6-dev",
    "strace": "strace",
    "caddy": "caddy",
    "cadaver": "cadaver",
    "curl": "curl",
    "haproxy": "haproxy",
    "hitch": "hitch",
    "litmus": "litmus",
    "nginx": "nginx-light",
    "openssl": "openssl",
    "rclone": "rclone",
    "mount.davfs": "davfs2",
    "gvfsd-dav": "gvfs-backends",
    "gio": "libglib2.0-bin",
    "dbus-run-session": "dbus-daemon",
    "setarch": "util-linux",
    "mkfs.xfs": "xfsprogs",
    "mkfs.btrfs": "btrfs-progs",
}
# Where programs stand that nobody starts by their name.
FOLDERS = ["/usr/sbin", "/sbin", "/usr/libexec", "/usr/lib/gvfs"]


def content_of(path):
    with open(path, "rb") as file:
        return file.read()


def put(path, content):
    with open(path, "wb") as file:
        file.write(content)


def stop(why):
    """Ends with status 2."""
    print(why.strip(), file=sys.stderr)
    sys.exit(2)


def words(usage, *counts):
    """The words of the command line, of which there are so many. Where they are others the usage is told, and where it is asked for."""
    given = sys.argv[1:]
    if given in (["-h"], ["--help"]):
        print(usage.strip())
        sys.exit()
    if len(given) not in counts:
        stop(usage)
    return given


def option(usage, name, *counts):
    """Whether an option is among the words of the command line, and the other words, of which there are so many."""
    is_given = name in sys.argv[1:]
    sys.argv[1:] = [word for word in sys.argv[1:] if word != name]
    return is_given, words(usage, *counts)


def numbers(usage, given):
    """Words that are numerals, as numbers."""
    if not all(word.isdecimal() for word in given):
        stop(usage)
    return [int(word) for word in given]


def program(path):
    """The path of a program, from any folder."""
    if not os.path.isfile(path) or not os.access(path, os.X_OK):
        stop(f"There is no program {path}. bin/NAME --path tells where each stands.")
    return os.path.abspath(path)


def need(name, *packages):
    """A program that has to be there."""
    if not shutil.which(name):
        stop(f"{name} is needed: apt-get install {' '.join(packages or [name])}")


def is_there(name):
    return os.path.exists(name) if name.startswith("/") else shutil.which(name, path=os.pathsep.join([os.environ["PATH"], *FOLDERS])) is not None


def is_here(test, name):
    """Whether one of PACKAGES is there; where it isn't, the test says so."""
    found = is_there(name)
    if not found:
        print(f"{test}: {name} was not there, so nothing was tried with it: apt-get install {PACKAGES[name]}", flush=True)
    return found


def install(*names):
    """Those that aren't there, each by its package of PACKAGES or else by its own name, where that can be done. What fails is tried once more a little later, and nothing more where it takes for ever."""
    packages = list(dict.fromkeys(PACKAGES.get(name, name) for name in names if not is_there(name)))
    with contextlib.suppress(OSError, subprocess.TimeoutExpired):
        for words in [["update"], *(["install", "-y", "--no-install-recommends", package] for package in packages)] if packages else []:
            if not does_apt_get(*words):
                time.sleep(5)
                does_apt_get(*words)


def does_apt_get(*words):
    """Whether apt-get does this. It waits a while where another one is at work."""
    command = ["env", "DEBIAN_FRONTEND=noninteractive", "apt-get", "-o", "DPkg::Lock::Timeout=60", *words]
    return subprocess.run(command, stdin=subprocess.DEVNULL, stdout=subprocess.DEVNULL, stderr=subprocess.DEVNULL, timeout=300, check=False).returncode == 0


# What a folder has that a test has put a Debian into.
MARK = "etc/made-by-tests"


def own_root(test, root, packages=""):
    """Puts a Debian with these packages into a folder that isn't there. One that a test has made stays as it is, and any other is refused."""
    mark = os.path.join(root, MARK)
    if os.path.exists(mark):
        return
    if os.path.exists(root):
        stop(f"{test}: {root} is there, and no test has made it")
    subprocess.run(["debootstrap", "--variant=minbase", *([f"--include={packages}"] if packages else []), "bookworm", root], stdout=subprocess.DEVNULL, check=True)
    with open(mark, "w", encoding="ascii") as file:
        file.write(f"{test}\n")


def memory_of(pid, kind="VmHWM"):
    """The memory of a process that runs, in kilobytes: the most that it had, or by `VmRSS` what it has."""
    with open(f"/proc/{pid}/status", encoding="ascii") as status:
        return next(int(line.split()[1]) for line in status if line.startswith(kind + ":"))
