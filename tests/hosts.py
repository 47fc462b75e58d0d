"""Three hosts with a volume of GlusterFS on one machine, for tests/machines and bench/machines: each has a network, mounts and processes of its own, in namespaces.

Who uses this is in namespaces of its own, too, so that all that was started ends with it. No address leads outside.
"""
import contextlib
import os
import shlex
import signal
import subprocess
import sys
import time

from programs import is_there

TOP = os.path.join(os.path.dirname(os.path.abspath(__file__)), "..")
DEPLOY = os.path.join(TOP, "deploy", "machines")
HOSTS = (1, 2, 3)
NET = "10.20.0."
# Where the tests are, and the address that keepalived gives to one of the hosts.
CLIENT, SHARED = NET + "4", NET + "10"
VOLUME, MOUNT = "dav", "/srv/dav"
BOOT = """set -e
hostname dav$1
mount -t tmpfs none /run
mount -t tmpfs none /srv
mkdir -p /run/gluster /srv/brick /srv/dav
mount --bind $2/brick /srv/brick
mount --bind $2/state /var/lib/glusterd
mount --bind $2/log /var/log/glusterfs
ip link set lo up
touch /run/booted
exec env --ignore-signal=CHLD sleep infinity
"""


def lacking(*others):
    """What isn't there that such hosts need, or one of the others; none where all is."""
    needed = ("/dev/fuse", "ip", "unshare", "nsenter", "setpriv", "glusterd", "gluster", "glusterfs", *others)
    return "root" if os.geteuid() else next((name for name in needed if not is_there(name)), None)


def go_apart():
    """Goes on in namespaces of its own: all that is started ends with these, however that comes."""
    if os.environ.get("TESTS_ARE") != "apart":
        os.environ["TESTS_ARE"] = "apart"
        # The shell is there to take what has ended and has no parent any more, as what davfs2 leaves.
        os.execvp("unshare", ["unshare", "--mount", "--net", "--pid", "--fork", "--kill-child", "--mount-proc", "sh", "-c", '"$@"; exit $?', "sh", sys.executable, *sys.argv])
    signal.signal(signal.SIGTERM, lambda *_: sys.exit(1))
    call("ip", "link", "set", "lo", "up")


def call(*words, check=True, given=""):
    ran = subprocess.run([str(word) for word in words], input=given, stdout=subprocess.PIPE, stderr=subprocess.STDOUT, text=True, timeout=120, check=False)
    if check and ran.returncode:
        raise RuntimeError(f"{words}: {ran.returncode}: {ran.stdout}")
    return ran.stdout


def comes(holds, seconds=60):
    """Whether something holds within so many seconds."""
    end = time.monotonic() + seconds
    while not holds():
        if time.monotonic() > end:
            return False
        time.sleep(0.1)
    return True


def until(holds, seconds=60):
    if not comes(holds, seconds):
        raise RuntimeError(f"it never comes: {holds}")


def deployed(name):
    with open(os.path.join(DEPLOY, name), encoding="ascii") as file:
        return file.read()


def command_of(unit):
    """The words that a unit starts."""
    return shlex.split(next(line for line in deployed(unit).splitlines() if line.startswith("ExecStart=")).partition("=")[2])


class Hosts:
    def __init__(self, folder):
        self.folder = folder
        self.first = {}

    def begin(self):
        """The network, the hosts and the volume, by the commands of docs/MACHINES.md."""
        call("ip", "link", "add", "switch", "type", "bridge", "forward_delay", "0")
        call("ip", "addr", "add", CLIENT + "/24", "dev", "switch")
        call("ip", "link", "set", "switch", "up")
        for host in HOSTS:
            self.boot(host)
        for host in HOSTS[1:]:
            self.gluster("peer", "probe", f"{NET}{host}")
        until(lambda: self.gluster("peer", "status").count("(Connected)") == 2)
        # The bricks stand on the disk of the machine's root, which it does only when it is forced to.
        self.gluster("volume", "create", VOLUME, "replica", "3", *(f"{NET}{host}:/srv/brick/{VOLUME}" for host in HOSTS), "force")
        for line in deployed("volume.options").splitlines():
            if line and not line.startswith("#"):
                self.gluster("volume", "set", VOLUME, *line.split())
        self.gluster("volume", "start", VOLUME)
        time.sleep(2)
        for host in HOSTS:
            self.mount(host)

    def boot(self, host):
        """Starts a host, with what its disk has from the time before, and its glusterd."""
        home = os.path.join(self.folder, str(host))
        for part in ("brick", "state", "log"):
            os.makedirs(os.path.join(home, part), exist_ok=True)
        apart = ["unshare", "--mount", "--net", "--pid", "--uts", "--fork", "--kill-child", "--mount-proc", "sh", "-c", BOOT, "boot", str(host), home]
        child = subprocess.Popen(apart, stdin=subprocess.DEVNULL, stderr=subprocess.DEVNULL)

        def is_booted():
            with open(f"/proc/{child.pid}/task/{child.pid}/children", encoding="ascii") as children:
                self.first[host] = int((children.read().split() or ["0"])[0])
            return self.first[host] and os.path.exists(f"/proc/{self.first[host]}/root/run/booted")

        until(is_booted)
        call("ip", "link", "add", f"port{host}", "type", "veth", "peer", "name", "eth0", "netns", self.first[host])
        call("ip", "link", "set", f"port{host}", "master", "switch", "up")
        self.run(host, "ip", "addr", "add", f"{NET}{host}/24", "dev", "eth0")
        self.run(host, "ip", "link", "set", "eth0", "up")
        self.run(host, "glusterd", "-L", "WARNING")
        until(lambda: self.run(host, "gluster", "--mode=script", "peer", "status", check=False).startswith("Number"))

    def enter(self, host):
        return ["nsenter", "-t", str(self.first[host]), "-m", "-p", "-n", "-u", "--"]

    def run(self, host, *words, check=True):
        return call(*self.enter(host), *words, check=check)

    def start(self, host, *words, output=subprocess.DEVNULL):
        return subprocess.Popen([*self.enter(host), *words], stdin=subprocess.DEVNULL, stdout=output, stderr=output)

    def begin_to_tell(self, host, *words):
        """Starts what tells something on its standard output."""
        return subprocess.Popen([*self.enter(host), *words], stdin=subprocess.DEVNULL, stdout=subprocess.PIPE, text=True)

    def gluster(self, *words, check=True):
        return self.run(next(iter(self.first)), "gluster", "--mode=script", *words, check=check)

    def heal_info(self):
        return self.gluster("volume", "heal", VOLUME, "info", check=False)

    def is_healed(self):
        """Whether no brick lacks anything."""
        return self.heal_info().count("Status: Connected\nNumber of entries: 0\n") == len(HOSTS)

    def mount(self, host):
        self.run(host, *command_of("dav-volume.service"))

    def mount_anew(self):
        """What the volume's options are now, all hosts go by."""
        for host in HOSTS:
            self.run(host, "umount", MOUNT)
            time.sleep(1)
            self.mount(host)

    def set_strict(self, value):
        """Whether a host that has lost its lock may no longer write."""
        if self.option("client.strict-locks") != value:
            self.gluster("volume", "set", VOLUME, "client.strict-locks", value)
            self.mount_anew()

    def option(self, name):
        return self.gluster("volume", "get", VOLUME, name).split()[-1]

    def pids(self, host, *names):
        """Processes of a host by their names."""
        found = []
        for pid in filter(str.isdecimal, os.listdir("/proc")):
            with contextlib.suppress(OSError), open(f"/proc/{pid}/comm", encoding="utf-8") as file:
                if file.read().strip() in [name[:15] for name in names] and os.readlink(f"/proc/{pid}/ns/pid") == os.readlink(f"/proc/{self.first[host]}/ns/pid"):
                    found.append(int(pid))
        return found

    def kill(self, host, *names, number=signal.SIGKILL):
        for pid in self.pids(host, *names):
            with contextlib.suppress(ProcessLookupError):
                os.kill(pid, number)

    def cut(self, host, state="down"):
        """Takes the cable of a host away: no packet comes through, in neither direction."""
        call("ip", "link", "set", f"port{host}", state)

    def part(self, host, action="add"):
        """Takes a host away from the other two, but not from clients."""
        for other in HOSTS:
            if other != host:
                self.run(host, "ip", "route", action, "blackhole", f"{NET}{other}/32")
                self.run(other, "ip", "route", action, "blackhole", f"{NET}{host}/32")

    def die(self, host):
        """The cable first, so that nobody is told, and then all processes at once."""
        self.cut(host)
        os.kill(self.first[host], signal.SIGKILL)
        until(lambda: not os.path.exists(f"/proc/{self.first[host]}/ns/pid"))
        del self.first[host]
        call("ip", "link", "del", f"port{host}", check=False)

    def end(self):
        """All hosts are gone, so that nothing writes into the folder any more."""
        for host in list(self.first):
            self.die(host)
