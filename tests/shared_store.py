"""The servers of one store that three hosts share, by the words of deploy/machines, with haproxy and keepalived in front of them: for tests/machines and bench/machines."""
import os
import sys

sys.path.append(os.path.join(os.path.dirname(os.path.abspath(__file__)), "..", "bin"))
import start
from asking import asked
from hosts import HOSTS, NET, SHARED, command_of, deployed, until

WORDS = command_of("davserve-shared.service")[1:]
STORE, LEASE = WORDS[WORDS.index("--store") + 1], int(WORDS[WORDS.index("--lease") + 1])
GRACE = int(WORDS[WORDS.index("--grace") + 1])
# The number of the user that the store belongs to.
OWNER = 880
AS_OWNER = f"setpriv --reuid {OWNER} --regid {OWNER} --clear-groups --"
# What systemd does, as the unit says.
SERVICE = f'mkdir -p /run/dav; while :; do {AS_OWNER} "$@"; echo "ended $?"; sleep 1; done'
# The seconds stand beside the new store that the first server waits for. Without them that would be a minute.
NEW = f'rm -rf "$0" && install -d -o {OWNER} -g {OWNER} -m 700 "$0" && {AS_OWNER} "$1" "$2" new && echo 1 > "$2.lease" && chown {OWNER}:{OWNER} "$2.lease"'
TLS = ":443 ssl crt /etc/haproxy/both.pem alpn h2,http/1.1"


def without(words, option):
    """The words without an option and its value."""
    at = words.index(option)
    return words[:at] + words[at + 2 :]


class Servers:
    """A server on each host, which is started again as often as it ends, and what stands in front of it."""

    def __init__(self, hosts, programs, words=tuple(WORDS)):
        self.hosts, self.words = hosts, list(words)
        self.listen, self.davserve, self.davstore = programs
        self.names = [os.path.basename(path) for path in (self.listen, self.davserve)]

    def serve(self, host):
        own, behind = start.parted(without(self.words, "--users"))
        with open(os.path.join(self.hosts.folder, f"served-{host}"), "ab") as output:
            self.hosts.start(host, "sh", "-c", SERVICE, "service", self.listen, *own, self.davserve, *behind, output=output)

    def front(self, host):
        """haproxy and keepalived, with their own files, but for TLS, and for the priority of each host."""
        for name, old, new in (("haproxy-failover.cfg", TLS, ":80"), ("keepalived.conf", "priority 100", f"priority {104 - host}")):
            path = os.path.join(self.hosts.folder, f"{host}-{name}")
            with open(path, "w", encoding="ascii") as file:
                file.write(deployed(name).replace(old, new))
        # It is no child of what started it: where that is stopped by a signal, so is its parent, which then never takes its end.
        self.hosts.start(host, "setsid", "--fork", "haproxy", "-db", "-f", os.path.join(self.hosts.folder, f"{host}-haproxy-failover.cfg"))
        self.hosts.start(host, "keepalived", "--dont-fork", "--vrrp", "-f", path)

    def is_serving(self, host):
        return asked(f"{NET}{host}", 8080, "OPTIONS", "/")[0] == 200

    def is_reached(self):
        return asked(SHARED, 80, "OPTIONS", "/")[0] == 200

    def begin(self):
        """A new store, which host 1 serves, and for which the others wait. Host 1 has the address that clients use."""
        until(self.hosts.is_healed, 90)
        self.hosts.run(1, "sh", "-c", NEW, os.path.dirname(STORE), self.davstore, STORE)
        self.serve(1)
        until(lambda: self.is_serving(1))
        for host in HOSTS[1:]:
            self.serve(host)
        for host in HOSTS:
            if not self.hosts.pids(host, "haproxy"):
                self.front(host)
        until(lambda: f" {SHARED}/" in self.hosts.run(1, "ip", "addr"))
        until(self.is_reached)

    def kill(self, host, *names):
        self.hosts.kill(host, *(names or self.names))

    def end(self):
        """All servers are gone; what stands in front of them stays for the next ones."""
        for host in HOSTS:
            self.hosts.kill(host, "sh")
            self.kill(host)
        until(lambda: not any(self.hosts.pids(host, "sh", *self.names) for host in HOSTS))

    def checks(self):
        """What each host tells of the store."""
        return [self.hosts.run(host, self.davstore, STORE, "check", check=False).strip() for host in HOSTS]


def is_whole(checks):
    """Whether all hosts tell the same, and that the store is whole."""
    return len(set(checks)) == 1 and checks[0].startswith("whole: ")
