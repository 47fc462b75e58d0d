"""What breaks of three hosts that share a store, and for how long nobody may be answered then: the cases of tests/machines."""
import signal
import time
from typing import Callable, NamedTuple

from hosts import HOSTS, MOUNT, VOLUME, until
from shared_store import GRACE, LEASE, STORE


# ---- What is broken. Each gives what mends it.


def nothing():
    pass


def program_dies(servers):
    servers.kill(1, servers.names[1])
    return nothing


def listener_dies(servers):
    servers.kill(1, servers.names[0])
    return nothing


def hops(servers):
    """Whoever serves is killed, eight times."""
    for _ in range(8):
        until(servers.is_reached)
        time.sleep(1)
        host = next(host for host in HOSTS if servers.is_serving(host))
        servers.kill(host)
        until(lambda: not servers.is_serving(host))
    until(servers.is_reached)
    return nothing


def revive(servers, host):
    servers.hosts.boot(host)
    servers.hosts.mount(host)
    servers.serve(host)
    servers.front(host)


def host_dies(servers):
    servers.hosts.die(1)
    return lambda: revive(servers, 1)


def other_host_dies(servers):
    servers.hosts.die(2)
    return lambda: revive(servers, 2)


def host_cut_off(servers):
    servers.hosts.cut(1)
    return lambda: servers.hosts.cut(1, "up")


def host_parted(servers):
    servers.hosts.part(1)
    return lambda: servers.hosts.part(1, "del")


def host_parted_unasked(servers):
    """Nobody asks its server before its mount is connected to all bricks again, so that it notices nothing: each haproxy asks all servers twice a second."""
    for host in HOSTS:
        servers.hosts.kill(host, "haproxy", number=signal.SIGSTOP)
    # What was asked before is answered. A server that is asked while it is cut off finds that its disk fails, and ends.
    time.sleep(1)
    servers.hosts.part(1)

    def mend():
        servers.hosts.part(1, "del")
        until(lambda: servers.hosts.run(1, "stat", "--format", "there", STORE, check=False) == "there\n")
        time.sleep(5)
        for host in HOSTS:
            servers.hosts.kill(host, "haproxy", number=signal.SIGCONT)
    return mend


def server_stops(servers):
    servers.hosts.kill(1, *servers.names, number=signal.SIGSTOP)
    return lambda: servers.hosts.kill(1, *servers.names, number=signal.SIGCONT)


def begin_bricks(servers):
    """Those that are gone."""
    servers.hosts.gluster("volume", "start", VOLUME, "force")


def bricks_die(*hosts):
    def broken(servers):
        for host in hosts:
            servers.hosts.kill(host, "glusterfsd")
        return lambda: begin_bricks(servers)
    return broken


def bricks_hang(*hosts):
    def broken(servers):
        for host in hosts:
            servers.hosts.kill(host, "glusterfsd", number=signal.SIGSTOP)
        return lambda: [servers.hosts.kill(host, "glusterfsd", number=signal.SIGCONT) for host in hosts]
    return broken


def bricks_begin_anew(servers):
    """All at once, so that their locks are gone."""
    bricks_die(*HOSTS)(servers)()
    return nothing


def bricks_in_turn(servers):
    """Each brick ends and is back, one behind another, as hosts do that are upgraded."""
    for host in reversed(HOSTS):
        mend = bricks_die(host)(servers)
        time.sleep(2)
        mend()
        time.sleep(8)
    return nothing


def hosts_in_turn(servers):
    """Each host ends in order and starts again, one behind another, once the one before has all that was put meanwhile."""
    hosts = servers.hosts
    for host in reversed(HOSTS):
        hosts.kill(host, "sh")
        hosts.kill(host, servers.names[0], "haproxy", "keepalived", number=signal.SIGTERM)
        until(lambda: not hosts.pids(host, *servers.names))
        hosts.run(host, "umount", MOUNT)
        hosts.kill(host, "glusterd", "glusterfsd", "glusterfs", number=signal.SIGTERM)
        time.sleep(1)
        hosts.die(host)
        revive(servers, host)
        # A server that had the store open all the while writes nothing to a brick that was started again, so another one opens it, once the mounts are connected.
        until(lambda: hosts.heal_info().count("Status: Connected") == len(HOSTS))
        time.sleep(8)
        for each in HOSTS:
            if servers.is_serving(each):
                hosts.kill(each, servers.names[0], number=signal.SIGTERM)
        until(hosts.is_healed, 90)
    return nothing


class Case(NamedTuple):
    broken: Callable
    # How long it stays broken, in seconds.
    seconds: int
    # For how many seconds nobody may be answered. None where something has to be found: a file that is lost, an old server that answers, or a store that is damaged.
    longest: int
    # When clients put: all the while; only once another host serves; or then, and once it is mended at the old server, too.
    puts: str = "always"
    has_lease: bool = True
    # For how many seconds nobody may be answered at the least: where one is, a brick that is alone has taken a change.
    least: int = 0


# A program that dies lets go of its lock, and the next one waits for the lease. Two seconds more are for its tries, its start, and haproxy.
DIES = 2 + LEASE
# A host that is silent keeps its locks for ten seconds more.
SILENT = 12 + LEASE
# Where a brick's process is gone, its connection is, too: nobody waits for it.
GONE = 2
CASES = {
    "program killed": Case(program_dies, 8, DIES),
    "listener killed": Case(listener_dies, 8, DIES),
    "whoever serves killed, eight times": Case(hops, 0, DIES),
    "host dead": Case(host_dies, 18, SILENT),
    # A write waits for a silent brick until the volume takes that for gone, 5 seconds later. That is longer than the lease, so another server may have to begin, with its lock to be had from the bricks that are there.
    "another host dead": Case(other_host_dies, 18, SILENT),
    "host cut off": Case(host_cut_off, 18, SILENT),
    "idle and cut off": Case(host_parted, 18, SILENT, "behind"),
    # Its file system goes on, and keeps its lock.
    "stopped for 20 s": Case(server_stops, 20, 20 + DIES),
    "another brick killed": Case(bricks_die(2), 10, GONE),
    "its own brick killed": Case(bricks_die(1), 10, GONE),
    "a brick hangs": Case(bricks_hang(2), 18, SILENT),
    # One brick alone is no quorum: nobody is answered before another one is back.
    "two bricks killed": Case(bricks_die(2, 3), 25, 25 + SILENT, least=24),
    "two bricks hang": Case(bricks_hang(2, 3), 18, 18 + SILENT, least=17),
    # With its locks gone at two bricks a server writes no more, and the next one waits for the lease.
    "all bricks started anew": Case(bricks_begin_anew, 10, SILENT),
    "each brick in turn": Case(bricks_in_turn, 0, SILENT),
    # A server that is ended in order has --grace seconds more.
    "each host in turn": Case(hosts_in_turn, 0, GRACE + DIES),
    "strict-locks off, each brick in turn": Case(bricks_in_turn, 0, None),
    # The first of its seconds goes by before the host is cut off.
    "strict-locks off, no lease, idle and cut off": Case(host_parted_unasked, 19, None, "both", has_lease=False),
}
