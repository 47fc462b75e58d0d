"""A server that takes a store over compacts it first, and is killed meanwhile: for tests/machines.

The store has what makes a server compact it at its start: over 64 MiB, more than half of them of no use any more. Whoever serves is killed, and so is the next one, as soon as the draft of its compacted store stands beside FILE, or a moment later. FILE is the old store or the new one then, whole, and has all that was answered; and so it is once the next server has served.
"""
import concurrent.futures
import contextlib
import os
import signal
import time

from asking import CLIENTS, Load, asked
from hosts import HOSTS, SHARED, VOLUME, until
from shared_store import LEASE, STORE, is_whole

# Files of 1 MB that stay, and how often each is put.
FILES, PUTS = 30, 3
DRAFT = os.path.basename(STORE) + ".draft-"
# When the next server is killed: the name, how many seconds behind the draft's coming, and how long the draft has to be.
MOMENTS = (("as soon as its draft is there", 0, 0), ("5 ms later", 0.005, 0), ("once its draft has 8 MB", 0, 8_000_000))


def fill():
    """The same bytes a second and a third time make those before them useless."""
    def put(number):
        return asked(SHARED, 80, "PUT", f"/filled-{number % FILES}", b"%09d" % number * 111_111)[0]

    with concurrent.futures.ThreadPoolExecutor(CLIENTS) as pool:
        statuses = list(pool.map(put, range(FILES * PUTS)))
    if not set(statuses) <= {201, 204}:
        raise RuntimeError(f"the store can't be filled: {statuses}")


def on_bricks(servers):
    """The folder of the store on each brick, which is seen from outside of the hosts."""
    return [os.path.join(servers.hosts.folder, str(host), "brick", VOLUME, os.path.basename(os.path.dirname(STORE))) for host in HOSTS]


def drafts(servers):
    return [path for folder in on_bricks(servers) for path in (os.path.join(folder, name) for name in os.listdir(folder) if name.startswith(DRAFT))]


def generation(servers):
    """That of FILE, as the first brick has it: a compacted store is of the next one."""
    with open(os.path.join(on_bricks(servers)[0], os.path.basename(STORE)), "rb") as file:
        return int.from_bytes(file.read(24)[16:], "little")


def has_draft(pid):
    with contextlib.suppress(OSError):
        return any(DRAFT in os.readlink(f"/proc/{pid}/fd/{name}") for name in os.listdir(f"/proc/{pid}/fd"))
    return False


def size_of(paths):
    with contextlib.suppress(FileNotFoundError):
        return max(map(os.path.getsize, paths), default=0)
    return 0


def kill_next(servers, seconds, size):
    """Kills the server that compacts the store, and ends all others; how long its draft was then, None where nobody had one."""
    # By now one of the others has the lock, and waits for the lease. Its listener and its program stay.
    time.sleep(LEASE / 2)
    pids = {host: servers.hosts.pids(host, *servers.names) for host in HOSTS}
    compacting, end = [], time.monotonic() + 60
    while not compacting and time.monotonic() < end:
        time.sleep(0.0005)
        compacting = next((of_host for of_host in pids.values() if any(map(has_draft, of_host))), [])
    time.sleep(seconds)
    while drafts(servers) and size_of(drafts(servers)) < size:
        time.sleep(0.0005)
    for pid in compacting:
        with contextlib.suppress(ProcessLookupError):
            os.kill(pid, signal.SIGKILL)
    servers.end()
    return size_of(drafts(servers)) if compacting and drafts(servers) else None


def played(servers, seconds, size):
    """What is wrong behind such a kill, and what is told of it."""
    servers.begin()
    fill()
    load = Load(SHARED)
    time.sleep(2)
    before, since = generation(servers), time.monotonic()
    servers.kill(1)
    draft = kill_next(servers, seconds, size)
    checks, between = servers.checks(), generation(servers)
    for host in HOSTS:
        servers.serve(host)
    until(lambda: load.goes_on(since + LEASE))
    time.sleep(1)
    load.end()
    lost = load.lost(SHARED)
    servers.end()
    faults = {
        "the kill hit no compaction": draft is None,
        f"FILE is not whole behind it: {checks}": not is_whole(checks),
        f"FILE is of generation {between}, behind {before}": between not in (before, before + 1),
        f"it is not whole in the end: {servers.checks()}": not is_whole(servers.checks()),
        f"{len(lost)} of {len(load.answered)} files that were answered are lost: {lost[:5]}": lost or len(load.answered) < 100,
        "no server has compacted it behind that": generation(servers) == before,
        f"a draft is left: {drafts(servers)}": drafts(servers),
    }
    return [fault for fault, is_there in faults.items() if is_there], f"a draft of {draft} bytes; the {'old' if between == before else 'new'} store behind it; {len(load.moments)} answered, {len(lost)} lost"


def rows(servers, times):
    for name, seconds, size in MOMENTS * (times // len(MOMENTS)) + MOMENTS[: times % len(MOMENTS)]:
        faults, told = played(servers, seconds, size)
        print(f"machines: killed while it compacts, {name}: {told}", flush=True)
        yield f"killed while it compacts, {name}: {told}: {'; '.join(faults)}", not faults
