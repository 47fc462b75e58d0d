"""A store that is carried to another server while clients put: for tests/machines.

`cp`, `davstore follow --to-end` and `davstore take` carry it over while the old server goes on. That is ended once the copy is close behind, and the new one begins once the copy has the rest. haproxy sends clients to the one that answers, by its file in deploy/machines.
"""
import contextlib
import os
import signal
import subprocess
import time

from asking import Load, asked
from hosts import call, deployed, until
from shared_store import TLS

ADDRESS, PORTS = "127.0.0.1", (9021, 9022)
# How much the store has in files of 1 MB, for how long it is followed, and for how many seconds nobody may be answered.
MEGABYTES, SECONDS, LONGEST = 100, 5, 3


def serve(programs, path, port):
    listen, davserve, _ = programs
    server = subprocess.Popen([listen, "--listen", f"{ADDRESS}:{port}", "--grace", "5", davserve, "--store", path], stdout=subprocess.DEVNULL, stderr=subprocess.DEVNULL)
    until(lambda: asked(ADDRESS, port, "OPTIONS", "/")[0] == 200)
    return server


def ended(process):
    process.send_signal(signal.SIGTERM)
    return process.wait(30)


@contextlib.contextmanager
def in_front(folder):
    path = os.path.join(folder, "moved.cfg")
    with open(path, "w", encoding="ascii") as file:
        file.write(deployed("haproxy-failover.cfg").replace(TLS, f"{ADDRESS}:80").replace("10.20.0.1:8080", f"{ADDRESS}:{PORTS[0]}").replace("10.20.0.2:8080", f"{ADDRESS}:{PORTS[1]}"))
    proxy = subprocess.Popen(["haproxy", "-db", "-f", path], stdout=subprocess.DEVNULL, stderr=subprocess.DEVNULL)
    try:
        until(lambda: asked(ADDRESS, 80, "OPTIONS", "/")[0] == 200)
        yield
    finally:
        ended(proxy)


def carried(davstore, old, new):
    """`follow` and `take`, which have what was put since the copy was made, and go on."""
    call("cp", old, new)
    size = call(davstore, new, "check").partition(", ")[2].split()[0]
    follow = subprocess.Popen([davstore, old, "follow", size, "--to-end"], stdout=subprocess.PIPE)
    take = subprocess.Popen([davstore, new, "take"], stdin=follow.stdout, stdout=subprocess.PIPE, stderr=subprocess.DEVNULL, text=True)
    follow.stdout.close()
    return follow, take


def played(programs, folder):
    """For how long nobody was answered, how many were, what was lost, and what is wrong besides."""
    old, new = (os.path.join(folder, name) for name in ("old", "new"))
    first = serve(programs, old, PORTS[0])
    for number in range(MEGABYTES):
        asked(ADDRESS, PORTS[0], "PUT", f"/filled-{number}", os.urandom(1_000_000))
    with in_front(folder):
        load = Load(ADDRESS)
        time.sleep(1)
        follow, take = carried(programs[2], old, new)
        time.sleep(SECONDS)
        statuses = [ended(first), follow.wait(30)]
        told = take.communicate(timeout=30)[0].strip()
        second = serve(programs, new, PORTS[1])
        time.sleep(SECONDS)
        load.end()
        lost = load.lost(ADDRESS)
        ended(second)
    checks = [call(programs[2], path, "check").strip() for path in (old, new)]
    is_right = statuses == [0, 0] and take.returncode == 0 and all(check.startswith("whole: ") for check in checks)
    for path in (old, new):
        os.remove(path)
    return load, lost, is_right, f"{statuses}, {take.returncode}, {told!r}, {checks}"


def rows(programs, folder, times):
    for _ in range(times):
        load, lost, is_right, told = played(programs, folder)
        line = f"a store moved: {len(load.moments)} answered, {len(lost)} lost; {load.pause():.1f} s without an answer"
        print(f"machines: {line}", flush=True)
        yield f"{line}: {told}", is_right and not lost and len(load.moments) > 100 and load.pause() <= LONGEST
