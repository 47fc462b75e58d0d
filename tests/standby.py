"""What the listener does with --wait, for tests/listener: a store that can't be had is waited for, and clients get in only while the program serves."""
import contextlib
import errno
import os
import re
import select
import signal
import socket
import subprocess
import tempfile
import time

from behind import pattern
from listening import PATIENCE, comes, failed_start, is_closed, listening, receive, until
from readiness import BEHIND, joined, shell
from telling import change, hang_up, write

# Each run notes its moment, and does what stands in a file; where that doesn't end it, it serves.
SCRIPT = 'read moment rest </proc/uptime; echo "$moment" >>"$2"; eval "$(cat "$1")"; shift 2; exec "$@"'
WAITING = {9: "listen: the store is in use: waiting for it\n", 11: "listen: the store can't be reached: waiting for it\n"}
# What goes into no pipe at once.
LONG = 300_000


class Store:
    """A store, as far as a program can have it: by what it does before it serves."""

    def __init__(self, folder, *words):
        self.path, self.notes = (os.path.join(folder, name) for name in ("does", "runs"))
        self.program = shell(SCRIPT, self.path, self.notes, *BEHIND, *words, "--store", "x")
        self.lacks(9)

    def does(self, script=""):
        change(self.path, script)

    def lacks(self, status):
        """From now on each run says why it ends, and ends with this status."""
        self.does(f"echo says {status} >&2; exit {status}")

    def runs(self):
        """The moments at which runs have begun."""
        if not os.path.exists(self.notes):
            return []
        with open(self.notes, encoding="ascii") as notes:
            return [float(line) for line in notes]

    def is_tried(self, count):
        """Whether so many runs more begin."""
        before = len(self.runs())
        return until(lambda: len(self.runs()) >= before + count)


@contextlib.contextmanager
def reserved(port=0):
    """A port that no other program is given, though nobody listens there."""
    with socket.socket() as it:
        it.setsockopt(socket.SOL_SOCKET, socket.SO_REUSEADDR, 1)
        it.bind(("127.0.0.1", port))
        yield it.getsockname()[1]


def is_refused(port):
    with socket.socket() as client:
        client.bind(("127.0.0.2", 0))
        return client.connect_ex(("127.0.0.1", port)) == errno.ECONNREFUSED


def waits(listen, _):
    with tempfile.TemporaryDirectory() as folder, socket.socket(socket.AF_UNIX, socket.SOCK_DGRAM) as told, reserved() as port:
        store, path, name = Store(folder), os.path.join(folder, "socket"), os.path.join(folder, "notify")
        told.bind(name)
        told.settimeout(PATIENCE)
        words, began = ["--wait", "--listen", f"127.0.0.1:{port}", "--listen", f"unix:{path}"], time.monotonic()
        with listening(listen, words, program=store.program, environment={"NOTIFY_SOCKET": name}, waits=False) as it:
            for status in WAITING:
                store.lacks(status)
                yield f"behind {status} it is run again", store.is_tried(4)
                yield f"which is told once: {it.told()}", it.told().count(WAITING[status]) == it.told().count(f"says {status}\n") == 1
            yield "meanwhile nobody gets in", is_refused(port) and not os.path.exists(path)
            yield "it is told as one that has started, and waits", told.recv(100) == b"READY=1\nSTATUS=waits"
            yield "and nothing else is", not select.select([it.child.stdout, told], [], [], 0)[0] and it.told().count("\n") == 4
            store.does()
            it.read_urls()
            yield "then it serves", it.urls == [f"http://127.0.0.1:{port}/", f"unix:{path}"] and it.asks(b"get 3\n") == pattern(3)
            passed, found = time.monotonic() - began, re.findall(r"^listen: it serves now, behind (\d+) seconds?$", it.told(), re.MULTILINE)
            yield f"which is told, too: {found}, {passed}", len(found) == 1 and 1 <= int(found[0]) <= passed and told.recv(100) == b"STATUS=serves"
            between = [after - before for before, after in zip(store.runs(), store.runs()[1:])]
            yield f"the tries came each half second: {between}", min(between) > 0.48 and sorted(between)[len(between) // 2] < 1.5
            yield from waits_again(it, store, path, told)
            yield "a clean end, and no more URLs", it.end() == 0 and it.rest == b"" and "\nleft 0\n" in it.told()
        with listening(listen, ["--wait"], program=store.program, environment={"NOTIFY_SOCKET": name}) as it:
            yield "one that doesn't wait is told to serve", [told.recv(100) for _ in range(2)] == [b"STOPPING=1", b"READY=1\nSTATUS=serves"]
            yield "and says nothing of it", it.asks(b"get 3\n") == pattern(3) and "it serves now" not in it.told() and it.end() == 0


def waits_again(it, store, path, told):
    """One that has served, and can't have its store again."""
    with it.connect() as silent, it.connect() as begun, joined(path, b"get 3\n") as other:
        begun.sendall(b"get 3\nput 9\n12")
        yield "before its end", receive(begun, 3) + receive(other, 3) == 2 * pattern(3)
        store.lacks(9)
        it.asks(b"end 5\n")
        yield "behind an end with 5 it is run again at once, and waits", until(lambda: it.told().count(WAITING[9]) == 2) and "exit status: 5); all connections are ended, and it is run again at once" in it.told()
        yield "nobody gets in again", is_refused(it.port) and not os.path.exists(path)
        yield "and nobody stays", all(until(lambda client=client: is_closed(client)) for client in (silent, begun, other))
    yield "that it waits is told again", told.recv(100) == b"STATUS=waits" and store.is_tried(2)
    store.does()
    yield "until it serves again", until(lambda: comes(it)) and it.asks(b"get 3\n") == pattern(3) and told.recv(100) == b"STATUS=serves"
    it.asks(b"end 3\n")
    yield "other pauses go on as they were", until(lambda: comes(it) and it.asks(b"get 3\n") == pattern(3)) and "had no memory left (exit status: 3); all connections are ended, and it is run again in 1 second" in it.told()
    yield "and it is told whether it serves", [told.recv(100) for _ in range(2)] == [b"STATUS=waits", b"STATUS=serves"]


def ends(listen, _):
    """What is not waited for."""
    for does, wanted in (("exit 10", 30), ("exit 5", 25), ("kill -KILL $$", 40), ("echo ready; exit 10", 30)):
        with tempfile.TemporaryDirectory() as folder:
            store = Store(folder)
            with listening(listen, ["--wait"], program=store.program, waits=False) as it:
                is_tried = store.is_tried(2)
                store.does(f"echo last words >&2; {does}")
                yield f"9, and then {does}: {wanted}", is_tried and it.wait() == wanted
                yield f"its last words are told: {it.told()}", it.told().count("says 9\n") == it.told().count("last words\n") == 1
    for status in WAITING:
        with tempfile.TemporaryDirectory() as folder:
            store = Store(folder)
            store.does(f"echo ready; exit {status}")
            with listening(listen, ["--wait"], program=store.program, waits=False) as it:
                yield f"{status} is waited for also where it was ready", store.is_tried(3) and it.told().count(WAITING[status]) > 1 and it.end() == 0
    with tempfile.TemporaryDirectory() as folder, socket.create_server(("127.0.0.1", 0)) as taken:
        store, port = Store(folder), taken.getsockname()[1]
        with listening(listen, ["--wait", "--listen", f"127.0.0.1:{port}"], program=store.program, waits=False) as it:
            yield "a port in use doesn't matter while it waits", store.is_tried(2) and it.child.poll() is None
            store.does()
            yield "but where it is to serve", it.wait() == 1 and f"port {port} is in use" in it.told() and it.rest == b""


def signals(listen, _):
    with tempfile.TemporaryDirectory() as folder:
        store = Store(folder)
        with listening(listen, ["--wait", "--grace", "600"], program=store.program, waits=False) as it:
            is_tried = store.is_tried(2)
            it.signal()
            yield "a signal ends it while it waits", is_tried and it.wait() == 0 and it.told() == "says 9\n" + WAITING[9]
    for does, said in (("echo early >&2; sleep 6; echo late >&2", "early\nlate\n"), (f'head -c {LONG} /dev/zero | tr "\\0" x >&2', LONG * "x")):
        with tempfile.TemporaryDirectory() as folder:
            store = Store(folder)
            with listening(listen, ["--wait", "--grace", "600"], program=store.program, waits=False) as it:
                is_tried = store.is_tried(2)
                store.does(does + "; exec sleep 600")
                yield f"what is said by a try that lasts, or says much, is told: {does}", is_tried and until(lambda said=said: said in it.told())
                it.signal()
                yield "and a signal ends it within that try", it.wait() == 0
    yield from hang_ups(listen)


def hang_ups(listen):
    with tempfile.TemporaryDirectory() as folder:
        store, users = Store(folder, "--login"), os.path.join(folder, "users")
        write(users, "ann:x\n")
        with listening(listen, ["--wait"], users=users, program=store.program, waits=False) as it:
            is_tried = store.is_tried(2)
            hang_up(it, users, "ben:y\n")
            yield "a hang-up reads the users while it waits", is_tried and until(lambda: f"the users of {users} are read again" in it.told()) and store.is_tried(2)
            store.does("echo begins >&2")
            it.read_urls()
            yield "which are those of the one that serves", it.asks(b"users\n") == b"ben\n"
            yield "what this one has said is told", until(lambda: "begins\n" in it.told())
            store.lacks(9)
            it.asks(b"end 5\n")
            is_closed_again = until(lambda: not comes(it))
            with reserved(it.port):
                store.does()
                yield "a port that was any one stays the same", is_closed_again and until(lambda: comes(it)) and it.asks(b"users\n") == b"ben\n"
            yield "hang-ups: a clean end", it.end() == 0


def words(listen, _):
    for behind in (["cat"], ["cat", "--store"]):
        status, told = failed_start(listen, ["--wait", "0"], behind)
        yield f"nothing to wait for: {behind}", status == 2 and "--wait: the program has no --store FILE to wait for" in told
    with socket.create_server(("127.0.0.1", 0)) as handed:
        begin = ["bash", "-c", 'exec 3<&"$0"; LISTEN_FDS=1 LISTEN_PID=$$ exec "$@"', str(handed.fileno()), listen, "--wait", *BEHIND, "--store", "x"]
        ran = subprocess.run(begin, stdin=subprocess.DEVNULL, capture_output=True, timeout=PATIENCE, check=False, pass_fds=[handed.fileno()])
        yield "sockets that are handed over", ran.returncode == 2 and b"--wait and --lease: not with sockets that are handed over" in ran.stderr


def of_server(listen, davserve):
    """Two servers with one store: one waits until the other is gone."""
    with tempfile.TemporaryDirectory() as folder:
        program = [davserve, "--store", os.path.join(folder, "store")]
        with listening(listen, program=program) as first, listening(listen, ["--wait"], program=program, waits=False) as second:
            put = first.asks(b"PUT /a HTTP/1.1\r\nHost: a\r\nContent-Length: 3\r\n\r\nabc")
            yield "beside a server that serves", put.startswith(b"HTTP/1.1 201 ") and until(lambda: WAITING[9] in second.told())
            first.signal(signal.SIGKILL)
            second.read_urls()
            yield "another serves once it is gone", second.asks(b"GET /a HTTP/1.1\r\nHost: a\r\n\r\n").endswith(b"\r\n\r\nabc") and first.wait() == -signal.SIGKILL
            yield f"and has waited quietly: {second.told()}", second.told().count("the store is not opened") == 1 and second.end() == 0
