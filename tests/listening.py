"""A listener with behind.py behind it, and clients of it, for tests/listener."""
import contextlib
import os
import signal
import socket
import struct
import subprocess
import sys
import tempfile
import time

from programs import memory_of

HERE = os.path.dirname(os.path.abspath(__file__))
# Whoever waits so many seconds waits for ever: no test is about a time as long as this.
PATIENCE = 120
# So much goes into no buffer of a kernel.
LARGE = 20_000_000


class Listening:
    """A listener that runs. Its URLs are read once its program is ready, or by read_urls where that is not waited for."""

    def __init__(self, listen, words=(), mode="serve", deaf=0, users=None, program=None, environment=None, waits=True, **more):
        behind = program or [sys.executable, os.path.join(HERE, "behind.py"), mode, "1", str(deaf), *(["--login"] if users else [])]
        words = [*words, *(["--users", users] if users else [])]
        words = words if "--listen" in words else [*words, "0"]
        self.said = tempfile.TemporaryFile()
        self.child = subprocess.Popen([listen, *words, *behind], stdout=subprocess.PIPE, stderr=self.said, env={**os.environ, **(environment or {})}, **more)
        self.status = None
        # What it tells behind its URLs is known once it has ended.
        self.urls, self.count, self.rest = [], max(1, words.count("--listen")), None
        if waits:
            self.read_urls()

    def read_urls(self):
        self.urls = [self.child.stdout.readline().decode().strip() for _ in range(self.count)]

    @property
    def port(self):
        return int(self.urls[0].rstrip("/").rpartition(":")[2])

    def told(self):
        return all_of(self.said).decode()

    def connect(self, source="127.0.0.1", room=None):
        """A client; with a room it has so small a buffer, and takes nothing but what is received."""
        client = socket.socket()
        client.settimeout(PATIENCE)
        if room:
            client.setsockopt(socket.SOL_SOCKET, socket.SO_RCVBUF, room)
        client.bind((source, 0))
        client.connect(("127.0.0.1", self.port))
        return client

    def asks(self, text, source="127.0.0.1"):
        """What a client is told that asks, and sends no more; None where the connection breaks."""
        with self.connect(source) as client:
            try:
                client.sendall(text)
                client.shutdown(socket.SHUT_WR)
                return whole(client)
            except OSError:
                return None

    def files(self):
        return len(os.listdir(f"/proc/{self.child.pid}/fd"))

    def memory(self):
        """The most that it had, in megabytes."""
        return memory_of(self.child.pid) / 1000

    def signal(self, number=signal.SIGTERM):
        self.child.send_signal(number)

    def program(self):
        """The process of the program."""
        with open(f"/proc/{self.child.pid}/task/{self.child.pid}/children", encoding="ascii") as children:
            return int(children.read().split()[0])

    def wait(self):
        try:
            self.status = self.child.wait(PATIENCE)
        except subprocess.TimeoutExpired:
            self.child.kill()
            self.status = "never"
        self.rest = self.child.stdout.read()
        self.child.stdout.close()
        return self.status

    def end(self):
        if self.child.poll() is None:
            self.signal()
        return self.wait()


@contextlib.contextmanager
def listening(listen, words=(), **more):
    """A listener that is ended at last, in whatever state."""
    it = Listening(listen, words, **more)
    try:
        yield it
    finally:
        if it.status is None:
            it.signal()
            it.signal()
            it.wait()
        it.said.close()


def failed_start(listen, words, behind=None, **more):
    """The status of a listener that ends by itself, and what it says."""
    try:
        told = subprocess.run([listen, *words, *(behind or ["cat"])], stdin=subprocess.DEVNULL, capture_output=True, timeout=PATIENCE, check=False, **more)
    except subprocess.TimeoutExpired:
        return "never", ""
    return told.returncode, told.stderr.decode()


def comes(it):
    """Whether one can connect."""
    try:
        it.connect().close()
    except OSError:
        return False
    return True


def all_of(file):
    """What a file has. It is read at no place of its own, since a process that writes there has the same place."""
    return os.pread(file.fileno(), os.fstat(file.fileno()).st_size, 0)


def whole(client):
    told = bytearray()
    while piece := client.recv(1 << 16):
        told += piece
    return bytes(told)


def receive(client, count):
    told = bytearray()
    while len(told) < count and (piece := client.recv(min(1 << 16, count - len(told)))):
        told += piece
    return bytes(told)


def is_closed(client):
    """Whether the other side has closed it, or let go of it; waits for nothing."""
    client.setblocking(False)
    try:
        return client.recv(1 << 16) == b""
    except BlockingIOError:
        return False
    except OSError:
        return True
    finally:
        client.settimeout(PATIENCE)


def until(holds):
    """Whether it holds at last."""
    end = time.monotonic() + PATIENCE
    while not holds():
        if time.monotonic() > end:
            return False
        time.sleep(0.02)
    return True


def in_time(rows_within):
    """The rows of what has to begin before a limit of so many seconds comes; of a longer limit, where it did not."""
    for limit in (1, 4, 16):
        rows = rows_within(limit)
        if rows is not None:
            return rows
    return [(f"it has begun before {limit} seconds are over", False)]


def reset(client):
    client.setsockopt(socket.SOL_SOCKET, socket.SO_LINGER, struct.pack("ii", 1, 0))
    client.close()
