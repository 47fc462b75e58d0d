"""Servers that run, the client that loads them, and what it asks: what bench/serve and bench/servers share."""
import contextlib
import os
import pwd
import shutil
import socket
import subprocess
import sys
import tempfile
import time

TOP = os.path.join(os.path.dirname(os.path.abspath(__file__)), "..")
sys.path.insert(1, os.path.join(TOP, "tests"))
import frames

SMALL, LARGE = 1_000, 10_000_000
MEMBERS = 1_000
PROCESSORS = os.sched_getaffinity(0)
SERVERS = {max(PROCESSORS)}
TICK = os.sysconf("SC_CLK_TCK")

ALLPROP = b'<?xml version="1.0" encoding="utf-8"?><D:propfind xmlns:D="DAV:"><D:allprop/></D:propfind>'
LOCK = b'<D:lockinfo xmlns:D="DAV:"><D:lockscope><D:exclusive/></D:lockscope><D:locktype><D:write/></D:locktype><D:owner>bench</D:owner></D:lockinfo>'


def request(line, body=None, more=b""):
    """As the client reads it: behind its length."""
    text = frames.request(line, body, more, b"localhost")
    return b"%d\n" % len(text) + text


def tree(name):
    """A folder with ten folders in it and 989 files, a thousand in all."""
    yield request(b"MKCOL /%s/" % name)
    for folder in range(10):
        yield request(b"MKCOL /%s/%d/" % (name, folder))
        for file in range(99 - (folder == 0)):
            yield request(b"PUT /%s/%d/%d" % (name, folder, file), b"x" * 100)


def before():
    """What stands before the rows."""
    yield request(b"PUT /small", b"x" * SMALL)
    yield request(b"PUT /large", b"x" * LARGE)
    yield request(b"MKCOL /members/")
    for member in range(MEMBERS):
        yield request(b"PUT /members/%d" % member, b"x" * 100)
    yield from tree(b"tree")


# What is asked for again and again.
GET_SMALL = [request(b"GET /small")]
GET_LARGE = [request(b"GET /large")]
PUT_SMALL = [request(b"PUT /small@N@", b"x" * SMALL)]
PUT_LARGE = [request(b"PUT /large@N@", b"x" * LARGE)]
DELETE_LARGE = [request(b"DELETE /large@N@")]
DESCRIBE = [request(b"PROPFIND /members/", ALLPROP, b"Depth: 1\r\nContent-Type: application/xml\r\n")]
COPY_TREE = [request(b"COPY /tree/", None, b"Destination: http://localhost/copy@N@/\r\n"), request(b"DELETE /copy@N@/")]
LOCK_SMALL = [request(b"LOCK /small@N@", LOCK, b"Depth: 0\r\nContent-Type: application/xml\r\n"), request(b"UNLOCK /small@N@", None, b"Lock-Token: <@TOKEN@>\r\n")]


def family(pid):
    """A process and all below it."""
    yield pid
    with contextlib.suppress(OSError):
        for task in os.listdir(f"/proc/{pid}/task"):
            with open(f"/proc/{pid}/task/{task}/children", encoding="ascii") as children:
                for child in children.read().split():
                    yield from family(int(child))


def processor_seconds(pid):
    """Those of a process and all below it, the ones that have ended among them."""
    seconds = 0
    for each in family(pid):
        with contextlib.suppress(OSError), open(f"/proc/{each}/stat", encoding="ascii") as stat:
            fields = stat.read().rpartition(")")[2].split()
            seconds += sum(map(int, fields[11:15])) / TICK
    return seconds


class Server:
    """A server that runs, and the client that is joined to it, as `begin` starts it."""

    def __init__(self, pid, begin):
        self.pid, self.begin, self.client = pid, begin, begin()

    def end_client(self):
        self.client.terminate()
        self.client.wait()

    def begin_anew(self):
        """Another client, where the one before has ended, once the server is done with what that one asked. Not on pipes, which end with their client."""
        if not self.begin:
            return
        self.end_client()
        for _ in range(120):
            taken = processor_seconds(self.pid)
            time.sleep(0.5)
            if processor_seconds(self.pid) - taken < 0.05:
                break
        self.client = self.begin()

    def play(self, connections, seconds, requests):
        """How many requests were answered in how many seconds, the processor seconds of the server, and how many were answered by no success. None where the client has ended."""
        with tempfile.NamedTemporaryFile() as file:
            file.write(b"".join(requests))
            file.flush()
            taken = processor_seconds(self.pid)
            with contextlib.suppress(BrokenPipeError):
                self.client.stdin.write(b"%d %f %s\n" % (connections, seconds, file.name.encode()))
                self.client.stdin.flush()
            told = self.client.stdout.readline().split()
            taken = processor_seconds(self.pid) - taken
        return (int(told[0]), float(told[1]), taken, int(told[2])) if len(told) == 3 else None


def built_client(folder):
    """The path of the client, which is built there."""
    path = os.path.join(folder, "load")
    subprocess.run(["gcc", "-O2", "-o", path, os.path.join(TOP, "bench", "load.c")], check=True)
    return path


@contextlib.contextmanager
def stopped(process):
    try:
        yield process
    finally:
        process.terminate()
        process.wait()


@contextlib.contextmanager
def loaded(pid, words, **more):
    """A server that runs, with its client."""
    server = Server(pid, lambda: subprocess.Popen(words, stdin=subprocess.PIPE, stdout=subprocess.PIPE, preexec_fn=on_the_others, **more))
    try:
        yield server
    finally:
        server.end_client()


def on_one_processor():
    os.sched_setaffinity(0, SERVERS)


def on_the_others():
    os.sched_setaffinity(0, PROCESSORS - SERVERS or PROCESSORS)


@contextlib.contextmanager
def on_socket(load, words, port):
    """A server on a port; where the port is 0 it tells its URL."""
    told = subprocess.PIPE if port == 0 else subprocess.DEVNULL
    # Apache ends with its whole process group.
    with stopped(subprocess.Popen(words, stdout=told, preexec_fn=on_one_processor, start_new_session=True)) as server:
        if port == 0:
            port = int(server.stdout.readline().decode().rstrip("/\n").rpartition(":")[2])
        wait_for(port)
        with loaded(server.pid, [load, "socket", str(port)]) as it:
            yield it


def wait_for(port):
    for _ in range(100):
        with contextlib.suppress(OSError):
            socket.create_connection(("127.0.0.1", port)).close()
            return
        time.sleep(0.1)
    sys.exit(f"nothing listens on port {port}")


@contextlib.contextmanager
def on_pipes(load, words, speech="frames"):
    with stopped(subprocess.Popen(words, stdin=subprocess.PIPE, stdout=subprocess.PIPE, preexec_fn=on_one_processor)) as server:
        ends = server.stdin.fileno(), server.stdout.fileno()
        with loaded(server.pid, [load, speech, *map(str, ends)], pass_fds=ends) as it:
            server.stdin.close()
            server.stdout.close()
            it.begin = None
            yield it


def free_port():
    with socket.socket() as listener:
        listener.bind(("127.0.0.1", 0))
        return listener.getsockname()[1]


@contextlib.contextmanager
def of_debian(load, words, form="", **more):
    """One of Debian's servers, with its files in memory; what its words and the form of its configuration name in braces is filled in, and `{configuration}` is where this lies."""
    folder = tempfile.mkdtemp(prefix="bench-serve-", dir="/dev/shm")
    port, user = free_port(), pwd.getpwnam("www-data")
    try:
        os.chmod(folder, 0o755)
        for name in ("", "files", "locks", "uploads"):
            os.makedirs(os.path.join(folder, name), exist_ok=True)
            os.chown(os.path.join(folder, name), user.pw_uid, user.pw_gid)
        configuration = os.path.join(folder, "configuration")
        places = {"folder": folder, "port": port, "user": user.pw_name, "modules": "/usr/lib/apache2/modules", "configuration": configuration, **more}
        with open(configuration, "w", encoding="utf-8") as file:
            file.write(form.format(**places))
        with on_socket(load, [word.format(**places) for word in words], port) as server:
            yield server
    finally:
        shutil.rmtree(folder)


def listener():
    """The path of the listener, which is built where it isn't."""
    return subprocess.run([os.path.join(TOP, "listener", "build")], stdout=subprocess.PIPE, encoding="utf-8", check=True).stdout.strip()


def number(value):
    return f"{value:,.0f}" if value >= 100 else f"{value:.1f}"


def first_line(*words):
    return subprocess.run(words, stdout=subprocess.PIPE, stderr=subprocess.STDOUT, check=True).stdout.decode().splitlines()[0]


def processors():
    """How many this machine has, and which."""
    with open("/proc/cpuinfo", encoding="utf-8") as file:
        model = next(line.partition(":")[2].strip() for line in file if line.startswith("model name"))
    return f"{os.cpu_count()} processors: {model}"
