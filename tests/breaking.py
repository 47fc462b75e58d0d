"""Random clients of a listener, and runs of it in which each system call fails in turn."""
import asyncio
import collections
import contextlib
import errno
import os
import random
import signal
import socket
import struct
import subprocess
import tempfile

from behind import pattern
from listening import HERE, PATIENCE, listening, until, whole

AT_ONCE, CLIENTS = 60, 2000
KINDS = ("polite", "reset", "leaving", "silent", "slow", "greedy")


class Clients:
    """Random clients, one behind another in so many places. What a client gets back is a front of what it has sent; and all of it, where it ends as it should."""

    def __init__(self, seed, port, count, context=None):
        self.random, self.port, self.left = random.Random(seed), port, count
        # With a context they speak TLS.
        self.secured = {"ssl": context, "server_hostname": "localhost"} if context else {}
        self.counts = collections.Counter()

    async def play(self):
        await asyncio.gather(*(self.place() for _ in range(AT_ONCE)))
        return self.counts

    def played(self):
        """How many of them have come and gone."""
        return sum(self.counts[kind] for kind in KINDS)

    async def place(self):
        while self.left:
            self.left -= 1
            kind = self.random.choice(["polite"] * 5 + [*KINDS])
            await asyncio.wait_for(self.one(kind), PATIENCE)

    async def one(self, kind):
        reader, writer = await asyncio.open_connection("127.0.0.1", self.port, limit=1 << 16, **self.secured)
        sent, got = bytearray(), bytearray()
        taker = None if kind == "greedy" else asyncio.ensure_future(self.take(kind, reader, got))
        with contextlib.suppress(OSError):
            if kind != "silent":
                await self.send(kind, writer, sent)
            if kind in ("polite", "slow", "silent"):
                await self.end(writer, taker, sent, got)
        if kind in ("reset", "greedy"):
            writer.get_extra_info("socket").setsockopt(socket.SOL_SOCKET, socket.SO_LINGER, struct.pack("ii", 1, 0))
        writer.transport.abort()
        if taker and not taker.done():
            taker.cancel()
        self.counts["wrong"] += got != sent[: len(got)] or (kind in ("polite", "slow") and got != sent)
        self.counts["bytes"] += len(got)
        self.counts[kind] += 1

    async def end(self, writer, taker, sent, got):
        """Takes all that comes back. asyncio can't end one direction of TLS, so there it waits until that is as much as it has sent, and a little longer for more; one that is silent stays as long."""
        if not self.secured:
            writer.write_eof()
            await taker
            return
        while len(got) < len(sent) and not taker.done():
            await asyncio.sleep(0.001)
        await asyncio.sleep(0.005)

    async def take(self, kind, reader, got):
        with contextlib.suppress(OSError):
            while piece := await reader.read(self.random.choice([100, 4096, 65536])):
                got += piece
                if kind == "slow":
                    await asyncio.sleep(self.random.random() * 0.01)

    async def send(self, kind, writer, sent):
        for _ in range(self.random.randrange(1, 20)):
            most = [1, 3, 100, 1000, 20_000, 70_000, 300_000 if kind == "greedy" or self.random.random() < 0.1 else 10]
            piece = self.random.randbytes(self.random.choice(most))
            sent += piece
            writer.write(piece)
            if kind != "greedy" and self.random.random() < 0.5:
                await writer.drain()
            if self.random.random() < 0.3:
                await asyncio.sleep(self.random.random() * 0.01)


def random_clients(listen, _):
    limits = [word for name in ("idle", "head", "stall") for word in (f"--{name}", "600")]
    with listening(listen, limits, mode="echo") as it:
        before = it.files()
        counts = asyncio.run(Clients(1, it.port, CLIENTS).play())
        taken = it.memory()
        yield f"of {CLIENTS} random clients {counts['wrong']} are answered wrongly", counts["wrong"] == 0 and counts["bytes"] > 1000 * CLIENTS
        yield f"they take {taken:.0f} MB", taken < 64
        yield "each frame is right, and the end", it.files() - before < 10 and it.end() == 0


# What a failed call says: the usual ones, and those of a system that has no more of something.
ERRORS = [errno.EINTR, errno.EIO, errno.ENOMEM, errno.EMFILE, errno.ECONNRESET]
# How often a call of a kind is let fail, at most.
MOST = 4


@contextlib.contextmanager
def preloaded():
    with tempfile.TemporaryDirectory() as folder:
        path = os.path.join(folder, "calls.so")
        subprocess.run(["cc", "-O1", "-shared", "-fPIC", "-o", path, os.path.join(HERE, "calls.c"), "-ldl"], check=True)
        yield path


def is_front(told, wanted):
    return told is None or told == wanted[: len(told)]


def played(it, users):
    """Whether what some clients are told is right as far as it goes; in whatever state the listener is. The users change meanwhile."""
    texts = [(b"get 3\n", pattern(3)), (b"put 300000\n" + bytes(300_000), b"ok 300000\n"), (b"get 700000\n", pattern(700_000))]
    with contextlib.suppress(OSError), it.connect() as held:
        held.sendall(b"get 3\nput 9\n")
        right = all(is_front(it.asks(text), wanted) for text, wanted in texts)
        users.change("ben:y\n")
        it.signal(signal.SIGHUP)
        right &= any(is_front(it.asks(b"users\n"), wanted) for wanted in (b"ann\n", b"ben\n"))
        held.sendall(b"123456789")
        held.shutdown(socket.SHUT_WR)
        return right and is_front(whole(held), pattern(3) + b"ok 9\n")
    return True


class Users:
    """A file of users."""

    def __init__(self, folder):
        self.path = os.path.join(folder, "users")
        self.change("ann:x\n")

    def change(self, text):
        with open(self.path, "w", encoding="ascii") as file:
            file.write(text)


@contextlib.contextmanager
def preloaded_listening(listen, environment):
    """A listener whose calls are counted, or fail, and its users."""
    with tempfile.TemporaryDirectory() as folder:
        users = Users(folder)
        with listening(listen, ["--grace", "1"], users=users.path, environment=environment) as it:
            yield it, users


def failing(listen, shim, call):
    """What is wrong with a run in which this call fails: it may end, and say why, but nobody is told what is wrong, and it never hangs."""
    with preloaded_listening(listen, {"LD_PRELOAD": shim, "FAILS": call}) as (it, users):
        right = "127.0.0.1" not in it.urls[0] or played(it, users)
        status = it.end()
        if not right or status not in (0, 1, 3, 6, 7) or (status and not it.told()) or "behind:" in it.told() or "panicked" in it.told():
            yield f"{call}: status {status}: {it.told()[-200:]}"


def failing_calls(listen, is_whole):
    with preloaded() as shim, tempfile.NamedTemporaryFile("r") as counts:
        with preloaded_listening(listen, {"LD_PRELOAD": shim, "COUNTS": counts.name}) as (it, users):
            yield "the run with no call that fails", played(it, users) and until(lambda: it.asks(b"users\n") == b"ben\n") and it.end() == 0
        calls = {name: int(count) for name, count in map(str.split, counts)}
        yield f"{len(calls)} kinds of calls are seen", {"epoll_wait", "read", "write", "send", "recv", "accept4", "splice", "setsockopt", "open64", "sigprocmask"} <= set(calls)
        # Right before the program there is one more of each of these, which is not counted.
        for name in ("setsid", "sigprocmask", "getrlimit", "setrlimit"):
            calls[name] = calls.get(name, 0) + 1
        wrong, tried = [], 0
        # std's own call at its start is not let fail, nor its next one right before the program; behind that comes the listener's.
        yield "std has called signal once", calls.pop("signal", 0) == 1
        wrong += failing(listen, shim, f"signal:3:{errno.EIO}")
        for name, count in calls.items():
            most = count if is_whole else min(count, MOST)
            for place in {1 + number * count // most for number in range(most)}:
                wrong += failing(listen, shim, f"{name}:{place}:{ERRORS[tried % len(ERRORS)]}")
                tried += 1
        yield f"of {tried} runs in which a call fails {len(wrong)} are wrong: {wrong[:3]}", tried > 30 and not wrong
