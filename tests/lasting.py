"""What lasts, for tests/listener: slow downloads beside others, a program that works for long, and random load of which the memory is watched. With `whole` it lasts for minutes."""
import asyncio
import contextlib
import threading
import time

from behind import pattern
from breaking import AT_ONCE, Clients
from listening import in_time, listening, receive, reset
from programs import memory_of

# A download goes at so many bytes a second.
RATE = 2_000_000
PIECE = 20_000


class Slow(threading.Thread):
    """A client that takes this many bytes of a pattern slowly, and sees that they are those. `gap` is the longest time for which it took nothing of itself, and `wait` that for which nothing came."""

    def __init__(self, client, count):
        super().__init__(daemon=True)
        self.client, self.count, self.at, self.is_right = client, count, 0, True
        self.gap = self.wait = 0
        self.start()

    def run(self):
        began = last = time.monotonic()
        with contextlib.suppress(OSError):
            while self.at < self.count and (piece := self.client.recv(PIECE)):
                came = time.monotonic()
                self.is_right &= piece == pattern(251 + PIECE)[self.at % 251 :][: len(piece)]
                self.at += len(piece)
                time.sleep(max(0, began + self.at / RATE - time.monotonic()))
                self.wait, self.gap, last = max(self.wait, came - last), max(self.gap, time.monotonic() - came), time.monotonic()

    def is_whole(self):
        return self.is_right and self.at == self.count


def beside(slow, asks):
    """How many others are answered rightly while these take, how many are not, and the longest time that one waited."""
    right = wrong = longest = 0
    while any(it.is_alive() for it in slow):
        began = time.monotonic()
        is_right = asks()
        right, wrong, longest = right + is_right, wrong + (not is_right), max(longest, time.monotonic() - began)
        time.sleep(0.02)
    return right, wrong, longest


def taken_beside(begin, count, limit, asks):
    """Slow clients until the test itself was not kept from taking, since that would say nothing; and the others beside them."""
    for _ in range(5):
        clients = begin()
        slow = [Slow(client, count) for client in clients]
        others = beside(slow, asks)
        for client in clients:
            client.close()
        if all(it.gap < limit / 2 for it in slow):
            break
    return slow, others


def slow_takers(listen, is_whole):
    count, limit, many = (400_000_000, 10, 3) if is_whole else (10_000_000, 1, 1)
    with listening(listen, [word for name in ("idle", "head", "stall", "linger") for word in (f"--{name}", str(limit))]) as it:

        def begin():
            clients = [it.connect() for _ in range(many)]
            for client in clients:
                client.sendall(b"get %d\n" % count)
            return clients

        slow, (right, wrong, longest) = taken_beside(begin, count, limit, lambda: it.asks(b"get 3\nput 5\n12345") == pattern(3) + b"ok 5\n")
        yield f"{count} bytes that are taken at 2 MB a second arrive whole, {many} times; nothing came for {max(each.wait for each in slow):.1f} s at most", all(each.is_whole() for each in slow)
        yield f"beside them {right} are answered, {wrong} not, within {longest:.1f} s; the listener takes {it.memory():.0f} MB", right > 10 and not wrong and it.memory() < 20
        yield "slow takers: a clean end", it.end() == 0


def downloads(listen, davserve, is_whole):
    """The same of a file of the server."""
    count, limit, many = (400_000_000, 10, 3) if is_whole else (10_000_000, 2, 1)
    words = [word for name in ("idle", "head", "stall", "linger") for word in (f"--{name}", str(limit))]
    program = [davserve, "--max-body", "500000000", "--unfinished", "1000000000"]
    with listening(listen, words, program=program) as it:
        with it.connect() as client:
            client.sendall(b"PUT /long HTTP/1.1\r\nHost: h\r\nContent-Length: %d\r\n\r\n" % count)
            for at in range(0, count, 251_000):
                client.sendall(pattern(min(251_000, count - at)))
            yield "a long upload", receive(client, 20) == b"HTTP/1.1 201 Created"

        def begin():
            clients = [it.connect() for _ in range(many)]
            for client in clients:
                client.sendall(b"GET /long HTTP/1.1\r\nHost: h\r\n\r\n")
                head = b""
                while not head.endswith(b"\r\n\r\n"):
                    head += receive(client, 1)
            return clients

        asked = b"PUT /a HTTP/1.1\r\nHost: h\r\nContent-Length: 1000\r\n\r\n" + pattern(1000) + b"GET /a HTTP/1.1\r\nHost: h\r\n\r\n"
        slow, (right, wrong, longest) = taken_beside(begin, count, limit, lambda: (it.asks(asked) or b"").endswith(b"\r\n\r\n" + pattern(1000)))
        yield f"{count} bytes of a file that are taken at 2 MB a second arrive whole, {many} times; nothing came for {max(each.wait for each in slow):.1f} s at most", all(each.is_whole() for each in slow)
        taken = memory_of(it.program()) / 1000
        yield f"beside them {right} are answered, {wrong} not, within {longest:.1f} s; the listener takes {it.memory():.0f} MB, the server {taken:.0f}", right > 10 and not wrong and it.memory() < 20
        yield "downloads: a clean end", it.end() == 0


def long_work(listen, is_whole):
    """The program does nothing else for a while: nobody is closed for that, however short the limits are."""
    return in_time(lambda limit: long_work_within(listen, limit, 120 if is_whole else 3 * limit))


def long_work_within(listen, limit, delay):
    """The rows of twenty clients, or none where they begin too late."""
    words = [word for name in ("idle", "head", "stall") for word in (f"--{name}", str(limit))]
    with listening(listen, words) as it:
        began = time.monotonic()
        clients = [it.connect() for _ in range(20)]
        with contextlib.suppress(OSError):
            for client in clients[1:]:
                client.sendall(b"get 3\n")
                receive(client, 3)
            clients[0].sendall(b"work %d\n" % (1000 * delay))
            time.sleep(0.2)
            for client in clients[1:]:
                client.sendall(b"get 300000\n")
        if time.monotonic() > began + 0.8 * limit:
            return None
        rows = [(f"an answer that is late by {delay} s", receive(clients[0], 3) == b"ok\n")]
        rows.append(("and those who waited with it", all(receive(client, 300_000) == pattern(300_000) for client in clients[1:])))
        for client in clients:
            reset(client)
        return [*rows, ("long work: a clean end", it.end() == 0)]


async def watched(it, clients, seconds):
    """What random clients come to, and the memory of the listener meanwhile, in kilobytes."""
    played, seen = asyncio.ensure_future(clients.play()), []
    end = time.monotonic() + seconds
    while time.monotonic() < end and not played.done():
        await asyncio.sleep(seconds / 120)
        seen.append(memory_of(it.child.pid, "VmRSS"))
    clients.left = 0
    return await played, seen


def random_load(listen, is_whole):
    return loaded(listen, 600 if is_whole else 6)


def loaded(listen, seconds, words=(), context=None):
    """Random clients for so long, by TLS where they have a context."""
    limits = [word for name in ("idle", "head", "stall") for word in (f"--{name}", "600")]
    with listening(listen, [*limits, *words], mode="echo") as it:
        before = it.files()
        clients = Clients(3, it.port, 1 << 60, context)
        counts, seen = asyncio.run(watched(it, clients, seconds))
        first, last = max(seen[: len(seen) // 2]), max(seen[len(seen) // 2 :])
        yield f"random load for {seconds} s: of {clients.played()} clients {counts['wrong']} are answered wrongly, {counts['bytes'] / 1e6:.0f} MB come back", counts["wrong"] == 0 and clients.played() > AT_ONCE
        yield f"its memory: {first / 1000:.1f} MB at most in the first half, {last / 1000:.1f} in the second", last < first + 4000 and last < 64_000
        yield "random load: nothing is left, and a clean end", it.files() - before < 10 and it.end() == 0
