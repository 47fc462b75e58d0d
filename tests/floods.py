"""Clients that take all places and hold them, and who goes for whom, for tests/listener. A proxy tells any address of theirs."""
import contextlib
import resource
import socket
import time

from behind import pattern
from listening import PATIENCE, is_closed, listening, receive, until
from proxies import proxied

PROXY = "127.0.0.2"
# A client of these sends so many bytes of a request at once, and so many each second.
KINDS = {"16 kB once": (16_000, 0), "1 MB once": (1_000_000, 0), "550 bytes a second": (1, 550)}
# By --rate, of which twice as much a second is enough.
RATE = 500


class Flood:
    """A listener of which such clients take all places, from so many addresses."""

    def __init__(self, it, count, kind, addresses):
        self.it, self.count = it, count
        self.first, self.each = KINDS[kind]
        self.clients = [self.connected(f"192.0.{number % addresses // 200}.{1 + number % addresses % 200}") for number in range(count)]
        for client in self.clients:
            self.send(client, b"put 100000000\n" + bytes(self.first))

    def connected(self, address, text=b""):
        client = socket.create_connection(("127.0.0.1", self.it.port), source_address=(PROXY, 0))
        client.settimeout(PATIENCE)
        client.sendall(proxied(address) + text)
        return client

    @staticmethod
    def send(client, text):
        with contextlib.suppress(OSError):
            client.sendall(text)

    def hold(self, seconds):
        """Goes on sending for so long."""
        ends = time.monotonic() + seconds
        while time.monotonic() < ends:
            for client in self.clients if self.each else ():
                self.send(client, bytes(self.each // 2))
            time.sleep(0.5)

    def serves(self, address):
        """Whether one who comes from an address is answered, and after how many seconds."""
        began = time.monotonic()
        with self.connected(address, b"get 3\n") as client:
            right = receive(client, 3) == pattern(3)
        return right, time.monotonic() - began

    def gone(self):
        return sum(map(is_closed, self.clients))

    def close(self):
        for client in self.clients:
            client.close()


def words_for(count, of_one):
    return ["--proxy-protocol", PROXY, "--connections", str(count), "--connections-per-address", str(of_one), "--head", "600", "--idle", "600"]


def floods(listen, is_whole):
    count = 1000 if is_whole else 100
    if is_whole:
        # So many files are its own, too.
        resource.setrlimit(resource.RLIMIT_NOFILE, (resource.getrlimit(resource.RLIMIT_NOFILE)[1],) * 2)
    for kind in KINDS:
        for addresses in (2, 9, count):
            with listening(listen, words_for(count, count // 2)) as it:
                flood = Flood(it, count, kind, addresses)
                flood.hold(1.5)
                right, seconds = flood.serves("198.51.100.1")
                what = f"{addresses} addresses, {kind}"
                yield f"an honest client is served beside {what}", right
                if is_whole:
                    yield f"within 2 s: {seconds:.2f}", seconds < 2
                yield f"one of them has gone for it: {what}", until(lambda: flood.gone() == 1)
                yield f"it is told: {what}", "all places were taken, and it owed a request and sent little" in it.told()
                flood.close()
                yield f"a clean end: {what}", it.end() == 0
    yield from who_goes(listen)


def who_goes(listen):
    """Of ten places. Of each part of the rows the last one comes when all are taken."""
    yield from of_a_crowd(listen)
    yield from of_users(listen)
    with listening(listen, words_for(10, 5)) as it:
        flood = Flood(it, 10, "16 kB once", 10)
        ends = time.monotonic() + 3
        while time.monotonic() < ends:
            for client in flood.clients:
                flood.send(client, bytes(4 * RATE // 5))
            time.sleep(0.2)
        yield "who sends twice the rate stays", flood.gone() == 0
        waits = flood.connected("198.51.100.1", b"get 3\n")
        for _ in range(5):
            for client in flood.clients:
                flood.send(client, bytes(4 * RATE // 5))
            time.sleep(0.2)
        yield "and the next one waits", flood.gone() == 0
        yield "until one sends less", receive(waits, 3) == pattern(3) and until(lambda: flood.gone() == 1)
        waits.close()
        flood.close()
        yield "who sends enough: a clean end", it.end() == 0


def owing(flood, address, text=b""):
    """A client that owes a request from now on."""
    client = flood.connected(address, text + b"put 100000000\n" + bytes(1000))
    time.sleep(0.3)
    return client


def of_a_crowd(listen):
    """One that has owed longest stays where two come from another address."""
    with listening(listen, words_for(10, 5)) as it:
        flood = Flood(it, 0, "16 kB once", 1)
        alone = owing(flood, "192.0.2.1")
        crowd = [owing(flood, "2001:db8::%d" % number) for number in (1, 2)]
        others = [owing(flood, f"192.0.2.{number}") for number in range(2, 9)]
        time.sleep(1.2)
        yield "where a crowd is one is served", flood.serves("198.51.100.1")[0]
        yield "and the first of the crowd goes", until(lambda: is_closed(crowd[0])) and not any(map(is_closed, [alone, crowd[1], *others]))
        for client in (alone, *crowd, *others):
            client.close()
        yield "a crowd: a clean end", it.end() == 0


def of_users(listen):
    """Of clients that come from ten addresses a user's stay, and so does whoever else comes from there."""
    with listening(listen, words_for(10, 5)) as it:
        flood = Flood(it, 0, "16 kB once", 1)
        with flood.connected("192.0.2.1", b"know\n") as user:
            yield "a user is let in", receive(user, 3) == b"ok\n"
        known = [owing(flood, "192.0.2.1"), owing(flood, "192.0.2.2", b"know\n")]
        others = [owing(flood, f"192.0.2.{number}") for number in range(3, 11)]
        time.sleep(1.2)
        for place in range(4):
            # It takes the place of the one that goes, and owes a request from then on.
            others.append(flood.connected(f"198.51.100.{place}", b"get 3\nput 100000000\n" + bytes(1000)))
            served = receive(others[-1], 3) == pattern(3)
            yield f"those that are not known go, in the order in which they came: {place}", served and until(lambda gone=place: is_closed(others[gone])) and not any(map(is_closed, others[place + 1 :]))
        yield "and no user", not any(map(is_closed, known))
        for client in known + others:
            client.close()
        yield "users: a clean end", it.end() == 0
