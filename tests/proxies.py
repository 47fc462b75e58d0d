"""Proxies that tell where their clients are, by the PROXY protocol, for tests/tls."""
import contextlib
import socket
import struct
import time

from listening import PATIENCE, failed_start, is_closed, listening, receive, until, whole
from secured import Client

SIGNATURE = b"\r\n\r\n\0\r\nQUIT\n"


def proxied(address="", rest=b""):
    """A header of the PROXY protocol; without an address it is the proxy's own."""
    if not address:
        return SIGNATURE + b"\x20\0" + struct.pack(">H", len(rest)) + rest
    family, size = (0x21, 16) if ":" in address else (0x11, 4)
    body = socket.inet_pton(socket.AF_INET6 if ":" in address else socket.AF_INET, address) + bytes(size) + b"\1\2\3\4" + rest
    return SIGNATURE + bytes([0x21, family]) + struct.pack(">H", len(body)) + body


class Behind:
    """A listener whose clients come by proxies: at a plain address, by TLS, and at a unix socket."""

    def __init__(self, it, path):
        self.it, self.path = it, path
        self.port = int(it.urls[1].rstrip("/").rpartition(":")[2])

    def connected(self, source, header=b""):
        if source == "unix":
            client = socket.socket(socket.AF_UNIX)
            client.connect(self.path)
        else:
            client = socket.create_connection(("127.0.0.1", self.port), source_address=(source, 0))
        client.settimeout(PATIENCE)
        client.sendall(header)
        return client

    def told(self, source, header, text=b"who\n"):
        """What a client is told that asks where it is; None where its connection breaks."""
        with self.connected(source, header) as client, contextlib.suppress(OSError):
            client.sendall(text)
            client.shutdown(socket.SHUT_WR)
            return whole(client)
        return None


def proxies(listen, files):
    path = files.path("socket")
    words = ["--proxy-protocol", "127.0.0.2/31,unix", "--connections-per-address", "3", "--head", "1", "--linger", "0"]
    with listening(listen, [*words, *files.words(), "--listen", "127.0.0.1:0", "--listen", "127.0.0.1:0,plain", "--listen", f"unix:{path}"]) as it:
        behind = Behind(it, path)
        yield from addresses(behind)
        yield from no_headers(behind)
        yield from crowds(behind)
        with socket.create_connection(("127.0.0.1", it.port), source_address=("127.0.0.2", 0)) as inner:
            inner.settimeout(PATIENCE)
            client = Client(inner, files.context(), header=proxied("192.0.2.55")).shake()
            client.send(b"who\n")
            yield "a header before TLS", client.receive(11) == b"192.0.2.55\n"
        yield "proxies: a clean end, and nothing is left of them", it.end() == 0 and "left 0\n" in it.told()
    yield from turned_away(listen)
    yield from words_of_proxies(listen)


def addresses(behind):
    told = behind.told
    yield "who is no proxy is itself", told("127.0.0.1", b"") == b"127.0.0.1\n"
    yield "and may not say otherwise", told("127.0.0.1", proxied("192.0.2.1")) != b"192.0.2.1\n"
    for source in ("127.0.0.2", "127.0.0.3", "unix"):
        yield f"a client of {source}", told(source, proxied("192.0.2.1")) == b"192.0.2.1\n"
    yield "of IPv6", told("127.0.0.2", proxied("2001:db8::7")) == b"2001:db8::7\n"
    yield "of IPv4, as IPv6 has it", told("127.0.0.2", proxied("::ffff:192.0.2.3")) == b"192.0.2.3\n"
    yield "with more behind the addresses", told("127.0.0.2", proxied("192.0.2.1", bytes(1500))) == b"192.0.2.1\n"
    yield "the proxy itself", told("127.0.0.2", proxied()) == b"127.0.0.2\n" and told("unix", proxied()) == b"unix\n"
    with behind.connected("127.0.0.2") as client:
        for byte in proxied("192.0.2.1") + b"who\n":
            client.sendall(bytes([byte]))
            time.sleep(0.005)
        yield "a byte at a time", receive(client, 10) == b"192.0.2.1\n"


def no_headers(behind):
    behind.connected("127.0.0.2").close()
    time.sleep(0.3)
    yield "a proxy that only looks whether someone is there is not told", "refused" not in behind.it.told()
    for name, header in (("no header", b"who\nwho\nwho\nwho\nwho\n"), ("a header of the first version", b"PROXY TCP4 192.0.2.1 1.2.3.4 1 2\r\n"), ("a long header", proxied("192.0.2.1", bytes(3000))), ("a part of one, and its end", proxied("192.0.2.1")[:20])):
        yield f"{name} is refused", behind.told("127.0.0.2", header, b"") in (None, b"")
    yield "refusals are told, with the proxy", until(lambda: "refused: 127.0.0.2: a proxy: it begins with no header" in behind.it.told())
    with behind.connected("127.0.0.2", proxied("192.0.2.1")[:20]) as client:
        yield "a part of one is closed in time", whole(client) == b""


def crowds(behind):
    crowd = [behind.connected("127.0.0.2", proxied("192.0.2.9")) for _ in range(5)]
    yield "of five from one address two are sent away", until(lambda: sum(map(is_closed, crowd)) == 2)
    many = [behind.connected("127.0.0.2", proxied(f"192.0.2.{number}")) for number in range(100, 120)]
    for client in many:
        client.sendall(b"who\n")
    yield "of twenty from twenty none is", all(receive(client, 5) == b"192.0" for client in many)
    for client in crowd + many:
        client.close()


def turned_away(listen):
    """Those for whom there is no place are counted by their addresses, and the program is told."""
    with listening(listen, ["--connections-per-address", "2"]) as it:
        held = [it.connect() for _ in range(3)]
        yield "of three from one address one is turned away, which the program is told", until(lambda: "turned 127.0.0.1 1\n" in it.told()) and sum(map(is_closed, held)) == 1
        for client in held:
            client.close()
        yield "turned away: a clean end", it.end() == 0


def words_of_proxies(listen):
    """What its words may be, and what is told of them."""
    for proxies_of_words, program, text in [
        ("x", ["cat"], "x is no address of a proxy"), ("10.0.0.0/40", ["cat"], "10.0.0.0/40 is no network"), ("unix", ["cat", "--user-header", "X"], "not with --user-header"), ("unix", ["cat", "--address-header", "X"], "not with --address-header"),
    ]:
        status, told = failed_start(listen, ["--listen", "127.0.0.1:0", "--proxy-protocol", proxies_of_words], program)
        yield f"--proxy-protocol {proxies_of_words} {' '.join(program)}", status == 2 and text in told
    for proxies_of_words, told in (("10.0.0.0/8,127.0.0.1", "whoever is at 10.0.0.0/8 can say to be at any address"), ("127.0.0.0/8,unix,::1", "")):
        with listening(listen, ["--proxy-protocol", proxies_of_words]) as it:
            yield f"what is told of {proxies_of_words}", it.end() == 0 and ("can say to be" in it.told()) == bool(told) and told in it.told()
