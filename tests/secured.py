"""Certificates, and clients of TLS that send what no library sends, for tests/tls."""
import contextlib
import ctypes
import os
import socket
import ssl
import subprocess


class Files:
    """Certificates and keys in a folder."""

    def __init__(self, folder):
        self.folder = folder
        self.make("one", "DNS:localhost", "ec")
        self.make("two", "DNS:two.example,DNS:*.wild.example", "ec")
        self.make("rsa", "DNS:localhost", "rsa")

    def path(self, name):
        return os.path.join(self.folder, name)

    def make(self, name, names, kind, days=20):
        key = ["rsa:2048"] if kind == "rsa" else ["ec", "-pkeyopt", "ec_paramgen_curve:P-256"]
        subprocess.run(["openssl", "req", "-x509", "-newkey", *key, "-nodes", "-days", str(days), "-subj", f"/CN={name}", "-addext", f"subjectAltName={names}", "-keyout", self.path(f"{name}.key"), "-out", self.path(f"{name}.pem")], stderr=subprocess.DEVNULL, check=True)

    def words(self, *names):
        return [word for name in names or ("one",) for word in ("--tls-cert", self.path(f"{name}.pem"), "--tls-key", self.path(f"{name}.key"))]

    def context(self, name="one", version=None):
        it = ssl.create_default_context(cafile=self.path(f"{name}.pem"))
        it.minimum_version = version or ssl.TLSVersion.TLSv1_2
        it.maximum_version = version or ssl.TLSVersion.TLSv1_3
        return it


class Client:
    """A client of TLS whose records are made here, and sent as the test wants."""

    def __init__(self, it, context, header=b"", name="localhost", session=None, room=None):
        self.socket = it.connect(room=room) if not isinstance(it, socket.socket) else it
        self.socket.sendall(header)
        self.into, self.out = ssl.MemoryBIO(), ssl.MemoryBIO()
        self.tls = context.wrap_bio(self.into, self.out, server_hostname=name, session=session)

    def go(self, call, *words):
        """Makes a call, sending and receiving for as long as it takes."""
        while True:
            try:
                return call(*words)
            except ssl.SSLWantReadError:
                self.push()
                piece = self.socket.recv(1 << 16)
                self.into.write(piece) if piece else self.into.write_eof()
            finally:
                self.push()

    def push(self):
        if self.out.pending:
            self.socket.sendall(self.out.read())

    def shake(self):
        self.go(self.tls.do_handshake)
        return self

    def send(self, text):
        for at in range(0, len(text), 1 << 14):
            self.tls.write(text[at : at + (1 << 14)])
            self.push()

    def receive(self, count):
        told = bytearray()
        while len(told) < count and (piece := self.go(self.tls.read, min(1 << 16, count - len(told)))):
            told += piece
        return bytes(told)

    def whole(self):
        """All that comes up to a close_notify; None where it ends without one."""
        told = bytearray()
        try:
            while piece := self.go(self.tls.read, 1 << 16):
                told += piece
        except ssl.SSLZeroReturnError:
            pass
        except OSError:
            return None
        return bytes(told)

    def end(self):
        """Says by a close_notify that it sends no more."""
        with contextlib.suppress(ssl.SSLError):
            self.tls.unwrap()
        self.push()

    def asks(self, text):
        self.shake().send(text)
        return self.receive(3)

    def close(self):
        self.socket.close()


def asks(it, context, text=b"get 3\n", **more):
    """What a client is told that asks, and says that it sends no more; None where that fails."""
    try:
        client = Client(it, context, **more).shake()
        client.send(text)
        client.end()
        told = client.whole()
        client.close()
        return told
    except OSError:
        return None


def key_updates(it, count):
    """A client of TLS 1.3, and records that change its keys so often. Python's own module makes none."""
    library = ctypes.CDLL("libssl.so.3")
    for name in ("TLS_client_method", "SSL_CTX_new", "SSL_new", "BIO_new", "BIO_s_mem", "BIO_new_socket"):
        getattr(library, name).restype = ctypes.c_void_p

    def call(name, *words):
        # What is no small number is a pointer.
        return getattr(library, name)(*(word if word < 1 << 31 else ctypes.c_void_p(word) for word in words))

    client = it.connect()
    client.settimeout(None)
    context = call("SSL_CTX_new", call("TLS_client_method"))
    session, wire, out = call("SSL_new", context), call("BIO_new_socket", client.fileno(), 0), call("BIO_new", call("BIO_s_mem"))
    call("SSL_set_bio", session, wire, wire)
    if call("SSL_connect", session) != 1:
        raise OSError("no handshake")
    call("SSL_set0_wbio", session, out)
    for _ in range(count):
        call("SSL_key_update", session, 0)
        call("SSL_do_handshake", session)
    text = ctypes.create_string_buffer(64 * count)
    length = library.BIO_read(ctypes.c_void_p(out), text, len(text))
    return client, text.raw[:length]


# A client that does nothing but handshakes with the port of its first word.
FLOOD = """
import socket, ssl, sys
context = ssl.create_default_context()
context.check_hostname, context.verify_mode = False, ssl.CERT_NONE
while True:
    try:
        with socket.create_connection(("127.0.0.1", int(sys.argv[1]))) as it, context.wrap_socket(it):
            pass
    except OSError:
        pass
"""
