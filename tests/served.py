"""Runs of davserve over frames: what is sent, what is wanted of the answers, and what the program takes."""
import hashlib
from typing import NamedTuple

from frames import Listener
from programs import memory_of

# The clock stands at 0, and no frame moves it.
WORDS = ["--seed", "1", "--clock", "frames"]

# So each answer of the server has this date.
EPOCH = b"Thu, 01 Jan 1970 00:00:00 GMT"
DATED = b"date: %s\r\n" % EPOCH

# In what is sent: what stands behind it comes once all before it is answered.
WAIT = (None, b"")

# The connection that is there before all others, and is answered behind them.
OTHER = 1
OTHER_PUT = b"PUT /other HTTP/1.1\r\nHost: h\r\nContent-Length: 10\r\n\r\nstill here"
OTHER_GET = b"GET /other HTTP/1.1\r\nHost: h\r\n\r\n"

OPTIONS = (
    b"HTTP/1.1 200 OK\r\n" + DATED + b"dav: 1, 2\r\nallow: OPTIONS, GET, HEAD, PUT, DELETE, COPY, MOVE, MKCOL, PROPFIND, PROPPATCH, LOCK, UNLOCK\r\n"
    b"ms-author-via: DAV\r\ncontent-length: 0\r\n\r\n"
)


def answer(status, body=b"", fields=b""):
    """An answer of the server, with its date."""
    return b"HTTP/1.1 %s\r\n%scontent-length: %d\r\n\r\n%s" % (status, DATED + fields, len(body), body)


def closing(text):
    """An answer behind which the connection is closed."""
    return text.replace(b"content-length: ", b"connection: close\r\ncontent-length: ", 1)


def refusal(status):
    """The answer to what the server never saw, which closes the connection."""
    return b"HTTP/1.1 %s\r\nconnection: close\r\ncontent-length: 0\r\n\r\n" % status


def made(moment, size=1):
    return answer(b"201 Created", b"", b'etag: "%d-%d"\r\n' % (moment, size))


def file_told(moment, text):
    fields = b'etag: "%d-%d"\r\nlast-modified: %s\r\ncontent-type: application/octet-stream\r\naccept-ranges: bytes\r\n'
    return answer(b"200 OK", text, fields % (moment, len(text), EPOCH))


class Exactly:
    """Wants one text, so many times, which may be too long to keep; and whether the connection is closed then."""

    def __init__(self, text, times=1, closed=False):
        self.text, self.times, self.closed = text, times, closed
        self.digest, self.begins, self.ends = hashlib.sha256(), b"", 0

    def take(self, piece):
        self.digest.update(piece)
        self.begins = self.begins or piece[:200]
        self.ends += not piece

    def is_right(self):
        wanted = hashlib.sha256()
        for _ in range(self.times):
            wanted.update(self.text)
        return self.digest.digest() == wanted.digest() and self.ends == self.closed


class Such:
    """Wants that something holds of the whole text, of a connection that stays open."""

    def __init__(self, holds):
        self.holds, self.pieces = holds, []

    def take(self, piece):
        self.pieces.append(piece)

    @property
    def begins(self):
        return b"".join(self.pieces)[:200]

    def is_right(self):
        return b"" not in self.pieces and self.holds(b"".join(self.pieces))


class Taken(NamedTuple):
    """The processor seconds of a run, and the most memory that it had, in megabytes."""

    seconds: float
    megabytes: float


def play(program, sent, wanted):
    """Sends pairs of a connection and its bytes, from the second connection on, and gives what is wrong with the answers, and what was taken.

    The memory is read when the first connection has its last answer, before the program is told of the end of its input.
    """
    listener, wanted = Listener([program, *WORDS]), {OTHER: Exactly(made(1, 10) + file_told(1, b"still here")), **wanted}
    listener.hear = lambda number, piece: wanted.setdefault(number, Exactly(b"")).take(piece)
    for number, text in [(OTHER, OTHER_PUT), *sent, WAIT, (OTHER, OTHER_GET), WAIT]:
        if number is not None:
            listener.send(number, text)
        elif not listener.settle():
            listener.wrong.append("not all is answered")
            break
    peak = 0 if listener.has_ended else memory_of(listener.child.pid) / 1000
    listener.end()
    wrong = listener.wrong[:3] + [f"connection {number} is told {each.begins}" for number, each in sorted(wanted.items()) if not each.is_right()][:3]
    if listener.status != 0:
        wrong.append(f"the program ends with {listener.status}")
    return wrong, Taken(listener.seconds, peak)
