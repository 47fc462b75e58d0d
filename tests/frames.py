"""What the tests say to davserve, and how they read what it says: requests, the frames of many connections, and a listener that speaks them (docs/FORMATS.md)."""
import collections
import os
import select
import subprocess
import time

LOCK_INFO = b'<D:lockinfo xmlns:D="DAV:"><D:lockscope><D:exclusive/></D:lockscope><D:locktype><D:write/></D:locktype></D:lockinfo>'

INTERIM = b"HTTP/1.1 100 Continue\r\n\r\n"

# How far the program goes before it is said what was taken, and a client before it is granted more.
WINDOW = 262_144
HALF = WINDOW // 2
# A frame has so many bytes at most, and where nothing else is said the tests send so many.
LARGEST, PIECE = 1_048_576, 65_536
# Where a request with a body of more bytes is refused, the connection is closed.
LONG_BODY = 524_288
# Whoever waits so many seconds for the program waits for ever.
PATIENCE = 120


def request(line, body=None, more=b"", host=b"h"):
    length = b"" if body is None else b"Content-Length: %d\r\n" % len(body)
    return line + b" HTTP/1.1\r\nHost: %b\r\n" % host + more + length + b"\r\n" + (body or b"")


def frame(number, piece=b""):
    return b"%d %d\n" % (number, len(piece)) + piece


def serve(program, words, text):
    """What the program writes where all of its input is there at once, and its status."""
    ran = subprocess.run([program, *words], input=text, stdout=subprocess.PIPE, stderr=subprocess.DEVNULL, timeout=PATIENCE, check=False)
    return ran.stdout, ran.returncode


READY = b"ready\n"


def pieces(out):
    """The pieces of each connection, by its number, of a program that is ready first of all, or tells nothing. A ValueError where it isn't, or a frame is not whole. What else the program tells is left out: the end of a stored input is the answer to it."""
    told = collections.defaultdict(list)
    if out and not out.startswith(READY):
        raise ValueError("the program is not ready first of all")
    out = out[len(READY) :]
    while out:
        head, found, out = out.partition(b"\n")
        if head == b"more" or head.split()[0] in (b"grant", b"rests", b"owes", b"known"):
            continue
        number, length = map(int, head.split())
        if not found or len(out) < length:
            raise ValueError("a frame is cut")
        told[number].append(out[:length])
        out = out[length:]
    return told


def answer_end(text, method):
    """Where the first answer of a text ends, which is one to this method; what was told before it, with a status below 200, belongs to it. None where it is
    not whole."""
    at, status = 0, 100
    while status < 200:
        head, found, _ = text[at:].partition(b"\r\n\r\n")
        if not found:
            return None
        line, *fields = head.split(b"\r\n")
        status = int(line.split()[1])
        at += len(head) + len(found)
    if method == b"HEAD" or status in (204, 304):
        return at
    lengths = [int(field.partition(b": ")[2]) for field in fields if field.startswith(b"content-length: ")]
    end = at + lengths[0] if len(lengths) == 1 else None
    return end if end is not None and end <= len(text) else None


class Client:
    """One connection, as the listener knows it."""

    def __init__(self):
        # What is still to be sent, how much was sent, and how much may be sent in all.
        self.waiting, self.sent, self.allowed = collections.deque(), 0, WINDOW
        # How much was sent where each of its frames ended.
        self.borders = {0}
        # How much was handed out, and how much of it was said to be taken.
        self.handed, self.taken = 0, 0
        # What was told of its rest last: the word and the bytes.
        self.rest = None, 0
        # Whether it sends no more, is gone, or was closed.
        self.has_ended = self.is_gone = self.is_over = False


class Listener:
    """Runs a program and speaks its frames for clients: sends no more than is granted, answers `more`, and says what was taken. It never stops reading.

    What the program says on standard error goes to `said`.
    A client takes all that it is told, but for the numbers in `slow`: for these `take` says it. `hear` is called with each piece, and `asked` before the answer to each `more`.
    What the program does wrong by the frames alone stands in `wrong`.
    """

    def __init__(self, words, said=subprocess.DEVNULL):
        self.child = subprocess.Popen(words, stdin=subprocess.PIPE, stdout=subprocess.PIPE, stderr=said)
        self.to, self.of = self.child.stdin.fileno(), self.child.stdout.fileno()
        os.set_blocking(self.to, False)
        self.clients, self.slow, self.told, self.wrong = {}, set(), collections.defaultdict(list), []
        # Those of whom it isn't known that all that they sent is answered; and on which a user was let in.
        self.busy, self.known = set(), []
        self.out, self.line, self.number, self.left, self.is_ready = bytearray(), b"", 0, 0, False
        # Whether more may be said, and whether the program has ended; its status then, and its processor seconds.
        self.is_open, self.has_ended, self.status, self.seconds = True, False, None, 0
        self.hear, self.asked = self.keep, lambda: None

    def keep(self, number, piece):
        self.told[number].append(piece)

    def text(self, number):
        return b"".join(self.told[number])

    # ---- What the clients do.

    def say(self, line):
        if self.is_open:
            self.out += line

    def push(self, number, piece):
        """A frame of a client, whatever is granted."""
        client = self.clients.setdefault(number, Client())
        client.sent += len(piece)
        client.borders.add(client.sent)
        client.has_ended |= not piece
        if not client.is_over and not client.is_gone:
            self.busy.add(number)
        self.say(frame(number, piece))

    def send(self, number, text, most=PIECE):
        """Bytes that a client sends, in frames of so many at most; none where it sends no more. What isn't granted waits."""
        client = self.clients.setdefault(number, Client())
        if not client.is_over and not client.is_gone:
            client.waiting += [text[at : at + most] for at in range(0, len(text) or 1, most)]
            self.busy.add(number)
        self.pass_on(number, client)

    def pass_on(self, number, client):
        while client.waiting and self.is_open:
            piece, room = client.waiting[0], client.allowed - client.sent
            if piece and not room:
                return
            if len(piece) > room:
                client.waiting[0] = piece[room:]
            else:
                client.waiting.popleft()
            self.push(number, piece[:room])

    def take(self, number, count):
        """A client takes so many bytes more."""
        if self.is_open:
            self.clients[number].taken += count
            self.say(b"taken %d %d\n" % (number, count))

    def go(self, number):
        """A client is gone."""
        self.clients[number].is_gone = True
        self.clients[number].waiting.clear()
        self.busy.discard(number)
        self.say(b"gone %d\n" % number)

    # ---- What the program tells.

    def step(self, seconds=None):
        """Writes and reads what can be, and waits for it for a while. Whether something was."""
        wanted = select.poll()
        wanted.register(self.of, select.POLLIN)
        if self.out:
            wanted.register(self.to, select.POLLOUT)
        ready = wanted.poll(1000 * (PATIENCE if seconds is None else seconds))
        for file, _ in ready:
            if file == self.to:
                try:
                    del self.out[: os.write(self.to, self.out)]
                except BrokenPipeError:
                    self.out.clear()
            elif text := os.read(self.of, 1 << 20):
                self.read(text)
            else:
                self.has_ended = True
        return bool(ready)

    def until(self, holds):
        """Whether it holds at last: not where the program ends first, or nothing comes for too long."""
        end = time.monotonic() + 3 * PATIENCE
        while not holds():
            if self.has_ended or not self.step() or time.monotonic() > end:
                return False
        return True

    def settle(self):
        """Waits until all that was sent is answered, and all is told of it. The clients that are slow are not waited for."""
        return self.until(lambda: not self.out and self.busy <= self.slow)

    def end(self, last=b""):
        """The status of the program, once its input has ended, with this last, and all was read."""
        self.until(lambda: not self.out)
        self.say(last)
        self.is_open = False
        self.until(lambda: not self.out)
        self.out.clear()
        self.child.stdin.close()
        while not self.has_ended and self.step():
            pass
        if not self.has_ended:
            self.child.kill()
        _, status, usage = os.wait4(self.child.pid, 0)
        self.child.stdout.close()
        self.child.returncode = self.status = os.waitstatus_to_exitcode(status)
        self.seconds = usage.ru_utime + usage.ru_stime
        return self.status

    def read(self, text):
        at = 0
        while at < len(text):
            if self.left:
                piece = text[at : at + self.left]
                self.left -= len(piece)
                at += len(piece)
                self.read_piece(self.number, piece)
                continue
            end = text.find(b"\n", at)
            if end < 0:
                self.line += text[at:]
                return
            words = (self.line + text[at:end]).split(b" ")
            self.line, at = b"", end + 1
            if not self.is_ready:
                self.is_ready = True
                if words != [b"ready"]:
                    self.wrong.append(f"the line {words[:4]} is told before it is ready")
            elif words == [b"more"]:
                self.asked()
                self.say(b"none\n")
            elif len(words) == 2 and all(map(bytes.isdigit, words)):
                self.number, self.left = map(int, words)
                if not self.left:
                    self.read_piece(self.number, b"")
            elif len(words) == 2 and words[0] == b"known" and words[1].isdigit():
                self.known.append(int(words[1]))
            elif len(words) == 3 and words[0] in (b"grant", b"rests", b"owes") and all(map(bytes.isdigit, words[1:])):
                self.read_line(words[0], *map(int, words[1:]))
            else:
                self.wrong.append(f"the line {words[:4]} is told")

    def read_piece(self, number, piece):
        client = self.clients.get(number)
        if not client or client.is_over:
            self.wrong.append(f"connection {number} is told something where it is not there")
            return
        client.handed += len(piece)
        if client.handed > client.taken + WINDOW and self.is_open:
            self.wrong.append(f"connection {number} is handed out {client.handed} bytes where {client.taken} were taken")
        self.hear(number, piece)
        if not piece:
            client.is_over = True
            client.waiting.clear()
            self.busy.discard(number)
        elif number not in self.slow and client.handed - client.taken >= HALF and not client.is_gone:
            self.take(number, client.handed - client.taken)

    def read_line(self, word, number, count):
        client = self.clients.get(number)
        if not client or client.is_over:
            self.wrong.append(f"{word} is told of connection {number} where it is not there")
        elif word == b"grant":
            client.allowed += count
            if client.allowed - WINDOW not in client.borders or count <= HALF:
                self.wrong.append(f"connection {number} is granted {count}, and may send {client.allowed - client.sent} then")
            self.pass_on(number, client)
        else:
            if not client.rest[1] < count <= client.sent:
                self.wrong.append(f"connection {number} {word} {count} behind {client.rest}, and sent {client.sent}")
            client.rest = word, count
            if count == client.sent and not client.waiting and not client.has_ended:
                self.busy.discard(number)
