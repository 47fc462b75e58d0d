"""A plain model of davserve's connections, and random frames that are played before it.

What the program may choose is left open: how many frames it reads at a time, so in which order connections have their turns, and which moments their files get. What each connection is told, byte
by byte and in which order, is not; nor how far, and what is told of its rest and its grants. tests/frames.py looks at each line for itself.
"""
import os
import random
import re
from typing import NamedTuple

from frames import HALF, INTERIM, PIECE, WINDOW, Listener, request
from served import DATED, OPTIONS, WORDS, answer, file_told, made, refusal

# So many runs are played by one program, one behind another, and the last of them is cut off.
AT_ONCE = 20
# The connection that looks at what the others left.
LOOKS = 1

TAG = re.compile(rb'(etag: ")(\d+)(-|\Z)')
CLOSE = b"Connection: close\r\n"
NOTHING = b"HTTP/1.1 204 No Content\r\n" + DATED
ENDS = {
    0: [b""],
    1: [b"1", b"1 9\n", b"1 9\nabc", b"gone", b"taken 1 1", b"clock 1", b"free 1", b"from 1", b"users 9\nabc"],
    4: [b"x\n", b"\n", b"0 0\n", b"999999 1\nx", b"gone 999999\n", b"taken 999999 1\n", b"1 1048577\n", b"gone\n", b"none 1\n", b"taken 1 999999\n", b"from 1 a\n", b"from 999999 a\n", b"users 1048577\n", b"free\n", b"free -1\n", b"free 1 1\n", b"free 18446744073709551616\n"],
}


class Asked(NamedTuple):
    """A request, where it ends in what its client sends, what answers it, with 0 for each moment, and what stands in the client's file behind it."""

    text: bytes
    end: int
    answer: bytes
    content: bytes
    closes: bool


class Sender:
    """What a client means to send, and what it is told for it. It has a file of its own."""

    def __init__(self, number, kinds):
        self.number, self.path, self.kinds = number, b"/n%d" % number, kinds
        # What it asks, and how much of it was given to the listener.
        self.asked, self.text, self.passed = [], b"", 0
        # Whether it sent more than was granted; and how much it had sent when it was gone.
        self.is_beyond, self.most = False, None

    @property
    def content(self):
        return self.asked[-1].content if self.asked else None

    def ask(self, chance):
        if not self.asked or not self.asked[-1].closes:
            text, told, content, closes = self.choose(chance)
            self.text += text
            self.asked.append(Asked(text, len(self.text), told, content, closes))

    def choose(self, chance):
        kind, content = chance.choice(self.kinds), self.content
        if kind in ("put", "chunked", "expect", "large"):
            body = b"x" * chance.choice([0, 1, 100, 3000] if kind != "large" else [HALF, WINDOW, 2 * WINDOW - 7])
            text = request(b"PUT " + self.path, body, b"Expect: 100-continue\r\n" if kind == "expect" else b"")
            if kind == "chunked":
                text = request(b"PUT " + self.path, None, b"Transfer-Encoding: chunked\r\n") + (b"%x\r\n%b\r\n" % (len(body), body) if body else b"") + b"0\r\n\r\n"
            return text, made(0, len(body)) if content is None else NOTHING + b'etag: "0-%d"\r\n\r\n' % len(body), body, False
        if kind == "close":
            return request(b"OPTIONS /", None, CLOSE), OPTIONS.replace(b"\r\n\r\n", b"\r\n" + CLOSE.lower() + b"\r\n"), content, True
        if kind == "wrong":
            return b"\0\0\r\n\r\n", refusal(b"400 Bad Request"), content, True
        if kind == "options" or content is None and kind == "head":
            return request(b"OPTIONS /"), OPTIONS, content, False
        if content is None:
            return request(b"DELETE " * (kind == "delete") + b"GET " * (kind == "get") + self.path), answer(b"404 Not Found"), None, False
        if kind == "delete":
            return request(b"DELETE " + self.path), NOTHING + b"\r\n", None, False
        told = file_told(0, content)
        if kind == "head":
            # Without a body the server adds no length.
            told = told[: len(told) - len(content)] if content else told.replace(b"content-length: 0\r\n", b"")
        return request(kind.upper().encode() + b" " + self.path), told, content, False

    def cut(self, size):
        """So much of what it sends next; of bytes that are no request all."""
        start, end = self.passed, min(self.passed + size, len(self.text))
        last = self.asked[-1]
        if last.answer.startswith(b"HTTP/1.1 400") and end > last.end - len(last.text):
            end = last.end
        self.passed = end
        return self.text[start:end]

    def sent(self, client):
        """How much was sent of it that counts."""
        return client.sent if self.most is None else self.most

    def wanted(self, client):
        """All that it is told, by what was sent of it; whether it is closed then, and whether nothing of a next request has come."""
        told, done = [], 0
        for asked in self.asked:
            if asked.end > self.sent(client):
                break
            told.append(asked.answer)
            done = asked.end
            if asked.closes:
                return b"".join(told), True, True
        if client.has_ended and client.sent > done:
            told.append(refusal(b"400 Bad Request"))
        return b"".join(told), client.has_ended, client.sent == done

    def faults(self, listener, reach):
        """What is wrong with what it was told, where all is done that can be. `reach`: how far the program goes at most."""
        client, told = listener.clients[self.number], listener.text(self.number)
        wanted, is_closed, is_between = self.wanted(client)
        moments = [int(number) for _, number, _ in TAG.findall(told)]
        told = without_interims(TAG.sub(rb"\g<1>0\3", told), sum(b"Expect: " in asked.text for asked in self.asked))
        is_whole = told == wanted
        if not any(wanted.startswith(each) for each in shortened(told)):
            same = max(0, len(os.path.commonprefix([told, wanted])) - 60)
            yield f"is told, from byte {same} on, {told[same : same + 160]} and not {wanted[same : same + 160]}"
        elif client.is_gone or self.is_beyond:
            pass
        elif client.handed != reach if not is_whole else reach and client.handed > reach:
            yield f"is told {client.handed} bytes, where it may be told {reach}"
        elif is_whole and client.is_over != is_closed:
            yield "is closed" if client.is_over else "is not closed"
        if self.is_beyond and not client.is_over and not client.is_gone:
            yield "sends more than is granted, and is not closed"
        if self.number not in listener.busy and not client.is_over and not client.is_gone and is_whole:
            if client.rest[0] != (b"rests" if is_between else b"owes"):
                yield f"{client.rest} is told of its rest"
            if listener.is_open and client.allowed - client.sent < HALF:
                yield f"may send {client.allowed - client.sent} bytes and is granted no more"
        if moments != sorted(moments) or any(listener.moments.setdefault(each, self.number) != self.number for each in moments):
            yield "has a moment of another"

    def contents(self, client):
        """What may stand in its file once it is gone: each of its requests that had come may have been done, and those that were answered were."""
        answered = self.answered(client)
        return {None if not count else self.asked[count - 1].content for count in range(answered, len(self.asked) + 1) if not count or self.asked[count - 1].end <= self.sent(client)}

    def answered(self, client):
        """How many of its answers were told whole, at least."""
        left = client.handed - len(INTERIM) * len(self.asked)
        for count, asked in enumerate(self.asked):
            # (a moment has less than 20 digits more)
            left -= len(asked.answer) + 20
            if left < 0:
                return count
        return len(self.asked)


def without_interims(told, most):
    return told.replace(INTERIM, b"", most)


def shortened(told):
    """What was told, and where it may end within an interim answer, what was told before that."""
    yield told
    for size in range(1, len(INTERIM)):
        if told.endswith(INTERIM[:size]):
            yield told[:-size]


# What is asked in most runs, and in those in which answers and bodies are longer than the windows.
USUAL = ["options"] * 2 + ["get"] * 3 + ["head"] + ["put"] * 3 + ["chunked", "expect", "delete"] + ["options", "put"] * 4 + ["close", "wrong"]
LARGE = ["large"] * 2 + ["get"] * 5 + ["options", "put", "delete"]


class Run:
    """Random frames of a few clients."""

    def __init__(self, listener, first, seed):
        self.listener, self.chance, self.wrong = listener, random.Random(seed), []
        kinds = LARGE if self.chance.random() < 0.15 else USUAL
        self.senders = [Sender(first + place, kinds) for place in range(self.chance.randint(1, 5))]
        self.begun = 0
        for sender in self.senders:
            for _ in range(self.chance.choice([1, 2, 3, 8, 40] if kinds == USUAL else [3, 5])):
                sender.ask(self.chance)
            if self.chance.random() < (0.3 if kinds == USUAL else 0.6):
                listener.slow.add(sender.number)

    def steps(self):
        for _ in range(self.chance.randint(5, 40)):
            # One that has begun, or the next.
            at = self.chance.randrange(min(self.begun + 1, len(self.senders)))
            sender = self.senders[at]
            if at == self.begun:
                self.begun += 1
                self.name(sender)
                self.send(sender)
            else:
                self.chance.choice([self.send] * 10 + [self.take] * 4 + [self.settle] * 2 + [self.tell_clock, self.tell_users, self.tell_free, self.flush, self.end, self.go, self.go_beyond])(sender)
        # All that is left.
        for sender in self.senders[: self.begun]:
            if self.chance.random() < 0.7:
                self.send(sender, len(sender.text))

    def client(self, sender):
        return self.listener.clients[sender.number]

    def is_heard(self, sender):
        client = self.listener.clients.get(sender.number)
        return client is None or not (client.has_ended or client.is_gone or client.is_over or sender.is_beyond or b"" in client.waiting)

    def send(self, sender, size=None):
        if sender.passed < len(sender.text) and self.is_heard(sender):
            piece = sender.cut(size or self.chance.choice([1, 5, 40, 40, 300, 3000, 100_000, 1_000_000]))
            self.listener.send(sender.number, piece, self.chance.choice([100, PIECE, PIECE, WINDOW]) if len(piece) < 10_000 else PIECE)

    def take(self, sender):
        client = self.client(sender)
        if sender.number in self.listener.slow and client.handed > client.taken:
            self.listener.take(sender.number, self.chance.choice([1, client.handed - client.taken, self.chance.randint(1, client.handed - client.taken)]))

    def tell_clock(self, _sender):
        """Within the first second, so that no date shows it."""
        self.listener.say(b"clock %d\n" % self.chance.randrange(1_000_000_000))

    def name(self, sender):
        """Where it comes from, perhaps, and perhaps from elsewhere."""
        for _ in range(self.chance.choice([0, 1, 1, 1, 2])):
            address = bytes(self.chance.randrange(33, 127) for _ in range(self.chance.choice([1, 9, 64])))
            self.listener.say(b"from %d %b\n" % (sender.number, address))

    def tell_users(self, _sender):
        """To a server that asks nobody to log in."""
        text = self.chance.randbytes(self.chance.choice([0, 1, 100, 5000]))
        self.listener.say(b"users %d\n" % len(text) + text)

    def tell_free(self, _sender):
        self.listener.say(b"free %d\n" % self.chance.choice([0, self.chance.randrange(1 << 30), (1 << 64) - 1]))

    def flush(self, _sender):
        self.listener.step(0)

    def end(self, sender):
        if self.is_heard(sender):
            self.listener.send(sender.number, b"")

    def go(self, sender):
        """What comes of it behind that is dropped."""
        client = self.client(sender)
        if not client.is_gone:
            self.listener.go(sender.number)
            sender.most = client.sent
            if self.chance.random() < 0.5:
                if client.handed > client.taken:
                    self.listener.take(sender.number, client.handed - client.taken)
                self.listener.push(sender.number, sender.text[client.sent :][:1000] if self.chance.random() < 0.8 else b"")

    def go_beyond(self, sender):
        """Where all of it is settled, so that no grant is on its way."""
        client = self.client(sender)
        if self.chance.random() < 0.3 and sender.number not in self.listener.slow and self.is_heard(sender):
            self.settle(sender)
            if self.is_heard(sender):
                sender.is_beyond = True
                self.listener.push(sender.number, b"x" * (client.allowed - client.sent + self.chance.randint(1, 1000)))

    def settle(self, _sender=None):
        """All is answered, but what a slow client has no window left for."""
        if not self.listener.settle() or not self.listener.until(lambda: all(map(self.is_done, self.senders[: self.begun]))):
            self.wrong.append("not all is answered")
        for sender in self.senders[: self.begun]:
            self.look(sender, self.client(sender).taken + WINDOW)

    def is_done(self, sender):
        client = self.client(sender)
        return sender.number not in self.listener.busy or client.handed >= client.taken + WINDOW

    def look(self, sender, reach):
        self.wrong += [f"connection {sender.number} {why}" for why in sender.faults(self.listener, reach)]

    def finish(self):
        """Each client takes all and sends no more, or is gone; then all is looked at."""
        for sender in self.senders[: self.begun]:
            client = self.client(sender)
            if sender.number in self.listener.slow:
                self.listener.slow.discard(sender.number)
                if client.handed > client.taken and not client.is_gone:
                    self.listener.take(sender.number, client.handed - client.taken)
            self.end(sender)
        self.settle()
        for sender in self.senders[: self.begun]:
            client = self.client(sender)
            if client.is_gone:
                self.look_at_file(sender, client)
            del self.listener.clients[sender.number], self.listener.told[sender.number]

    def look_at_file(self, sender, client):
        """What stands there, once it is known that the program has read that the client is gone."""
        self.listener.send(LOOKS, request(b"GET " + sender.path))
        if not self.listener.settle():
            self.wrong.append("not all is answered")
        told = TAG.sub(rb"\g<1>0\3", self.listener.text(LOOKS))
        self.listener.told[LOOKS].clear()
        wanted = [answer(b"404 Not Found") if content is None else file_told(0, content) for content in sender.contents(client)]
        if told not in wanted:
            self.wrong.append(f"connection {sender.number} is gone, and its file is told as {told[-300:]}")

    def cut_off(self, status, last):
        """The input ends, perhaps within a frame, or a frame is wrong: all that came before is answered."""
        ended = self.listener.end(last)
        if ended != status:
            self.wrong.append(f"it ends with {ended} behind {last}")
        for sender in self.senders[: self.begun]:
            # The end of the input opens the windows.
            self.look(sender, self.client(sender).taken + WINDOW if status == 4 else None)


def play(program, seed, count):
    """Plays the runs with these seeds, and gives what is wrong with them, and how often `more` was asked."""
    listener, first, wrong, asked = Listener([program, *WORDS]), LOOKS + 1, [], []
    listener.moments, listener.asked = {}, lambda: asked.append(1)
    listener.send(LOOKS, request(b"OPTIONS /"))
    listener.settle()
    listener.told.clear()
    for each in range(seed, seed + count):
        run = Run(listener, first, each)
        run.steps()
        if each == seed + count - 1:
            status = run.chance.choice([*ENDS])
            run.cut_off(status, run.chance.choice(ENDS[status]))
        else:
            run.finish()
        first += run.begun
        wrong += [f"seed {each}: {why}" for why in run.wrong]
        if wrong or listener.has_ended:
            break
    return wrong + [f"seeds {seed} to {seed + count - 1}: {why}" for why in listener.wrong], len(asked)
