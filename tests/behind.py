"""A program behind the listener, for its tests: it speaks the frames of davserve (docs/FORMATS.md), and checks each that comes.

behind.py serve|echo SEED [DEAF [WORD..]]     DEAF: once it is ready it reads nothing for so many seconds

It first tells that it is ready, with `--login` once it knows the users. Where READY_WHEN is set, it waits for a file with this path before. Where NOTES is set, it appends its words to this file as it begins, and the moment; and the moment at which it ends by `end` or `die`.

With `serve` it answers lines: `get N` by N bytes, `last N` by N bytes behind which the connection is over, `wait N` by `ok` after so many milliseconds, `work N` by the same while it does nothing else, `put N` and N bytes behind it by `ok` and N, `who` by the address that was told of its client, `know` by `ok`, behind which the listener is told that a user was let in, `hang` by `ok`, behind which no touch has an answer, `users` by the names of the users, `free` by each number of free bytes that was told, and any other by
`refused`, behind which the connection is over. At `end N` it ends with this status, at `die` by SIGKILL. With `echo` it sends back what comes. What it tells is cut at random, and so it asks for more. Ends with 0, and says how many connections are left that are neither over nor gone; or with 4 and a reason where a frame is wrong. It says which clients were late, and how many connections had no place.

With `--store` it takes word of what is free on the disk once it is ready, and else it wants none. With `--lease` it first tells that it has the lock, and a lease before it of LOCKED seconds, 1 where that isn't set; it waits for `go`, and for a touch, and each touch has its answer. With `--login` it wants the users first of all, and else it wants none. A line of theirs without a colon is wrong: its number is told, and where these are the first users it ends with 7; else those before stay.
"""
import json
import os
import random
import select
import signal
import sys
import time

WINDOW, LARGEST, MOST = 262_144, 1_048_576, 1 << 63
HALF = WINDOW // 2
PATTERN = bytes(n % 251 for n in range(251 * 1024))


def note(*what):
    """Appends something to the notes, and the moment."""
    if path := os.environ.get("NOTES"):
        with open(path, "a", encoding="utf-8") as notes:
            print(json.dumps([time.monotonic(), *what]), file=notes)


def pattern(count):
    return (PATTERN * (count // len(PATTERN) + 1))[:count]


class Connection:
    def __init__(self):
        self.came, self.allowed, self.handed, self.taken = 0, WINDOW, 0, 0
        # What is not yet looked at, what is not yet handed out, how many bytes of a body are left, and when an answer is due.
        self.text, self.out, self.body, self.due = bytearray(), bytearray(), 0, None
        self.put, self.address = 0, b""
        # Where a pattern goes on that is not yet in `out`, and how much of it is left.
        self.at = self.left = 0
        # Whether it sends no more, is gone, is to be closed, and is closed; and whether something has come that it was not told of.
        self.has_ended = self.is_gone = self.closes = self.is_over = self.is_new = False
        # Whether the listener is still to be told that a user was let in.
        self.is_known = False


    def is_told(self):
        """Whether something is left to be handed out."""
        return bool(self.out or self.left)

    def fill(self):
        """Makes the next piece of the pattern where nothing else is there."""
        if not self.out and self.left:
            count, start = min(self.left, len(PATTERN) - 251), self.at % 251
            self.out += PATTERN[start : start + count]
            self.at, self.left = self.at + count, self.left - count


class Program:
    def __init__(self, mode, seed, deaf, logs_in=False, has_store=False, has_lease=False):
        self.mode, self.random, self.begun, self.asked = mode, random.Random(seed), 0, 0
        # What was told of the client that comes next; the names of the users; and whether they have to come first.
        self.address, self.users, self.logs_in = None, None, logs_in
        self.free, self.has_store = [], has_store
        # What is waited for next of a lease; and whether touches have an answer.
        self.awaits, self.hangs = (b"go" if has_lease else None), False
        self.connections, self.input, self.output, self.is_open = {}, bytearray(), bytearray(), True
        # The numbers of those that something came of, or whose answer is due later.
        self.touched = set()
        self.deaf, self.is_ready = deaf, False
        if has_lease:
            self.output += b"locked %b\n" % os.environ.get("LOCKED", "1").encode()
            self.write()
        elif not logs_in:
            self.tell_ready()

    def tell_ready(self):
        path = os.environ.get("READY_WHEN")
        while path and not os.path.exists(path):
            time.sleep(0.02)
        self.output += b"ready\n"
        self.is_ready = True
        self.write()
        time.sleep(self.deaf)

    def wrong(self, why):
        print(f"behind: {why}", file=sys.stderr, flush=True)
        os._exit(4)

    def check(self, holds, why):
        if not holds:
            self.wrong(why)

    # ---- What comes.

    def frames(self):
        """Each frame that is whole: its words, and its bytes."""
        at = 0
        while (end := self.input.find(b"\n", at)) >= 0:
            words, behind = bytes(self.input[at:end]).split(b" "), end + 1
            length = int(words[1]) if len(words) == 2 and (words[0].isdigit() or words[0] == b"users") and words[1].isdigit() else 0
            self.check(length <= LARGEST, f"{words}")
            if len(self.input) < behind + length:
                break
            at = behind + length
            yield words, bytes(self.input[behind:at])
        del self.input[:at]
        self.check(len(self.input) < LARGEST + 48, "a long line")

    def take(self, words, piece):
        numbers = [int(word) for word in words if word.isdigit()]
        self.check(b" ".join(words) == b" ".join(b"%d" % int(word) if word.isdigit() else word for word in words), f"{words}")
        self.check(not self.logs_in or self.users is not None or words[0] == b"users", f"{words} before the users")
        if words == [b"none"]:
            self.asked -= 1
            self.check(self.asked >= 0, "none")
        elif words[0] == b"users" and len(words) == 2 and len(numbers) == 1 and self.logs_in:
            self.take_users(piece)
        elif words == [b"go"] and self.awaits == b"go":
            note("go")
            self.awaits = b"touch"
        elif words == [b"touch"] and self.awaits == b"touch":
            self.take_touch()
        elif words[0] == b"free" and len(words) == 2 and len(numbers) == 1 and self.has_store and self.is_ready:
            self.free.append(numbers[0])
        elif words[0] == b"from" and len(words) == 3 and words[1].isdigit():
            self.check(int(words[1]) == self.begun + 1 and 1 <= len(words[2]) <= 64 and all(33 <= byte <= 126 for byte in words[2]), f"{words}")
            self.address = words[2]
        elif words[0] == b"taken" and len(words) == 3 and len(numbers) == 2:
            self.take_taken(*numbers)
        elif words[0] == b"gone" and len(words) == 2 and len(numbers) == 1:
            self.check(numbers[0] in self.connections and not self.connections[numbers[0]].is_gone, f"{words}")
            self.connections[numbers[0]].is_gone = True
            self.connections[numbers[0]].text.clear()
        elif words[0] == b"late" and len(words) == 2 and len(numbers) == 1:
            self.check(numbers[0] in self.connections and not self.connections[numbers[0]].is_gone, f"{words}")
            print("late", numbers[0], file=sys.stderr, flush=True)
        elif words[0] == b"turned" and len(words) == 3 and words[2].isdigit():
            self.check(1 <= len(words[1]) <= 64 and all(33 <= byte <= 126 for byte in words[1]) and int(words[2]) > 0, f"{words}")
            print("turned", words[1].decode(), int(words[2]), file=sys.stderr, flush=True)
        elif len(words) == len(numbers) == 2:
            self.take_piece(numbers[0], piece)
        else:
            self.wrong(f"{words}")

    def take_touch(self):
        note("touch")
        if not self.hangs:
            self.output += b"touched\n"
            note("touched")
        if not self.is_ready:
            self.tell_ready()

    def take_users(self, text):
        lines = text.splitlines()
        wrong = next((place for place, line in enumerate(lines, 1) if b":" not in line), None)
        if wrong:
            print(f"behind: line {wrong} of the users is wrong", file=sys.stderr, flush=True)
            if self.users is None:
                os._exit(7)
        else:
            is_first, self.users = self.users is None, [line.partition(b":")[0] for line in lines]
            if is_first and not self.awaits:
                self.tell_ready()

    def take_taken(self, number, count):
        it = self.connections.get(number)
        self.check(it is not None and not it.is_gone, f"taken of {number}")
        it.taken += count
        self.touched.add(number)
        self.check(0 < count and it.taken <= it.handed, f"{number} has taken {it.taken} of {it.handed}")

    def take_piece(self, number, piece):
        if number not in self.connections:
            self.check(number == self.begun + 1, f"{number} begins behind {self.begun}")
            self.check(self.address is not None, f"{number} begins without an address")
            self.begun, self.connections[number] = number, Connection()
            self.connections[number].address, self.address = self.address, None
        it = self.connections[number]
        self.check(not it.has_ended and not it.is_gone, f"{number} goes on behind its end")
        it.has_ended = not piece
        it.came += len(piece)
        self.check(it.came <= it.allowed, f"{number} sends {it.came} where {it.allowed} are granted")
        if not it.is_over:
            it.text += piece
        it.is_new = True
        self.touched.add(number)

    # ---- What is told.

    def answer(self, it):
        """Looks at what has come of a connection, as far as it goes."""
        if self.mode == "echo":
            it.out += it.text
            it.text.clear()
        while it.text and it.due is None and not it.is_told() and not it.closes:
            if it.body:
                count = min(it.body, len(it.text))
                it.body -= count
                del it.text[:count]
                if not it.body:
                    it.out += b"ok %d\n" % it.put
                continue
            line, found, _ = it.text.partition(b"\n")
            if not found:
                break
            del it.text[: len(line) + 1]
            self.answer_line(it, *line.split())
        if it.has_ended and it.due is None and not it.is_told():
            # A client that stops within a request is told so.
            it.out += b"stopped\n" * bool(it.text or it.body)
            it.closes = True

    def answer_line(self, it, word=b"", count=b"0", *_):
        count = int(count) if count.isdigit() else 0
        if word in (b"get", b"last"):
            it.at, it.left = 0, count
            it.closes = word == b"last"
        elif word == b"wait":
            it.due = time.monotonic() + count / 1000
        elif word == b"work":
            time.sleep(count / 1000)
            it.out += b"ok\n"
        elif word == b"who":
            it.out += it.address + b"\n"
        elif word == b"know":
            it.out += b"ok\n"
            it.is_known = True
        elif word == b"users":
            it.out += b",".join(self.users or []) + b"\n"
        elif word == b"hang":
            it.out += b"ok\n"
            self.hangs = True
        elif word == b"free":
            it.out += b"%s\n" % b",".join(b"%d" % number for number in self.free)
        elif word == b"put":
            it.put = it.body = count
        elif word == b"end":
            note("ends")
            os._exit(count)
        elif word == b"die":
            note("ends")
            os.kill(os.getpid(), signal.SIGKILL)
        else:
            it.out += b"refused\n"
            it.closes = True

    def hand_out(self, number, it):
        """As far as its window goes, in pieces of any length."""
        while it.is_told() and (room := it.taken + WINDOW - it.handed) > 0:
            it.fill()
            count = min(room, len(it.out), self.random.choice([1, 1000, WINDOW, WINDOW, WINDOW]))
            self.output += b"%d %d\n" % (number, count) + it.out[:count]
            it.handed += count
            del it.out[:count]
        if it.closes and not it.is_told():
            it.is_over = True
            self.output += b"%d 0\n" % number

    def go_on(self, number, it):
        if it.due is not None and time.monotonic() >= it.due:
            it.out += b"ok\n"
            it.due = None
        while True:
            self.answer(it)
            if it.is_known:
                self.output += b"known %d\n" % number
                it.is_known = False
            had = it.is_told()
            self.hand_out(number, it)
            if it.is_over or it.is_told() or not had or it.due is not None:
                break
        if not it.is_over and not it.is_told() and it.due is None:
            if it.allowed - it.came < HALF and self.is_open:
                self.output += b"grant %d %d\n" % (number, WINDOW - (it.allowed - it.came))
                it.allowed = it.came + WINDOW
            if it.is_new and not it.has_ended:
                self.output += b"%b %d %d\n" % (b"owes" if it.text or it.body else b"rests", number, it.came)
            it.is_new = False

    def is_due(self, it):
        return it.due is not None and not it.is_over and not it.is_gone

    # ---- The streams.

    def write(self):
        while self.output:
            del self.output[: os.write(1, self.output[: 1 << 20])]

    def read(self):
        dues = [self.connections[number].due for number in self.touched]
        wait = max(0, min(dues) - time.monotonic()) if dues else None
        if select.select([0], [], [], wait)[0]:
            piece = os.read(0, self.random.choice([100, 1 << 16, 1 << 20]))
            self.is_open = bool(piece)
            self.input += piece

    def end_unheard(self):
        """The listener has ended, and reads nothing more: what it wrote before is still looked at."""
        while self.is_open:
            self.read()
            for words, piece in self.frames():
                self.take(words, piece)
        if not self.input:
            self.tell_left()

    def run(self):
        while self.is_open:
            self.read()
            for words, piece in self.frames():
                self.take(words, piece)
            for number in self.touched:
                if not self.connections[number].is_over and not self.connections[number].is_gone:
                    self.go_on(number, self.connections[number])
            self.touched = {number for number in self.touched if self.is_due(self.connections[number])}
            if not self.asked and self.is_open and self.is_ready and self.random.random() < 0.3:
                self.asked = 1
                self.output += b"more\n"
            try:
                self.write()
            except BrokenPipeError:
                self.end_unheard()
                raise
        self.check(not self.input, "the end within a frame")
        self.tell_left()

    def tell_left(self):
        print("left", sum(not it.is_over and not it.is_gone for it in self.connections.values()), file=sys.stderr, flush=True)


if __name__ == "__main__":
    note("begins", *sys.argv[4:])
    try:
        Program(sys.argv[1], int(sys.argv[2]), float(sys.argv[3]) if len(sys.argv) > 3 else 0, "--login" in sys.argv[4:], "--store" in sys.argv[4:], "--lease" in sys.argv[4:]).run()
    except BrokenPipeError:
        os._exit(1)
