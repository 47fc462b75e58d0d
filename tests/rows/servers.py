"""Plays the rows of tests/rows/server on davserve, each text of them on a server of its own, over a store in which stands what is there at first."""
import contextlib
import functools
import glob
import os
import re
import subprocess
import tempfile

from forms import dated, written_out
from frames import LOCK_INFO, Listener, frame, pieces, request
from records import Record, flag, following, number, option, text, token_of

FOLDER = os.path.join(os.path.dirname(os.path.abspath(__file__)), "server")
BEGINNINGS = "beginnings"
# The bytes of each text come in pieces of so many.
SIZES = (1, 100, 8192)
GRANTED = re.compile(r"\{granted (\d+) ")
TOKEN = re.compile(rb"lock-token: <(urn:uuid:[0-9a-f-]{36})>")


def texts_of(name):
    """The texts of a file, each a list of its lines. What stands before the first empty line says what they are."""
    with open(os.path.join(FOLDER, name + ".rows"), encoding="utf-8") as file:
        texts = file.read().rstrip("\n").split("\n\n")
    return [text.split("\n") for text in texts if not text.startswith("# ")]


@functools.lru_cache
def beginnings():
    """What texts go on behind, by their names."""
    return {name: lines for name, *lines in texts_of(BEGINNINGS)}


def whole(lines):
    """The lines of a text, behind the beginning that its first line names, if it does."""
    if lines[0].startswith("behind "):
        return beginnings()[lines[0].removeprefix("behind ")] + lines[1:]
    return lines


def folder_of(path):
    """A path as a command on folders and files has it in a record."""
    return path.encode().rstrip(b"/") + b"/"


class Scenario:
    """What stands at first, what a server is sent, and what it is to answer."""

    def __init__(self, lines, granted):
        _, self.prefix, self.header, self.clock, *more = lines[0].split()
        self.scheme, self.longest, self.finite = (more + [None] * 3)[:3]
        self.records, self.tokens, self.rows = [], [], []
        # Where locks stand at first, those that are granted are known by the answers alone: a server with a store takes no seed.
        self.foreseen, self.second = iter(granted), int(self.clock) // 1_000_000_000
        for line in lines[1:]:
            self.add(line)

    def add(self, line):
        asked, found, answer = line.partition(" = ")
        word, _, rest = line.partition(" ")
        if found:
            self.rows.append((line, asked, answer, self.second))
        elif word == "grants":
            self.tokens += [None if self.records else next(self.foreseen) for _ in range(int(rest))]
        elif word == "second":
            self.second = int(rest)
        elif word == "folder":
            record = Record(0)
            record.note(2, following(b"", folder_of(rest)))
            self.records.append(record.hex())
        else:
            self.lock(*rest.split())

    def lock(self, who, scope, depth, path, seconds=None):
        drawn, record = bytes([len(self.tokens)] * 16), Record(0)
        fields = text(b"") + following(b"", unescaped(path)) + option(None) + option(seconds and number(int(seconds))) + flag(scope == "shared") + flag(depth == "deep")
        record.note(7, fields, (who.encode(), ()), drawn)
        self.records.append(record.hex())
        self.tokens.append(token_of(drawn).decode())

    def words(self, store):
        chosen = [("--prefix", self.prefix), ("--user-header", self.header.strip("-")), ("--scheme", self.scheme), ("--longest-timeout", self.longest), ("--propfind-depth", self.finite)]
        chosen.append(("--store", store) if self.records else ("--seed", "1"))
        return ["--clock", "frames", *(word for name, value in chosen if value for word in (name, value))]

    def clock_told(self):
        """The frame that sets the clock, which stands at 0 before: so what stands at first is of moment 0."""
        return b"clock %d\n" % int(self.clock)

    def difference(self, davserve, store, size):
        """The first row that is answered otherwise where the bytes come in pieces of this size, and what was answered; None where each is right."""
        play = self.one_by_one if None in self.tokens else self.at_once
        return play([davserve, *self.words(store)], size)

    def at_once(self, command, size):
        """All requests are sent, and then all answers compared."""
        sent = b"".join(written_out(asked, self.tokens) for _, asked, _, _ in self.rows)
        given = self.clock_told() + b"".join(frame(1, sent[at : at + size]) for at in range(0, len(sent), size))
        ran = subprocess.run(command, input=given, capture_output=True, timeout=100, check=False)
        told = b"".join(pieces(ran.stdout)[1])
        for line, _, answer, second in self.rows:
            wanted = dated(written_out(answer, self.tokens), second)
            if told[: len(wanted)] != wanted:
                return f"{line}, not {told[: len(wanted) + 40]} {ran.stderr[-200:]}"
            told = told[len(wanted) :]
        return f"{told[:100]} is told behind the last row" if told or ran.returncode else None

    def one_by_one(self, command, size):
        """Each request is sent once the one before is answered, since it may name a token that was granted then."""
        listener, tokens, before = Listener(command), list(self.tokens), 0
        listener.say(self.clock_told())
        try:
            for line, asked, answer, second in self.rows:
                listener.send(1, written_out(asked, tokens), size)
                listener.settle()
                told = listener.text(1)[before:]
                before += len(told)
                if granting := GRANTED.match(answer):
                    token = TOKEN.search(told)
                    if not token or token[1].decode() in tokens:
                        return f"{line}, not {told}"
                    tokens[int(granting[1])] = token[1].decode()
                if told != dated(written_out(answer, tokens), second):
                    return f"{line}, not {told}"
            return None
        finally:
            listener.end()


def unescaped(path):
    return re.sub(rb"%(..)", lambda found: bytes([int(found[1], 16)]), path.encode())


def tokens_of(davserve, count):
    """The tokens that the server grants with seed 1, in order."""
    requests = b"".join(request(b"LOCK /%d" % number, LOCK_INFO) for number in range(count))
    ran = subprocess.run([davserve, "--seed", "1", "--clock", "frames"], input=frame(1, requests), capture_output=True, timeout=100, check=True)
    return [token.decode() for token in TOKEN.findall(b"".join(pieces(ran.stdout)[1]))]


def stored(journalplay, path, records):
    """Makes a store of these records."""
    lines = "".join(f"append {record}\n" for record in records).encode()
    subprocess.run([journalplay, "--key", "7", "--began", "0", path], input=lines, stdout=subprocess.DEVNULL, check=True)


def rows(davserve, journalplay):
    """Each text in each size of pieces: its name, with the row that is answered otherwise, and whether none is."""
    granted = tokens_of(davserve, 20)
    with tempfile.TemporaryDirectory() as where:
        store = os.path.join(where, "store")
        for path in sorted(glob.glob(os.path.join(FOLDER, "*.rows"))):
            name = os.path.basename(path)[: -len(".rows")]
            for place, lines in enumerate(texts_of(name) if name != BEGINNINGS else ()):
                scenario = Scenario(whole(lines), granted)
                for size in SIZES:
                    if scenario.records:
                        stored(journalplay, store, scenario.records)
                    difference = scenario.difference(davserve, store, size)
                    yield f"server/{name}.rows, text {place + 1}, in pieces of {size}: {difference}", difference is None
                    with contextlib.suppress(FileNotFoundError):
                        os.remove(store)
