"""The log of requests: a line for each, in one of three forms, of who was let in, and of those who were refused or sent away. For tests/server."""
import base64
import json
import os
import re
import subprocess
import tempfile

from frames import LONG_BODY, Listener, frame, pieces, request, serve

# The clock stands at 06/Nov/1994:08:49:37.
STANDS = 784111777
CLOCK = ["--clock", f"{STANDS}000000000"]


def line_of(user, asked, status, length, address=b"192.0.2.1"):
    """The form of a line of the log."""
    date = rb"\[06/Nov/1994:08:49:37 \+0000\]"
    told = re.escape(asked) + rb" HTTP/1\.1" if b" /" in asked else re.escape(asked)
    return re.compile(re.escape(address) + b" - " + re.escape(user) + b" " + date + b' "' + told + rb'" %d %d \d+' % (status, length))


def are(lines, forms):
    return len(lines) == len(forms) and all(form.fullmatch(line) for line, form in zip(lines, forms))


def logged(program):
    """Each answer has a line in the log, and no answer is another because of it."""
    clock = CLOCK
    asked = request(b"PUT /a%20b", b"12") + request(b"GET /a%20b?c=%22", None, b'X-User: a "b\\c\r\n') + request(b"GET /a", None, b"X-User: \xc3\xa9\r\n")
    text = b"from 1 192.0.2.1\n" + frame(1, asked) + frame(1)
    named = [line_of(b"-", b"PUT /a%20b", 201, 0), line_of(rb"a\x20\x22b\x5Cc", b"GET /a%20b?c=%22", 200, 2), line_of(rb"\xC3\xA9", b"GET /a", 404, 0)]
    with tempfile.TemporaryDirectory() as folder:
        log, moved, store = (os.path.join(folder, name) for name in ("log", "moved", "store"))

        def lines(path=log):
            with open(path, "rb") as file:
                return file.read().splitlines()

        plain = serve(program, clock, text)
        anonymous = [line_of(b"-", b"PUT /a%20b", 201, 0), line_of(b"-", b"GET /a%20b?c=%22", 200, 2), line_of(b"-", b"GET /a", 404, 0)]
        # The body of a 404 is none, and that of what stands in the way of a PUT without a user is none, too.
        yield "a log changes no answer", serve(program, ["--log", log, *clock], text) == plain and plain[1] == 0
        yield f"a line for each answer: {lines()}", are(lines(), anonymous)
        named[0] = line_of(b"-", b"PUT /a%20b", 401, 0)
        named[1] = line_of(rb"a\x20\x22b\x5Cc", b"GET /a%20b?c=%22", 404, 0)
        _, status = serve(program, ["--log", log, "--user-header", "x-user", "--store", store, *clock], text)
        yield f"lines with names, appended: {lines()[3:]}", are(lines(), anonymous + named) and status == 0
        listener = Listener([program, "--log", log, "--read-only", *clock])
        for name in (moved, None):
            listener.send(1, request(b"MKCOL /d"))
            listener.settle()
            if name:
                os.rename(log, name)
        listener.end()
        forbidden = line_of(b"-", b"MKCOL /d", 403, 0, b"-")
        yield f"a log that is moved away: {lines()}", are(lines(moved), anonymous + named + [forbidden]) and are(lines(), [forbidden]) and listener.status == 0
        ran = subprocess.run([program, "--log", "-", *clock], input=text, capture_output=True, timeout=100)
        yield f"a log on standard error: {ran.stderr}", are(ran.stderr.splitlines()[1:], anonymous)
        ran = subprocess.run([program, "--log", os.path.join(folder, "none", "log")], input=text, capture_output=True, timeout=100)
        yield "a log that can't be opened", (ran.returncode, ran.stdout) == (8, b"") and ran.stderr.startswith(b"the log is not opened: ")


# What a request has of a field that is to tell its client's address, and the address in its line.
TOLD = [
    (b"", b"192.0.2.1"),
    (b"X-Real-IP: 192.0.2.7\r\n", b"192.0.2.1"),
    (b"X-Forwarded-For: 192.0.2.7\r\n", b"192.0.2.7"),
    (b"x-forwarded-for: 2001:db8::7\r\n", b"2001:db8::7"),
    (b"X-Forwarded-For: 192.0.2.7, 192.0.2.8\r\n", b"192.0.2.8"),
    (b"X-Forwarded-For: 192.0.2.7,\t192.0.2.8 \t\r\n", b"192.0.2.8"),
    (b"X-Forwarded-For: 192.0.2.7\r\nX-Forwarded-For: 192.0.2.8\r\n", b"192.0.2.8"),
    (b"X-Forwarded-For: 192.0.2.7\r\nX-Forwarded-For: 192.0.2.8, 192.0.2.9\r\n", b"192.0.2.9"),
    (b"X-Forwarded-For: 192.0.2.7\r\nX-Forwarded-For:\r\n", b"192.0.2.1"),
    (b"X-Forwarded-For: 192.0.2.7,\r\n", b"192.0.2.1"),
    (b"X-Forwarded-For: 192.0.2.7 192.0.2.8\r\n", b"192.0.2.1"),
    (b"X-Forwarded-For: \xc3\xa9\r\n", b"192.0.2.1"),
    (b'X-Forwarded-For: "b\\c\r\n', rb"\x22b\x5Cc"),
    (b"X-Forwarded-For: " + b"7" * 64 + b"\r\n", b"7" * 64),
    (b"X-Forwarded-For: " + b"7" * 65 + b"\r\n", b"192.0.2.1"),
]


def addressed(program):
    """The address in a line is the one that the chosen field tells, or else the connection's."""
    clock = CLOCK
    asked = b"from 1 192.0.2.1\n" + frame(1, b"".join(request(b"GET /a", None, fields) for fields, _ in TOLD)) + frame(1)
    nowhere = frame(1, b"".join(request(b"GET /a", None, fields) for fields, _ in TOLD[1:3])) + frame(1)
    chosen = ["--address-header", "X-Forwarded-For"]
    for what, words, text, addresses in (
        ("told", chosen, asked, [address for _, address in TOLD]),
        ("not chosen", [], asked, [b"192.0.2.1"] * len(TOLD)),
        ("of a connection of which none was told", chosen, nowhere, [b"-", b"192.0.2.7"]),
        ("of another field", ["--address-header", "x-real-ip"], asked, [b"192.0.2.7" if b"Real" in fields else b"192.0.2.1" for fields, _ in TOLD]),
    ):
        with tempfile.TemporaryDirectory() as folder:
            log = os.path.join(folder, "log")
            plain = serve(program, clock, text)
            yield f"an address that is {what} changes no answer", serve(program, ["--log", log, *words, *clock], text) == plain == serve(program, [*words, *clock], text)
            with open(log, "rb") as file:
                lines = file.read().splitlines()
            yield f"addresses in a log, {what}: {lines}", are(lines, [line_of(b"-", b"GET /a", 404, 0, address) for address in addresses])


def lines_of(program, words, text):
    """The lines of a log, and the status of the program."""
    with tempfile.TemporaryDirectory() as folder:
        log = os.path.join(folder, "log")
        _, status = serve(program, ["--log", log, *words, *CLOCK], text)
        with open(log, "rb") as file:
            return file.read().splitlines(), status, os.stat(log).st_mode & 0o777


# What is refused by the connection itself, and with which status.
REFUSED = [
    (b"no request at all\r\n\r\n", 400),
    (request(b"GET /a", None, b"Host: two\r\n"), 400),
    (b"PUT /a HTTP/1.1\r\nHost: h\r\nContent-Length: 4\r\n\r\nab", 400),
    (b"PUT /a HTTP/1.1\r\nHost: h\r\nContent-Length: 2000\r\n\r\n", 413),
    (request(b"GET /" + b"a" * 66_000), 414),
    (request(b"GET /a", None, b"X: " + b"a" * 66_000 + b"\r\n"), 431),
    (request(b"GET /a", None, b"X: y\r\n" * 70), 431),
    (b"PUT /a HTTP/1.1\r\nHost: h\r\nTransfer-Encoding: gzip, chunked\r\n\r\n", 501),
]


def refused(program):
    """What a connection refuses by itself has a line, in its order among those of answers."""
    text = b"".join(b"from %d 192.0.2.1\n" % number + frame(number, asked) + frame(number) for number, (asked, _) in enumerate(REFUSED, 1))
    last = len(REFUSED) + 1
    text += b"from %d 192.0.2.1\n" % last + frame(last, request(b"GET /a") + b"none\r\n\r\n") + frame(last)
    wanted = [line_of(b"-", b"-", status, 0) for _, status in REFUSED] + [line_of(b"-", b"GET /a", 404, 0), line_of(b"-", b"-", 400, 0)]
    lines, status, mode = lines_of(program, ["--max-body", "1000"], text)
    out, _ = serve(program, ["--max-body", "1000", *CLOCK], text)
    told = [int(answer.split()[1]) for number in range(1, last) for answer in [b"".join(pieces(out)[number])]]
    yield f"refusals of the connection are those that were told: {told}", told == [status for _, status in REFUSED]
    yield f"and each has a line: {lines}", are(lines, wanted) and status == 0
    yield f"the log is for its owner and group: {mode:o}", mode == 0o640 & ~mask()


def mask():
    """That of new files."""
    now = os.umask(0)
    os.umask(now)
    return now


def sent_away(program):
    """Clients that were too slow, and connections that had no place, have lines where frames tell of them."""
    begun = b"from 1 192.0.2.1\n" + frame(1, request(b"GET /a"))
    text = begun + b"late 1\ngone 1\nturned 192.0.2.9 12\nturned others 18446744073709551615\n"
    wanted = [line_of(b"-", b"-", 408, 0), line_of(b"-", b"12 connections", 503, 0, b"192.0.2.9"), line_of(b"-", b"18446744073709551615 connections", 503, 0, b"others")]
    lines, status, _ = lines_of(program, [], text)
    yield f"those who were sent away: {lines}", are(lines, wanted) and status == 0
    for wrong in (b"late 2", b"late 0", b"late", b"late x", b"late 1 1", b"turned", b"turned 192.0.2.9", b"turned 192.0.2.9 x", b"turned 12", b"turned  12", b"turned 192.0.2.9 1 1", b"turned " + b"7" * 65 + b" 1"):
        out, status = serve(program, CLOCK, begun + wrong + b"\n")
        yield f"{wrong[:20]} is a wrong frame", status == 4 and b"HTTP/1.1 404 " in out


def in_forms(program):
    """The three forms of a line, and what none of them shows as it is."""
    fields = b'Referer: http://h/"x\xc3\r\nUser-Agent: a b\\c/1\r\n'
    text = b"from 1 192.0.2.1\n" + frame(1, request(b"GET /a?b=%22", None, fields) + request(b"HEAD /", None)) + b"turned 192.0.2.9 2\n" + frame(1)
    lines, _, _ = lines_of(program, ["--log-format", "common"], text)
    yield f"the common form, and HEAD without a length: {lines}", are(lines, [line_of(b"-", b"2 connections", 503, 0, b"192.0.2.9"), line_of(b"-", b"GET /a?b=%22", 404, 0), line_of(b"-", b"HEAD /", 200, 0)])
    lines, _, _ = lines_of(program, ["--log-format", "combined"], text)
    tails = [line.partition(b"] ")[2] for line in lines]
    forms = [rb'"2 connections" 503 0 "-" "-" \d+', rb'"GET /a\?b=%22 HTTP/1\.1" 404 0 "http://h/\\x22x\\xC3" "a b\\x5Cc/1" \d+', rb'"HEAD / HTTP/1\.1" 200 0 "-" "-" \d+']
    yield f"the combined form: {tails}", are(tails, list(map(re.compile, forms)))
    lines, _, _ = lines_of(program, ["--log-format", "json"], text)
    found = [json.loads(line) for line in lines]
    took = [one.pop("took") for one in found]
    common = {"time": STANDS, "address": "192.0.2.1", "user": "-", "bytes": 0, "referer": "-", "agent": "-"}
    wanted = [
        {**common, "address": "192.0.2.9", "request": "2 connections", "status": 503},
        {**common, "request": "GET /a?b=%22 HTTP/1.1", "status": 404, "referer": 'http://h/"x\xc3', "agent": "a b\\c/1"},
        {**common, "request": "HEAD / HTTP/1.1", "status": 200},
    ]
    yield f"the form of JSON: {found}", found == wanted and all(isinstance(one, int) for one in took)
    for words in (["--log", "x", "--log-format", "xml"], ["--log-format", "json"], ["--log", "x", "--log-format"]):
        yield f"{words[-2:]} are wrong words", serve(program, words, b"")[1] == 2


def of_whom(program):
    """A name stands in a line only where it was let in, and a listener is told of that once."""
    asked = request(b"GET /a", None, b"Authorization: Basic " + base64.b64encode(b"admin:x") + b"\r\n")
    lines, _, _ = lines_of(program, [], b"from 1 192.0.2.1\n" + frame(1, asked) + frame(1))
    yield f"a name that nobody asked for: {lines}", are(lines, [line_of(b"-", b"GET /a", 404, 0)])
    named = request(b"GET /a", None, b"X-User: ann\r\n")
    sent = [named * 3 + request(b"GET /a"), request(b"GET /a"), request(b"GET /a") + named]
    with tempfile.TemporaryDirectory() as folder:
        for words in ([], ["--store", os.path.join(folder, "store")], ["--read-only"]):
            listener = Listener([program, "--user-header", "x-user", *words])
            for number, asked in enumerate(sent, 1):
                listener.send(number, asked)
            listener.settle()
            listener.end()
            yield f"who is known {words[:1]}: {listener.known}", sorted(listener.known) == [1, 3] and not listener.wrong
    out, _ = serve(program, CLOCK, b"".join(frame(number, asked) + frame(number) for number, asked in enumerate(sent, 1)))
    yield "nobody is known without such a header", b"known" not in out


def closed_behind(program):
    """Where a request with a long body is refused by --read-only, its connection is closed."""
    for count, is_closed in ((LONG_BODY, False), (LONG_BODY + 1, True)):
        body = b"a" * count
        text = request(b"PUT /a", body)
        out, _ = serve(program, ["--read-only", *CLOCK], b"".join(frame(1, text[at : at + 60_000]) for at in range(0, len(text), 60_000)) + frame(1, request(b"GET /a")) + frame(1))
        told = b"".join(pieces(out)[1])
        yield f"403 behind {count} bytes", told.startswith(b"HTTP/1.1 403 ") and (b"connection: close" in told) == is_closed and told.count(b"HTTP/1.1 ") == 2 - is_closed


def access_log(program):
    for part in (logged, addressed, refused, sent_away, in_forms, of_whom, closed_behind):
        yield from part(program)
