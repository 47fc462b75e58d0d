"""Streams of requests on several connections of davserve, which are played with refused requests for memory, reads and writes.

A line of a stream is one of these:

- `NUMBER METHOD TARGET`, and perhaps ` | FIELD: VALUE`, as often as wanted, and ` < BODY`: a request of this connection. `NUMBER/PIECES` cuts its bytes in so many frames.
- `+ METHOD TARGET`, and the same: a request that comes with the one before, in the same frame.
- `NUMBER RAW BYTES`: bytes that are no request. `NUMBER END`: the client sends no more. `later SECONDS`: so much time passes.

In a body or a value `{red}` and the like stand for a document, and `{t1}` for the first token that is drawn. Connections with an odd number are of ann, the others of bob.
"""
import collections
import random

from frames import LOCK_INFO, request

EXCLUSIVE = LOCK_INFO.decode()
DOCUMENTS = {
    "exclusive": EXCLUSIVE,
    "shared": EXCLUSIVE.replace("exclusive", "shared"),
    "owned": EXCLUSIVE.replace("</D:lockinfo>", "<D:owner><n:name xmlns:n='urn:n'>Ann</n:name></D:owner></D:lockinfo>"),
    "red": "<D:propertyupdate xmlns:D='DAV:'><D:set><D:prop><x:color xmlns:x='urn:x' x:of='&lt;'>red</x:color><size/></D:prop></D:set></D:propertyupdate>",
    "many": "<D:propertyupdate xmlns:D='DAV:'><D:set><D:prop>" + "".join(f"<p{number}/>" for number in range(24)) + "</D:prop></D:set></D:propertyupdate>",
    "bare": "<D:propertyupdate xmlns:D='DAV:'><D:remove><D:prop><x:color xmlns:x='urn:x'/></D:prop></D:remove></D:propertyupdate>",
    "dated": "<D:propertyupdate xmlns:D='DAV:'><D:set><D:prop><size>9</size><D:getetag>x</D:getetag></D:prop></D:set></D:propertyupdate>",
    "medium": 3000 * "0123456789",
    "large": 7000 * "0123456789",
    "names": "<D:propfind xmlns:D='DAV:'><D:propname/></D:propfind>",
    "some": "<D:propfind xmlns:D='DAV:'><D:prop><x:color xmlns:x='urn:x'/><D:getetag/><D:lockdiscovery/><none/></D:prop></D:propfind>",
}

# What is told of single resources, and what changes one.
FILES = """\
1 OPTIONS *
1 MKCOL /d
1 PUT /d/f < abc
2 PUT /d/f | If-None-Match: * < x
2 PUT /d/f < abcdefgh
2 PUT /d/a&b.html < <p>
1 GET /d
1 HEAD /d/f
1 GET /d/f | If-Match: "a", "b"
2 GET /d/f | Range: bytes=2-4
2 GET /d/f | Range: bytes=9-
2 GET /d/f | If-None-Match: *
1 PUT /d < x
1 PUT /n/f < x
1 PUT /d/f | Content-Range: bytes 0-0/5 < x
1 GET /n
1 GET /../x
1 GET /%00
1 MKCOL /d
1 MKCOL /n/m
1 MKCOL /m < x
2 DELETE /d/f < x
1 MKCOL /m | If-Match: "a", "b"
1 REPORT /d
2 PROPPATCH /d/f < {red}
2 PROPPATCH /d < {red}
2 PROPPATCH /d/f < {dated}
2 PROPPATCH /n < {red}
2 PROPPATCH /d/f < <a/>
2 PROPPATCH /d/f | If-Match: "a", "b" < {red}
2 PROPFIND /d | Depth: 1 < {some}
2 PROPFIND /d | Depth: 1 < {names}
2 PROPFIND /d/f | Depth: 0
2 PROPFIND /d | Depth: 2
2 PROPFIND /n
1 PROPPATCH /d/f < {bare}
1 MKCOL /d/e
1 PUT /d/e/g < 1
1 PUT /d/e/h < 2
1 PROPPATCH /d/e < {many}
2 PROPFIND /d/e | Depth: 0 < {names}
2 GET /d/e
1 DELETE /d | Depth: 0
1 DELETE /
1 DELETE /n
1 DELETE /d/e | If-Match: "a", "b"
1 DELETE /d/e
1 PUT /d/f | Connection: close < last
1 PUT /x < late
2 END
"""

# COPY and MOVE, of files and folders.
TRANSFERS = """\
1 MKCOL /s
1 PUT /s/a < A
1 PUT /s/b < BB
1 MKCOL /s/c
1 PUT /s/c/d < DDD
1 PROPPATCH /s < {red}
1 PROPPATCH /s/a < {red}
1 COPY /s/a | Destination: /f
2 COPY /s/b | Destination: /f | Overwrite: F
2 COPY /s/b | Destination: http://h/f
2 COPY /s/b | Destination: http://other/f
2 COPY /s/b
2 COPY /s/b | Destination: /f | If-Match: "a", "b"
2 COPY /s/b | Destination: /f < x
2 COPY /s | Destination: /s
2 COPY /n | Destination: /t
2 COPY /s | Destination: /n/t
2 GET /f
1 COPY /s | Destination: /t
1 MKCOL /v
1 PUT /v/x < X
1 GET /v/x
2 COPY /s | Destination: /v
2 COPY /s | Destination: /u | Depth: 0
2 COPY /s | Destination: /s/c/k
1 MOVE /s/c/k | Destination: /k
1 MOVE /s/a | Destination: /f
1 PUT /u/x < X
1 GET /u/x
1 MOVE /t | Destination: /u
1 MOVE /k | Destination: /k/c/z
1 MOVE / | Destination: /z
1 MOVE /k | Destination: /n/z
1 MOVE /k | Destination: /f | Overwrite: F
1 MOVE /k | Destination: /s | Depth: 0
1 MOVE /k | Destination: /z | If-None-Match: "a", *
1 MOVE /k | Destination: /z < x
2 DELETE /s/c
"""

# Locks of two users, and what they hold off.
LOCKS = """\
1 MKCOL /d
1 PUT /d/f < abc
1 MKCOL /d/e
1 PUT /d/e/g < g
1 LOCK /d/f | Depth: 0 | Timeout: Second-600 < {owned}
2 PUT /d/f < x
2 PUT /d/f | If: (<{t1}>) < x
1 PUT /d/f | If: (<{t1}>) < held
1 PUT /d/f | If: (<{t9}>) < x
2 LOCK /d < {exclusive}
2 LOCK /d/f < {shared}
2 LOCK /d/n | Depth: 0 < {shared}
1 LOCK /d/n | Depth: 0 | Timeout: Infinite < {shared}
2 LOCK /x/y/z < {exclusive}
2 LOCK /d/f < <a/>
2 LOCK /d/f | Depth: 1 < {exclusive}
2 LOCK /d/f | If-Match: "a", "b" < {shared}
1 LOCK /d/f | If: (<{t1}>) | Timeout: Second-900
2 LOCK /d/f | If: (<{t1}>)
1 LOCK /d/f | If: (<{t1}>) | If-Match: "a", "b"
1 LOCK /d/f | If: (<urn:x>)
2 PROPFIND /d | Depth: 1
2 PROPPATCH /d/f < {red}
2 DELETE /d
2 COPY /d/e/g | Destination: /d/f
2 MOVE /d | Destination: /z
2 UNLOCK /d/f | Lock-Token: <{t1}>
1 UNLOCK /d/f | Lock-Token: <{t9}>
1 UNLOCK /d/f
1 UNLOCK /d/f | Lock-Token: <{t1}> < x
1 UNLOCK /d/f | Lock-Token: <{t1}> | If-Match: "a", "b"
1 COPY /d/e/g | Destination: /d/f | If: <http://h/d/f> (<{t1}>)
2 GET /d/f
2 LOCK /d/e | Timeout: Second-5 < {shared}
1 LOCK /d/e < {shared}
1 PUT /d/e/g | If: <http://h/d/e> (<{t5}>) < G
1 MOVE /d/e | Destination: /m | If: (<{t5}>)
later 10
1 MOVE /d/e | Destination: /m | If: (<{t5}>)
1 LOCK /m/o < {exclusive}
1 DELETE /d/n | If: (<{t3}>)
1 UNLOCK /d/f | Lock-Token: <{t1}>
2 UNLOCK /d/n | Lock-Token: <{t2}>
1 UNLOCK /d/n | Lock-Token: <{t3}>
2 LOCK /m/g < {exclusive}
1 PUT /m/g < x
2 LOCK /d < {owned}
1 MKCOL /d/p
1 COPY /m | Destination: /d/m
2 COPY /m | Destination: /d | If: <http://h/d> (<{t8}>) (Not <urn:x>)
"""

# Several requests at a time, requests in pieces, connections that end early, and a wide folder.
PIPES = """\
1 PUT /a < 1
+ GET /a
+ PUT /a < 22
+ GET /a
+ MKCOL /c
+ COPY /a | Destination: /c/a
+ DELETE /a
+ GET /a
2/3 PUT /b < 0123456789012345678901234567890123456789
2/7 PUT /e | Transfer-Encoding: chunked < 3\\r\\nabc\\r\\nA\\r\\n0123456789\\r\\n0\\r\\n\\r\\n
2/2 PUT /e | Expect: 100-continue < hello, with a body that is longer than the head before it, so that each of two pieces has a part of it ......
1 LOCK /c | Depth: 0 < {exclusive}
+ PUT /c/x | If: (<{t1}>) < x
+ PUT /c/x | If: <http://h/c> (<{t1}>) < x
+ LOCK /c/y | If: <http://h/c> (<{t1}>) < {shared}
+ UNLOCK /c | Lock-Token: <{t1}>
3 PUT /g < g
+ RAW nonsense\\r\\n\\r\\n
3 PUT /late < g
4 RAW PUT /h HTTP/1.1\\r\\nHost: h\\r\\n
4 END
5 PUT /i | Connection: close < i
+ PUT /j < j
6 GET /i
6 END
1 MKCOL /w
1 PUT /w/1 < 1
+ PUT /w/2 < 2
+ PUT /w/3 < 3
+ PUT /w/4 < 4
+ PUT /w/5 < 5
+ PUT /w/6 < 6
+ PUT /w/7 < 7
+ PUT /w/8 < 8
+ PUT /w/9 < 9
1 PUT /w/10 < 1
+ PUT /w/11 < 2
+ PUT /w/12 < 3
+ PUT /w/13 < 4
+ PUT /w/14 < 5
+ PUT /w/15 < 6
+ PUT /w/16 < 7
+ PUT /w/17 < 8
+ PUT /w/18 < 9
2 GET /w
+ HEAD /w
+ PROPFIND /w | Depth: 1 < {some}
1 DELETE /w/7
1 MOVE /w/8 | Destination: /w/7
"""

# Behind a prefix, with the choices of whoever runs a server.
CHOICES = """\
1 MKCOL /dav/d
1 PUT /dav/d/f < abc
1 GET /d/f
1 PROPFIND /dav/
1 LOCK /dav/d | Depth: 0 < {owned}
2 PUT /dav/d/g < x
2 LOCK /dav/d/f | Timeout: Second-5 < {shared}
1 LOCK /dav/d | If: (<{t1}>)
2 PROPFIND /dav/d | Depth: 1 < {some}
1 COPY /dav/d/f | Destination: http://h/dav/f
1 COPY /dav/d/f | Destination: /f
1 UNLOCK /dav/d | Lock-Token: <{t1}>
"""

# Answers that are longer than what waits on a connection at most.
LARGE = """\
1 PUT /l < {large}
1 PUT /m < {medium}
1 PUT /a < a
2 GET /m
+ GET /m
+ GET /a
+ GET /m
+ PUT /b < b
+ GET /l
+ GET /a
+ PUT /c < c
1/2 PUT /a < {medium}
"""

Asked = collections.namedtuple("Asked", "connection method text closes")
# What comes at one moment on one connection, cut in some frames; None says that no more comes.
Turn = collections.namedtuple("Turn", "connection asked cuts later")


def user_of(connection):
    return b"X-User: ann\r\n" if connection % 2 else b"X-User: bob\r\n"


def written(connection, head, body, fields):
    """The bytes of a request."""
    more = user_of(connection) + b"".join(field.encode() + b"\r\n" for field in fields)
    if any(field.startswith("Transfer-Encoding") for field in fields):
        return request(head.encode(), None, more) + body
    return request(head.encode(), body, more)


def asked(connection, line, names):
    head, found, body = line.partition(" < ")
    head, *fields = head.format_map(names).split(" | ")
    body = body.format_map(names).encode().decode("unicode_escape").encode() if found else None
    method, _, target = head.partition(" ")
    if method == "RAW":
        return Asked(connection, b"RAW", target.encode().decode("unicode_escape").encode(), True)
    return Asked(connection, method.encode(), written(connection, head, body, fields), "Connection: close" in fields)


def turns_of(lines, tokens):
    names, turns, later = {**DOCUMENTS, **tokens}, [], 0
    for line in lines:
        first, _, rest = line.partition(" ")
        if first == "later":
            later = int(rest)
        elif first == "+":
            turns[-1].asked.append(asked(turns[-1].connection, rest, names))
        else:
            number, _, cuts = first.partition("/")
            turns.append(Turn(int(number), None if rest == "END" else [asked(int(number), rest, names)], int(cuts or 1), later))
            later = 0
    return turns


def looks_at(lines, top, files):
    """Looks at all that stands at the end of a stream, on two connections that begin then."""
    first = 1 + max(int(line.split()[0].partition("/")[0]) for line in lines if line[0].isdigit())
    looks = [f"{first} PROPFIND {top}", f"{first + 1} PROPFIND {top}", f"{first} PROPFIND {top.partition(' ')[0]} | Depth: 1 < {{some}}"]
    return looks + [f"{first} GET {file}" for file in files.split()]


def streams():
    """Of each stream a name, the program's further words, its lines, and looks at what it leaves."""
    choices = ["--prefix", "/dav", "--propfind-depth", "finite", "--longest-timeout", "60", "--scheme", "http"]
    for name, words, text, top, files in (
        ("files", [], FILES, "/", "/d/f /d/a&b.html /d/e/g /d/e/h /x /n /m"),
        ("transfers", [], TRANSFERS, "/", "/s/a /s/b /s/c/d /f /t/a /u/a /v/b /v/x /k/a /k/d"),
        ("locks", [], LOCKS, "/", "/d/f /d/e/g /d/n /m/g /m/o /d/g"),
        ("pipes", [], PIPES, "/", "/a /b /c/a /c/x /c/y /e /g /i /w/7 /w/18"),
        ("large", [], LARGE, "/", "/l /m /a /b /c"),
        ("choices", choices, CHOICES, "/dav/d | Depth: 1", "/dav/d/f /dav/f"),
    ):
        lines = text.splitlines()
        yield name, words, lines, looks_at(lines, top, files)


PLACES = "/d /d/f /d/g /e /e/f /f".split()
TOKENS = "".join(f"(<{{t{number}}}>) " for number in range(1, 10))


def random_line(chance):
    """A request of any method on a few paths, perhaps with all tokens, by an `If` that holds."""
    place, other = chance.choice(PLACES), chance.choice(PLACES)
    method = chance.choice("PUT MKCOL DELETE COPY COPY MOVE MOVE GET HEAD PROPFIND PROPPATCH LOCK LOCK refresh UNLOCK".split())
    held = chance.choice(["", f" | If: {TOKENS}(Not <urn:x>)"])
    token, depth = f"{{t{chance.randint(1, 9)}}}", chance.choice(["0", "infinity"])
    timeout, scope = chance.choice(["", " | Timeout: Second-5"]), chance.choice(["exclusive", "shared", "owned"])
    return {
        "PUT": f"PUT {place}{held} < {chance.choice(['', 'a', 200 * 'b'])}",
        "COPY": f"COPY {place} | Destination: {other} | Depth: {depth}{held}",
        "MOVE": f"MOVE {place} | Destination: {other}{held}",
        "PROPFIND": f"PROPFIND {place} | Depth: 1 < {{some}}",
        "PROPPATCH": f"PROPPATCH {place}{held} < {{{chance.choice(['red', 'bare', 'dated'])}}}",
        "LOCK": f"LOCK {place} | Depth: {depth}{timeout}{held} < {{{scope}}}",
        "refresh": f"LOCK {place}{timeout} | If: (<{token}>)",
        "UNLOCK": f"UNLOCK {place} | Lock-Token: <{token}>",
    }.get(method, f"{method} {place}{held}")


def random_streams(seed, count):
    """The same of streams that are made from these seeds."""
    for each in range(seed, seed + count):
        chance, lines = random.Random(each), ["1 MKCOL /d", "1 PUT /d/f < abc", "2 MKCOL /e", "2 PUT /f < 1"]
        for _ in range(40):
            line = random_line(chance)
            is_behind = chance.random() < 0.2 and not line.startswith(("COPY", "MOVE"))
            lines += ["later 10"] if chance.random() < 0.05 else []
            lines.append(f"+ {line}" if is_behind and lines[-1][:5] != "later" else f"{chance.randint(1, 2)} {line}")
        yield f"random {each}", [], lines, looks_at(lines, "/", " ".join(PLACES))
