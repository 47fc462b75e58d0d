"""Scenarios that are played with refused requests: lines of davreplay, each change with looks at what it may have changed, and
lines of davread."""
import random

# Each command, done and refused. The lines of looks come between.
COMMANDS = """\
1 - - mkcol /d
2 - - put /d/f 616263
3 - - setprop /d/f - n 3c61
3 - - setprop /d/f urn:s m 62
4 - - setprop /d/f - n 3c62
5 - - write /d/f 5 7a
6 - - write /d/f end 797a
7 - - write /d/f 40 -
8 - - copy /d/f /d/g
9 - - delprop /d/f urn:s m
10 - - copy /d/f /d/g
11 - - put /d/f 6162636465666768
12 - - mkcol /e
13 - - move /d /e/h
14 - - move /e/h/g /e/h/f
15 - - move /e/h /d
16 - - copy /d /x
17 - - mkcol /d/f
18 - - put /d/f/y 61
19 - - remove /d
20 - - move /d /d/z
21 ann - lock /d exclusive deep 9
22 bob - put /d/f 62
23 ann t1 put /d/f 63
24 bob - lock /d/f/q shared shallow -
25 bob - refresh /d/f t1 7
26 ann t1 check / deep
27 ann - lock /e shared shallow -
28 bob - lock /e shared deep -
29 bob t3 check /e/k deep
30 bob t3 mkcol /e/k
31 bob t3 lock /e/k/l shared deep 1
32 bob t2,t3 move /e/k /e/m
33 bob t3,t4 move /e/k /e/m
34 - - unlock /e/n t3
35 ann t1 remove /d/f
36 ann t1 remove /d
37 - - unlock /e t9
38 ann t2 remove /e/m
39 - - unlock /e t2
40 - - put /../a 61
41 - - lock /o/p/q exclusive shallow -
42 bob t5 lock /r exclusive shallow -
"""

# A folder that is wide enough for a table of its children, and narrow once more.
WIDE = [f"1 - - put /{i} 61" for i in range(18)] + [f"2 - - remove /{i}" for i in range(0, 18, 2)]
WIDE += ["3 - - list /"] + [f"3 - - read /{i} 0 9" for i in range(18)]

# A last line of another form, which is told on standard error.
MALFORMED = ["1 - - put /f 61", "2 - - read /f 0 9", "3 - - mkdir /d"]

# Each kind, on values that are read.
KINDS = """\
depth 0
overwrite T
timeout Infinite,%20Second-4100000000
destination http://x.yz/a%2520b?q
destination /a
content-type text/xml
content-location /a
lock-token <urn:x>
x-litmus a
etag W/"12345"
if-range "a"
if-range Sun,%2006%20Nov%201994%2008:49:37%20GMT
if-match "a",%20x,%20W/"b"
if-none-match "a" *
x-update-range bytes=5-2
content-language en,%20de-DE fr
if <http://x.yz/>%20([W/"etag"]%20Not%20<DAV:nope>)%20(Not<urn:x>[W/"bla"]%20plain:word:123)
if (<a:b>
text etag "a%20b"
text content-language en%20,%20de-DE
value etag "a"
write etag weak a
write destination /a
write depth default
write timeout
equal etag "a" "b"
equal if-match "a","b" "a","b"
equal if <http://x/>(Not%20a:b) <http://X/>(Not%20<a:b>)
equal content-language en,%20de-DE en,de-DE
path /a/./b//c/../d%20e/?q=1 /a
path /a%20b/c /a%20b /x
path /a /a
path /a/%2e%2e/%2e%2e
target /a/../b%20c
target http://x.yz/a?b
same /a/b /b /a
method MKCOL
methods webdav-ro GET
xml <?xml%20version='1.0'?><p:a%20xmlns:p='u:x'%20p:b='1'%20c='&amp;'>x<!--y-->&#65;<![CDATA[z]]><b/></p:a>
xml <a>&b;</a>
write xml <a%20xmlns='DAV:'%20xmlns:p='u:x'%20p:b='&lt;'>x</a>
"""

CHANGES = "put write mkcol remove move copy setprop delprop lock unlock refresh".split()
PATHS = "/ /d /d/f /d/g /e /e/d /e/d/h /x%20y".split()


def changed_by(line):
    """The paths that a line may change."""
    command, *words = line.split()[3:]
    return words[: 2 if command in ("move", "copy") else 1] if command in CHANGES else []


def looks_at(now, path):
    for command in ("meta {}", "list {}", "read {} 0 99", "props {}", "prop {} - n", "discover {}"):
        yield f"{now} - - " + command.format(path)


def with_looks(lines):
    """Each change, then looks at its paths, at the folders of these, and at all locks."""
    for line in lines:
        yield line
        now, paths = line.split()[0], changed_by(line)
        for path in paths:
            yield from looks_at(now, path)
        for folder in sorted({path.rpartition("/")[0] or "/" for path in paths} - set(paths)):
            yield f"{now} - - meta {folder}"
            yield f"{now} - - list {folder}"
        if paths:
            yield f"{now} - - check / deep"


def random_change(chance, now):
    """A request of any kind on a few paths, under labels that may be granted by then."""
    path, other, label = chance.choice(PATHS), chance.choice(PATHS), f"t{chance.randint(1, 9)}"
    content, place = chance.choice(["-", "61", "62" * 20, "63" * 300]), chance.choice(["end", 0, 3, 50])
    name, timeout = chance.choice(["- n", "- m", "urn:s n"]), chance.choice(["-", "9"])
    kind, depth = chance.choice(["exclusive", "shared"]), chance.choice(["deep", "shallow"])
    commands = [f"put {path} {content}", f"mkcol {path}"] * 2
    commands += [f"write {path} {place} {content}", f"remove {path}", f"move {path} {other}", f"copy {path} {other}"]
    commands += [f"setprop {path} {name} {content}", f"delprop {path} {name}"]
    commands += [f"lock {path} {kind} {depth} {timeout}", f"unlock {path} {label}", f"refresh {path} {label} {timeout}"]
    labels = ",".join(f"t{i}" for i in range(1, 10) if chance.random() < 0.7)
    return f"{now} {chance.choice(['ann', 'ann', 'bob', '-'])} {labels or '-'} {chance.choice(commands)}"


def random_scenario(seed, length):
    chance = random.Random(seed)
    lines = with_looks(random_change(chance, now) for now in range(1, length + 1))
    return [*lines, *(look for path in PATHS for look in looks_at(length + 1, path))]


def scenarios(stored):
    """Of each program a name and the lines; `stored` are those of davreplay's stored run."""
    yield "davreplay", "commands", list(with_looks(COMMANDS.splitlines()))
    yield "davreplay", "wide", WIDE
    yield "davreplay", "malformed", MALFORMED
    yield "davreplay", "stored", stored
    yield "davread", "kinds", KINDS.splitlines()


def random_scenarios(seed, count):
    for each in range(seed, seed + count):
        yield "davreplay", f"random {each}", random_scenario(each, 60)
