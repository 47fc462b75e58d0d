"""What davstore imports from folders of the system, and exports into them, beside what stands there: rows of tests/davstore."""
import errno
import os
import random
import re
import resource
import shutil
import signal
import socket
import subprocess
import threading
import time
import urllib.parse
import xml.etree.ElementTree

from disks import calls_of, tracer
from frames import LOCK_INFO, frame, pieces, request

TIME = "{urn:dav-resource-core:import}modified"
# The files of a folder, and its folders, which have no bytes; by their paths.
ODD = {
    b"a": b"abc",
    b"two words": b"xyz",
    b"100%": b"p",
    b"%41": b"q",
    "é/ü ☃".encode(): b"u",
    "é".encode(): None,
    b"<&>\"'\\": b"same",
    b" ": b"same",
    b"..x": b"same",
    b"-": b"",
    b"\x01\t\n\x7f": b"c",
    b"n" * 255: b"l",
    b"big": bytes(range(256)) * 20_000,
    b"d": None,
    b"d/empty": None,
    b"d/" + b"e" * 200: None,
    b"d/" + b"e" * 200 + b"/f": b"f",
}
# What is left out, and why.
OUT = {b"link": "a link", b"to d": "a link", b"pipe": "a special file", b"socket": "a special file", b"bad\xff": "its name is no text"}


def told(path):
    """A path as davstore tells it."""
    return "/" + "/".join(urllib.parse.quote(name, safe="-._~") for name in path.split(b"/"))


def make(where, tree, moments=random.Random(1)):
    """Makes files and folders, with times in nanoseconds."""
    os.makedirs(where)
    for path, content in sorted(tree.items()):
        place = os.path.join(os.fsencode(where), path)
        if content is None:
            os.mkdir(place)
            continue
        os.makedirs(os.path.dirname(place), exist_ok=True)
        with open(place, "wb") as file:
            file.write(content)
    for path in sorted(tree, reverse=True):
        moment = moments.randrange(2 * 10**18)
        os.utime(os.path.join(os.fsencode(where), path), ns=(moment, moment))


def odd(where):
    make(where, ODD)
    os.symlink("a", os.path.join(where, "link"))
    os.symlink("d", os.path.join(where, "to d"))
    os.mkfifo(os.path.join(where, "pipe"))
    with open(os.path.join(os.fsencode(where), b"bad\xff"), "wb"):
        pass
    with socket.socket(socket.AF_UNIX) as bound:
        bound.bind(os.path.join(where, "socket"))


def read(where):
    """What stands in a folder: of each path its bytes, none for a folder, and its time."""
    found, top = {}, os.fsencode(where)
    for folder, folders, files in os.walk(top):
        for name in folders + files:
            place = os.path.join(folder, name)
            content = None
            if name in files:
                with open(place, "rb") as file:
                    content = file.read()
            found[os.path.relpath(place, top)] = (content, os.stat(place).st_mtime_ns)
    return found


def source(where, paths):
    """The same of some paths of a folder that is imported."""
    found = {}
    for path in paths:
        place = os.path.join(os.fsencode(where), path)
        with open(place, "rb") if os.path.isfile(place) else open(os.devnull, "rb") as file:
            found[path] = (file.read() if os.path.isfile(place) else None, os.stat(place).st_mtime_ns)
    return found


def imported(files, folders, left_out):
    return f"imported: {files} files, {folders} folders, {left_out} left out"


class Asked:
    """A store in a folder of its own, a folder beside it, and the program."""

    def __init__(self, stores, name):
        self.davstore, self.top = stores.davstore, os.path.join(os.path.dirname(stores.path), name)
        os.mkdir(self.top)
        self.path, self.out = self.at("store"), self.at("out")

    def at(self, name):
        return os.path.join(self.top, name)

    def ask(self, *words, **more):
        run = subprocess.run([self.davstore, self.path, *words], capture_output=True, timeout=100, check=False, **more)
        return run.returncode, run.stdout.decode().splitlines(), run.stderr.decode()

    def export(self):
        """What is exported, and how that ends."""
        shutil.rmtree(self.out, ignore_errors=True)
        asked = self.ask("export", self.out)[:2]
        return asked, read(self.out)

    def serve(self, davserve, requests, moment=None):
        """What is answered by a server with the store."""
        clock = ["--clock", "frames"] if moment else []
        told_clock = b"clock %d\n" % moment if moment else b""
        ran = subprocess.run([davserve, "--store", self.path, *clock], input=told_clock + frame(1, b"".join(requests)) + frame(1), capture_output=True, timeout=100, check=False)
        return b"".join(pieces(ran.stdout)[1])

    def bytes(self):
        with open(self.path, "rb") as file:
            return file.read()


def trees(stores):
    asked = Asked(stores, "trees")
    odd(asked.at("in"))
    files, folders = sum(content is not None for content in ODD.values()), sum(content is None for content in ODD.values())
    status, lines, _ = asked.ask("import", asked.at("in"))
    wanted = sorted(f"{told(path)}: {why}" for path, why in OUT.items())
    yield "a tree with odd names is imported", (status, sorted(lines[:-1]), lines[-1]) == (1, wanted, imported(files, folders, len(OUT)))
    yield "each is a record", asked.ask("check")[1][0].startswith(f"whole: {files + folders} records, ")
    before, paths = asked.bytes(), list(ODD)
    yield "it is exported, with its times", asked.export() == ((0, []), source(asked.at("in"), paths))
    yield "to export writes nothing into the store", asked.bytes() == before and sorted(os.listdir(asked.top)) == ["in", "out", "store"]
    status, lines, _ = asked.ask("import", asked.at("in"))
    again = sorted(wanted + [f"{told(path)}: a file stands there" for path, content in ODD.items() if content is not None])
    yield "it is imported twice", (status, sorted(lines[:-1]), lines[-1]) == (1, again, imported(0, 0, len(OUT) + files)) and asked.bytes() == before
    for name in ("a", "d", "link", "to d"):
        place = asked.at(f"in/{name}")
        yield f"nothing is exported into {name}", asked.ask("export", place)[:2] == (1, [f"no empty folder: {place}"])
    shutil.rmtree(asked.out)
    os.mkdir(asked.out)
    yield "an empty folder is taken", asked.ask("export", asked.out)[0] == 0 and len(read(asked.out)) == len(ODD)
    for name, wanted in (("none", "none: "), ("in/a", "in/a: ")):
        status, lines, why = asked.ask("import", asked.at(name))
        yield f"{name} is not imported", (status, lines) == (3, []) and why.startswith(os.path.join(asked.top, wanted))
    for word in ("import", "export"):
        yield f"no folder to {word}", asked.ask(word)[0] == 2 and asked.ask(word, "a", "b")[0] == 2
    make(asked.at("plain"), {b"a": b"1", b"d": None})
    asked.path = asked.at("plain/store")
    yield "the file of the stores is not imported", asked.ask("import", asked.at("plain"))[:2] == (1, ["/store: the file of the stores", imported(1, 1, 1)])
    asked.path = asked.at("other")
    os.remove(asked.at("plain/store"))
    os.symlink("plain", asked.at("to plain"))
    yield "a plain tree, by a link", asked.ask("import", asked.at("to plain"))[:2] == (0, [imported(1, 1, 0)])


def unexported(stores, records):
    """Names that can't be had in a folder of the system."""
    asked = Asked(stores, "unexported")
    paths = [(b"\xff",), (b"\xff", b"f"), (b"n" * 256,), (b"d",), (b"d", b"f")]
    os.remove(stores.path)
    stores.append(records(paths))
    shutil.copy(stores.path, asked.path)
    lines = ["/%FF/: its name can't be had", "/%FF/f: below what is not exported", f"/{'n' * 256}: its name or its path is too long"]
    (status, found), there = asked.export()
    yield "names that can't be had", (status, sorted(found)) == (1, sorted(lines)) and {path: content for path, (content, _) in there.items()} == {b"d": None, b"d/f": b"x"}
    with open(asked.path, "rb+") as file:
        file.truncate(70)
    shutil.rmtree(asked.out)
    yield "a broken store is not exported", asked.ask("export", asked.out)[0] == 1 and not os.path.exists(asked.out)
    make(asked.at("in"), {b"a": b"1"})
    yield "nothing is imported into a broken store", asked.ask("import", asked.at("in"))[:2] == (1, ["damaged at byte 56"])
    held = subprocess.Popen([stores.journalplay, stores.path], stdin=subprocess.PIPE, stdout=subprocess.PIPE)
    held.stdout.readline()
    asked.path = stores.path
    yield "nothing is imported into a store in use", asked.ask("import", asked.at("in"))[:2] == (1, ["the journal is in use"])
    yield "it is exported", asked.export()[0][0] == 1
    held.stdin.close()
    held.wait()
    held.stdout.close()


def going_on(stores, davserve):
    """A server's store that goes on with an import, and a server that goes on with that."""
    asked = Asked(stores, "going_on")
    timeout, forever = b"Timeout: Second-5\r\n", b"Timeout: Infinite\r\n"
    made = [request(b"MKCOL /d"), request(b"PUT /d/a", b"old"), request(b"PUT /kept", b"k"), request(b"MKCOL /file"), request(b"PUT /folder", b"x"), request(b"MKCOL /free"), request(b"MKCOL /shut")]
    locks = [request(b"LOCK /free", LOCK_INFO, timeout), request(b"LOCK /shut", LOCK_INFO, forever)]
    asked.serve(davserve, made + locks, 10**18)
    tree = {b"d": None, b"d/a": b"new", b"d/b": b"same", b"file": b"f", b"folder": None, b"folder/g": b"g", b"free": None, b"free/f": b"same", b"shut": None, b"shut/f": b"s", b"zero": b""}
    make(asked.at("in"), tree)
    wanted = ["/d/a: a file stands there", "/file: a folder stands there", "/folder: a file stands there", "/shut/f: locked", imported(3, 0, 4)]
    yield "a server's store takes an import", asked.ask("import", asked.at("in"))[:2] == (1, wanted) and asked.ask("check")[1][0].startswith("whole: ")
    text = asked.serve(davserve, [request(b"PROPFIND /", None, b"Depth: infinity\r\n"), request(b"GET /free/f"), request(b"GET /d/a"), request(b"PUT /d/b", b"2")])
    found = re.search(rb"<D:multistatus.*</D:multistatus>", text, re.S)
    answers = xml.etree.ElementTree.fromstring(found[0]).findall("{DAV:}response")
    tags = [tag.text for answer in answers for tag in answer.iter("{DAV:}getetag") if answer.find(".//{DAV:}collection") is None]
    times = {answer.find("{DAV:}href").text: time.text for answer in answers for time in answer.iter(TIME)}
    yield "a server goes on with it", all(part in text for part in (b"\r\n\r\nsame", b"\r\n\r\nold", b"HTTP/1.1 204"))
    yield "each file has a tag of its own", len(tags) == 6 and len(set(tags)) == 6
    yield "a server tells the times", times == {f"/{path.decode()}": str(moment) for path, (_, moment) in source(asked.at("in"), [b"d/b", b"free/f", b"zero"]).items()}
    moments = [line.split()[0] for line in asked.ask("log")[1] if " put " in line]
    yield "each has a moment of its own", len(set(moments)) == len(moments)
    there, listed = asked.export()[1], asked.ask("list", "/d/b")[1][0].split()
    yield "a file that changed has another time", there[b"d/b"] == (b"2", int(listed[3])) and there[b"free/f"] == source(asked.at("in"), [b"free/f"])[b"free/f"]
    ahead = Asked(stores, "ahead")
    ahead.serve(davserve, [request(b"PUT /a", b"1")], 4 * 10**18)
    yield "a clock that is behind", ahead.ask("import", asked.at("in"))[0] == 0
    behind = [int(line.split()[0]) for line in ahead.ask("log")[1] if " put " in line or " mkcol " in line]
    yield "its moments follow the last one", behind == list(range(4 * 10**18, 4 * 10**18 + len(tree) + 1))


def limited():
    """No file may grow past 3 MB, and who writes there is told so."""
    signal.signal(signal.SIGXFSZ, signal.SIG_IGN)
    resource.setrlimit(resource.RLIMIT_FSIZE, (3_000_000, 3_000_000))


def failing(stores):
    asked = Asked(stores, "failing")
    make(asked.at("in"), {b"%03d" % number: bytes([number]) * 20_000 for number in range(200)})
    status, lines, why = asked.ask("import", asked.at("in"), preexec_fn=limited)
    yield "no room", (status, lines) == (3, []) and why.splitlines()[-1].startswith(asked.path)
    (status, lines), there = asked.export()
    kept = sorted(there)
    yield "what was appended stays", status == 0 and 0 < len(kept) < 200 and kept == sorted(read(asked.at("in")))[: len(kept)]
    yield "it is completed", asked.ask("import", asked.at("in"))[1][-1] == imported(200 - len(kept), 0, len(kept)) and asked.export()[1] == read(asked.at("in"))
    make(asked.at("moving"), {b"a": b"1", b"b": bytes(30_000_000)})
    ended = threading.Event()

    def write():
        with open(asked.at("moving/b"), "ab", 0) as file:
            while not ended.is_set():
                file.write(b"x")

    asked.path = asked.at("changing")
    writer = threading.Thread(target=write)
    writer.start()
    status, lines, why = asked.ask("import", asked.at("moving"))
    ended.set()
    writer.join()
    yield "a file that changes", (status, lines) == (3, []) and why.endswith(f"{asked.at('moving/b')}: changed while it was read\n")
    yield "what was imported before it", asked.ask("list")[1][1:] in ([], [line for line in asked.ask("list")[1] if line.endswith(" /a")])


def inode_of(path):
    return os.stat(path).st_ino


def synced(stores):
    """What is exported is on the disk at the end, and a sync that fails ends the export."""
    asked = Asked(stores, "synced")
    make(asked.at("in"), {b"a": b"1", b"d": None, b"d/e": None, b"d/e/f": b"2", b"empty": None, b"g": b""})
    asked.ask("import", asked.at("in"))
    trace, library = asked.at("trace"), tracer(asked.top)

    def export(**environment):
        shutil.rmtree(asked.out, ignore_errors=True)
        return asked.ask("export", asked.out, env={**os.environ, "LD_PRELOAD": library, **environment})

    yield "it is exported under a tracer", export(TRACE=trace) == (0, [], "") and read(asked.out) == read(asked.at("in"))
    syncs = [call.inode for call in calls_of(trace) if call.kind == b"s" and call.done == 0]
    last = {inode: place for place, inode in enumerate(syncs)}
    members = [os.path.join(asked.out, os.fsdecode(path)) for path in read(asked.out)]
    yield "each file and folder is synced", all(inode_of(path) in last for path in [asked.top, asked.out, *members])
    yield "a folder is synced behind what is made in it", all(last.get(inode_of(path), -1) < last.get(inode_of(os.path.dirname(path)), -1) for path in members)
    for number in range(1, len(syncs) + 1):
        status, lines, why = export(FAIL=f"{number}:{errno.EIO}")
        yield f"sync {number} fails", (status, lines) == (3, []) and why.startswith(asked.out)
    yield "no sync more", export(FAIL=f"{len(syncs) + 1}:{errno.EIO}") == (0, [], "")


def earlier(stores, davserve):
    """What stood in a store at a moment is exported, as far as its records go back."""
    asked, first, second, third = Asked(stores, "earlier"), 10**18, 2 * 10**18, 3 * 10**18
    asked.serve(davserve, [request(b"PUT /a", b"1")], first)
    asked.serve(davserve, [request(b"PUT /a", b"2"), request(b"MKCOL /d")], second)
    asked.serve(davserve, [request(b"DELETE /a"), request(b"PUT /d/b", b"3")], third)
    states = {first: {b"a": b"1"}, second: {b"a": b"2", b"d": None}, third: {b"d": None, b"d/b": b"3"}}

    def export(moment):
        shutil.rmtree(asked.out, ignore_errors=True)
        told = asked.ask("export", asked.out, "--at", str(moment))[:2]
        return told, {path: content for path, (content, _) in read(asked.out).items()} if os.path.exists(asked.out) else None

    for moment, state in states.items():
        # What is asked at once may have a moment each, a nanosecond apart.
        yield f"as it was behind {moment}", export(moment + 5) == ((0, []), state)
    yield "right before a change", export(second - 1) == ((0, []), states[first]) and export(third - 1) == ((0, []), states[second])
    yield "behind all moments", export(2**64 - 1) == ((0, []), states[third])
    # The clock stood at 0 as the store was begun.
    yield "when it was begun", export(0) == ((0, []), {})
    for words in (["export", asked.out, "--at"], ["export", asked.out, "--at", "x"], ["export", asked.out, "--at", "1", "2"], ["list", "/", "--at", "1"], ["export", asked.out, "--by", "1"]):
        yield f"no words: {' '.join(words[2:])}", asked.ask(*words)[0] == 2
    whole = asked.bytes()
    with open(asked.path, "wb") as file:
        # A byte of the last round.
        last = whole.rindex(b"shutgate") - 1
        file.write(whole[:last] + bytes([whole[last] ^ 1]) + whole[last + 1 :])
    broken = asked.ask("check")[1]
    yield "broken behind it", asked.ask("check")[0] == 1 and export(second + 5) == ((0, []), states[second])
    yield "broken before it", export(third + 5) == ((1, broken), None)
    with open(asked.path, "wb") as file:
        file.write(whole)
    asked.ask("compact")
    asked.serve(davserve, [request(b"PUT /e", b"4")], third + 7)
    (status, lines), there = export(0)
    last = int(lines[0].removeprefix("its records go back to moment ")) if lines else 0
    yield "before it was compacted", status == 1 and there is None and third <= last < third + 5 and export(last - 1) == ((1, lines), None)
    yield "since it was compacted", export(last) == ((0, []), states[third]) and export(third + 12) == ((0, []), states[third] | {b"e": b"4"})
    with open(asked.path, "wb"):
        pass
    yield "as a new file was", export(third) == ((0, ["new"]), None)
    asked.path = asked.at("fresh")
    asked.ask("new")
    (status, lines), there = export(0)
    yield "before it was begun", status == 1 and there is None and len(lines) == 1 and lines[0].startswith("its records go back to moment ")


def killed(stores, rounds):
    """An import is killed at random moments, and goes on."""
    chance, names, asked = random.Random(7), [b"f%03d" % number for number in range(300)], Asked(stores, "killed")
    tree = {name: chance.randbytes(chance.choice([0, 10, 40_000])) for name in names} | {b"g": chance.randbytes(5_000_000)}
    tree |= {b"d%d/%b" % (number, name): name for number in range(5) for name in names[:40]} | {b"d%d" % number: None for number in range(5)}
    make(asked.at("in"), tree)
    wanted, files = read(asked.at("in")), sum(content is not None for content in tree.values())
    began = time.monotonic()
    asked.ask("import", asked.at("in"))
    took, parts = time.monotonic() - began, 0
    for number in range(rounds):
        asked.path = asked.at(f"store{number}")
        run = subprocess.Popen([asked.davstore, asked.path, "import", asked.at("in")], stdout=subprocess.DEVNULL, stderr=subprocess.DEVNULL)
        time.sleep(chance.uniform(0, took))
        run.kill()
        run.wait()
        there = {}
        if os.path.exists(asked.path):
            status, lines, _ = asked.ask("check")
            is_new = lines == ["new"]
            yield f"whole behind kill {number}", status == 0 and (is_new or lines[0].startswith("whole: "))
            there = {} if is_new else asked.export()[1]
        # A folder whose files were not all imported has the time that it has in the source, too: the export sets it last.
        parts += 0 < len(there) < len(wanted)
        yield f"a front is there behind kill {number}", there.items() <= wanted.items()
        left = sum(content is not None for content, _ in there.values())
        yield f"kill {number} is made good", asked.ask("import", asked.at("in"))[1][-1].startswith(f"imported: {files - left} files, ") and asked.export() == ((0, []), wanted)
    yield f"some of {rounds} kills within an import", parts > 0


def rows(stores, davserve, records):
    """Each with its name, and whether it is right."""
    for part in (trees(stores), unexported(stores, records), going_on(stores, davserve), failing(stores), synced(stores), earlier(stores, davserve), killed(stores, 4)):
        yield from part
