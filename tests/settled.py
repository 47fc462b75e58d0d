"""A store that a wrong clock has carried ten years ahead, and whose clock davstore sets back."""
import os
import re
import subprocess
import time

from frames import LOCK_INFO, frame, pieces, request
from records import number

SECOND, HOUR = 10**9, 3600 * 10**9
MOMENT = time.time_ns() - 2 * HOUR
AHEAD = MOMENT + 10 * 365 * 24 * HOUR
# The moment to which the clock is set back.
NOW = MOMENT + HOUR
ANN, BEN = b"X-User: ann\r\n", b"X-User: ben\r\n"


def rows(stores, davserve):
    """What a wrong clock did to a store, what settles it, and what stands there then."""
    def ask(moment, *requests):
        """What is answered to these."""
        given = b"clock %d\n" % moment + frame(1, b"".join(requests)) + frame(1)
        ran = subprocess.run([davserve, "--store", stores.path, "--user-header", "x-user", "--clock", "frames"], input=given, capture_output=True, timeout=100, check=False)
        return b"".join(pieces(ran.stdout)[1])

    def told_at_start():
        """What is told on standard error by a server that starts with the clock of the system."""
        return subprocess.run([davserve, "--store", stores.path], input=b"", capture_output=True, timeout=100, check=False).stderr.decode()

    def statuses(moment, *requests):
        return re.findall(rb"(?<!<D:status>)HTTP/1\.1 (\d+)", ask(moment, *requests))

    def tags(moment):
        """The tag of each file, which has the moment at which it last changed."""
        return re.findall(rb'etag: ("[^"]*")', ask(moment, *(request(b"GET /" + name, None, BEN) for name in (b"a", b"b", b"c"))))

    yield "no record stands there", stores.ask("settle", str(NOW))[:2] == (0, ["new"])
    os.remove(stores.path)
    yield "no store", stores.ask("settle", str(NOW))[0] == 3 and not os.path.exists(stores.path)
    for words in (["settle"], ["settle", "soon"], ["settle", "-1"], ["settle", str(NOW), "more"]):
        yield f"other words: {' '.join(words)}", stores.ask(*words)[0] == 2
    lock = lambda path, timeout: request(b"LOCK " + path, LOCK_INFO, ANN + b"Timeout: " + timeout + b"\r\nDepth: 0\r\n")
    made = statuses(MOMENT, request(b"PUT /a", b"1", ANN), request(b"MKCOL /d", None, ANN), lock(b"/a", b"Infinite"))
    early = tags(MOMENT)[0]
    made += statuses(AHEAD, request(b"PUT /b", b"2", ANN), request(b"PUT /c", b"3", ANN), request(b"MKCOL /e", None, ANN), lock(b"/b", b"Second-100"))
    yield "a store, and what a wrong clock added", made == [b"201", b"201", b"200", b"201", b"201", b"201", b"200"]
    put = request(b"PUT /b", b"4", BEN)
    yield "a lock of that time does not expire", statuses(NOW + 200 * SECOND, put) == [b"423"]
    told = told_at_start()
    way_out = re.search(r"which tells (\d+): no lock expires and no time goes on until then; davstore FILE settle (\d+) sets it back\n", told)
    yield f"it is told at the start, with the way out: {told}", bool(way_out) and way_out[1] == way_out[2] and MOMENT < int(way_out[1]) < AHEAD and f"the last change of the store is of {str(AHEAD)[:9]}" in told
    before = stores.bytes()
    yield "at a later moment nothing is changed", stores.ask("settle", str(AHEAD + HOUR)) == (0, ["nothing was changed at that moment or later"], "") and stores.bytes() == before
    beside = sorted(os.listdir(os.path.dirname(stores.path)))
    status, lines, said = stores.ask("settle", str(NOW))
    yield f"its clock is set back: {lines}", status == 0 and said == "" and re.fullmatch(r"settled: \d+ bytes before, \d+ bytes now", lines[0]) is not None
    yield "it is a new generation of the same store", stores.bytes()[16:24] == number(1)
    yield "nothing is left beside it", sorted(os.listdir(os.path.dirname(stores.path))) == beside
    asked = NOW + 10 * SECOND
    yield "nothing is told any more", told_at_start() == ""
    answer = ask(asked, request(b"PROPFIND /", None, BEN + b"Depth: 1\r\n"), *(request(b"GET /" + name, None, BEN) for name in (b"a", b"b", b"c")))
    bodies = [answer.count(b"\r\n\r\n" + body) for body in (b"1", b"2", b"3")]
    yield "what stood there stands there", bodies == [1, 1, 1] and answer.count(b"<D:response>") == 6
    found = tags(asked)
    yield f"each file has a tag of its own, and an early one keeps its: {found}", len(set(found)) == 3 and found[0] == early
    locks = [line.split(" ") for line in stores.ask("locks")[1]]
    ends = {line[-1]: line[3] for line in locks}
    yield f"a lock ends its timeout behind that moment: {ends}", ends == {"/a": "-", "/b": str(NOW + 100 * SECOND)}
    yield "a lock keeps others out", statuses(NOW + 50 * SECOND, put) == [b"423"]
    yield "and expires", statuses(NOW + 101 * SECOND, put) == [b"204"]
    yield "a lock without an end stays", statuses(NOW + 102 * SECOND, request(b"PUT /a", b"5", BEN)) == [b"423"]
    yield "it is whole, and goes on", stores.ask("check")[0] == 0 and statuses(NOW + 103 * SECOND, request(b"PUT /f", b"6", BEN)) == [b"201"]
    yield "what is not late stays", stores.ask("settle", str(NOW + HOUR)) == (0, ["nothing was changed at that moment or later"], "")
