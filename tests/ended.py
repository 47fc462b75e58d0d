"""Locks that davstore lists and ends."""
import os
import re
import subprocess

from frames import LOCK_INFO, frame, pieces, request

MOMENT, LATER, HOUR = 10**18, 4 * 10**18, 3600 * 10**9
ANN, BEN = b"X-User: ann\r\n", b"X-User: ben\r\n"
SHARED = LOCK_INFO.replace(b"exclusive", b"shared")
OPERATOR = "urn%3Adav-resource-core%3Aoperator"


def rows(stores, davserve):
    """A lock on the root without an end, whose holder is gone, and two more below."""
    def serve(moment, *requests):
        given = b"clock %d\n" % moment + frame(1, b"".join(requests)) + frame(1)
        ran = subprocess.run([davserve, "--store", stores.path, "--user-header", "x-user", "--clock", "frames"], input=given, capture_output=True, timeout=100, check=False)
        return re.findall(rb"(?<!<D:status>)HTTP/1\.1 (\d+)", b"".join(pieces(ran.stdout)[1]))

    yield "no file has locks", stores.ask("locks")[1] == ["new"] and stores.ask("unlock", "x")[0] == 1
    os.remove(stores.path)
    yield "no store", stores.ask("locks")[0] == 3 and stores.ask("unlock", "x")[0] == 3 and not os.path.exists(stores.path)
    serve(MOMENT, request(b"PUT /a", b"1", ANN), request(b"MKCOL /d", None, ANN))
    yield "a store has none", stores.ask("locks") == (1, [], "")
    locked = serve(
        MOMENT,
        request(b"LOCK /a", SHARED, ANN + b"Timeout: Second-3600\r\nDepth: 0\r\n"),
        request(b"LOCK /a", SHARED, BEN + b"Timeout: Infinite\r\nDepth: 0\r\n"),
        request(b"LOCK /d", LOCK_INFO, ANN + b"Timeout: Infinite\r\n"),
    )
    status, told, _ = stores.ask("locks")
    lines = [line.split(" ") for line in told]
    wanted = [["shared", "shallow", "ann", "/a"], ["shared", "shallow", "ben", "/a"], ["exclusive", "deep", "ann", "/d"]]
    is_right = locked == [b"200"] * 3 and status == 0 and [line[1:3] + line[4:] for line in lines] == wanted
    # Each request has a moment of its own, a nanosecond behind the one before.
    yield f"each lock has a line: {told}", is_right and MOMENT + HOUR < int(lines[0][3]) < MOMENT + HOUR + 10 and lines[1][3] == lines[2][3] == "-"
    token = next(line[0] for line in lines if line[-1] == "/d").replace("%3A", ":")
    put = request(b"PUT /d/b", b"2", BEN)
    yield "it keeps others out", serve(LATER, put) == [b"423"]
    before = stores.bytes()
    yield "another token ends none", stores.ask("unlock", "urn:uuid:none") == (1, ["there is no such lock"], "") and stores.bytes() == before
    yield "it is ended", stores.ask("unlock", token) == (0, [f"unlocked: {token}"], "") and [line.split(" ")[4] for line in stores.ask("locks")[1]] == ["ben"]
    last = stores.ask("log")[1][-1].split(" ")
    yield f"by a record that names its caller: {last}", last[1:] == ["ann", f"{token.replace(':', '%3A')},{OPERATOR}", "unlock", "/d", token.replace(":", "%3A")]
    yield "nobody is kept out then", serve(LATER + HOUR, put) == [b"201"]
    yield "once", stores.ask("unlock", token)[0] == 1
    expired = next(line[0] for line in lines if line[3] != "-").replace("%3A", ":")
    yield "one that has expired is none", stores.ask("unlock", expired) == (1, ["there is no such lock"], "")
