"""What the listener does before its program is ready, and once it has ended, for tests/listener."""
import fcntl
import json
import os
import select
import signal
import socket
import sys
import tempfile
import termios
import time

from behind import pattern
from listening import HERE, comes, failed_start, in_time, is_closed, listening, receive, until, whole
from telling import change, hang_up

# For so many seconds nothing has to come.
SILENCE = 0.5
BEHIND = [sys.executable, os.path.join(HERE, "behind.py"), "serve", "1", "0"]
# What a program that is no davserve does, and the status of its listener.
ENDS = [*((f"exit {status}", 20 + status) for status in (0, 1, 2, 3, 4, 5, 6, 7, 8, 9, 10, 11, 19)), ("exit 20", 39), ("exit 255", 39), ("kill -KILL $$", 40)]
# How many runs come before a pause of so many seconds.
RUNS = {1: 2, 4: 4, 16: 6}
# Those of which it is run again behind its readiness.
AGAIN = ("exit 3", "exit 5")


def shell(script, *words):
    return ["sh", "-c", script, "sh", *words]


def notes(path):
    """What the program has noted: the moment, the word, and its words."""
    if not os.path.exists(path):
        return []
    with open(path, encoding="utf-8") as file:
        return [json.loads(line) for line in file]


def joined(path, text=b""):
    """A client of a unix socket, once one is heard there."""
    client = socket.socket(socket.AF_UNIX)
    client.settimeout(100)
    until(lambda: client.connect_ex(path) == 0)
    client.sendall(text)
    return client


def is_heard(client):
    """Whether what a client of a unix socket has sent was read."""
    return int.from_bytes(fcntl.ioctl(client, termios.TIOCOUTQ, bytes(4)), sys.byteorder) == 0


def before(listen, _):
    with tempfile.TemporaryDirectory() as folder, socket.socket(socket.AF_UNIX, socket.SOCK_DGRAM) as told:
        path, gate, name = (os.path.join(folder, name) for name in ("socket", "gate", "notify"))
        told.bind(name)
        told.settimeout(100)
        words, surroundings = ["--listen", f"unix:{path}", "--head", "600"], {"READY_WHEN": gate, "NOTIFY_SOCKET": name}
        with listening(listen, words, environment=surroundings, waits=False) as it:
            client, resting = joined(path, b"get 3\nput 300000\n" + bytes(300_000)), joined(path)
            quiet = not select.select([it.child.stdout, told, client], [], [], SILENCE)[0] and it.told() == ""
            yield "nothing is told before", quiet
            with open(gate, "w", encoding="ascii"):
                it.read_urls()
            yield "then the URL is told", it.urls == [f"unix:{path}"]
            yield "and what has to be known", until(lambda: "MB of memory" in it.told())
            yield "and readiness", told.recv(100) == b"READY=1"
            yield "who had come before is answered", receive(client, 13) == pattern(3) + b"ok 300000\n"
            resting.sendall(b"get 3\n")
            yield "and who had said nothing is heard", receive(resting, 3) == pattern(3)
            client.close()
            resting.close()
            yield "before: a clean end", it.end() == 0
        os.remove(gate)
        yield from ended_before(listen, path, gate)
    yield from wrong_before(listen)


def ended_before(listen, path, gate):
    for is_asked in (False, True):
        with listening(listen, ["--listen", f"unix:{path}", "--grace", "1"], environment={"READY_WHEN": gate}, waits=False) as it:
            client = joined(path, b"get 3\n" if is_asked else b"")
            it.signal()
            yield f"a signal before it is ready ends it, asked {is_asked}", it.wait() == 0 and it.told() == ""
            client.close()
    with listening(listen, ["--listen", f"unix:{path}", "--grace", "600"], environment={"READY_WHEN": gate}, waits=False) as it:
        with joined(path, b"get 3\n") as client:
            yield "one is heard", until(lambda: is_heard(client))
            it.signal()
            yield "nobody comes any more", until(lambda: not os.path.exists(path))
            with open(gate, "w", encoding="ascii"):
                yield "once it is ready what was asked is answered", whole(client) == pattern(3)
        yield "and nobody is told that it serves", it.wait() == 0 and it.rest == b"" and it.told() == "left 0\n"


def wrong_before(listen):
    for frame in ("1 0", "1 3\\nabc", "grant 1 1", "more", "rests 1 1", "ready 1", "Ready"):
        status, told = failed_start(listen, ["0"], shell(f"printf '{frame}\\n'; cat >/dev/null"))
        yield f"a wrong frame before it is ready: {frame}", status == 5 and "no frame" in told and "MB of memory" not in told
    with listening(listen, program=shell("echo ready; read line; echo ready; cat >/dev/null")) as it, it.connect() as client:
        yield "one that is ready", it.urls[0].startswith("http://")
        client.sendall(b"x")
        yield "it is ready only once", it.wait() == 5 and "no frame" in it.told()


def statuses(listen, _):
    """How the program ends is told by the status."""
    for script, wanted in ENDS:
        status, told = failed_start(listen, ["0"], shell(script))
        yield f"before it is ready: {script}", status == wanted and "the program has ended" in told
        if script not in AGAIN:
            status, told = failed_start(listen, ["0"], shell("echo ready; " + script))
            yield f"behind that: {script}", status == wanted and "the program has ended" in told
    for script, wanted in (("exit 0", 0), ("exit 1", 0), ("exit 5", 25), ("kill -KILL $$", 0)):
        with listening(listen, program=shell(f"echo ready; cat >/dev/null; {script}")) as it:
            it.signal()
            yield f"behind a signal: {script}", it.wait() == wanted and ("the program has ended" in it.told()) == (wanted > 0)
    status, told = failed_start(listen, ["0"], shell("grep SigIgn /proc/self/status >&2; exit 1"))
    ignored = told.partition("SigIgn:")[2].split()
    yield f"a file that becomes too long ends no program: {ignored[:1]}", status == 21 and bool(int(ignored[0], 16) >> (signal.SIGXFSZ - 1) & 1)


def runs_again(listen, _):
    with listening(listen, ["--connections-per-address", "100"]) as it, it.connect() as resting, it.connect(room=65536) as taking, it.connect() as sending, it.connect() as silent:
        resting.sendall(b"get 3\n")
        taking.sendall(b"get 250000\n")
        sending.sendall(b"get 3\nput 9\n123")
        begun = receive(resting, 3) + receive(sending, 3) + receive(taking, 1000)
        yield "before a program ends", begun == pattern(3) * 2 + pattern(1000)
        for number, status in enumerate((5, 3)):
            with it.connect() as client:
                client.sendall(b"get 5\nend %d\n" % status)
                yield f"run {number}: its connections are ended", pattern(5).startswith(whole(client))
            yield f"run {number}: it is run again", it.asks(b"get 3\n") == pattern(3)
        yield "those that rest or send are ended", whole(resting) == whole(sending) == b""
        yield "one that takes slowly gets what it was told", whole(taking) == pattern(250_000)[1000:]
        silent.sendall(b"get 3\n")
        yield "one that had said nothing is served", receive(silent, 3) == pattern(3)
        lines = [line for line in it.told().splitlines() if "run again" in line]
        yield f"each is told: {lines}", len(lines) == 2 and "could not keep what was changed (exit status: 5)" in lines[0] and "had no memory left (exit status: 3)" in lines[1]
        it.asks(b"die\n")
        yield "one that is killed and has no store isn't run again", it.wait() == 40 and "signal: 9" in it.told()
        yield "its URL is told once", it.urls[0].startswith("http://") and it.rest == b""
    with listening(listen) as it, it.connect() as client:
        client.sendall(b"get 3\nput 3\n12")
        yield "before a stop", receive(client, 3) == pattern(3)
        it.signal()
        yield "it stops", until(lambda: not comes(it))
        client.sendall(b"3end 5\n")
        yield "where it is to stop, it isn't", it.wait() == 25 and "run again" not in it.told()
    yield from ended_again(listen)


def ended_again(listen):
    """One that is run again and ends before it is ready."""
    with tempfile.TemporaryDirectory() as folder:
        for number, (first, second, wanted) in enumerate((("exit 5", "exit 9", 29), ("exit 3", "exit 6", 26), ("kill -KILL $$", "exit 5", 25), ("exit 5", "kill -KILL $$", 40))):
            path = os.path.join(folder, str(number))
            script = f"if [ -e {path} ]; then {second}; fi; touch {path}; echo ready; {first}"
            status, told = failed_start(listen, ["0"], shell(script, "--store", "x"))
            yield f"{first}, and then {second}", status == wanted and told.count("run again") == 1


def pauses(listen, _):
    """A program with a store that is killed again and again, by what it has noted."""
    with tempfile.TemporaryDirectory() as folder:
        path, users = os.path.join(folder, "notes"), os.path.join(folder, "users")
        change(users, "ann:x\n")
        with listening(listen, users=users, program=[*BEHIND, "--login", "--store", "x"], environment={"NOTES": path}) as it:
            for ends in (b"die\n", b"end 5\n", b"end 3\n"):
                it.asks(ends)
                yield f"behind {ends} who comes waits, and is served", it.asks(b"users\n") == b"ann\n"
            it.asks(b"die\n")
            hang_up(it, users, "ben:y\n")
            yield "users that change in a pause are those of the next program", it.asks(b"get 3\nusers\n") in (pattern(3) + b"ben\n", None) and until(lambda: it.asks(b"users\n") == b"ben\n")
            lines = [line.rpartition(" again ")[2] for line in it.told().splitlines() if "run again" in line]
            yield f"when it goes on is told: {lines}", lines == ["at once", "in 1 second", "in 2 seconds", "in 4 seconds"]
            found = notes(path)
            begins, ends = ([each for each in found if each[1] == word] for word in ("begins", "ends"))
            waited = [after[0] - ended[0] for ended, after in zip(ends, begins[1:])]
            yield f"and it goes on then: {waited}", len(waited) == 4 and all(wait > 0.99 * least for wait, least in zip(waited, (0, 1, 2, 4)))
            first = ["--login", "--store", "x"]
            yield f"a store has to be there then: {begins}", [each[2:] for each in begins] == [first] + 4 * [[*first, "--existing"]]
            yield "pauses: a clean end", it.end() == 0
        with listening(listen, program=[*BEHIND, "--existing", "--store", "x"], environment={"NOTES": path}) as it:
            it.asks(b"die\n")
            yield "a word that is there isn't added", it.asks(b"get 3\n") == pattern(3) and notes(path)[-1][2:] == ["--existing", "--store", "x"]
            yield "a store that has to be there: a clean end", it.end() == 0


def stops_within_pauses(listen, _):
    return in_time(lambda limit: stop_within(listen, limit))


def stop_within(listen, limit):
    """The rows of a signal within a pause of so many seconds, or none where it came too late."""
    with tempfile.TemporaryDirectory() as folder:
        path = os.path.join(folder, "notes")
        with listening(listen, ["--grace", "600"], environment={"NOTES": path}) as it:
            for _ in range(RUNS[limit]):
                it.asks(b"end 5\n")
            until(lambda: f"again in {limit} second" in it.told())
            with it.connect() as client:
                client.sendall(b"get 3\n")
                it.signal()
                if time.monotonic() > notes(path)[-1][0] + limit / 2:
                    return None
                rows = [(f"a signal within a pause of {limit} s ends it", it.wait() == 0)]
                rows.append(("at once, without another run", [word for _, word, *_ in notes(path)].count("begins") == RUNS[limit]))
                return [*rows, ("and who waits is let go", until(lambda: is_closed(client)))]
