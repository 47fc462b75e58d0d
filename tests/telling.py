"""What the listener tells the program beside the bytes of clients, for tests/listener: where a client comes from; who the users are, again on each hang-up; and what is free on the disk of the store."""
import asyncio
import os
import signal
import socket
import sys
import tempfile
import threading
import time

import breaking
from behind import LARGEST, pattern
from listening import HERE, LARGE, listening, receive, until, whole

USERS = "ann:x\nben:y\n"
# So many hang-ups random clients go through.
HANG_UPS = 50


def write(path, text):
    with open(path, "w", encoding="ascii") as file:
        file.write(text)


def asks(family, address, text, source=None):
    """What a client is told that comes to this address, from that one."""
    with socket.socket(family) as client:
        client.settimeout(100)
        if source:
            client.bind((source, 0))
        client.connect(address)
        client.sendall(text)
        client.shutdown(socket.SHUT_WR)
        return whole(client)


def change(path, text):
    """Puts a file in place whole."""
    write(path + ".new", text)
    os.replace(path + ".new", path)


def hang_up(it, path, text):
    """A hang-up, behind which the users are others."""
    change(path, text)
    it.signal(signal.SIGHUP)


def places(listen, has_ipv6):
    """The address of each client is told right before its first bytes."""
    with listening(listen) as it:
        held = {source: it.connect(source) for source in ("127.0.0.1", "127.0.0.2", "127.1.2.3")}
        silent = it.connect("127.9.9.9")
        for source, client in reversed(held.items()):
            client.sendall(b"who\n")
            yield f"who comes from {source}", receive(client, len(source) + 1) == source.encode() + b"\n"
        silent.close()
        held["127.0.0.2"].sendall(b"who\n")
        yield "and still does behind others", receive(held["127.0.0.2"], 10) == b"127.0.0.2\n"
        for client in held.values():
            client.close()
        yield "places: a clean end", it.end() == 0
    with tempfile.TemporaryDirectory() as folder:
        path = os.path.join(folder, "socket")
        words = ["--listen", f"unix:{path}", *(["--listen", "[::1]:0"] if has_ipv6 else [])]
        with listening(listen, words) as it:
            yield "who comes by a unix socket", asks(socket.AF_UNIX, path, b"who\n") == b"unix\n"
            if has_ipv6:
                yield "who comes by IPv6", asks(socket.AF_INET6, ("::1", int(it.urls[1].rstrip("/").rpartition(":")[2])), b"who\n") == b"::1\n"
    if has_ipv6 and socket.has_dualstack_ipv6():
        with socket.create_server(("::", 0), family=socket.AF_INET6, dualstack_ipv6=True) as both:
            begin = ["bash", "-c", 'exec 3<&"$0"; LISTEN_FDS=1 LISTEN_PID=$$ exec "$@"', str(both.fileno()), listen, "--connections-per-address", "1"]
            program = [sys.executable, os.path.join(HERE, "behind.py"), "serve", "1"]
            with listening(begin[0], begin[1:], program=program, pass_fds=[both.fileno()]) as it:
                address = ("127.0.0.1", both.getsockname()[1])
                with socket.create_connection(address) as held:
                    held.sendall(b"who\n")
                    yield "who comes by IPv4 to a socket of both", receive(held, 10) == b"127.0.0.1\n"
                    yield "and counts as such", asks(socket.AF_INET, address, b"who\n", "127.0.0.2") == b"127.0.0.2\n"


def free_in(path):
    told = os.statvfs(path)
    return told.f_frsize * told.f_bavail


def numbers(it):
    """What the program was told is free."""
    return [int(word) for word in it.asks(b"free\n").split(b",") if word.strip()]


def free(listen, _):
    """A program with a store is told what is free on its disk, once a second at most and while somebody is served; and again once it is run again."""
    serve = [sys.executable, os.path.join(HERE, "behind.py"), "serve", "1", "0"]
    for words in ((), ("--store",), ("--store", "/none/store")):
        with listening(listen, program=[*serve, *words]) as it:
            found = [numbers(it) for _ in range(20)]
            yield f"nothing is told of {words}", found == 20 * [[]] and it.end() == 0
    # Nobody else writes there.
    quiet = "/dev/shm" if os.path.isdir("/dev/shm") else None
    with tempfile.NamedTemporaryFile(dir=quiet) as store, listening(listen, program=[*serve, "--store", store.name]) as it:
        yield "what is free is told", until(lambda: numbers(it)[-1:] == [free_in(store.name)])
        store.write(bytes(20_000_000))
        store.flush()
        yield "and told again where it is less", until(lambda: numbers(it)[-1:] == [free_in(store.name)]) and len(numbers(it)) > 1
        before, began = len(numbers(it)), time.monotonic()
        while (passed := time.monotonic() - began) < 2.5:
            store.write(bytes(100_000))
            store.flush()
            it.asks(b"get 3\n")
        yield "once a second at most", 2 <= len(numbers(it)) - before <= passed + 2
        it.asks(b"end 5\n")
        yield "a program that is run again is told it", until(lambda: len(numbers(it)) == 1) and "run again" in it.told()
        yield "free: a clean end", it.end() == 0
    with breaking.preloaded() as shim, listening(listen, program=[*serve, "--store", "/"], environment={"LD_PRELOAD": shim, "HANGS": "1"}) as it:
        yield "a disk that hangs keeps nobody waiting", [it.asks(b"get 3\n") for _ in range(100)] == 100 * [pattern(3)] and numbers(it) == [] and it.end() == 0


def is_told(it, wanted):
    """Whether these are the users at last."""
    return until(lambda: it.asks(b"users\n") == wanted + b"\n")


def users(listen, _):
    with tempfile.TemporaryDirectory() as folder:
        path = os.path.join(folder, "users")
        yield from wrong_starts(listen, folder, path)
        write(path, USERS)
        with listening(listen, users=path) as it, it.connect() as held:
            yield "the users are told first of all", it.asks(b"users\n") == b"ann,ben\n"
            held.sendall(b"get 3\nput 9\n123")
            yield "before a hang-up", receive(held, 3) == pattern(3)
            write(path, "ben:y\ncid:z\n")
            yield "and not again of themselves", it.asks(b"users\n") == b"ann,ben\n"
            it.signal(signal.SIGHUP)
            yield "a hang-up tells them again", is_told(it, b"ben,cid")
            it.signal(signal.SIGHUP)
            yield "one that has changed nothing says that alone", until(lambda: it.told().count(f"a hang-up has changed nothing: the users of {path} are the same") == 1) and it.told().count("read again") == 1
            for what, change_file in changes(path):
                change_file()
                before = it.told().count("the users stay")
                it.signal(signal.SIGHUP)
                yield f"{what} is told", until(lambda: it.told().count("the users stay") == before + 1) and path in it.told()
                yield f"{what}: the users stay", it.asks(b"users\n") == b"ben,cid\n"
            write(path, "ben:y\nwrong\n")
            it.signal(signal.SIGHUP)
            yield "a wrong line is the program's matter", until(lambda: "line 2" in it.told()) and it.asks(b"users\n") == b"ben,cid\n"
            write(path, "x:" + "y" * (LARGEST - 3) + "\n")
            it.signal(signal.SIGHUP)
            yield "a file of 1 MiB is told whole", is_told(it, b"x")
            it.asks(b"end 5\n")
            yield "a program that is run again is told them", is_told(it, b"x") and "run again" in it.told()
            held.close()
            yield "users: a clean end", it.end() == 0


def readers(listen, _):
    """A file of users that everyone may read is told, unless its folder keeps others out."""
    with tempfile.TemporaryDirectory() as folder:
        path = os.path.join(folder, "users")
        write(path, USERS)
        os.chmod(folder, 0o711)
        os.chmod(path, 0o644)
        line, again = f"everyone on this machine may read the users {path}: chmod o-r", "a hang-up has changed nothing"
        with listening(listen, users=path) as it:
            yield "users that everyone may read are told at the start", it.told().count(line) == 1
            for what, folder_mode, mode, wanted in (("again", 0o711, 0o644, 2), ("and not once they are the group's", 0o711, 0o640, 2), ("nor in a folder that keeps others out", 0o750, 0o644, 2), ("nor where others may only write them", 0o755, 0o602, 2)):
                os.chmod(folder, folder_mode)
                os.chmod(path, mode)
                before = it.told().count(again)
                it.signal(signal.SIGHUP)
                yield f"on a hang-up {what}", until(lambda: it.told().count(again) > before) and it.told().count(line) == wanted
            yield "readers: a clean end", it.end() == 0


def changes(path):
    """What makes a file that can't be read, one behind another."""
    yield "a file that is gone", lambda: os.remove(path)
    yield "a folder", lambda: os.mkdir(path)
    yield "a pipe", lambda: (os.rmdir(path), os.mkfifo(path))
    yield "a long file", lambda: (os.remove(path), write(path, "x:" + "y" * LARGEST))


def wrong_starts(listen, folder, path):
    """Each begins anew with such a file, and leaves none."""
    from_nothing = [*changes(path)]
    write(path, "")
    for what, change_file in from_nothing:
        change_file()
        with listening(listen, users=path) as it:
            yield f"{what} at the start", it.wait() == 7 and path in it.told() and it.urls == [""]
    write(path, "ann:x\nben:y\n\n")
    with listening(listen, users=path) as it:
        yield "a wrong line at the start", it.wait() == 27 and "line 3" in it.told() and "exit status: 7" in it.told()
    write(path, USERS)
    with listening(listen, ["--listen", "0.0.0.0:0"], users=path) as it:
        yield "users on an open address", until(lambda: "can read passwords" in it.told())
    os.remove(path)


def hang_ups(listen, _):
    """A hang-up ends nothing and loses nothing, however many there are, and at whatever moment."""
    with listening(listen) as it:
        it.signal(signal.SIGHUP)
        yield "without users a hang-up says so", until(lambda: "a hang-up has changed nothing: there is no --users" in it.told())
        for number in (signal.SIGHUP, signal.SIGTERM, signal.SIGINT):
            os.kill(it.program(), number)
        yield "signals don't end the program", it.asks(b"get 3\n") == pattern(3) and it.end() == 0
    with tempfile.TemporaryDirectory() as folder:
        path = os.path.join(folder, "users")
        long = ["x:" + letter * (LARGEST - 3) + "\n" for letter in "yz"]
        write(path, long[0])
        with listening(listen, users=path, deaf=2) as it:
            end = time.monotonic() + 1
            while time.monotonic() < end:
                long.reverse()
                hang_up(it, path, long[0])
            yield "a program that reads nothing has no more than some users wait", it.asks(b"users\n") == b"x\n" and it.memory() < 20
        write(path, USERS)
        with listening(listen, ["--head", "600"], users=path) as it, it.connect() as sending, it.connect(room=65536) as taking:
            sending.sendall(b"put 1000000\n")
            taking.sendall(b"get %d\n" % LARGE)
            taken = 0
            for number in range(100):
                hang_up(it, path, f"{USERS}cid:{number}\n")
                sending.sendall(bytes(10_000))
                piece = receive(taking, 100_000)
                if piece != (pattern(100_000 + 251)[taken % 251 :])[:100_000]:
                    break
                taken += len(piece)
            yield "an upload goes on through a hundred hang-ups", receive(sending, 11) == b"ok 1000000\n"
            yield "and a download", taken == 10_000_000
            it.signal()
            hang_up(it, path, USERS)
            yield "and behind a first signal, up to its end", len(whole(taking)) == LARGE - taken and it.wait() == 0
        with listening(listen, mode="echo", users=path) as it:
            clients = breaking.Clients(2, it.port, 1 << 60)
            counts = asyncio.run(beside_hang_ups(it, path, clients))
            followed, played = it.told().count("read again"), clients.played()
            yield f"of {played} random clients beside {followed} of them {counts['wrong']} are answered wrongly", counts["wrong"] == 0 and played > breaking.AT_ONCE and followed >= HANG_UPS
            yield "hang-ups: a clean end", it.end() == 0


async def beside_hang_ups(it, path, clients):
    """What random clients come to that go on until so many hang-ups were followed, and more of them have come than there are places."""
    played, is_over = asyncio.ensure_future(clients.play()), threading.Event()

    def hang_up_often():
        number = 0
        while not is_over.wait(0.005):
            number += 1
            hang_up(it, path, f"{USERS}cid:{number}\n")

    # Beside what the clients do, which may take longer than many hang-ups.
    hangs_up = threading.Thread(target=hang_up_often)
    hangs_up.start()
    try:
        while not played.done():
            await asyncio.sleep(0.01)
            if it.told().count("read again") >= HANG_UPS and clients.played() > breaking.AT_ONCE:
                clients.left = 0
        return await played
    finally:
        is_over.set()
        hangs_up.join()
