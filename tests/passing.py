"""Proxies of deploy/ that pass connections on and know no HTTP, for tests/front: they tell where a client is by the PROXY protocol, and users log in to the server."""
import contextlib
import os
import re
import subprocess
from typing import NamedTuple

from foreign import litmus
from programs import is_here

# Where a client is that comes by the proxy.
CLIENT = "127.0.0.5"


class Passing(NamedTuple):
    """A configuration of deploy/, how it is begun, what is changed of it for a place, and how the server is begun behind it."""

    name: str
    begin: list
    changes: object
    words: object


# Root alone can become another user: for whoever else runs haproxy its configuration names none.
NO_USER = [] if os.geteuid() == 0 else [(r"(?m)^    (user haproxy|group www-data)$", "")]


def of_haproxy(front):
    return [(r":443,\[::\]:443", f"127.0.0.1:{front.port}"), *NO_USER]


def behind_haproxy(front):
    tls = ["--tls-cert", f"{front.folder}/certificate.pem", "--tls-key", f"{front.folder}/key.pem"]
    return ["--listen", f"unix:{front.folder}/run/socket,mode=660,tls", *tls, "--proxy-protocol", "unix"]


def of_hitch(front):
    return [(r"\[\*\]:443", f"[127.0.0.1]:{front.port}"), (r"\[127\.0\.0\.1\]:8080", f"[127.0.0.1]:{front.behind}")]


def behind_hitch(front):
    return ["--listen", f"127.0.0.1:{front.behind}", "--proxy-protocol", "127.0.0.1"]


PASSING = {
    "haproxy in TCP mode": Passing("haproxy-tcp.cfg", ["haproxy", "-f"], of_haproxy, behind_haproxy),
    "hitch": Passing("hitch.conf", ["hitch", "--config"], of_hitch, behind_hitch),
}


def users_of(front, names, password):
    path = os.path.join(front.folder, "passed-users")
    hashed = subprocess.run(["openssl", "passwd", "-5", "-stdin"], input=password + "\n", stdout=subprocess.PIPE, text=True, check=True).stdout.strip()
    with open(path, "w", encoding="ascii") as file:
        file.writelines(f"{name}:{hashed}\n" for name in names)
    return path


def last_in_log(front):
    with open(front.log, encoding="ascii") as file:
        return file.read().splitlines()[-1].split()[:3]


def rows_of(front, proxy, curl):
    """What a client sees that comes by such a proxy."""
    yield f"{proxy}: without a password", curl(front.url, "--interface", CLIENT)[0] == 401
    yield f"{proxy}: with one", curl(front.url, "--interface", CLIENT, "-H", "X-Forwarded-For: 192.0.2.7", user="ann")[0] == 200
    yield f"{proxy}: where a client is", last_in_log(front) == [CLIENT, "-", "ann"]
    made = curl(front.url + "a", "-X", "PUT", "-d", "x", user="ann")[0]
    moved = curl(front.url + "a", "-X", "MOVE", "-H", f"Destination: {front.url}b", user="ann")[0]
    yield f"{proxy}: a file is put and moved", (made, moved) == (201, 201)
    curl(front.url + "b", "-X", "DELETE", user="ann")


def passed_on(front, proxy, programs, running, in_front, curl, uploaded, megabytes, login):
    """Rows of one proxy, with a server behind it."""
    it = PASSING[proxy]
    names, password = login
    with in_front(front, it.name, it.begin, it.changes):
        scheme = ["--scheme", "https"]
        begin = [programs[0], *it.words(front), "--users", users_of(front, names, password), programs[1], "--login", *scheme, "--log", front.log, "--max-body", "300000000", "--unfinished", "600000000"]
        with running(begin, stdout=subprocess.PIPE, stderr=subprocess.DEVNULL) as server:
            yield f"{proxy}: the server begins", re.match(rb"unix:|http", server.stdout.readline()) is not None
            yield from rows_of(front, proxy, curl)
            yield f"{proxy}: {megabytes} MB there and back", uploaded(front, megabytes)
            for suite in ("basic", "locks") if is_here("front", "litmus") else ():
                yield f"{proxy}: litmus {suite}", litmus(front.url, front.folder, suite, names[0], password)[1]
    with contextlib.suppress(OSError):
        os.remove(front.log)
