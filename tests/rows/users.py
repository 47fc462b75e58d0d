"""Plays the rows of tests/rows/users on davserve: files of users, hashes, credentials, logins, and addresses."""
import base64
import os
import re
import subprocess
import tempfile

from frames import LOCK_INFO, Listener, frame, pieces, request

FOLDER = os.path.join(os.path.dirname(os.path.abspath(__file__)), "users")
# The field by which the server names users to itself.
USER = b"x-logged-in-user"
USERS = b"ann:$5$saltsalt$0IyaXrmV7.sGNS6tirgqHLqX/G.FBvgkYA.lpPdS5sA\nbob:$5$othersalt$rl2lEnK9jqM2yOPn44LF9pjIcHANst8vKfeJ9.VVW77\n"
PASSWORDS = {b"ann": b"secret", b"bob": "pä:ss".encode()}


def lines_of(name):
    """The rows of a file, behind what says what they are."""
    with open(os.path.join(FOLDER, name + ".rows"), encoding="utf-8") as file:
        return file.read().partition("\n\n")[2].rstrip("\n").split("\n")


def listed(users):
    """The frame that tells a file of users."""
    return b"users %d\n" % len(users) + users


def signed(name, password):
    return b"Authorization: Basic " + base64.b64encode(name + b":" + password) + b"\r\n"


def statuses(told):
    return [int(code) for code in re.findall(rb"HTTP/1\.1 (\d+) ", told)]


class Serving:
    """A server that users log in to. Guesses are limited by the machine's clock, so each server is asked for few that are wrong, each from an address of its own."""

    def __init__(self, davserve, users, *words):
        self.listener, self.number = Listener([davserve, "--login", "--clock", "frames", *words]), 0
        self.listener.say(listed(users))

    def ask(self, *requests):
        """What a new connection is told."""
        self.number += 1
        self.listener.say(b"from %d 10.0.0.%d\n" % (self.number, self.number))
        self.listener.send(self.number, b"".join(requests))
        self.listener.settle()
        return self.listener.text(self.number)

    def list(self, users):
        """Another file of users is in force."""
        self.listener.say(listed(users))

    def end(self):
        self.listener.end()


def rows_of_hashes(davserve):
    for row in lines_of("hashes"):
        text, _, word = row.partition(" ")
        password, serving = bytes.fromhex(word), Serving(davserve, b"eve:%b\n" % text.encode())
        told = [statuses(serving.ask(request(b"GET /", None, signed(b"eve", given)))) for given in (password, password + b"x")]
        serving.end()
        yield row, told == [[200 if len(password) <= 128 else 401], [401]]


def rows_of_files(davserve, where):
    path = os.path.join(where, "users")
    for row in lines_of("files"):
        text, _, wanted = row.partition(" ")
        with open(path, "wb") as file:
            file.write(bytes.fromhex(text))
        ran = subprocess.run([davserve, "--users", path, "--clock", "frames"], input=frame(1, request(b"OPTIONS /")) + frame(1), capture_output=True, timeout=100, check=False)
        if wanted == "Ok":
            yield row, ran.returncode == 0 and statuses(ran.stdout) == [200]
        else:
            yield row, ran.returncode == 7 and ran.stderr.decode().rstrip("\n").endswith(wanted) and not statuses(ran.stdout)


def rows_of_credentials(davserve):
    """A value that gives a name and a password logs in where a user has these, and not where the user has another password."""
    rows = [row.split("|")[1:] for row in lines_of("credentials")]
    known = {given[0]: given[1] for _, *given in rows if len(given) == 2}
    for value, given, *_ in rows:
        serving, told = Serving(davserve, USERS), []
        for pair, text in known.items():
            serving.list(f"{pair.partition(',')[0]}:{text}\n".encode())
            told.append(statuses(serving.ask(request(b"GET /", None, b"Authorization: %b\r\n" % value.encode()))))
        serving.end()
        yield f"|{value}|{given}", told == [[200 if pair == given else 401] for pair in known]


def rows_of_requests(davserve):
    """Whose request it is, is seen by a file of each user under a lock, to which a PUT with its token passes that is the user's."""
    serving, locks = Serving(davserve, USERS, "--realm", "a realm"), {}
    for name, password in PASSWORDS.items():
        told = serving.ask(request(b"LOCK /of-" + name, LOCK_INFO, signed(name, password)))
        locks[name] = re.search(rb"lock-token: (<[^>]+>)", told)[1]
    for time in ("first", "then"):
        yield from ((f"{row}, {time}", told_to(serving, row, locks)) for row in lines_of("requests"))
    serving.end()


def told_to(serving, row, locks):
    """Whether a request is answered as the row says, and is the user's whom it says."""
    method, values, named, wanted = row.split("|")
    status, *words = wanted.split()
    fields = b"".join(b"Authorization: %b\r\n" % value.encode() for value in values.split(",") if value)
    fields += b"".join(USER + b": %b\r\n" % value.encode() for value in named.split(",") if value)
    line, body = (b"GET /", None) if method == "GET" else (b"%b /a" % method.encode(), b"x" if method == "PUT" else None)
    told = serving.ask(request(line, body, fields))
    if status == "401":
        return statuses(told) == [401] and b'\r\nwww-authenticate: Basic realm="a realm", charset="UTF-8"\r\n' in told and told.endswith(b"content-length: 0\r\n\r\n")
    if statuses(told) not in ([200], [201], [204]):
        return False
    user = words[1].encode() if len(words) == 3 else None
    return all(passed(serving, name, fields, token) == (401 if user is None else 204 if name == user else 423) for name, token in locks.items())


def passed(serving, name, fields, token):
    """The status of a PUT with the token to the file of a user."""
    (status,) = statuses(serving.ask(request(b"PUT /of-" + name, b"x", fields + b"If: (%b)\r\n" % token)))
    return status


def rows_of_addresses(davserve, where):
    """The log says where a request comes from, with the field and without."""
    for words in (["--address-header", "x-forwarded-for"], []):
        log = os.path.join(where, "log")
        listener = Listener([davserve, "--clock", "frames", "--log", log, *words])
        for number, row in enumerate(lines_of("addresses")):
            values, _, wanted = row.partition("=")
            fields = b"".join(b"X-Forwarded-For: %b\r\n" % value.encode() for value in values.split("|")[1:])
            listener.say(b"from %d connection\n" % (number + 1))
            listener.send(number + 1, request(b"GET /", None, fields))
            listener.settle()
            with open(log, encoding="ascii") as file:
                line = file.read().splitlines()[-1]
            address = (wanted if words else "connection").replace("\\", "\\x5C").replace('"', "\\x22")
            yield f"{row} {words}", line.startswith(address + " ")
        listener.end()
        os.remove(log)


def rows(davserve):
    """Each row of each file, with its name, and whether it is answered so."""
    with tempfile.TemporaryDirectory() as where:
        played = {
            "hashes": rows_of_hashes(davserve),
            "files": rows_of_files(davserve, where),
            "credentials": rows_of_credentials(davserve),
            "requests": rows_of_requests(davserve),
            "addresses": rows_of_addresses(davserve, where),
        }
        for name, found in played.items():
            yield from ((f"users/{name}.rows: {row}", is_right) for row, is_right in found)
