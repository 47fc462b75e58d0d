"""Who puts and who reads while something is broken or moved: for tests/machines."""
import contextlib
import http.client
import threading
import time

CLIENTS, PATIENCE = 4, 2


def answer_on(client, method, path, body=None):
    """The status and the body of an answer; none where there is no answer, and the next one is asked on a new connection."""
    try:
        client.request(method, path, body)
        answer = client.getresponse()
        return answer.status, answer.read()
    except (OSError, http.client.HTTPException):
        client.close()
        return None, b""


def asked(address, port, method, path, body=None):
    """The same, on a connection of its own."""
    with contextlib.closing(http.client.HTTPConnection(address, port, timeout=PATIENCE)) as client:
        return answer_on(client, method, path, body)


class Load:
    """Clients that put, each a new file and then one that it puts again and again, until it is told to end. The names of their files begin with `prefix`."""

    def __init__(self, address, port=80, prefix="/"):
        self.address, self.port, self.prefix, self.over = address, port, prefix, threading.Event()
        # What each file may have: what was answered last, and what was sent since.
        self.sent, self.answered, self.moments = {}, set(), []
        self.threads = [threading.Thread(target=self.put, args=(client,), daemon=True) for client in range(CLIENTS)]
        for thread in self.threads:
            thread.start()

    def put(self, client):
        number = 0
        while not self.over.is_set():
            for path, body in ((f"{self.prefix}{client}-{number}", b"%d %d " % (client, number) * 100), (f"{self.prefix}{client}", b"%d" % number)):
                self.sent.setdefault(path, []).append(body)
                status, _ = asked(self.address, self.port, "PUT", path, body)
                if status in (201, 204):
                    self.moments.append(time.monotonic())
                    self.answered.add(path)
                    self.sent[path] = [body]
            number += 1
            time.sleep(0.02)

    def goes_on(self, since):
        """Whether a client was answered behind a moment."""
        return bool(self.moments) and self.moments[-1] > since

    def end(self):
        self.over.set()
        for thread in self.threads:
            thread.join()

    def pause(self):
        """For how long nobody was answered, at the longest."""
        moments = sorted(self.moments)
        return max((later - earlier for earlier, later in zip(moments, moments[1:])), default=0)

    def lost(self, address, port=80):
        """Files that were answered, and are other ones now. Each is asked for twice where there is no answer."""
        with contextlib.closing(http.client.HTTPConnection(address, port, timeout=10)) as client:
            return [path for path in sorted(self.answered) if not any(answer_on(client, "GET", path)[1] in self.sent[path] for _ in range(2))]


class Readers:
    """Each asks the server of one host by itself, five times a second. A look counts that was asked once a server had begun to answer which is later than its own."""

    def __init__(self, addresses):
        self.over, self.since, self.looks, self.beside = threading.Event(), {}, 0, 0
        # These are not asked for now.
        self.resting = set()
        self.threads = [threading.Thread(target=self.read, args=(host, address), daemon=True) for host, address in addresses.items()]
        for thread in self.threads:
            thread.start()

    def read(self, host, address):
        while not self.over.is_set():
            if host not in self.resting:
                self.look(host, address)
            time.sleep(0.2)

    def look(self, host, address):
        began = time.monotonic()
        status, _ = asked(address, 8080, "GET", "/0")
        if status in (200, 404):
            self.looks += 1
            since = self.since.setdefault(host, time.monotonic())
            self.beside += any(since < other < began for other in list(self.since.values()))
        else:
            self.since.pop(host, None)

    def serving(self):
        """The host whose server began to answer last."""
        since = dict(self.since)
        return max(since, key=since.get, default=None)

    def end(self):
        self.over.set()
        for thread in self.threads:
            thread.join()
