"""Who guesses passwords behind the listener, and who is served meanwhile; and users that change on a hang-up: for tests/login."""
import asyncio
import base64
import collections
import os
import signal
import time

from listening import listening, until

# Of one address: so many wrong checks, and one more a second. Of all: so many checks, and as many more a second.
OF_ONE, OF_ALL = 5, 20
SECONDS, RATE, CONNECTIONS = 3, 1000, 10
# A user is served at least once while a guesser is told so many answers on each of its connections, or so many times sixteen where it has fewer.
TURNS = 5
PATIENCE = 300


def basic(name, word):
    return b"Authorization: Basic " + base64.b64encode(f"{name}:{word}".encode()) + b"\r\n"


class Client:
    """A connection from an address, which asks and is answered in order."""

    def __init__(self, reader, writer):
        self.reader, self.writer = reader, writer

    @classmethod
    async def to(cls, port, source="127.0.0.1"):
        return cls(*await asyncio.open_connection("127.0.0.1", port, local_addr=(source, 0)))

    def ask(self, credential, line=b"GET /file"):
        self.writer.write(line + b" HTTP/1.1\r\nHost: h\r\n" + credential + b"\r\n")

    async def answer(self):
        """The status and the fields of the next answer."""
        head = await asyncio.wait_for(self.reader.readuntil(b"\r\n\r\n"), PATIENCE)
        first, *lines = head[:-4].decode("latin-1").lower().split("\r\n")
        fields = dict(line.split(": ", 1) for line in lines)
        await self.reader.readexactly(int(fields.get("content-length", 0)))
        return int(first.split()[1]), fields

    async def asked(self, credential):
        self.ask(credential)
        return (await self.answer())[0]

    def close(self):
        self.writer.close()


async def status(port, credential, source="127.0.0.1"):
    """How one request of a new connection is answered, and in how many seconds."""
    began, client = time.monotonic(), await Client.to(port, source)
    code = await client.asked(credential)
    client.close()
    return code, time.monotonic() - began


class Guesser:
    """Guesses at a rate on some connections, each time another password, and counts what it is told."""

    def __init__(self, port, sources, rate, connections):
        self.port, self.sources, self.rate, self.connections = port, sources, rate, connections
        self.codes, self.wrong, self.number = collections.Counter(), 0, 0

    async def guess(self, seconds):
        """How long it took until the last answer."""
        began = time.monotonic()
        clients = [await Client.to(self.port, self.sources[place % len(self.sources)]) for place in range(self.connections)]
        await asyncio.gather(*(self.guess_by(client, place, began, seconds) for place, client in enumerate(clients)))
        return time.monotonic() - began

    def told(self):
        return sum(self.codes.values())

    def goes_on_beside(self, codes):
        """Whether a user who is answered so meanwhile is always let in, and as often as it has to be, however slow the machine is."""
        return [*codes] == [200] and codes[200] >= max(1, self.told() // (TURNS * max(16, self.connections)))

    async def guess_by(self, client, place, began, seconds):
        count = int(self.rate * seconds / self.connections)
        hears = asyncio.ensure_future(self.hear(client, count))
        for each in range(count):
            await asyncio.sleep(max(0, began + each * self.connections / self.rate - time.monotonic()))
            client.ask(basic(("ann", "ben", f"nobody{each}")[each % 3], f"guess {place} {each}"))
        await hears
        client.close()

    async def hear(self, client, count):
        for _ in range(count):
            code, fields = await client.answer()
            self.codes[code] += 1
            self.wrong += code not in (401, 429) or (code == 429 and fields.get("retry-after") != "1")


async def goes_on(client, credential, ends):
    """How a user who is logged in is answered until something ends, and the longest time for one answer."""
    codes, longest = collections.Counter(), 0
    while not ends.done():
        began = time.monotonic()
        codes[await client.asked(credential)] += 1
        longest = max(longest, time.monotonic() - began)
        await asyncio.sleep(0.005)
    return codes, longest


async def guessed(it, ann, ben):
    """Rows of a guesser beside others."""
    user = await Client.to(it.port)
    yield "who logs in before", await user.asked(ann) == 200
    guesser = Guesser(it.port, ["127.0.0.3"], RATE, CONNECTIONS)
    guesses = asyncio.ensure_future(guesser.guess(SECONDS))
    others = asyncio.ensure_future(goes_on(user, ann, guesses))
    await asyncio.sleep(1)
    new, seconds = await status(it.port, ben, "127.0.0.2")
    beside, _ = await status(it.port, ann, "127.0.0.3")
    took, (codes, longest) = await guesses, await others
    # Once ann has been let in from there, guesses at that name have a bucket of their own.
    most = 2 * (OF_ONE + took) + 1
    yield f"of {guesser.told()} guesses in {took:.1f} s {guesser.codes[401]} are 401, and the others 429", OF_ONE <= guesser.codes[401] <= most and not guesser.wrong
    yield f"the user's {codes[200]} requests meanwhile, within {longest:.2f} s", guesser.goes_on_beside(codes)
    yield f"who logs in meanwhile from another address, within {seconds:.2f} s", new == 200
    yield "who has logged in, from the guesser's address", beside == 200
    many = [f"127.0.1.{number}" for number in range(1, 41)]
    guesser = Guesser(it.port, many, 400, len(many))
    guesses = asyncio.ensure_future(guesser.guess(SECONDS))
    others = asyncio.ensure_future(goes_on(user, ann, guesses))
    # Each of the forty has had its first one by then, which may take the last that all have together.
    await asyncio.sleep(2)
    new, seconds = await status(it.port, basic("cid", "cid-secret"), "127.0.0.4")
    took, (codes, longest) = await guesses, await others
    most = OF_ALL + OF_ALL * took + 1
    yield f"of {guesser.told()} guesses of forty addresses in {took:.1f} s {guesser.codes[401]} are 401", OF_ALL <= guesser.codes[401] <= most and not guesser.wrong
    yield f"the user's {codes[200]} requests beside forty, within {longest:.2f} s", guesser.goes_on_beside(codes)
    yield f"who logs in beside forty from another address, within {seconds:.2f} s", new == 200
    user.close()
    # Then all together have as many guesses again as they may make at once.
    await asyncio.sleep(1)
    forgetful = await Client.to(it.port, "127.0.0.7")
    codes = [await forgetful.asked(basic("ann", "old")) for _ in range(30)] + [await forgetful.asked(basic("ann", f"older {number}")) for number in range(4)]
    forgetful.close()
    yield "who sends the same wrong password again and again has made one guess", codes == [401] * 34
    codes = [(await status(it.port, basic("ann", "old"), "127.0.0.7"))[0] for _ in range(10)]
    yield "and so has who sends it on other connections from there", codes == [401] * 10


def told(address):
    """A field by which a proxy tells an address."""
    return f"X-Forwarded-For: 192.0.2.99, {address}\r\n".encode()


async def told_apart(it, ann):
    """Rows of clients whose addresses a proxy tells, on connections of its own."""
    proxy = await Client.to(it.port)
    codes = [await proxy.asked(basic("ann", f"{client} {number}") + told(f"192.0.2.{client}")) for client in range(2) for number in range(OF_ONE)]
    yield "told addresses of one connection have their own guesses", codes == [401] * len(codes)
    proxy.close()
    # Then all together have as many guesses again as they may make at once.
    await asyncio.sleep(1)
    began, codes = time.monotonic(), collections.Counter()
    for place in range(1, 11):
        client = await Client.to(it.port, f"127.0.2.{place}")
        for number in range(2):
            codes[await client.asked(basic("ann", f"{place} {number}") + told(f"2001:db8::{place}"))] += 1
        client.close()
    most = OF_ONE + time.monotonic() - began + 1
    yield f"ten told addresses of one network have {codes[401]} of 20 guesses", OF_ONE <= codes[401] <= most and codes[401] + codes[429] == 20
    user = await Client.to(it.port)
    yield "who logs in from another told network, and finds no file", await user.asked(ann + told("2001:db8:0:1::8")) == 404
    user.close()


async def changed(it, change, ann, ben):
    """Rows of users that change on a hang-up."""
    kept, removed = await Client.to(it.port), await Client.to(it.port, "127.0.0.2")
    yield "before a change", [await kept.asked(ann), await removed.asked(ben)] == [200, 200]
    change(["ann", "dan"])
    done = asyncio.get_running_loop().create_future()
    others = asyncio.ensure_future(goes_on(kept, ann, done))
    it.signal(signal.SIGHUP)
    end = time.monotonic() + PATIENCE
    while (code := await removed.asked(ben)) != 401 and time.monotonic() < end:
        await asyncio.sleep(0.02)
    yield "who is removed", code == 401
    yield "who is new", (await status(it.port, basic("dan", "dan-secret"), "127.0.0.5"))[0] == 200
    for what, text, told in (("a wrong line", "ann:$5$saltsalt$x\nben\n", "line"), ("a file that is gone", None, "the users stay")):
        change(None, text)
        before = it.told().count(told)
        it.signal(signal.SIGHUP)
        yield f"{what} is told", await asyncio.get_running_loop().run_in_executor(None, until, lambda: it.told().count(told) > before)
        codes = [await kept_by(it.port, name) for name in ("ann", "ben", "dan")]
        yield f"behind {what} the users stay", codes == [200, 401, 200]
    done.set_result(None)
    codes, _ = await others
    yield f"who stays is served all the while, {codes[200]} times on one connection", [*codes] == [200]
    kept.close()
    removed.close()


async def kept_by(port, name):
    return (await status(port, basic(name, f"{name}-secret"), "127.0.0.6"))[0]


async def gathered(rows):
    return [row async for row in rows]


def guesses_and_changes(davserve, listen, folder, hashed):
    """All rows. `hashed` gives what stands in the file for a password."""
    path = os.path.join(folder, "listened")

    def change(names, text=None):
        """A file is put in place whole."""
        if names is None and text is None:
            return os.remove(path)
        with open(path + ".new", "w", encoding="ascii") as file:
            file.write(text or "".join(f"{name}:{hashed('-5', name + '-secret')}\n" for name in names))
        os.rename(path + ".new", path)

    change(["ann", "ben", "cid"])
    ann, ben = basic("ann", "ann-secret"), basic("ben", "ben-secret")
    with listening(listen, users=path, program=[davserve, "--login", "--realm", "a"]) as it:
        put = b"PUT /file HTTP/1.1\r\nHost: h\r\nContent-Length: 4\r\n" + ann + b"\r\ntext"
        yield "a user puts", (it.asks(put) or b"").startswith(b"HTTP/1.1 201 ")
        yield from asyncio.run(gathered(guessed(it, ann, ben)))
        yield from asyncio.run(gathered(changed(it, change, ann, ben)))
        yield "guesses and changes: a clean end", it.end() == 0
    change(["ann"])
    with listening(listen, users=path, program=[davserve, "--login", "--address-header", "x-forwarded-for"]) as it:
        yield from asyncio.run(gathered(told_apart(it, ann)))
        yield "told addresses: a clean end", it.end() == 0
    change(None, "ann:$5$saltsalt$x\n\nben\n")
    with listening(listen, users=path, program=[davserve, "--login"]) as it:
        yield "a wrong line at the start", it.wait() == 27 and "exit status: 7" in it.told() and "line" in it.told()
