"""Copies of stores: what davstore tells of one that ends within a round, how it is adopted, and a copy that takes what is followed."""
import os
import random
import shutil
import signal
import struct
import subprocess
import time

from disks import Disk, calls_of, tracer
from frames import READY, frame, request
from records import draft_of, gates_of, number

# So many copies that end somewhere are adopted.
CUT = 30
# So often one end of a pipe is killed.
KILLS = 12


def folders(record_of, count, first=0, moment=10000):
    """Records of folders, each a request of its own."""
    made = []
    for place in range(first, first + count):
        record = record_of(moment + place)
        record.add(2, (b"n%d" % place,))
        made.append(record.hex())
    return made


def rows(stores, davserve, record_of, whole):
    yield from behind(stores, record_of, whole)
    yield from adopted(stores, record_of, whole)
    yield from salvaged(stores, record_of, whole)
    yield from streams(stores, record_of, whole)
    yield from standby(stores, davserve)


def behind(stores, record_of, whole):
    """A check tells of a whole round behind the gate that is shut."""
    whole(stores)
    stores.append(folders(record_of, 1))
    content = stores.bytes()
    gates = gates_of(content)
    size = gates[-1] - gates[-2]
    stores.write(content[: gates[-2]] + b"shutgate" + content[gates[-2] + 8 :])
    status, told, _ = stores.ask("check")
    yield "a whole round behind a gate that is shut", (status, len(told)) == (0, 2) and told[0].startswith("whole: 2 records, ") and told[1] == f"behind it a whole round, whose gate is shut: 1 records, {size} bytes"
    yield "it is read by nothing else", stores.ask("list", "/n0") == (1, [], "")
    for name, wrong in (("a round that is cut", content[: gates[-1] - 1]), ("a round with a wrong byte", content[: gates[-1] - 1] + bytes([content[gates[-1] - 1] ^ 1]) + content[gates[-1] :])):
        stores.write(wrong[: gates[-2]] + b"shutgate" + wrong[gates[-2] + 8 :])
        yield f"{name} behind it", len(stores.ask("check")[1]) == 1


def asked(stores, answer, *words):
    run = subprocess.run([stores.davstore, stores.path, "adopt", *words], input=answer, capture_output=True, timeout=60, check=False)
    return run.returncode, run.stdout.decode().splitlines(), run.stderr.decode()


def compacted(stores, content):
    stores.write(content)
    stores.ask("compact")
    return stores.bytes()


def adopted(stores, record_of, whole):
    whole(stores)
    stores.append(folders(record_of, 6))
    content = stores.bytes()
    gates = gates_of(content)
    chance, right = random.Random(4), 0
    for _ in range(CUT):
        end = chance.randrange(57, gates[-1] + 8)
        last = max(gate for gate in gates if gate < end)
        cut = content[:end]
        before = gates.index(last)
        stores.write(cut)
        told = asked(stores, b"", "--yes")
        if before == 0:
            right += (told[0], told[1][-1], stores.bytes()) == (1, "not adopted: no record stands before it", cut)
            continue
        wanted = content[:last] + b"shutgate" + content[last + 8 : end]
        good = told[0] == 0 and told[1][-1] == f"adopted: {before} records, {last} bytes" and stores.bytes() == wanted
        right += good and stores.ask("check")[1][0].startswith(f"whole: {before} records, {last} bytes")
        stores.append(folders(record_of, 1, 50))
        right -= stores.ask("list", "/n50")[0] != 0
    yield f"of {CUT} copies that end somewhere {right} were adopted rightly", right == CUT
    cut = content[: gates[-2] + 20]
    for answer in (b"", b"no\n", b"y\n", b"yes please\n", b" yes\n"):
        stores.write(cut)
        status, told, why = asked(stores, answer)
        yield f"not adopted by {answer!r}", (status, told[-1]) == (1, "not adopted") and "Type yes: " in why and stores.bytes() == cut
    status, told, _ = asked(stores, b"yes\n")
    yield "adopted by yes", status == 0 and told[-1].startswith("adopted: ") and stores.ask("check")[0] == 0
    at, snapshot = gates[3] + 30, compacted(stores, content)
    refused = (
        ("a whole store", content, "nothing is to be adopted"),
        ("an empty file", b"", "nothing is to be adopted"),
        ("a text", b"no store at all, but a text", "not a journal"),
        ("a part of a header", content[:20], "damaged at byte 0"),
        ("a part of the first round", content[: gates[1] - 5], "not adopted: no record stands before it"),
        ("a part of a compacted store", snapshot[:100], "not adopted: no record stands before it"),
        ("a compacted store but for a byte of its snapshot", snapshot[: gates_of(snapshot)[-1] - 1], "not adopted: no record stands before it"),
        ("a wrong byte before whole rounds", content[:at] + bytes([content[at] ^ 1]) + content[at + 1 :], "not adopted: whole rounds stand behind it"),
    )
    for name, wrong, wanted in refused:
        stores.write(wrong)
        status, told, _ = asked(stores, b"", "--yes")
        yield f"{name} is not adopted", status == 1 and told[-1].startswith(wanted) and stores.bytes() == wrong
    stores.write(content)
    with subprocess.Popen([stores.journalplay, stores.path], stdin=subprocess.PIPE, stdout=subprocess.PIPE) as held:
        held.stdout.readline()
        with open(stores.path, "r+b") as file:
            file.truncate(gates[-2] + 20)
        before = stores.bytes()
        status, told, _ = asked(stores, b"", "--yes")
        yield "one in use is not adopted", (status, told[-1]) == (1, "the journal is in use") and stores.bytes() == before
        held.kill()
    yield "nothing is left beside it", os.listdir(os.path.dirname(stores.path)) == ["store"]


def salvaged(stores, record_of, whole):
    """What the rounds behind the damage name."""
    whole(stores)
    stores.append(folders(record_of, 4))
    content = stores.bytes()
    gates = gates_of(content)
    at = gates[2] + 40
    stores.write(content[:at] + bytes([content[at] ^ 1]) + content[at + 1 :])
    with_name = os.path.join(os.path.dirname(stores.path), "out")
    status, told, _ = stores.ask("salvage", with_name)
    yield "what later rounds name", status == 0 and told[1:] == ["behind it stand 3 whole rounds with 3 records", "named there: /n1", "named there: /n2", "named there: /n3", "salvaged: 2 records, last moment 3000"]
    os.remove(with_name)
    whole(stores)
    wrong = record_of(5000)
    wrong.add(2, (b"d",))
    stores.append([wrong.hex(), *folders(record_of, 2)])
    status, told, _ = stores.ask("salvage", with_name)
    yield "what rounds behind a record that can't be done name", status == 0 and told[0].startswith("record 2 is damaged: ") and told[1:4] == ["behind it stand 2 whole rounds with 2 records", "named there: /n0", "named there: /n1"] and told[4].startswith("salvaged: 2 records")
    os.remove(with_name)


class Pipe:
    """A store that is followed, and a copy that takes what comes."""

    def __init__(self, davstore, live, copy):
        self.davstore, self.live, self.copy = davstore, live, copy
        self.ends = []

    def start(self, *words):
        first = subprocess.Popen([self.davstore, self.live, "follow", *words], stdout=subprocess.PIPE, stderr=subprocess.PIPE)
        second = subprocess.Popen([self.davstore, self.copy, "take"], stdin=first.stdout, stdout=subprocess.PIPE, stderr=subprocess.PIPE)
        first.stdout.close()
        self.ends = [first, second]

    def has_ended(self):
        """Whether nothing is followed any more."""
        return self.ends[0].poll() is not None

    def stop(self, which=0):
        """Kills one end, and then the other; what take told, and its status."""
        self.ends[which].kill()
        if which == 0:
            self.ends[0].wait()
            told = self.ends[1].communicate(timeout=60)
        else:
            told = self.ends[1].communicate(timeout=60)
            self.ends[0].kill()
        self.ends[0].wait()
        self.ends[0].stderr.close()
        return self.ends[1].returncode, told[0].decode().splitlines(), told[1].decode()


def tell(davstore, path, *words):
    run = subprocess.run([davstore, path, *words], capture_output=True, timeout=60, check=False)
    return run.returncode, run.stdout.decode().splitlines()


def until(is_so, seconds=30):
    end = time.monotonic() + seconds
    while time.monotonic() < end:
        if is_so():
            return True
        time.sleep(0.05)
    return is_so()


def used(path):
    """How many bytes stand before the gate that is shut; none where nothing stands there."""
    try:
        with open(path, "rb") as file:
            return gates_of(file.read())[-1]
    except (FileNotFoundError, struct.error, IndexError):
        return 0


def are_same(live, copy):
    """Whether the two are the same up to the gate that is shut, but for the words at gates."""
    size = used(live)
    with open(live, "rb") as one, open(copy, "rb") as other:
        return size and one.read(size + 8) == other.read(size + 8)


def streams(stores, record_of, whole):
    where = os.path.dirname(stores.path)
    copy = os.path.join(where, "copy")
    whole(stores)
    stores.append(folders(record_of, 5))
    content = stores.bytes()
    gates = gates_of(content)
    stream = content[:56] + number(56) + content[56 : gates[-1]]
    with subprocess.Popen([stores.davstore, stores.path, "follow"], stdout=subprocess.PIPE) as run:
        yield "the stream is the file's bytes", run.stdout.read(len(stream)) == stream
        stores.append(folders(record_of, 1, 5))
        more = stores.bytes()
        after = gates_of(more)
        yield "it goes on as the file does", run.stdout.read(after[-1] - gates[-1]) == more[gates[-1] : after[-1]]
        run.kill()
    with subprocess.Popen([stores.davstore, stores.path, "follow", str(gates[3])], stdout=subprocess.PIPE) as run:
        wanted = content[:56] + number(gates[2]) + content[gates[2] : gates[-1]]
        yield "from a byte on it begins with the round that ends there", run.stdout.read(len(wanted)) == wanted
        run.kill()
    with subprocess.Popen([stores.davstore, stores.path, "follow", str(gates[3] + 1)], stdout=subprocess.PIPE, stderr=subprocess.PIPE) as run:
        yield "from a byte at which none ends it begins at the first", run.stdout.read(len(stream)) == stream
        run.kill()
        yield "and that is told", b"no round ends at byte" in run.stderr.read()
    yield from taken(stores, record_of, copy, content, gates, stream)
    yield from replaced(stores, record_of)
    stores.write(content[: gates[3] + 30] + b"?" + content[gates[3] + 31 :])
    run = subprocess.run([stores.davstore, stores.path, "follow"], capture_output=True, timeout=60, check=False)
    yield "a store that is damaged is followed up to there", run.returncode == 1 and run.stdout.startswith(content[:56] + number(56) + content[56 : gates[3]]) and b"damaged at byte" in run.stdout[-40:]
    if os.path.exists(copy):
        os.remove(copy)


def replaced(stores, record_of):
    """A round that comes while the stream waits, just before another store takes the path, is followed, too."""
    live, other = stores.path, f"{stores.path}.other"
    stores.write(b"")
    stores.append(["00" * 2500] * 40)
    stores.write(stores.bytes()[: gates_of(stores.bytes())[-1] + 8])
    old = stores.bytes()
    with subprocess.Popen([stores.davstore, live, "follow"], stdout=subprocess.PIPE) as run:
        # The pipe is full, and the rest of the stream waits for it, behind the last round.
        time.sleep(1)
        stores.append(folders(record_of, 1))
        size = gates_of(stores.bytes())[-1]
        wanted = old[:56] + number(56) + stores.bytes()[56:size]
        shutil.copyfile(live, other)
        os.replace(other, live)
        got = run.stdout.read(len(wanted) + 8)
        run.kill()
    yield "a round that comes just before another store", got == wanted + b"shutgate"


def taken(stores, record_of, copy, content, gates, stream):
    """What a copy takes of a stream, and what it refuses."""

    def take(given, before=None):
        for path in (copy, f"{copy}.before-0", f"{copy}.before-1"):
            if os.path.exists(path):
                os.remove(path)
        if before is not None:
            with open(copy, "wb") as file:
                file.write(before)
        run = subprocess.run([stores.davstore, copy, "take"], input=given, capture_output=True, timeout=60, check=False)
        after = None
        if os.path.exists(copy):
            with open(copy, "rb") as file:
                after = file.read()
        return run.returncode, run.stdout.decode().splitlines(), after

    size = gates[-1]
    shut = lambda front: front + b"shutgate"
    status, told, after = take(stream)
    yield "a copy is made", status == 0 and after == shut(content[:size]) and told == [f"taken: 7 rounds, 7 records, up to byte {size}"]
    yield "of the one who made it", os.stat(copy).st_mode & 0o777 == 0o600
    os.remove(copy)
    run = subprocess.run([stores.davstore, os.path.basename(copy), "take"], input=stream, cwd=os.path.dirname(copy), capture_output=True, timeout=60, check=False)
    with open(copy, "rb") as file:
        yield "by a name without a folder", run.returncode == 0 and run.stdout.decode().splitlines() == told and file.read() == after
    yield "nothing is taken twice", take(stream, after) == (0, [f"taken: 0 rounds, 0 records, up to byte {size} (7 rounds it had already)"], after)
    chance = random.Random(5)
    right = 0
    for _ in range(20):
        end = chance.randrange(64, len(stream))
        last = max(gate for gate in gates if gate <= end - 8)
        status, told, after = take(stream[:end])
        is_within = last + 8 + 8 <= end
        good = (status == (1 if is_within else 0)) and (after == shut(content[:last]) if last > 56 else after is None)
        right += good and (not is_within or told[-1] == f"the stream has no whole round at byte {last}")
        if after is not None:
            status, _, after = take(stream, after)
            right -= not (status == 0 and after == shut(content[:size]))
    yield f"of 20 streams that are cut {right} were taken rightly", right == 20
    part = shut(content[: gates[4]])
    from_there = content[:56] + number(gates[3]) + content[gates[3] : size]
    yield "a copy goes on", take(from_there, part)[::2] == (0, shut(content[:size]))
    yield "a longer copy goes on", take(from_there, shut(content[: gates[5]])) == (0, [f"taken: 2 rounds, 2 records, up to byte {size} (2 rounds it had already)"], shut(content[:size]))
    gap = shut(content[: gates[2]])
    status, told, after = take(from_there, gap)
    yield "a gap", (status, told[-1], after) == (1, "a gap: no round of the copy ends where what comes begins", gap)
    status, told, after = take(from_there)
    yield "no copy for a stream from a byte on", (status, told[-1], after) == (1, "it does not begin with the first round of a store", None)
    at = gates[3] + 45
    wrong = stream[: at + 8] + bytes([stream[at + 8] ^ 1]) + stream[at + 9 :]
    status, told, after = take(wrong)
    yield "a wrong byte in the stream", (status, told[-1], after) == (1, f"the stream has no whole round at byte {gates[3]}", shut(content[: gates[3]]))
    for name, given in (("nothing", b""), ("a text", b"no stream, but a text that is long enough to be one, and more than that"), ("a part of a header", stream[:50])):
        status, told, after = take(given, part)
        yield f"{name} comes", (status, told[-1], after) == (1, "no stream of a store", part)
    yield "a new file is a copy that isn't there", take(stream, b"")[::2] == (0, shut(content[:size]))
    broken = content[:at] + bytes([content[at] ^ 1]) + content[at + 1 :]
    for name, before, why in (("a copy that is damaged", broken, f"damaged at byte {gates[3]}"), ("a text at the copy's path", b"no store at all, but a text", "not a journal")):
        yield name, take(stream, before) == (1, [why], before)
    draft = draft_of(copy, stream, int.from_bytes(stream[16:24], "little"))
    with open(draft, "wb") as file:
        file.write(b"a text, and no store " * 5)
    yield "a text in the way of a new file", take(stream)[::2] == (3, None) and os.path.getsize(draft) == 105
    with open(draft, "wb") as file:
        file.write(stream[:56])
    with open(f"{copy}.new", "wb") as file:
        file.write(stream[:56])
    yield "a draft that was left is removed, and another file stays", take(stream)[::2] == (0, shut(content[:size])) and not os.path.exists(draft) and os.path.getsize(f"{copy}.new") == 56
    os.remove(f"{copy}.new")
    yield from together(stores, copy, stream, shut(content[:size]))
    yield from at_once(stores, copy, content, gates)
    yield from others(stores, record_of, take, copy, content, gates, stream)


def at_once(stores, copy, content, gates):
    """Rounds that have come together are added at once: that takes as many syncs as one of them, and a crash leaves all of them or none."""
    library, trace = tracer(os.path.dirname(copy)), f"{copy}.trace"
    has, size = gates[1], gates[-1]
    before, whole = content[:has] + b"shutgate", content[:size] + b"shutgate"

    def traced(end, **environment):
        """The calls on the copy while rounds up to this byte are taken behind the first one, and what take ended with."""
        with open(copy, "wb") as file:
            file.write(before)
        given = content[:56] + number(has) + content[has:end]
        run = subprocess.run([stores.davstore, copy, "take"], input=given, capture_output=True, env={**os.environ, "LD_PRELOAD": library, "TRACE": trace, **environment}, timeout=60, check=False)
        calls = [call for call in calls_of(trace) if call.inode == os.stat(copy).st_ino]
        os.remove(trace)
        with open(copy, "rb") as file:
            return calls, run.returncode, file.read()

    syncs = lambda calls: sum(call.kind == b"s" for call in calls)
    one, all_of_them = traced(gates[2]), traced(size)
    yield "all rounds that come are added", all_of_them[1:] == (0, whole) and one[1:] == (0, content[: gates[2]] + b"shutgate")
    yield f"by {syncs(all_of_them[0])} syncs, as many as one", syncs(one[0]) == syncs(all_of_them[0]) > 1
    disk, chance, left = Disk(before), random.Random(3), set()
    for call in all_of_them[0]:
        disk.take(call)
        left |= {len(gates_of(image)) - 1 for image in disk.images(chance, 40)}
    yield f"a crash leaves one round or all: {sorted(left)}", left == {1, len(gates) - 1}
    for place in range(1, syncs(all_of_them[0]) + 1):
        _, status, after = traced(size, FAIL=f"{place}:5")
        yield f"sync {place} fails", status == 3 and len(gates_of(after)) - 1 in (1, len(gates) - 1)
    os.remove(library)


def together(stores, copy, stream, whole):
    """Of several that take at once where no copy is, one makes it, and the others are refused."""
    right = 0
    for _ in range(10):
        os.remove(copy)
        runs = [subprocess.Popen([stores.davstore, copy, "take"], stdin=subprocess.PIPE, stdout=subprocess.PIPE, stderr=subprocess.DEVNULL) for _ in range(4)]
        for run in runs:
            run.stdin.write(stream)
            run.stdin.flush()
        until(lambda: sum(run.poll() is not None for run in runs) == len(runs) - 1, 10)
        ended = [run for run in runs if run.poll() is not None]
        good = len(ended) == len(runs) - 1 and all((run.returncode, run.stdout.read()) == (1, b"the journal is in use\n") for run in ended)
        told = [run.communicate(timeout=60)[0] for run in runs if run not in ended]
        with open(copy, "rb") as file:
            right += good and told[0].startswith(b"taken: 7 rounds, ") and file.read() == whole and not [name for name in os.listdir(os.path.dirname(copy)) if ".draft-" in name]
        for run in ended:
            run.communicate(timeout=60)
    yield f"of 10 times four that took at once {right} times one did", right == 10


def others(stores, record_of, take, copy, content, gates, stream):
    """Stores that part at a round, and other ones."""
    shut = lambda front: front + b"shutgate"
    stores.write(shut(content[: gates[4]]))
    stores.append(folders(record_of, 3, 70))
    parted = stores.bytes()
    parted = shut(parted[: gates_of(parted)[-1]])
    status, told, after = take(stream, parted)
    yield "a copy that has parted", (status, told[-1], after) == (1, f"the copy has another round at byte {gates[4]}", parted)
    os.remove(stores.path)
    run = [stores.journalplay, "--key", "8", "--began", "1001", stores.path]
    subprocess.run(run, input=f"append {folders(record_of, 1)[0]}\n".encode(), stdout=subprocess.DEVNULL, check=True)
    other = stores.bytes()
    status, told, after = take(stream, other)
    yield "another store", (status, told[-1], after) == (1, "another store comes, and not a later generation of this one", other)
    stores.write(content)
    yield "it is compacted", stores.ask("compact")[0] == 0
    later = stores.bytes()
    size = gates_of(later)[-1]
    anew = later[:56] + number(56) + later[56:size]
    kept, old = f"{copy}.before-0", shut(content[: gates[-1]])
    before = lambda: open(kept, "rb").read() if os.path.exists(kept) else None
    status, told, after = take(stream + b"shutgate" + anew)
    yield "a copy is made anew where the store was compacted", (status, after) == (0, shut(later[:size]))
    yield "what it replaces stays", before() == old and told == [f"kept: {kept}", f"taken: 8 rounds, 8 records, up to byte {size}"]
    part = shut(content[: gates[4]])
    yield "so it is where the stream begins with it", take(anew, part)[::2] == (0, shut(later[:size])) and before() == part
    yield from names(stores, take, copy, kept, anew, stream, part, shut(later[:size]))
    yield "not where it is an earlier generation", take(stream, later)[::2] == (1, later)
    part = shut(content[: gates[-1]])
    yield "and not before its first round is whole", take(stream + b"shutgate" + anew[:-1])[1:] == (["taken: 7 rounds, 7 records, up to byte %d" % gates[-1], "the stream has no whole round at byte 56"], part)
    stores.write(content)


def names(stores, take, copy, kept, anew, stream, part, wanted):
    """The names of a copy and of what it replaces."""
    with open(kept, "wb") as file:
        file.write(b"another file")
    shutil.copyfile(kept, f"{kept}.text")
    run = lambda given: subprocess.run([stores.davstore, copy, "take"], input=given, capture_output=True, timeout=60, check=False)
    with open(copy, "wb") as file:
        file.write(part)
    ended = run(anew)
    with open(copy, "rb") as file, open(kept, "rb") as other:
        stays = file.read() == part and other.read() == b"another file"
    yield "nothing is replaced where its new name is taken", (ended.returncode, ended.stdout) == (3, b"") and ended.stderr.startswith(kept.encode() + b": ") and stays
    os.remove(f"{kept}.text")
    yield "no draft is left then", not [name for name in os.listdir(os.path.dirname(copy)) if ".draft-" in name]
    for given, is_later in ((stream, False), (anew, True)):
        take(b"", part)
        os.link(copy, kept)
        ended = run(given)
        with open(copy, "rb") as file:
            after = file.read()
        good = ended.returncode == 0 and os.stat(copy).st_nlink == 1 and os.path.exists(kept) == is_later
        if is_later:
            with open(kept, "rb") as file:
                good = good and after == wanted and file.read() == part
        yield f"a second name that a crash has left, {'behind which it is replaced' if is_later else 'of a copy that goes on'}", good
    take(b"", part)
    os.link(copy, f"{copy}.mine")
    ended = run(stream)
    with open(copy, "rb") as file:
        yield "another second name stays, and is refused", ended.returncode == 3 and file.read() == part and os.path.exists(f"{copy}.mine")
    os.remove(f"{copy}.mine")
    with subprocess.Popen([stores.davstore, copy, "take"], stdin=subprocess.PIPE, stdout=subprocess.PIPE) as held:
        held.stdin.write(stream)
        held.stdin.flush()
        yield "it goes on, and is locked", until(lambda: used(copy) == gates_of(wanted)[-1] or used(copy) > gates_of(part)[-1])
        os.link(copy, kept)
        ended = run(anew)
        yield "a second name of one that is in use stays", (ended.returncode, ended.stdout) == (1, b"the journal is in use\n") and os.stat(copy).st_nlink == 2
        os.remove(kept)
        held.communicate(timeout=60)


def standby(stores, davserve):
    """A server writes, and its store is followed; either end is killed, and the store is compacted."""
    where = os.path.dirname(stores.path)
    copy, chance = os.path.join(where, "copy"), random.Random(6)
    for path in (stores.path, copy):
        if os.path.exists(path):
            os.remove(path)
    pipe = Pipe(stores.davstore, stores.path, copy)
    run = [davserve, "--store", stores.path, "--compact-useless", "100"]
    number_of = 0
    right = tries = 0
    with subprocess.Popen(run, stdin=subprocess.PIPE, stdout=subprocess.PIPE, stderr=subprocess.DEVNULL) as server:
        yield "the server is ready", server.stdout.readline() == READY and os.path.exists(stores.path)
        for turn in range(KILLS):
            words = [str(used(copy))] if turn % 2 and os.path.exists(copy) else []
            pipe.start(*words)
            end = time.monotonic() + chance.random() * 0.6
            while time.monotonic() < end:
                number_of += 1
                server.stdin.write(frame(1, request(b"PUT /%d" % (number_of % 50), chance.randbytes(chance.choice([1, 3000, 60000])))))
                server.stdin.flush()
                time.sleep(0.005)
                os.read(server.stdout.fileno(), 1 << 20)
            status, told, _ = pipe.stop(turn % 2)
            tries += 1
            if os.path.exists(copy):
                right += tell(stores.davstore, copy, "check")[0] == 0 and (turn % 2 == 1 or status in (0, 1))
            else:
                right += 1
        yield f"of {tries} copies whose pipe was killed {right} are stores", right == tries
        pipe.start(str(used(copy)))
        yield "it comes to be as the live one is", until(lambda: are_same(stores.path, copy))
        listed = tell(stores.davstore, stores.path, "list")
        yield "what stands in it", listed[0] == 0 and tell(stores.davstore, copy, "list") == listed and len(listed[1]) > 1
        server.stdin.write(frame(1))
        server.stdin.close()
        server.stdout.read()
        server.wait()
    yield "the store is compacted while it is followed", tell(stores.davstore, stores.path, "compact")[0] == 0
    yield "and the copy is made anew", until(lambda: are_same(stores.path, copy)) and tell(stores.davstore, copy, "list") == tell(stores.davstore, stores.path, "list")
    held = subprocess.run([stores.davstore, copy, "compact"], capture_output=True, timeout=60, check=False)
    yield "it is locked meanwhile", held.returncode == 1 and b"in use" in held.stdout
    pipe.stop()
    served = subprocess.run([davserve, "--store", copy], input=frame(1, request(b"GET /1")) + frame(1), capture_output=True, timeout=100, check=False)
    yield "it can be served", b"HTTP/1.1 200" in served.stdout
    yield "nothing but what it has replaced is left beside it", sorted(os.listdir(where)) == ["copy", "copy.before-0", "store"]
    yield "which is a store", tell(stores.davstore, f"{copy}.before-0", "check")[0] == 0
    os.remove(copy)
    os.remove(f"{copy}.before-0")
    yield from moved(stores, davserve, copy)


def moved(stores, davserve, copy):
    """A store is followed to its end: that comes once the server that writes it has ended, and then the copy has all."""
    pipe = Pipe(stores.davstore, stores.path, copy)
    with subprocess.Popen([davserve, "--store", stores.path], stdin=subprocess.PIPE, stdout=subprocess.PIPE, stderr=subprocess.DEVNULL) as server:
        server.stdout.readline()
        for words in (["--to-end"], [str(used(stores.path)), "--to-end"]):
            pipe.start(*words)
            server.stdin.write(frame(1, request(b"PUT /last", b"1")))
            server.stdin.flush()
            yield f"{words}: while a server writes it goes on", until(lambda: os.path.exists(copy) and are_same(stores.path, copy)) and not until(pipe.has_ended, 2.5)
            pipe.stop()
        pipe.start("--to-end")
        server.stdin.write(frame(1, b"".join(request(b"PUT /last%d" % number, b"2") for number in range(200))) + frame(1))
        server.stdin.close()
        server.stdout.read()
        yield "it ends behind the server", server.wait() == 0 and until(pipe.has_ended)
    status, told, _ = pipe.stop()
    yield "and the copy has all", status == 0 and told[0].startswith("taken: ") and are_same(stores.path, copy) and tell(stores.davstore, copy, "check")[0] == 0
    run = subprocess.run([stores.davstore, stores.path, "follow", "--to-end"], capture_output=True, timeout=60, check=False)
    with open(stores.path, "rb") as file:
        content = file.read()
    gate = gates_of(content)[-1]
    yield "where nobody writes it ends at once", (run.returncode, run.stdout) == (0, content[:56] + number(56) + content[56:gate] + b"shutgate")
    os.remove(copy)
