"""What tests/start tries with a release of the small repository, and with programs that nobody proved."""
import os
import shutil

from programs import is_here
from rooms import OF_KIT, UNPROVED, checked

# What stands for a program of the kit in the small repository writes its words.
RIGHT = (0, "a\n")


def flipped(path):
    """Makes one byte of a file another one, in its middle."""
    with open(path, "r+b") as file:
        file.seek(os.path.getsize(path) // 2)
        byte = file.read(1)[0]
        file.seek(-1, os.SEEK_CUR)
        file.write(bytes([byte ^ 1]))


def changed_line(room, program, number, word):
    """Writes another word into the line of a program in release/SUMS."""
    lines = [line.split(" ", 4) for line in room.text("release/SUMS").splitlines()]
    for line in lines:
        if line[0] == program:
            line[number] = word
    room.write("release/SUMS", "".join(" ".join(line) + "\n" for line in lines))


def unproved(room):
    """A program that no proof wrote, and is newer than all sources."""
    room.remove("crates/davread/out/davread.build")
    room.write_program("crates/davread/out/davread", UNPROVED)
    status, out, told = room.start("davread", "a", path=room.few)
    yield "a program that no proof wrote isn't run", (status, out) == (127, "") and "Rattle kit" in told
    yield "nor told as one that may be run", room.start("davread", "--path")[:2] == (1, "") and "neither" in room.start("davread", "--version")[1]
    room.calls()
    yield "it is proved", room.start("davread", "a")[:2] == RIGHT and checked(room.calls()) == ["davread"]
    right = room.text("crates/davread/out/davread")
    room.write_program("crates/davread/out/davread", UNPROVED)
    yield "nor is one that was changed behind its proof", room.start("davread", "a")[:2] == RIGHT and checked(room.calls()) == ["davread"]
    yield "which is built anew", room.text("crates/davread/out/davread") == right


def released(room):
    """A release is written once all is proved."""
    status, told = room.release()
    yield "nothing is released without proofs", status == 1 and "davstore" in told and not os.path.exists(room.path("release"))
    status, out, told = room.start("davstore", "--prove")
    yield "a second program is proved over what the first one took", (status, out) == (0, "") and checked(room.calls()) == ["davstore"] and "1 of 5 crates are to be proved" in told
    yield "what no release has is told", "no release has it" in told
    yield "all are proved", all(room.start(it, "--prove")[0] == 0 for it in (*OF_KIT, "listen"))
    room.calls()
    status, told = room.release()
    names = sorted(os.listdir(room.path("release")))
    yield f"all are released: {told}", status == 0 and names == sorted(["SUMS", "listen.xz", *(f"{it}.xz" for it in OF_KIT)])
    before = room.text("release/SUMS")
    yield "a second release is the same", room.release()[0] == 0 and room.text("release/SUMS") == before
    status, _, told = room.start("davread", "--prove")
    yield "what was proved has the bytes of the release", status == 0 and "has the bytes of the release" in told and room.calls() == []


def clones(room, where):
    """Each a new folder with the sources and the release."""
    number = 0
    while True:
        number += 1
        yield room.cloned(os.path.join(where, f"clone{number}"))


def runs(room):
    status, out, told = room.start("davread", "a", path=room.few)
    yield "the release runs", (status, out) == RIGHT
    lines = [line for line in told.splitlines() if line != "a"]
    yield f"one line says what runs: {lines}", len(lines) == 1 and "release" in lines[0] and "bin/davread --prove" in lines[0] and "a kit" in lines[0]
    status, out, told = room.start("davread", "--path", path=room.few)
    yield "its place is told", (status, told) == (0, "") and os.path.samefile(os.path.dirname(out.strip()), room.path("release/out"))
    status, out, told = room.start("davread", "--version", path=room.few)
    yield "and what it is", (status, told) == (0, "") and "release" in out and "a kit" in out
    room.write_program("release/out/davread", UNPROVED)
    yield "what was changed there isn't run", room.start("davread", "a", path=room.few)[:2] == RIGHT and room.text("release/out/davread") != UNPROVED
    room.write_program("crates/davread/out/davread", UNPROVED)
    yield "nor what no proof wrote", room.start("davread", "a", path=room.few)[:2] == RIGHT
    status, _, told = room.start("davread", "--prove")
    yield "it is proved here, with the same bytes", status == 0 and "has the bytes of the release" in told and "davread" in checked(room.calls())
    status, out, told = room.start("davread", "a", path=room.few)
    yield "and then that runs", (status, out, told) == (*RIGHT, "a\n")


def damaged(room):
    for it in (*OF_KIT, "listen"):
        path = room.path(f"release/{it}.xz")
        shutil.copy2(path, path + ".whole")
        flipped(path)
        yield f"{it}: a flipped byte", is_refused(room, it, path)
        shutil.copy2(path + ".whole", path)
        os.truncate(path, os.path.getsize(path) - 9)
        yield f"{it}: cut off", is_refused(room, it, path)
        os.remove(path)
        yield f"{it}: not there", is_refused(room, it, path)
        shutil.move(path + ".whole", path)
    changed_line(room, "davread", 1, "0" * 64)
    status, out, told = room.start("davread", "a", path=room.few)
    yield "other bytes than the line says", (status, out) == (1, "") and "0" * 64 in told and "--prove" in told


def is_refused(room, program, path):
    """Whether a program is not run, and it is told which file is damaged, and how it may be built."""
    status, out, told = room.start(program, "--path", path=room.few)
    return (status, out) == (1, "") and os.path.realpath(path) in told and f"bin/{program} --prove" in told and not os.path.exists(room.path(f"release/out/{program}"))


def older(room):
    room.write("crates/low/src/lib.rt", "changed")
    status, out, told = room.start("davread", "a", path=room.few)
    yield "a release of other sources isn't run", (status, out) == (127, "") and "not released from these sources" in told
    yield "nor told", room.start("davread", "--path", path=room.few)[:2] == (1, "")
    yield "so it is proved", room.start("davread", "a")[:2] == RIGHT and len(checked(room.calls())) == 5
    status, _, told = room.start("davread", "--prove")
    yield "and not compared", status == 0 and "other sources" in told


def elsewhere(room):
    """Where the release doesn't run."""
    changed_line(room, "davread", 3, "99.7")
    status, out, told = room.start("davread", "a", path=room.few)
    yield "an older C library", (status, out) == (1, "") and "needs the C library glibc 99.7 or later" in told and len(told.splitlines()) == 1
    if is_here("start", "setarch"):
        for path, offered in ((room.few, "needs a Rattle kit"), (None, "bin/davstore --prove")):
            status, out, told = room.start("davstore", "a", path=path, before=[shutil.which("setarch"), "i686"])
            yield f"another machine: {told}", (status, out) == (1, "") and "Linux on x86-64" in told and offered in told


def unwritable(room):
    room.write("release/out", "no folder")
    temporary = room.path("temporary")
    os.mkdir(temporary)
    yield "no place to write", room.start("davread", "a", path=room.few, TMPDIR=temporary)[:2] == RIGHT
    places = [room.start("davread", "--path", path=room.few, TMPDIR=temporary)[1].strip() for _ in range(2)]
    yield "it runs from a temporary folder", places[0] == places[1] and places[0].startswith(os.path.realpath(temporary) + os.sep)
    with open(places[0], "a", encoding="utf-8") as file:
        file.write("echo changed\n")
    yield "where it isn't run either once it was changed", room.start("davread", "a", path=room.few, TMPDIR=temporary)[:2] == RIGHT
    os.chmod(os.path.dirname(places[0]), 0o777)
    place = room.start("davread", "--path", path=room.few, TMPDIR=temporary)[1].strip()
    yield "nor from a folder that others may write to", place not in ("", places[0])


def others(room):
    """What is built here beside a release of the same sources."""
    changed_line(room, "davread", 1, "0" * 64)
    status, _, told = room.start("davread", "--prove")
    yield "other bytes than those of the release", status == 1 and "has other bytes than the release" in told
    changed_line(room, "davread", 4, "another kit")
    status, _, told = room.start("davread", "--prove")
    yield "a release of another kit isn't compared", status == 0 and "another kit" in told


def rows_of_releases(room, where):
    """All rows; the room has had its first program proved."""
    yield from released(room)
    new = clones(room, where)
    for rows in (runs, damaged, older, elsewhere, unwritable, others):
        yield from rows(next(new))
