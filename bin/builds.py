"""The programs that were built, here or for the release: which fits the sources, and where it stands.

A program counts only by a line that its own proof, the gate or the release wrote: with the sum of its bytes and that of the sources that it was made from.
"""
import contextlib
import hashlib
import lzma
import os
import platform
import re
import shutil
import stat
import subprocess
import sys
import tempfile
from typing import NamedTuple

from repository import LISTENER, TOP, read, sources_of

RELEASE = os.path.join(TOP, "release")
SUMS = os.path.join(RELEASE, "SUMS")
PROGRAMS = ("davserve", "davstore", "davreplay", "davread", "journalplay", LISTENER)


class Broken(Exception):
    """A file of the release that must not be run, and why."""


class Elsewhere(Exception):
    """Why what was released doesn't run on this machine."""


class Build(NamedTuple):
    """What a program was made from, and by what: a line of release/SUMS, and of the file NAME.build beside a program that was built here."""

    name: str
    bytes: str
    sources: str
    # The C library that it needs at least, as 2.34; 0 for none.
    libc: str
    # The line of the kit; of the listener that of rustc.
    made_by: str

    def line(self):
        return " ".join(self) + "\n"


def builds_in(path):
    """The lines of a file, by the names of their programs."""
    lines = [line.split(" ", 4) for line in read(path).splitlines() if not line.startswith("#")]
    return {words[0]: Build(*words) for words in lines if len(words) == 5}


def place_of(program):
    """Where a program stands that was built here."""
    return os.path.join(TOP, "listener/out" if program == LISTENER else f"crates/{program}/out", program)


def libc_of(text):
    """The latest version of the C library that a program names."""
    named = [tuple(map(int, it.split(b"."))) for it in re.findall(rb"GLIBC_(\d+\.\d+)", text)]
    return "{}.{}".format(*max(named)) if named else "0"


def said_by(*words):
    """What a command prints, in one line; nothing where it isn't there."""
    if not shutil.which(words[0]):
        return ""
    told = subprocess.run(words, stdin=subprocess.DEVNULL, stdout=subprocess.PIPE, stderr=subprocess.DEVNULL, encoding="utf-8", check=False).stdout
    return "; ".join(told.strip().splitlines())


def maker(program):
    """What would build the program here: the kit, or rustc."""
    return said_by("rustc", "-vV") if program == LISTENER else said_by("rt", "version")


def bytes_of(path):
    with open(path, "rb") as file:
        return file.read()


def build_of(program, sources):
    """The line of a program that was built here just now from these sources."""
    text = bytes_of(place_of(program))
    return Build(program, hashlib.sha256(text).hexdigest(), sources, libc_of(text), maker(program))


def note(program, sources):
    """Writes the line of a program that was built here just now from these sources."""
    with open(place_of(program) + ".build", "w", encoding="utf-8") as file:
        file.write(build_of(program, sources).line())


def has_bytes(path, wanted):
    """Whether a file is there, may be run, and has these bytes."""
    with contextlib.suppress(OSError):
        return os.access(path, os.X_OK) and hashlib.sha256(bytes_of(path)).hexdigest() == wanted
    return False


def built_here(program, sources):
    """The line of the program where what was built here is that of these sources."""
    build = builds_in(place_of(program) + ".build").get(program)
    return build if build and build.sources == sources and has_bytes(place_of(program), build.bytes) else None


def released(program, sources):
    """The line of the release where that is of these sources."""
    build = builds_in(SUMS).get(program)
    return build if build and build.sources == sources else None


# ---- What was released, unpacked.


def unpacked(build):
    """The bytes of a program of the release, which are those that its line says."""
    path = os.path.join(RELEASE, build.name + ".xz")
    try:
        text = lzma.decompress(bytes_of(path))
    except (OSError, EOFError, lzma.LZMAError) as error:
        raise Broken(f"{path} can't be unpacked: {error}") from error
    if (found := hashlib.sha256(text).hexdigest()) != build.bytes:
        raise Broken(f"{path} is damaged: what is packed there has the SHA-256 {found}, where {build.bytes} is wanted")
    return text


def own_folder(path):
    """Makes a folder that nobody else may write to; whether it is one."""
    with contextlib.suppress(OSError):
        os.makedirs(path, 0o700, exist_ok=True)
        found = os.lstat(path)
        return stat.S_ISDIR(found.st_mode) and found.st_uid == os.geteuid() and not found.st_mode & 0o022 and os.access(path, os.W_OK)
    return False


def placed(text, path):
    """Writes a program to its place, at once."""
    part = f"{path}.{os.getpid()}"
    try:
        with open(part, "wb") as file:
            file.write(text)
        os.chmod(part, 0o755)
        os.replace(part, path)
    finally:
        with contextlib.suppress(OSError):
            os.remove(part)


def places_of_release(build):
    """The folders where a program of the release may stand, once each is there. Where the first can't be written, it is a temporary one."""
    first = os.path.join(RELEASE, "out")
    with contextlib.suppress(OSError):
        os.makedirs(first, exist_ok=True)
    yield first
    with contextlib.suppress(OSError):
        temporary = os.path.join(tempfile.gettempdir(), f"davserve-{os.geteuid()}-{build.bytes[:16]}")
        yield temporary if own_folder(temporary) else tempfile.mkdtemp(prefix="davserve-")


def unpacked_place(build):
    """Where a program of the release stands. One that was changed there isn't run, but unpacked anew."""
    for folder in places_of_release(build):
        path = os.path.join(folder, build.name)
        if has_bytes(path, build.bytes):
            return path
        text = unpacked(build)
        with contextlib.suppress(OSError):
            placed(text, path)
            return path
    raise Broken(f"{build.name} can't be unpacked: neither {RELEASE}/out nor a temporary folder can be written")


def check_machine(build):
    """Raises Elsewhere where the program doesn't run here."""
    if (sys.platform, platform.machine()) != ("linux", "x86_64"):
        raise Elsewhere(f"what was released of {build.name} runs on Linux on x86-64, and this machine is {sys.platform} on {platform.machine()}")
    check_libc(build)


def check_libc(build):
    try:
        name, _, version = (os.confstr("CS_GNU_LIBC_VERSION") or "").partition(" ")
    except ValueError:
        name, version = "", ""
    number = lambda text: tuple(map(int, re.findall(r"\d+", text)))
    if build.libc != "0" and (name != "glibc" or number(version) < number(build.libc)):
        raise Elsewhere(f"{build.name} needs the C library glibc {build.libc} or later, and this machine has {f'{name} {version}' if name else 'another one'}")


def place(program):
    """The path of what may be run of a program without building it, and its line where it is the release; None where nothing fits the sources. Raises Broken and Elsewhere."""
    sources = sources_of(program)
    if build := built_here(program, sources):
        check_libc(build)
        return place_of(program), None
    if build := released(program, sources):
        check_machine(build)
        return unpacked_place(build), build
    return None


def compared(build):
    """Whether what was built has the bytes of the release, and what is to be told of that; None where it can't be compared."""
    of_release = builds_in(SUMS).get(build.name)
    if not of_release:
        return None, f"{build.name}: no release has it"
    if of_release.sources != build.sources:
        return None, f"{build.name}: the release is of other sources, so its bytes were not compared"
    if of_release.made_by != build.made_by:
        return None, f"{build.name}: the release was made by {of_release.made_by}, so its bytes were not compared"
    if of_release.bytes != build.bytes:
        return False, f"{build.name}: what was built here has other bytes than the release of the same sources: {build.bytes}, and there {of_release.bytes}"
    return True, f"{build.name}: what was built here has the bytes of the release"
