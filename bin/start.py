#!/usr/bin/env python3
"""Runs a program of this repository: the one that was proved here from these sources; else the one of release/, where that is of these sources; else it proves and builds it first.

start.py PROGRAM [WORD..]
"""
import os
import shutil
import signal
import subprocess
import sys

sys.dont_write_bytecode = True
import builds
import certificates
import proving
from repository import LISTENER, TOP, tell
from usages import HELP

# The options of the listener; of these the program has one, too.
OF_LISTENER = {"--" + name for name in "listen connections connections-per-address idle head rate stall linger grace memory window users tls-cert tls-key proxy-protocol wait".split()}
OF_BOTH = {"--window"}
# The options that have no value.
FLAGS = {"--read-only", "--existing", "--wait"}


def version(program):
    """What would be run, what it was proved with, and what it needs."""
    sources = builds.sources_of(program)
    here = builds.built_here(program, sources)
    build = here or builds.released(program, sources)
    if not build:
        return f"{program}, neither built here nor released from these sources"
    how = "built" if program == LISTENER else "proved"
    where = "here" if here else "before its release"
    words = [f"{program}, {how} {where} by {build.made_by}", f"needs glibc {build.libc} or later" if build.libc != "0" else ""]
    commit = builds.said_by("git", "-C", TOP, "rev-parse", "HEAD")
    return ", ".join(filter(None, [*words, f"commit {commit}" if commit else ""]))


def found(program, is_told=True):
    """The path of a program that was built here, or released, from these sources; none where neither is there. What stands in the way of running it ends all."""
    build_it = f"bin/{program} --prove"
    try:
        path, release = builds.place(program) or (None, None)
    except builds.Broken as why:
        tell(f"{why}. It is not run. Get the file anew, as by `git checkout release`, or build the program here: {build_it}")
        sys.exit(1)
    except builds.Elsewhere as why:
        tell(f"{why}. " + (f"It may be built here: {build_it}" if builds.maker(program) else "Building it here needs a Rattle kit, and rustc for the listener."))
        sys.exit(1)
    if is_told and release and program != LISTENER:
        tell(f"{program}: this is the release, which was proved with {release.made_by}. To prove it here: {build_it}")
    return path


def build(program):
    """Proves and builds a program here; the listener is built alone."""
    if program == LISTENER:
        sources = builds.sources_of(program)
        status = subprocess.run([os.path.join(TOP, "listener", "build")], stdout=subprocess.DEVNULL, check=False).returncode
        if status == 0:
            builds.note(program, sources)
    elif shutil.which("rt"):
        status = proving.Start(program).run()
    else:
        tell(f"{program} was not released from these sources, and to prove it here needs rt, which comes with a Rattle kit: put the kit's folder bin into the path, as PATH=/opt/rattle/bin:$PATH")
        status = 127
    if status:
        sys.exit(status)


def place_of(program):
    """The path of the program, which is proved and built first where it neither was nor is released."""
    path = found(program)
    if not path:
        build(program)
        path = builds.place_of(program)
    return path


def prove(program):
    """Proves and builds a program here, where that wasn't done, and tells how it compares with the release. Whether it has the same bytes, where that can be said."""
    if not builds.built_here(program, builds.sources_of(program)):
        build(program)
    is_same, told = builds.compared(builds.built_here(program, builds.sources_of(program)))
    tell(told)
    return is_same is not False


def parted(words):
    """The words of the listener, and those of the program, whom the listener tells the users. Where the listener speaks TLS, clients come by https."""
    first = [words.pop(0)] if words and words[0].isdigit() else []
    pairs = []
    while words:
        count = 1 if words[0] in FLAGS else 2
        pairs.append(words[:count])
        words = words[count:]
    before = [word for pair in pairs if pair[0] in OF_LISTENER for word in pair]
    named = [pair[0] for pair in pairs]
    logs_in = ["--login"] if "--users" in named else []
    if "--tls-cert" in named and "--scheme" not in named:
        pairs.append(["--scheme", "https"])
    return before + first, logs_in + [word for pair in pairs if pair[0] not in OF_LISTENER - OF_BOTH for word in pair]


def run(path, words):
    """Goes on as the program at a path."""
    try:
        os.execv(path, words)
    except OSError as why:
        tell(f"{path} can't be run: {why.strerror}. Where its folder is no place for programs, TMPDIR may name another one")
        sys.exit(126)


def main(program, words):
    if "--help" in words:
        print(HELP[program], end="", flush=True)
    elif "--version" in words:
        print(version(program), flush=True)
    elif words == ["--path"]:
        path = found(program, is_told=False)
        if not path:
            tell(f"{program} was neither built here nor released from these sources: bin/{program} --prove builds it")
        print(path or "", end="\n" if path else "", flush=True)
        sys.exit(not path)
    elif words == ["--prove"]:
        others = [LISTENER] if program == "davserve" else []
        sys.exit(not all([prove(it) for it in (*others, program)]))
    elif program == "davserve" and words[:1] == ["--make-cert"]:
        sys.exit(certificates.make(words[1:]))
    elif program == "davserve":
        listen = place_of(LISTENER)
        before, behind = parted(words)
        run(listen, ["listen", *before, place_of(program), *behind])
    else:
        run(place_of(program), [program, *words])


if __name__ == "__main__":
    signal.signal(signal.SIGTERM, lambda *_: sys.exit(143))
    # What whoever starts it ignores, as `nohup` does, is ignored.
    if signal.getsignal(signal.SIGHUP) is not signal.SIG_IGN:
        signal.signal(signal.SIGHUP, lambda *_: sys.exit(129))
    try:
        main(sys.argv[1], sys.argv[2:])
    except BrokenPipeError:
        # Whoever read the text has enough of it, as head does.
        os.dup2(os.open(os.devnull, os.O_WRONLY), 1)
        sys.exit(141)
    except KeyboardInterrupt:
        tell("\ninterrupted: the next start goes on from what is proved")
        sys.exit(130)
