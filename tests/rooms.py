"""A small repository with an rt of its own that proves nothing, in which tests/start starts programs."""
import contextlib
import json
import os
import shutil
import subprocess
import sys

TOP = os.path.join(os.path.dirname(os.path.abspath(__file__)), "..")
sys.path.append(os.path.join(TOP, "bin"))
import builds

OF_KIT = sorted(set(builds.PROGRAMS) - {"listen"})
CRATES = {"low": [], "other": [], "middle": ["low"], "top": ["middle", "other"], **{it: ["top"] for it in OF_KIT}}

# It notes each call as it begins and as it ends, says what it has proved, and makes what rt makes.
RT = f"""#!{sys.executable}
import json, os, sys, time
where, name, verb = {{where!r}}, os.path.basename(os.getcwd()), sys.argv[1]
def note(what):
    with open(os.path.join(where, "calls"), "a") as file:
        file.write(json.dumps([what, verb, name, os.getpid()]) + "\\n")
if verb == "version":
    sys.exit(print("a kit"))
note("begin")
print("fn f: proved", flush=True)
slow, broken = (os.path.join(where, it) for it in ("slow", "broken"))
time.sleep(60 if os.path.exists(slow) and open(slow).read() == name else 0.3)
if os.path.exists(broken) and open(broken).read() == name:
    sys.exit("fn f: not proved")
if verb == "lib":
    os.makedirs("out/rlib", exist_ok=True)
    open("out/rlib/stamp", "w").write(name)
if verb == "run":
    assert all(os.path.exists(f"../{{{{it}}}}/out/rlib/stamp") for it in ("low", "other", "middle", "top"))
    os.makedirs("out", exist_ok=True)
    open(f"out/{{{{name}}}}", "w").write('#!/bin/sh\\necho "$@"\\necho "$@" >&2\\n')
    os.chmod(f"out/{{{{name}}}}", 0o755)
note("end")
"""
# It copies a listener that was built before.
LISTENER = """#!/bin/sh
mkdir -p {where}/listener/out && cp {listen} {where}/listener/out/listen
"""
# A program that no proof wrote, and that says so.
UNPROVED = "#!/bin/sh\necho unproved\n"


class Room:
    """The small repository, and how programs are started in it."""

    def __init__(self, where):
        self.where, self.bin = where, os.path.join(where, "bin")
        # So many bytes of the file of calls were read.
        self.read = 0
        # What is in the path beside what bin/ needs.
        self.tools = os.path.join(where, "tools")

    def lay(self):
        """Makes its files, all of it in folders that nothing else has."""
        shutil.copytree(os.path.join(TOP, "bin"), self.bin, symlinks=True)
        shutil.copytree(os.path.join(TOP, "listener"), os.path.join(self.where, "listener"), ignore=shutil.ignore_patterns("out"))
        # (of one crate no time is known)
        self.write("bin/times", "".join(f"{it} 1 0.1\n" for it in CRATES if it != "other"))
        self.write("crates.txt", "".join(f"{it}: {' '.join(below)}\n" for it, below in CRATES.items()))
        for it in CRATES:
            self.write(f"crates/{it}/src/lib.rt", it)
        self.write_program("tools/rt", RT.format(where=self.where))
        for it in ("dirname", "basename", "readlink", "sh", "python3"):
            self.link("few", it)
        return self

    def link(self, folder, name):
        """Puts a program of the machine into a folder for a path."""
        os.makedirs(os.path.join(self.where, folder), exist_ok=True)
        os.symlink(sys.executable if name == "python3" else shutil.which(name), os.path.join(self.where, folder, name))

    def cloned(self, where):
        """Another room with the files of this one, without what was built or unpacked."""
        shutil.copytree(self.where, where, symlinks=True, ignore=shutil.ignore_patterns("out", "cache", "calls"))
        it = Room(where)
        it.write_program("tools/rt", RT.format(where=where))
        return it

    @property
    def few(self):
        """A path without rt, and without rustc."""
        return os.path.join(self.where, "few")

    def has_listener(self, listen):
        """Has the listener built from what was built before."""
        self.write_program("listener/build", LISTENER.format(where=self.where, listen=listen))

    def path(self, name):
        return os.path.join(self.where, name)

    def write(self, path, text):
        os.makedirs(os.path.dirname(self.path(path)), exist_ok=True)
        with open(self.path(path), "w", encoding="utf-8") as file:
            file.write(text)

    def write_program(self, path, text):
        self.write(path, text)
        os.chmod(self.path(path), 0o755)

    def text(self, path):
        with open(self.path(path), encoding="utf-8") as file:
            return file.read()

    def remove(self, path):
        os.remove(self.path(path))

    def begin(self, program, *words, path=None, before=(), **surroundings):
        tools = path or self.tools + ":" + os.environ["PATH"]
        surroundings = {**os.environ, "PATH": tools, "XDG_CACHE_HOME": self.path("cache"), **surroundings}
        shell = [*before, shutil.which("sh"), os.path.join(self.bin, program), *words]
        return subprocess.Popen(shell, env=surroundings, stdout=subprocess.PIPE, stderr=subprocess.PIPE, encoding="utf-8")

    def start(self, program, *words, **how):
        """The status, what was written, and what was told."""
        child = self.begin(program, *words, **how)
        out, told = child.communicate(timeout=100)
        return child.returncode, out, told

    def release(self):
        """The status of bin/release, and what it told."""
        surroundings = {**os.environ, "PATH": self.tools + ":" + os.environ["PATH"]}
        ran = subprocess.run([sys.executable, os.path.join(self.bin, "release")], env=surroundings, capture_output=True, text=True, timeout=100, check=False)
        return ran.returncode, ran.stderr

    def calls(self):
        """What rt was called for since this was asked last."""
        with contextlib.suppress(FileNotFoundError), open(self.path("calls"), "rb") as file:
            file.seek(self.read)
            # The last line may not be whole as yet.
            lines, end, _ = file.read().rpartition(b"\n")
            self.read += len(lines + end)
            return [json.loads(line) for line in lines.splitlines()]
        return []


def checked(calls):
    """The crates that were begun."""
    return [name for what, _, name, _ in calls if what == "begin"]
