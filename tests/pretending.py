"""An rt that proves nothing and says what it is told to say of each wrong body, before which tests/refused and tests/planted try them."""
import json
import os
import shlex
import subprocess
import sys

# It notes what it is called for. In its folder `kit` has its line, `says` what it says of edits that it doesn't refuse, and it takes long where `slow` has a word.
RT = """#!/bin/sh
[ "$1" != version ] || exec cat {folder}/kit
exec {python} -IS {folder}/rt.py "$@"
"""
MORE = """import json, os, sys, time
here = os.path.dirname(os.path.abspath(__file__))
def text(name):
    path = os.path.join(here, name)
    return open(path).read() if os.path.exists(path) else ""
edits = sorted(f"{crate}/{it}" for crate in os.listdir("crates") if os.path.isdir(f"crates/{crate}/must-fail") for it in os.listdir(f"crates/{crate}/must-fail"))
with open(os.path.join(here, "calls"), "a") as file:
    file.write(json.dumps([sys.argv[1:], os.getcwd(), edits, os.getpid()]) + "\\n")
time.sleep(60 if text("slow") else 0)
says, failed = json.loads(text("says") or "{}"), 0
for edit in edits:
    kind = says.get(edit, "refused")
    failed += kind in ("NOT REFUSED", "NOT TRIED")
    if kind:
        print(f"rt: must-fail {edit}: {kind}, as it must be: src/lib.rt:1:1: error")
print(f"{len(edits) - failed} passed, {failed} failed")
sys.exit(1 if failed else 0)
"""

# What the gate does with rt, without what it does before and behind that: it says its status, its last line, what is wrong with wrong bodies, and what is told of them.
GATE = """import json, runpy, sys
sys.path.insert(0, "tests")
gate = runpy.run_path("tests/run", run_name="gate")
gate["bodies"].end_on_signals()
print(json.dumps(gate["proved"]()))
"""
# (without the modules of the machine it starts sooner)
PYTHON = (sys.executable, "-S")


class Pretended:
    """Such an rt, in a folder of its own."""

    def __init__(self, folder):
        self.folder = folder
        os.makedirs(folder)
        self.write("rt", RT.format(folder=shlex.quote(folder), python=shlex.quote(sys.executable)))
        self.write("rt.py", MORE)
        os.chmod(os.path.join(folder, "rt"), 0o755)
        self.is_kit("a kit\n")

    def write(self, name, text):
        with open(os.path.join(self.folder, name), "w", encoding="utf-8") as file:
            file.write(text)

    def is_kit(self, line):
        self.write("kit", line)

    def says(self, **of_kinds):
        """What it says of edits that it doesn't refuse: each kind, with `_` for a blank, and the edits of which it is said; `nothing` of those that it is silent of."""
        kinds = {edit: "" if kind == "nothing" else kind.replace("_", " ") for kind, edits in of_kinds.items() for edit in edits}
        self.write("says", json.dumps(kinds))

    def is_slow(self, does):
        self.write("slow", "slow" if does else "")

    def calls(self):
        """What it was called for since this was asked last: the words, where, with which edits in must-fail, and its number."""
        path = os.path.join(self.folder, "calls")
        if not os.path.exists(path):
            return []
        with open(path, encoding="utf-8") as file:
            found = [json.loads(line) for line in file]
        if found:
            # (a file without a line is one that it is about to write)
            os.remove(path)
        return found

    def begin(self, *words, where):
        surroundings = {**os.environ, "PATH": f"{self.folder}:{os.environ['PATH']}"}
        return subprocess.Popen(words, cwd=where, env=surroundings, stdin=subprocess.DEVNULL, stdout=subprocess.PIPE, stderr=subprocess.STDOUT, text=True)

    def run(self, *words, where):
        """Runs a command with this rt in its path: the status, and the lines that it said."""
        child = self.begin(*words, where=where)
        said, _ = child.communicate(timeout=100)
        return child.returncode, said.splitlines()
