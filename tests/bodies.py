"""The wrong bodies of tests/wrong_bodies: which have to be tried, how rt is asked to try them, and the table of those that it has refused.

A wrong body is a file CRATE/NAME.edit in the form of rt's edits: a change of the crate's text that the prover must refuse. The table, tests/wrong_bodies/refused, has a line for each: its name, and the
sum of what decided when it was last refused. That is the body itself, its crate's files, what the crate's line of crates.txt says, the code and the definitions of the crates below, and the line of the
kit. As long as the sum stays, the same prover would look at the same goals again, so the body needs no try. The proofs of crates below are left out: crates above see their statements alone.
"""
import contextlib
import hashlib
import os
import re
import shutil
import signal
import subprocess
import sys
import tempfile

TOP = os.path.dirname(os.path.dirname(os.path.realpath(__file__)))
sys.path[1:1] = [os.path.join(TOP, "bin")]
import builds
from repository import read, sum_of_file, sum_of_verdict, uses_of_crates

FOLDER = os.path.join(TOP, "tests", "wrong_bodies")
TABLE = os.path.join(FOLDER, "refused")
HEAD = "# When each wrong body was last refused: a sum of all that decided it. tests/wrong_bodies/try writes this.\n"
# Names that rt takes for an edit.
NAME = re.compile(r"[A-Za-z0-9_-][A-Za-z0-9_.-]*\.edit")
# What rt says of an edit.
SAID = re.compile(r"rt: must-fail (\S+?/\S+?\.edit): (refused|NOT REFUSED|BAD EDIT|NOT TRIED)\b")
REFUSED = "refused"
WRONG = {
    "NOT REFUSED": "it is not refused: its crate is still proved with it",
    "BAD EDIT": "it does not apply, or cannot be read",
    "NOT TRIED": "its try came to no end",
    None: "rt has not tried it",
}


# ---- Which there are, and which have to be tried.


def crate_of(body):
    return body.partition("/")[0]


def there():
    """The wrong bodies that are there, of crates that are there."""
    return sorted(f"{crate}/{name}" for crate in {*folders()} & {*uses_of_crates()} for name in os.listdir(os.path.join(FOLDER, crate)) if NAME.fullmatch(name))


def folders():
    return sorted(name for name in os.listdir(FOLDER) if os.path.isdir(os.path.join(FOLDER, name)) and name != "__pycache__")


def table():
    """The lines of the table: the sum of each wrong body when it was refused."""
    return {words[0]: words[1] for words in lines_of_table() if len(words) == 2}


def lines_of_table():
    """The words of each line of the table."""
    return [line.split() for line in read(TABLE).splitlines() if line and not line.startswith("#")]


def sums(bodies):
    """The sum of each of these as it is now."""
    kit, known, crates, found = builds.said_by("rt", "version"), {}, {}, {}
    for body in bodies:
        crate = crate_of(body)
        if crate not in crates:
            crates[crate] = sum_of_verdict(crate, known)
        found[body] = hashlib.sha256(f"{kit}\n{crates[crate]}\n".encode() + sum_of_file(FOLDER, body)).hexdigest()
    return found


def changed(found):
    """Of wrong bodies with their sums, those that have to be tried: their sum is another than when they were refused, or they never were."""
    noted = table()
    return [body for body, its in found.items() if noted.get(body) != its]


def due(found):
    """Of wrong bodies with their sums, those that the gate tries: they were refused once, and their sum is another than then."""
    noted = table()
    return [body for body in changed(found) if body in noted]


def new(found):
    """Of these, those that were never refused: they are tried by hand first."""
    noted = table()
    return [body for body in found if body not in noted]


def faults():
    """What is wrong with the folder and the table, whichever bodies are tried."""
    crates = uses_of_crates()
    for crate in folders():
        if crate not in crates:
            yield f"tests/wrong_bodies/{crate}: crates.txt has no such crate"
        for name in sorted(os.listdir(os.path.join(FOLDER, crate))):
            if not NAME.fullmatch(name):
                yield f"tests/wrong_bodies/{crate}/{name}: rt takes no file of this name for a wrong body"
            elif os.path.exists(place_of(TOP, f"{crate}/{name}")) and not is_left(f"{crate}/{name}"):
                yield f"{crate}/{name}: must-fail has another one of this name"
    bodies = set(there())
    for words in lines_of_table():
        if len(words) != 2:
            yield f"tests/wrong_bodies/refused: a line is not a name and a sum: {' '.join(words)[:80]}"
        elif words[0] not in bodies:
            yield f"tests/wrong_bodies/refused: there is no wrong body {words[0]}"


def write(found):
    """Writes these lines into the table, in place of those that it has of them; those of bodies that aren't there go."""
    bodies = set(there())
    lines = {body: its for body, its in {**table(), **found}.items() if body in bodies}
    part = f"{TABLE}.{os.getpid()}"
    with open(part, "w", encoding="utf-8") as file:
        file.write(HEAD + "".join(f"{body} {its}\n" for body, its in sorted(lines.items())))
    os.replace(part, TABLE)


# ---- How they are tried.


def place_of(root, body):
    """Where rt looks for a wrong body below a folder that has crates."""
    crate, _, name = body.partition("/")
    return os.path.join(root, "crates", crate, "must-fail", name)


def is_left(body):
    """Whether must-fail has it, as a run leaves it that was killed."""
    with contextlib.suppress(OSError):
        return builds.bytes_of(place_of(TOP, body)) == builds.bytes_of(os.path.join(FOLDER, body))
    return False


def take_away(root, bodies):
    for body in bodies:
        with contextlib.suppress(OSError):
            os.remove(place_of(root, body))
        with contextlib.suppress(OSError):
            # (where it has no other one)
            os.rmdir(os.path.dirname(place_of(root, body)))


@contextlib.contextmanager
def placed(root, bodies):
    """Has these stand in must-fail of their crates meanwhile, and none that a killed run has left there."""
    take_away(root, filter(is_left, there()) if root == TOP else ())
    try:
        for body in bodies:
            os.makedirs(os.path.dirname(place_of(root, body)), exist_ok=True)
            shutil.copyfile(os.path.join(FOLDER, body), place_of(root, body))
        yield
    finally:
        take_away(root, bodies)


@contextlib.contextmanager
def copied():
    """A temporary folder with what rt ci reads of the repository, without the edits of its crates and without what was built."""
    with tempfile.TemporaryDirectory(prefix="wrong-bodies-") as room:
        leaves = lambda at, _: {"out", "must-fail"} if os.path.dirname(at) == os.path.join(TOP, "crates") else ()
        shutil.copytree(os.path.join(TOP, "crates"), os.path.join(room, "crates"), ignore=leaves)
        for name in ("crates.txt", "HANDLES"):
            if os.path.exists(os.path.join(TOP, name)):
                shutil.copyfile(os.path.join(TOP, name), os.path.join(room, name))
        yield room


def rt_ci(where, *names):
    """Runs rt ci in a folder, and says what it says. Its status, its last line, and what it said of each edit that it tried. However this ends, rt has ended, too."""
    surroundings = {**os.environ}
    if names:
        # (with names it isn't the gate, so rt refuses it where this is set)
        surroundings.pop("CI", None)
    last, said = "", {}
    with subprocess.Popen(["rt", "ci", *names], cwd=where, env=surroundings, stdout=subprocess.PIPE, text=True, errors="replace") as child:
        try:
            for line in child.stdout:
                print(line, end="", flush=True)
                last = line.strip() or last
                if found := SAID.match(line):
                    said[found[1]] = found[2]
        except BaseException:
            child.terminate()
            raise
    return child.returncode, last, said


def not_refused(bodies, said):
    """What is wrong with these, and with others that rt spoke of."""
    others = [body for body in said if body not in bodies]
    return [f"wrong body {body}: {WRONG[said.get(body)]}" for body in [*bodies, *others] if said.get(body) != REFUSED]


def refused(found, said):
    """Of wrong bodies with their sums, those that were refused, and that nothing below has changed since."""
    now = sums(found)
    return {body: its for body, its in found.items() if said.get(body) == REFUSED and now[body] == its}


def told(tried, every):
    """How many are tried, and how many are not."""
    return f"wrong bodies of tests/wrong_bodies: {tried} to be tried; {every - tried} are not, since nothing that they stand on has changed since each was refused"


def end_on_signals():
    """Has a SIGTERM or a hang-up end the run as an interrupt does, so that all is taken away that was put somewhere meanwhile."""
    for number in (signal.SIGTERM, signal.SIGHUP):
        signal.signal(number, lambda number, _: sys.exit(128 + number))
