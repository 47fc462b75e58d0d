"""The crates of this repository, and the sums of what its programs are made from."""
import hashlib
import os
import sys

TOP = os.path.dirname(os.path.dirname(os.path.realpath(__file__)))
PARTS = ("src", "specs", "proofs")
CONTRACTS = ("src", "specs")
# The program that has the clients. It is no crate, and rustc builds it.
LISTENER = "listen"


def tell(text):
    print(text, file=sys.stderr, flush=True)


def read(path):
    try:
        with open(path, encoding="utf-8") as file:
            return file.read()
    except FileNotFoundError:
        return ""


class Crate:
    """A crate of crates.txt, and where its files lie."""

    def __init__(self, name, below):
        self.name, self.below = name, below
        self.folder = os.path.join(TOP, "crates", name)
        self.out = os.path.join(self.folder, "out")


def uses_of_crates():
    """What each crate of crates.txt uses, as its line there says it: crates of this repository, and libraries of the kit."""
    lines = [line.split("#")[0].partition(":") for line in read(os.path.join(TOP, "crates.txt")).splitlines()]
    return {name.strip(): words.split() for name, colon, words in lines if colon}


def crates_of(program):
    """The crates that the program stands on, and itself, each behind those that it uses, by their names."""
    uses = uses_of_crates()
    found = {}

    def add(name):
        if name not in found:
            below = {}
            for it in uses[name]:
                if it in uses:
                    add(it)
                    below |= found[it].below | {it: found[it]}
            found[name] = Crate(name, below)

    add(program)
    return found


def sum_of_files(folder, names):
    """A sum of files, and of all that stands in folders."""
    total = hashlib.sha256()
    for name in names:
        for at, folders, files in os.walk(os.path.join(folder, name)):
            folders.sort()
            total.update(os.path.relpath(at, folder).encode())
            files = [os.path.relpath(os.path.join(at, file), folder) for file in sorted(files)]
            total.update(b"".join(sum_of_file(folder, file) for file in files))
        if os.path.isfile(os.path.join(folder, name)):
            total.update(sum_of_file(folder, name))
    return total.hexdigest()


def sum_of_file(folder, name):
    with open(os.path.join(folder, name), "rb") as file:
        return name.encode() + hashlib.sha256(file.read()).digest()


def own_sum(folder):
    """A sum of a crate's own files that it is proved from, which stand in a folder."""
    return sum_of_files(folder, PARTS)


def sum_of(crate, known):
    """A sum of all files that a crate is proved from, those of the crates below it among them."""
    if crate.name not in known:
        parts = [own_sum(crate.folder), *(f"{name} {sum_of(crate.below[name], known)}" for name in sorted(crate.below))]
        known[crate.name] = hashlib.sha256("\n".join(parts).encode()).hexdigest()
    return known[crate.name]


def sum_of_contracts(crate, known):
    """A sum of what the crates above know of a crate: its code and its definitions, and none of its proofs."""
    if crate.name not in known:
        known[crate.name] = sum_of_files(crate.folder, CONTRACTS)
    return known[crate.name]


def sum_of_verdict(name, known):
    """A sum of what decides whether a changed text of a crate is refused: its own files, what its line of crates.txt says, and the contracts of the crates below it."""
    crate = crates_of(name)[name]
    parts = [own_sum(crate.folder), " ".join(uses_of_crates()[name]), *(f"{below} {sum_of_contracts(crate.below[below], known)}" for below in sorted(crate.below))]
    return hashlib.sha256("\n".join(parts).encode()).hexdigest()


def sources_of(program):
    """A sum of all files that a program is made from."""
    if program != LISTENER:
        return sum_of(crates_of(program)[program], {})
    folder = os.path.join(TOP, "listener")
    return sum_of_files(folder, sorted(name for name in os.listdir(folder) if name == "build" or name.endswith(".rs")))
