"""The names that this repository has: of files, crates, modules, items, methods, fields and variants; and those that its pages give."""
import os
import re
from glob import glob

TOP = os.path.join(os.path.dirname(os.path.abspath(__file__)), "..")
ITEM = re.compile(r"\b(?:fn|struct|enum|trait|type|const|mod)\s+(\w+)")
EXPORTED = re.compile(r"^\s*pub use ([^;]+);", re.MULTILINE)
# A block at the margin, with the names of what it is of: a type, a trait, or both.
OWNER = re.compile(r"^(?:pub )?(?:struct|enum|trait|impl)\b([^{;(]*)")
# In it a method, a constant, a field or a variant.
MEMBER = re.compile(r"^    (?:pub )?(?:(?:fn|type|const) )?(\w+)(?:[:,(<{ ]|$)")
DERIVED = {"Clone": "clone", "Default": "default"}
WORD = re.compile(r"`([^`\n]+)`")
PRIVATE = re.compile(r"Rattle\.(\w+)\.specs\.Private\.(\w+)")
OF_PROOFS = re.compile(r"\w+(Lemmas|Laws|Rows)")

# What pages name that stands elsewhere, and where.
ELSEWHERE = {
    "From": "a trait of std",
    "Clone": "a trait of std",
    "io::Error": "a type of std",
    "Connection::advance": "of the kit's http_server",
    "headers::Error": "of the crate `headers`, which the original uses",
    "ETag::from_meta": "of the original, and told to be left out",
    "If::encode": "told not to be there",
    "crates/NAME/src/lib.rt": "of whoever makes a crate",
}


def read(path):
    with open(os.path.join(TOP, path), encoding="utf-8") as file:
        return file.read()


def without_parameters(text):
    """The text without what stands in angle brackets."""
    while (shorter := re.sub(r"<[^<>]*>", " ", text)) != text:
        text = shorter
    return text


def members(text):
    """Pairs of a type, or a trait, and a name that it has."""
    owners, derived = [], []
    for line in text.splitlines():
        if line.startswith("#[derive("):
            derived += [DERIVED[name] for name in re.findall(r"\w+", line) if name in DERIVED]
        elif head := OWNER.match(line):
            owners = re.findall(r"\w+", without_parameters(head.group(1)))
            yield from ((owners[0], name) for name in derived if owners)
            derived = []
        elif line.startswith("}"):
            owners = []
        elif owners and (member := MEMBER.match(line)):
            yield from ((owner, member.group(1)) for owner in owners)


class Crate:
    """The names in the sources of one crate."""

    def __init__(self, name):
        self.items, self.members = {name}, set()
        source = os.path.join(TOP, "crates", name, "src")
        for path in glob(os.path.join(source, "**", "*.rt"), recursive=True):
            self.add(os.path.splitext(os.path.relpath(path, source))[0].split(os.sep), read(path))

    def add(self, modules, text):
        text = "\n".join(line for line in text.splitlines() if not line.lstrip().startswith(("//", "ghost ")))
        items = set(ITEM.findall(text)) | {name for names in EXPORTED.findall(text) for name in re.findall(r"\w+", names)}
        has = set(members(text))
        self.items |= items | {*modules} | {name for _, name in has}
        # What stands in a module is known of each module around it, too.
        self.members |= has | {(module, item) for module in modules for item in items}

    def has(self, name):
        """Whether it has an item, or each step of a path, as `Type::method`."""
        parts = name.split("::")
        return name in self.items if len(parts) == 1 else all(step in self.members for step in zip(parts, parts[1:]))


def files():
    """Each file and folder, as a path from the top. What checks and programs leave in `out` is none."""
    for folder, folders, names in os.walk(TOP):
        folders[:] = [name for name in folders if name not in (".git", "out", "__pycache__")]
        yield from (os.path.relpath(os.path.join(folder, name), TOP) for name in folders + names)


def libraries():
    """The crates of crates.txt, each with the libraries that it uses."""
    lines = [line.partition(":") for line in read("crates.txt").splitlines() if line and not line.startswith("#")]
    return {name: set(used.split()) for name, _, used in lines}


def all_below(name, used):
    """A crate, and each library that it stands on, however far below."""
    return {name}.union(*(all_below(library, used) for library in used.get(name, ())))


def tables(text):
    """The tables of a text: each a list of rows, the first of them its head, and each row a list of cells."""
    rows = []
    for line in [*text.splitlines(), ""]:
        if line.startswith("|"):
            rows.append([cell.strip() for cell in line.strip("|").split(" | ")])
        elif rows:
            yield [row for place, row in enumerate(rows) if place != 1]
            rows = []


def expanded(name):
    """The names that `Type::{first, second}` stands for."""
    before, brace, inside = name.partition("::{")
    return [f"{before}::{each.strip()}" for each in inside.rstrip("}").split(",")] if brace else [name]


class Names:
    """What a name on a page can mean. A crate's page speaks of that crate and of those below it."""

    def __init__(self):
        self.libraries, self.files, self.asked = libraries(), [*files()], set()
        self.crates = {name: Crate(name) for name in self.libraries}

    def is_file(self, name, scope):
        if "." not in os.path.basename(name):
            return self.is_file(name + ".antt", scope) or any(("/" + path).endswith("/" + name) for path in self.files)
        for path in self.files:
            of_crate = path.startswith("crates" + os.sep)
            if ("/" + path).endswith("/" + name) and (not of_crate or path.split(os.sep)[1] in scope):
                return True
        return False

    def is_there(self, name, scope, as_file):
        self.asked.add(name)
        if name in ELSEWHERE:
            return True
        if as_file or re.search(r"\.(rt|antt|md)$", name) or OF_PROOFS.fullmatch(name):
            return self.is_file(name, scope)
        return any(self.crates[crate].has(name) for crate in scope if crate in self.crates)

    def unknown(self, page, text):
        """The names on a page that nothing has."""
        own = page.split("/")[1] if page.startswith("crates/") else None
        around = all_below(own, self.libraries) if own else {*self.crates}
        for word in WORD.findall(text):
            if re.search(r"\.(rt|antt|md)$|::", word) or OF_PROOFS.fullmatch(word):
                yield from (name for name in expanded(word) if not self.is_there(name, around, False))
        for head, *rows in tables(text):
            if head[0] in ("call", "module", "file"):
                words = [name for row in rows for word in WORD.findall(row[0]) for name in expanded(word)]
                yield from (name for name in words if not self.is_there(name, {own} if own else around, head[0] == "file"))

    def unasked(self):
        """What is said to stand elsewhere, and is on no page."""
        return [name for name in ELSEWHERE if name not in self.asked]


def stands_on(cell, used):
    """The libraries that a cell names: nothing, or names, and `NAME and what it stands on`."""
    found = set()
    for part in re.sub(r" \([^()]*\)", "", cell).split(", "):
        name, _, more = part.partition(" ")
        found |= {name} | (used.get(name, set()) if more == "and what it stands on" else {more} - {""})
    return found - {"nothing"}


def unlike_crates(page, text):
    """Where the tables of crates on a page and crates.txt differ."""
    used = libraries()
    for head, *rows in tables(text):
        if head[0] != "crate":
            continue
        named = [name for row in rows for name in WORD.findall(row[0])]
        for name in sorted({*used} ^ {*named}):
            yield f"{page}: the table of crates and crates.txt: one alone has {name}"
        for row in rows if "stands on" in head else []:
            name = row[0].strip("`")
            for library in sorted(stands_on(row[head.index("stands on")], used) ^ used.get(name, set())):
                yield f"{page}: what {name} stands on, and crates.txt: one alone has {library}"


def unlike_proofs(page, text):
    """Where the lists of shared proofs, each below a line In `CRATE`, and the files differ."""
    parts = re.split(r"^In `(\w+)`.*:$|^## .*$", text, flags=re.MULTILINE)
    listed = {name: {os.path.basename(word) for word in WORD.findall(part)} for name, part in zip(parts[1::2], parts[2::2]) if name}
    for crate in libraries():
        paths = glob(os.path.join(TOP, "crates", crate, "proofs", "**", "*.antt"), recursive=True)
        there = {os.path.splitext(os.path.basename(path))[0] for path in paths}
        shared = {name for name in there - {"Answers", "Invariants", "Proof", "Lib"} if name[0].isupper()}
        for name in sorted(shared - listed.get(crate, set())):
            yield f"{page}: no list has {name} of {crate}"
        for name in sorted(each for each in listed.get(crate, set()) - there if OF_PROOFS.fullmatch(each)):
            yield f"{page}: {crate} has no {name}"


def borrowed_words():
    """Where a crate cites the words of another's private contracts, those of its `specs/Private`."""
    for crate in libraries():
        for path in sorted(glob(os.path.join(TOP, "crates", crate, "**", "*.*t"), recursive=True)):
            if path.endswith((".rt", ".antt")) and "/out/" not in path:
                for other, file in sorted(set(PRIVATE.findall(read(path)))):
                    if other != crate:
                        yield f"{os.path.relpath(path, TOP)}: it cites Private.{file} of {other}"
