"""The words of `specs/`: that each means one thing, that each file there has a name of its own, and that a function is named by what it is."""
import os
import re
from glob import glob

from names import TOP, read

# What declares a word, and the word. With `pub` alone it is a field of a record, or a `mod` or a `use`.
DECLARATION = re.compile(r"^ *((?:(?:abbrev|unfoldable|opaque|pub|record|data) )+)([^\s:({]+)", re.MULTILINE)
FUNCTION = {"abbrev", "unfoldable", "opaque"}
PARTICIPLE = re.compile(r"[a-z]+(ed|en)")
IRREGULAR = set(
    "told done kept copied made shown known given taken held found left sent seen met lost gone begun bound built read written "
    "spoken split spread".split()
)

# Words that are declared in several places, and why.
ONE_IDEA = {
    "Found": "what a reader found and what it left, in dav_headers_core and in dav_xml_core, which know nothing of each other",
    "Gives": "a value exactly as expected or a refusal where none is, out of memory aside, by the error of the readers of headers, of lines and of XML",
    "IsReadAs": "a value exactly as expected or a refusal where none is, of a whole document by the error of XML, and of a body by a fault",
    "KeepsAll": "that nothing is lost from one state to another: of the bytes that an output was given, and of the records that stores stand for; no file cites both",
    "Node": "what a tree is made of: of the stores a folder or a file, of XML a start, a text or an end; no file cites both",
    "Refuses": "that an error comes only where nothing is expected, and out of memory anywhere, in two crates that know nothing of each other",
    "Represents": "that a keyed tree and what it stands for agree, a resource map or a list of locks, private to each of two crates",
    "choose": "by the value in an option, or without, the same in two crates that know nothing of each other",
    "every": "what each of a list gives, the same in two crates that know nothing of each other",
    "exactly": "Ok with the value that is there, and else the one error, of a header or of a line",
    "is_blank": "a space or a tab, the same in two crates that know nothing of each other",
    "is_empty": "whether a list is empty, the same in two crates that know nothing of each other",
    "when": "a value where a test holds, the same in two crates that know nothing of each other",
    "without_blanks": "a text without the blanks at its ends, the same in two crates that know nothing of each other",
    "◌>>=◌": "going on with what there is, and ending where there is none, of options in two crates that know nothing of each other, and of results",
}

# Files of one name, and why. Each crate has a `Lib`, and a `Private` where it has such files.
OF_EACH_CRATE = {"Lib", "Private"}
ONE_FILE_NAME = {
    "Optional": "words on values that may be missing, in two crates that know nothing of each other; docs/DECISIONS.md says why",
}

# Functions whose names end as participles do, and what they are.
NO_BARE_PARTICIPLE = {
    "between": "a preposition",
    "children": "a noun",
    "rebased": "a word of the port, that of `DavPath::rebased`",
    "seed": "a noun",
    "when": "a conjunction",
}


def specs():
    """Each file of specs/, as a path from the top."""
    return sorted(os.path.relpath(path, TOP) for path in glob(os.path.join(TOP, "crates", "*", "specs", "**", "*.antt"), recursive=True))


def declarations():
    """Each word that is declared, with the words that declare it, and its place."""
    for path in specs():
        text = read(path)
        for found in DECLARATION.finditer(text):
            kinds = found.group(1).split()
            if kinds != ["pub"]:
                yield found.group(2), kinds, f"{path}:{text.count(chr(10), 0, found.start()) + 1}"


def places(pairs):
    """The places of each word, in order."""
    found = {}
    for word, place in pairs:
        found.setdefault(word, []).append(place)
    return sorted(found.items())


def unlike_list(name, listed, found):
    """Where the words that were found, with their places, and a list of words with reasons differ."""
    yield from (f"{', '.join(at)}: {word} is not in {name} of tests/words.py" for word, at in found.items() if word not in listed)
    yield from (f"tests/words.py: {word} is in {name} for nothing" for word in listed if word not in found)


def words_of_two_meanings():
    """Words that are declared twice, and not in ONE_IDEA; or there for nothing."""
    found = {word: at for word, at in places((word, at) for word, _, at in declarations()) if len(at) > 1}
    return unlike_list("ONE_IDEA", ONE_IDEA, found)


def files_of_one_name():
    """Names that two files of specs/ have, and that are not in ONE_FILE_NAME; or there for nothing."""
    names = places((os.path.splitext(os.path.basename(path))[0], path) for path in specs())
    found = {name: paths for name, paths in names if len(paths) > 1 and name not in OF_EACH_CRATE}
    return unlike_list("ONE_FILE_NAME", ONE_FILE_NAME, found)


def bare_participles():
    """Functions that are named by a participle alone, by how the word ends, and not in NO_BARE_PARTICIPLE; or there for nothing."""
    functions = ((word, at) for word, kinds, at in declarations() if FUNCTION.intersection(kinds))
    found = {word: at for word, at in places(functions) if PARTICIPLE.fullmatch(word) or word in IRREGULAR}
    return unlike_list("NO_BARE_PARTICIPLE", NO_BARE_PARTICIPLE, found)


def wrong_words():
    """What is wrong with the words of specs/."""
    return [fault for check in (words_of_two_meanings, files_of_one_name, bare_participles) for fault in check()]
