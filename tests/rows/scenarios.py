"""Plays the rows of tests/rows/requests on davreplay, and those of tests/rows/lines on davread: each scenario by a process of its own."""
import itertools
import os
import re
import shlex
import subprocess
from glob import glob

from programs import stop

HERE = os.path.dirname(os.path.abspath(__file__))
PATIENCE = 60
ESCAPE = re.compile(rb"\\(?:x([0-9a-f]{2})|([rtn0\\]))")
NAMED = {b"r": b"\r", b"t": b"\t", b"n": b"\n", b"0": b"\0", b"\\": b"\\"}
BEFORE, BEHIND = b"1 - - put /z 61\n", b"\n9 - - put /y 61\n"


def bytes_of(text):
    return ESCAPE.sub(lambda found: bytes.fromhex(found[1].decode()) if found[1] else NAMED[found[2]], text.encode())


class Scenario:
    """What a program reads, and what it is to write."""

    def __init__(self, number):
        self.number = number
        self.arguments, self.status = None, 0
        self.input, self.output, self.faults = b"", [], b""
        self.asked = self.first = ""

    def add(self, place, mark, text):
        """Adds a line of a file, which has this place. Whether the scenario ends with it; None where there is no such mark."""
        if mark in (">", ">|"):
            self.input += bytes_of(text) + (b"\n" if mark == ">" else b"")
            self.asked = text
            self.first = self.first or text
        elif mark in ("<", "<*"):
            self.output.append((place, self.asked, bytes_of(text), mark == "<*"))
        elif mark == "!":
            self.faults += bytes_of(text) + b"\n"
        elif mark == "$":
            self.arguments = shlex.split(text)
        elif mark == "=":
            self.end(place, int(text))
        elif mark == "~":
            self.add_malformed(place, text)
        else:
            return None
        return mark in "=~"

    def add_malformed(self, place, text):
        self.asked = self.first = text
        self.input, self.faults = BEFORE + bytes_of(text) + BEHIND, b"line 2: malformed\n"
        self.output.append((place, text, b"ok", False))
        self.end(place, 2)

    def end(self, place, status):
        self.place, self.status = place, status

    def play(self, command):
        """Each row: its place, whether it is right, and why it is not."""
        if self.arguments is not None:
            command = [command[0], *self.arguments]
        ran = subprocess.run(command, input=self.input, stdout=subprocess.PIPE, stderr=subprocess.PIPE, timeout=PATIENCE, check=False)
        *lines, rest = ran.stdout.split(b"\n")
        for wanted, answer in itertools.zip_longest(self.output, lines + [rest] if rest else lines):
            place, asked, right, begins = wanted or (self.place, "the end", None, False)
            is_right = answer == right or begins and answer is not None and answer.startswith(right)
            yield place, is_right, f"{asked} = {shown(right)}, not {shown(answer)}"
        is_right = (ran.returncode, ran.stderr) == (self.status, self.faults)
        yield self.place, is_right, f"status {self.status} {shown(self.faults)}, not {ran.returncode} {shown(ran.stderr)}"


def shown(answer):
    return "nothing" if answer is None else repr(answer)[2:-1]


def scenarios_of(path):
    """The scenarios of a file."""
    with open(path, encoding="utf-8", newline="\n") as file:
        lines = file.read().removesuffix("\n").split("\n")
    if not lines[0].startswith("# "):
        stop(f"{path} does not say what its rows are")
    found, scenario = [], None
    for place, line in enumerate(lines, 1):
        if line and not line.startswith("#"):
            scenario = scenario or Scenario(len(found) + 1)
            is_end = scenario.add(place, *line.partition(" ")[::2])
            if is_end is None:
                stop(f"{path}, line {place}: no such mark")
            if is_end:
                found.append(scenario)
                scenario = None
    if scenario or not found:
        stop(f"{path} ends within a scenario, or has none")
    return found


def rows_of(folder, command):
    """The rows of all files of a folder, each with what is wrong with it, and whether it is right."""
    for path in sorted(glob(os.path.join(HERE, folder, "*.rows"))):
        for scenario in scenarios_of(path):
            begins = f"{os.path.relpath(path, HERE)}, scenario {scenario.number} ({scenario.first[:60]})"
            for place, is_right, why in scenario.play(command):
                yield f"{begins}, line {place}: {why}", is_right


def rows(davreplay, davread):
    yield from rows_of("requests", [davreplay, "1"])
    yield from rows_of("lines", [davread])
