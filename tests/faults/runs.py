"""Runs of a program in which one of its requests for memory, reads and writes fails, and how many of them went wrong. tests/faults/faults.c lets them fail."""
import collections
import multiprocessing
import os
import subprocess
import tempfile

# A read and a write of the runs in which these fail moves at most so many bytes, so that there are many.
PIECE = 97
# Of each kind so many wrong runs are told.
MOST_TOLD = 50

Ended = collections.namedtuple("Ended", "status answers faults")


class Played:
    """A program with its words, and an input that it is given over and over."""

    def __init__(self, words, text, library, folder):
        self.words, self.library, self.folder = words, library, folder
        self.input = self.written(text)

    def written(self, text):
        with tempfile.NamedTemporaryFile("wb", dir=self.folder, delete=False) as file:
            file.write(text)
        return file.name

    def play(self, input_file, **environment):
        with open(input_file, "rb") as file:
            streams = {"stdin": file, "stdout": subprocess.PIPE, "stderr": subprocess.PIPE}
            environment["LD_PRELOAD"] = self.library
            ran = subprocess.run(self.words, **streams, env=environment, close_fds=False, timeout=60)
        return Ended(ran.returncode, ran.stdout, ran.stderr)

    def play_text(self, text):
        """A usual run with another input."""
        other = self.written(text)
        ended = self.play(other)
        os.remove(other)
        return ended

    def counts(self, input_file=None, **environment):
        """The requests for memory, the reads and the writes of a usual run."""
        path = f"{self.input}.counts"
        self.play(input_file or self.input, COUNTS=path, **environment)
        with open(path) as file:
            return map(int, file.read().split())

    def run(self, fault):
        kind, *_numbers = fault
        pieces = {} if kind == "memory" else {"PIECE": str(PIECE)}
        return self.play(self.input, FAULT=":".join(map(str, fault)), **pieces)


def single_faults(played):
    memory, _, _ = played.counts()
    _, reads, writes = played.counts(PIECE=str(PIECE))
    counts = {"memory": memory, "read": reads, "write": writes, "short-read": reads, "short-write": writes}
    for kind, count in counts.items():
        yield from ((kind, number) for number in range(1, count + 1))
    yield from (("write", number, 1) for number in range(1, writes + 1))  # and all later ones


def repeated_faults(played):
    """Several requests for memory refused in one run, at several distances."""
    memory, _, _ = played.counts()
    yield from (("memory", number, every) for every in (7, 41, 307) for number in range(1, memory, every))


def built_library(folder):
    library, source = f"{folder}/faults.so", os.path.join(os.path.dirname(os.path.abspath(__file__)), "faults.c")
    subprocess.run(["cc", "-O1", "-shared", "-fPIC", "-o", library, source], check=True)
    return library


class Worker:
    """What a process beside this one plays, so that as many runs go on at once as there are processors."""

    played = None

    @staticmethod
    def begin(played):
        Worker.played = played

    @staticmethod
    def run(fault):
        return Worker.played.run(fault)


class Tallies:
    """Counts by program and kind of fault the runs, those with an answer changed, and the wrong ones."""

    def __init__(self):
        self.counts = collections.defaultdict(lambda: [0, 0, 0])

    def play_all(self, program, name, played, faults):
        """Plays an input with each of the faults, and tells the wrong runs."""
        with multiprocessing.get_context("fork").Pool(len(os.sched_getaffinity(0)), Worker.begin, [played]) as pool:
            for fault, ended in zip(faults, pool.imap(Worker.run, faults, chunksize=8)):
                why, tally = played.judge(fault, ended), self.counts[program, fault[0]]
                tally[0] += 1
                tally[1] += ended.answers != played.usual.answers
                tally[2] += why is not None
                if why and tally[2] <= MOST_TOLD:
                    print(f"{program}, {name}, {':'.join(map(str, fault))}: {why}", flush=True)

    def tell(self):
        """Prints the counts. All runs, all wrong ones, and the faults that changed no answer though they should."""
        for (program, kind), (runs, changed, wrong) in self.counts.items():
            print(f"{program:10} {kind:12} {runs:7} runs {changed:7} with an answer changed {wrong:4} wrong")
        runs, changed, wrong = map(sum, zip(*self.counts.values()))
        print(f"faults: {runs} runs, {changed} with an answer changed by the fault, {wrong} wrong")
        return runs, wrong, [each for each, tally in self.counts.items() if not each[1].startswith("short") and not tally[1]]
