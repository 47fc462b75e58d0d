"""Proves and builds a program, with all crates that it stands on.

Each crate is proved in a copy of its own, since one rt command keeps others out of every crate below its own. Crates that do not wait for each other are proved side by side. What is proved is
moved into the crate's folder out/ as soon as it is done, so that a start that was interrupted goes on from there. All that is told goes to standard error.
"""
import collections
import fcntl
import hashlib
import os
import re
import shutil
import signal
import subprocess
import sys
import time

import builds
from repository import PARTS, TOP, crates_of, own_sum, read, sum_of, tell

# What each program is built with, so that it ends at once.
BUILT_WITH = {"davserve": ["--help"], "davstore": ["/dev/null", "check"], "davreplay": ["0"], "davread": [], "journalplay": ["--read"]}

# ---- What is left, by the table of times and what this machine has shown.

# How many times faster a crate is proved with so many jobs. More than two take memory, and little less time.
FASTER = (1, 1, 1.7)
MOST_JOBS = len(FASTER) - 1


class Times:
    """How long crates take: by the table, scaled by what was seen of this machine."""

    def __init__(self, path):
        rows = [line.split() for line in read(path).splitlines() if line and not line.startswith("#")]
        # A crate without a row takes as long and as much as most.
        self.seconds = collections.defaultdict(lambda: 300, {name: float(seconds) for name, seconds, _ in rows})
        self.gigabytes = collections.defaultdict(lambda: 3, {name: float(gigabytes) for name, _, gigabytes in rows})
        self.wanted = self.taken = 0

    def note(self, name, seconds, jobs):
        """A crate took so long with so many jobs."""
        self.wanted += self.seconds[name]
        self.taken += seconds * FASTER[jobs]

    @property
    def scale(self):
        return self.taken / self.wanted if self.wanted else 1

    def of(self, name, jobs):
        return self.scale * self.seconds[name] / FASTER[jobs]


def chains(crates, times):
    """For each crate, the time of the longest chain of crates from it up to the program."""
    lengths = {}
    for name in reversed(list(crates)):
        above = [other for other in crates.values() if name in other.below]
        lengths[name] = times.seconds[name] + max([lengths[other.name] for other in above], default=0)
    return lengths


class Plan:
    """Which crate comes next, and with how many jobs."""

    def __init__(self, crates, times, processors, gigabytes):
        self.crates, self.times, self.processors, self.gigabytes = crates, times, processors, gigabytes
        self.chains = chains(crates, times)

    def next(self, done, running):
        """A crate to begin, with its jobs, or none: the one before the longest chain of those that wait for nothing. running: the jobs of those that run."""
        ready = [it for it in self.crates if it not in done and it not in running and all(below in done for below in self.crates[it].below)]
        free = self.processors - sum(running.values())
        if not ready or free < 1:
            return None
        first = max(ready, key=self.chains.get)
        room = self.gigabytes - sum(self.needs(*it) for it in running.items())
        jobs = max(1, min(MOST_JOBS, free - len(ready) + 1))
        while jobs > 1 and self.needs(first, jobs) > room:
            jobs -= 1
        return (first, jobs) if not running or self.needs(first, jobs) <= room else None

    def needs(self, name, jobs):
        return self.times.gigabytes[name] * (1 + 0.6 * (jobs - 1))

    def left(self, done, running):
        """The seconds that are left. running: for each crate that runs its jobs, and the share of it that is done."""
        done, now = set(done), 0
        ends = {name: (self.times.of(name, jobs) * (1 - share), jobs) for name, (jobs, share) in running.items()}
        while True:
            while found := self.next(done, {name: jobs for name, (_, jobs) in ends.items()}):
                ends[found[0]] = now + self.times.of(*found), found[1]
            if not ends:
                return now
            first = min(ends, key=ends.get)
            now = max(now, ends.pop(first)[0])
            done.add(first)


# ---- One crate at work.


def linked(source, target):
    """The same files under other names, where that can be; else a copy."""
    try:
        os.link(source, target)
    except OSError:
        shutil.copy2(source, target)


class Check:
    """A crate that is proved in a copy of its own, by one process."""

    def __init__(self, crate, room, jobs, program):
        self.crate, self.jobs, self.began = crate, jobs, time.monotonic()
        self.copy = os.path.join(room, crate.name)
        self.here = os.path.join(self.copy, "crates", crate.name)
        os.makedirs(crate.out, exist_ok=True)
        self.log = os.path.join(crate.out, "start.log")
        self.output = open(self.log, "w", encoding="utf-8")
        self.lay()
        behind = ["--", *BUILT_WITH[program]] if crate.name == program else []
        command = ["rt", "run" if crate.name == program else "lib", "--jobs", str(jobs), *behind]
        self.running = subprocess.Popen(command, cwd=self.here, stdin=subprocess.DEVNULL, stdout=self.output, stderr=subprocess.STDOUT, start_new_session=True)

    def lay(self):
        """Lays the crate and those below it out, and gives what is proved of them. What an interrupted start left of the crate itself stays."""
        os.makedirs(self.copy, exist_ok=True)
        names = [*self.crate.below, self.crate.name]
        with open(os.path.join(self.copy, "crates.txt"), "w", encoding="utf-8") as file:
            lines = read(os.path.join(TOP, "crates.txt")).splitlines(True)
            file.writelines(line for line in lines if line.partition(":")[0].strip() in names)
        for it in [*self.crate.below.values(), self.crate]:
            target = os.path.join(self.copy, "crates", it.name)
            for part in PARTS:
                shutil.rmtree(os.path.join(target, part), ignore_errors=True)
                if os.path.isdir(os.path.join(it.folder, part)):
                    shutil.copytree(os.path.join(it.folder, part), os.path.join(target, part))
            kept = ["rlib"] if it != self.crate else ["rlib", "incremental"]
            for part in kept:
                self.take(os.path.join(it.out, part), os.path.join(target, "out", part))

    def take(self, kept, target):
        is_own = target.startswith(self.here)
        if os.path.isdir(kept) and not (is_own and os.path.isdir(target)):
            shutil.rmtree(target, ignore_errors=True)
            shutil.copytree(kept, target, copy_function=linked)

    def proved(self):
        """How many functions were proved, as far as that was told."""
        return len(re.findall(r"^fn .*: proved$", read(self.log), re.MULTILINE))

    def keep(self):
        """Moves what was made into the crate's own folder."""
        self.output.close()
        made = os.path.join(self.here, "out")
        for name in os.listdir(made):
            target = os.path.join(self.crate.out, name)
            if os.path.isdir(target):
                shutil.rmtree(target)
            shutil.move(os.path.join(made, name), target)
        shutil.rmtree(self.copy, ignore_errors=True)

    def stop(self):
        try:
            os.killpg(self.running.pid, signal.SIGTERM)
        except ProcessLookupError:
            pass
        self.running.wait()
        self.output.close()


# ---- All crates of a program.


def minutes(seconds):
    return f"{seconds / 60:.1f} minutes" if seconds < 600 else f"{seconds / 60:.0f} minutes"


class Start:
    """Proves the crates that a program stands on, and builds it."""

    def __init__(self, program):
        self.program, self.crates, self.sums = program, crates_of(program), {}
        self.times = Times(os.path.join(TOP, "bin", "times"))
        processors = len(os.sched_getaffinity(0))
        available = re.search(r"MemAvailable:\s+(\d+)", read("/proc/meminfo"))
        self.plan = Plan(self.crates, self.times, processors, int(available[1]) * 0.95e-6 if available else 4)
        base = os.environ.get("XDG_CACHE_HOME") or os.path.expanduser("~/.cache")
        self.room = os.path.join(base, "dav_resource_core", hashlib.sha256(TOP.encode()).hexdigest()[:16])
        self.done, self.running, self.told = set(), {}, 0
        self.is_terminal = sys.stderr.isatty()

    def is_done(self, crate):
        wanted = sum_of(crate, self.sums)
        if crate.name == self.program:
            return builds.built_here(self.program, wanted) is not None
        return os.path.exists(os.path.join(crate.out, "rlib")) and read(os.path.join(crate.out, "start.sum")) == wanted

    def run(self):
        """The status: 0 once the program is built."""
        os.makedirs(self.room, exist_ok=True)
        with open(os.path.join(self.room, "lock"), "w", encoding="utf-8") as lock:
            self.wait_for(lock)
            self.done = {name for name, crate in self.crates.items() if self.is_done(crate)}
            if self.program in self.done:
                return 0
            self.say_first()
            try:
                return self.prove()
            finally:
                for it in self.running.values():
                    it.stop()

    def wait_for(self, lock):
        try:
            fcntl.flock(lock, fcntl.LOCK_EX | fcntl.LOCK_NB)
        except BlockingIOError:
            tell(f"{self.program}: another start in this folder proves its crates; waiting for it")
            fcntl.flock(lock, fcntl.LOCK_EX)

    def say_first(self):
        count = len(self.crates) - len(self.done)
        left = minutes(self.plan.left(self.done, {}))
        tell(f"{self.program} is not built yet. {count} of {len(self.crates)} crates are to be proved, on {self.plan.processors} processors: some {left} on slow ones, told better as it goes.")
        tell("You may interrupt it: the next start goes on from what is proved by then.")

    def prove(self):
        while len(self.done) < len(self.crates):
            while found := self.plan.next(self.done, {name: it.jobs for name, it in self.running.items()}):
                name, jobs = found
                self.running[name] = Check(self.crates[name], self.room, jobs, self.program)
            time.sleep(0.2)
            for name, it in list(self.running.items()):
                status = it.running.poll()
                if status is not None and not self.end(name, status):
                    return 1
            self.say_how_far()
        return 0

    def end(self, name, status):
        """Keeps what a crate that ended has made, and says how long it took; whether it is proved."""
        it = self.running.pop(name)
        if status:
            self.clear()
            it.output.close()
            tell(f"{name} could not be proved (status {status}). All that was said stands in {it.log}, and ends:")
            tell("".join(f"    {line}" for line in read(it.log).splitlines(True)[-15:]))
            return False
        if sum_of(it.crate, {}) != sum_of(it.crate, self.sums):
            it.output.close()
            tell(f"files of {name}, or of what it stands on, have changed while it was proved: start again")
            return False
        it.keep()
        self.note(it.crate)
        self.done.add(name)
        seconds = time.monotonic() - it.began
        self.times.note(name, seconds, it.jobs)
        self.clear()
        what = "proved and built" if name == self.program else "proved"
        tell(f"{len(self.done)} of {len(self.crates)}: {name} {what} in {minutes(seconds)}, {self.left()}")
        return True

    def note(self, crate):
        """Writes from what the crate was proved."""
        proved = sum_of(crate, self.sums)
        if crate.name == self.program:
            return builds.note(self.program, proved)
        with open(os.path.join(crate.out, "start.sum"), "w", encoding="utf-8") as file:
            file.write(proved)

    def left(self):
        shares = {name: (it.jobs, self.share_of(name, it)) for name, it in self.running.items()}
        return f"some {minutes(self.plan.left(self.done, shares))} left"

    def share_of(self, name, it):
        return min(0.95, (time.monotonic() - it.began) / max(self.times.of(name, it.jobs), 1))

    def clear(self):
        if self.is_terminal:
            print("\r\033[K", end="", file=sys.stderr, flush=True)

    def say_how_far(self):
        """Says how many functions of the crates that run are proved: in one line that is written over on a terminal, else in one line a minute."""
        if time.monotonic() < self.told + (1 if self.is_terminal else 60) or not self.running:
            return
        self.told = time.monotonic()
        told = [f"{name} {f'with {it.proved()} functions proved' if it.proved() else 'begun'}" for name, it in self.running.items()]
        line = f"{len(self.done)} of {len(self.crates)} crates; {', '.join(told)}; {self.left()}"
        if self.is_terminal:
            print("\r\033[K" + line[: shutil.get_terminal_size().columns - 1], end="", file=sys.stderr, flush=True)
        else:
            tell(line)
